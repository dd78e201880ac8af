"""The ways over a river with things of which some eat others, one at a time, without coming to a state again."""

from itertools import product

THREE = frozenset({"wolf", "goat", "cabbage"})
INPUTS = [
    (THREE, frozenset({("wolf", "goat"), ("goat", "cabbage")})),
    (frozenset({"goat", "cabbage"}), frozenset({("goat", "cabbage")})),
    (THREE, frozenset({("wolf", "goat"), ("goat", "cabbage"), ("cabbage", "wolf")})),
    (frozenset(), frozenset()),
]


def is_input(given):
    """Whether there is something to bring over."""
    things, _ = given
    return len(things) > 0


def candidates(given):
    """All rows of at most nine crossings: no more than ten states are without a meal, and none comes twice."""
    things, _ = given
    return (list(row) for size in range(10) for row in product(["nothing", *things], repeat=size))


def after(given, state, taken):
    """The state after a crossing, with who is over the river and whether the boat is; None where it can not be made."""
    things, eats = given
    over, boat_is_over = state
    bank = over if boat_is_over else things - over
    alone = bank - {taken}
    if taken not in bank | {"nothing"} or any({*meal} <= alone for meal in eats):
        return None
    return over ^ ({taken} - {"nothing"}), not boat_is_over


def is_answer(given, crossings):
    """Whether the crossings can be made, come to no state twice, and bring all over with the last one."""
    state = (frozenset(), False)
    passed = [state]
    for taken in crossings:
        if state[0] == given[0]:
            return False
        state = after(given, state, taken)
        if state is None or state in passed:
            return False
        passed.append(state)
    return state[0] == given[0]


def splits(given):
    """How many rows of crossings can be begun."""
    return begun(given, [(frozenset(), False)])


def begun(given, passed):
    """The count of those that begin with the states that were passed."""
    if passed[-1][0] == given[0]:
        return 1
    following = (after(given, passed[-1], taken) for taken in {"nothing"} | given[0])
    return 1 + sum(begun(given, [*passed, state]) for state in following if state and state not in passed)
