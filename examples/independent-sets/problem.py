"""The sets of guests of which no two quarrel."""

from itertools import combinations

FRIENDS = ["ann", "ben", "cleo", "dora", "emil"]
INPUTS = [
    (frozenset(FRIENDS[:4]), frozenset(zip(FRIENDS[:4], FRIENDS[1:4]))),
    (frozenset(FRIENDS), frozenset(zip(FRIENDS, FRIENDS[1:] + FRIENDS[:1]))),
    (frozenset(), frozenset()),
    (frozenset({"ann", "ben"}), frozenset({("ann", "ann")})),
]


def is_input(given):
    """Whether each quarrel is one of two."""
    _, quarrels = given
    return all(one != other for one, other in quarrels)


def candidates(given):
    """All sets of those who may be invited."""
    friends, _ = given
    return (frozenset(some) for size in range(len(friends) + 1) for some in combinations(friends, size))


def is_answer(given, guests):
    """Whether no pair that quarrels is invited."""
    _, quarrels = given
    return not any({*quarrel} <= guests for quarrel in quarrels)


def splits(given):
    """How many calls there are."""
    friends, quarrels = given
    return visited(sorted(friends), quarrels)


def visited(open_ones, quarrels):
    """The count for those who may still come: the first of them stays away, or comes and keeps all foes away."""
    if not open_ones:
        return 1
    first, *others = open_ones
    peaceful = [other for other in others if (first, other) not in quarrels and (other, first) not in quarrels]
    return 1 + visited(others, quarrels) + visited(peaceful, quarrels)
