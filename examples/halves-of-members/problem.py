"""The digits whose double is a member of a set."""

INPUTS = [(frozenset({7, 18, 4}),), (frozenset(),), (frozenset({1, 3, 20}),)]


def is_input(given):
    """Whether the set has a member."""
    return given[0] != frozenset()


def candidates(given):
    """The digits."""
    return range(10)


def is_answer(given, z):
    """Whether the double is a member."""
    return 2 * z in given[0]
