"""The members of a set that are at most half of its sum."""

INPUTS = [(frozenset({3, 4, 9}),), (frozenset(),), (frozenset({1}),), (frozenset({0, 5, 50, 51}),)]


def is_input(given):
    """Whether the set has a member."""
    return given[0] != frozenset()


def candidates(given):
    """The numbers that a member may be."""
    return range(100)


def is_answer(given, z):
    """Whether the number is a member, and its double at most the sum."""
    return z in given[0] and 2 * z <= sum(given[0])
