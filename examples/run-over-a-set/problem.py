"""The sums of two members of a set, where no two pairs of members have the same sum."""

from itertools import combinations

INPUTS = [(frozenset({4, 2, 1}),), (frozenset(),)]


def is_input(given):
    """Whether the set has a member."""
    return len(given[0]) > 0


def candidates(given):
    """The numbers from 0 to 18."""
    return range(19)


def is_answer(given, z):
    """Whether it is the sum of two members."""
    return z in {x + y for x, y in combinations(given[0], 2)}


def splits(given):
    """How many pairs of members there are."""
    return len(list(combinations(given[0], 2)))
