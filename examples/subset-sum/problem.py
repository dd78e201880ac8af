"""The selections of some bills that add up to a given sum."""

from itertools import combinations

INPUTS = [
    (frozenset({12, 25, 31, 43, 56, 68}), 99),
    (frozenset({1, 2, 3, 4, 5, 6}), 10),
    (frozenset({10, 20, 30}), 35),
    (frozenset(), 0),
    (frozenset({10, 20, 30}), 70),
]


def candidates(given):
    """All selections of the bills."""
    bills, _ = given
    return (frozenset(some) for size in range(len(bills) + 1) for some in combinations(bills, size))


def is_answer(given, settled):
    """Whether the selection adds up to what was paid."""
    _, paid = given
    return sum(settled) == paid


def splits(given):
    """How many ways to decide about the smallest bills leave a rest that the larger ones may still settle."""
    bills, paid = given
    return visited(sorted(bills), paid)


def visited(bills, missing):
    """The count for some bills, of which the smallest is decided about first."""
    if not 0 <= missing <= sum(bills):
        return 0
    if not bills:
        return 1
    first, *others = bills
    return 1 + visited(others, missing) + visited(others, missing - first)
