"""Rulers on which each distance is measured in one way at most, as the sets of their marks."""

from itertools import combinations

INPUTS = [(6, 4), (5, 4), (11, 5), (3, 2)]


def candidates(given):
    """All sets of so many marks."""
    length, number = given
    return map(frozenset, combinations(range(length + 1), number))


def differ(marks):
    """Whether all distances of two marks differ."""
    distances = [abs(one - other) for one, other in combinations(marks, 2)]
    return len(set(distances)) == len(distances)


def is_answer(given, ruler):
    """Whether there are marks at both ends, and all distances differ."""
    length, _ = given
    return {0, length} <= ruler and differ(ruler)


def splits(given):
    """How many rulers are begun: sets with 0 and at most so many marks, whose distances differ."""
    length, number = given
    return sum(
        differ([0, *others]) for size in range(number) for others in combinations(range(1, length + 1), size)
    )
