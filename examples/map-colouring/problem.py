"""The colourings of a map in which no two regions with a common border have the same colour."""

from itertools import product

AUSTRALIA = frozenset({(1, 2), (1, 3), (2, 3), (2, 4), (3, 4), (3, 5), (3, 6), (4, 5), (5, 6)})
INPUTS = [
    (frozenset({1, 2, 3, 4}), frozenset({1, 2}), frozenset({(1, 2), (2, 3), (3, 4), (4, 1)})),
    (frozenset(range(1, 8)), frozenset({1, 2, 3}), AUSTRALIA),
    (frozenset({1, 2, 3}), frozenset({1, 2}), frozenset({(1, 2), (2, 3), (1, 3)})),
    (frozenset({1, 2, 3}), frozenset({1, 2}), frozenset({(1, 2), (2, 4)})),
]


def is_input(given):
    """Whether each border is one of two regions that are there."""
    regions, _, borders = given
    return all(len({*border}) == 2 and {*border} <= regions for border in borders)


def candidates(given):
    """All choices of a colour for each region."""
    regions, colours, _ = given
    return all_colourings(sorted(regions), colours)


def all_colourings(regions, colours):
    """All choices of a colour for each of the regions."""
    return (dict(zip(regions, row)) for row in product(colours, repeat=len(regions)))


def is_answer(given, colouring):
    """Whether the colours on both sides of each border differ."""
    _, _, borders = given
    return all(colouring[one] != colouring[other] for one, other in borders)


def splits(given):
    """How many good colourings there are of the first regions and the borders between them, from none of them to all."""
    regions, colours, borders = given
    count = 0
    for size in range(len(regions) + 1):
        first = sorted(regions)[:size]
        inner = {border for border in borders if {*border} <= {*first}}
        count += sum(is_answer((first, colours, inner), one) for one in all_colourings(first, colours))
    return count
