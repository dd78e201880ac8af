"""The colourings of the parts of Australia in which no two with a common border have the same colour."""

from itertools import product

BORDERS = frozenset({("wa", "nt"), ("wa", "sa"), ("nt", "sa"), ("nt", "qld"), ("sa", "qld"), ("sa", "nsw"), ("sa", "vic"),
                     ("qld", "nsw"), ("nsw", "vic")})
INPUTS = [
    (frozenset({"wa", "nt", "sa", "qld", "nsw", "vic"}), BORDERS),
    (frozenset({"tas"}), frozenset()),
]
COLOURS = ("blue", "green", "red")


def candidates(given):
    """All choices of a colour for each part."""
    parts, _ = given
    return all_colourings(sorted(parts))


def all_colourings(parts):
    """All choices of a colour for each of the parts."""
    return (dict(zip(parts, row)) for row in product(COLOURS, repeat=len(parts)))


def is_answer(given, colouring):
    """Whether the colours on both sides of each border differ."""
    _, borders = given
    return all(colouring[one] != colouring[other] for one, other in borders)


def splits(given):
    """How many good colourings there are of the first parts and the borders between them, from none of them to all."""
    parts, borders = given
    count = 0
    for size in range(len(parts) + 1):
        first = sorted(parts)[:size]
        inner = {border for border in borders if {*border} <= {*first}}
        count += sum(is_answer((first, inner), one) for one in all_colourings(first))
    return count
