"""The packings that are not too heavy and worth enough."""

from itertools import combinations

WEIGHT = {"bottle": 5, "camera": 4, "food": 6, "lamp": 3, "radio": 7}
WORTH = {"bottle": 10, "camera": 8, "food": 13, "lamp": 5, "radio": 14}
INPUTS = [(WEIGHT, WORTH, 15, 27), (WEIGHT, WORTH, 15, 32), ({"bottle": 5}, {"camera": 10}, 15, 5)]


def is_input(given):
    """Whether the same things have a weight and a worth."""
    weight, worth, _, _ = given
    return set(weight) == set(worth)


def candidates(given):
    """All selections of the things."""
    weight = given[0]
    return (frozenset(some) for size in range(len(weight) + 1) for some in combinations(weight, size))


def is_answer(given, packing):
    """Whether the things are light enough and worth enough."""
    weight, worth, bearable, wanted = given
    return sum(weight[thing] for thing in packing) <= bearable and sum(worth[thing] for thing in packing) >= wanted


def splits(given):
    """How many calls there are, with those that find that nothing can come of what was packed."""
    weight, worth, bearable, wanted = given
    things = [(weight[thing], worth[thing]) for thing in sorted(weight)]
    return visited(things, bearable, wanted)


def visited(things, left, missing):
    """The count for the things that are not decided about, of the weight that is left and the worth that is missing."""
    if left < 0 or sum(worth for _, worth in things) < missing or not things:
        return 1
    (weight, worth), *others = things
    return 1 + visited(others, left, missing) + visited(others, left - weight, missing - worth)
