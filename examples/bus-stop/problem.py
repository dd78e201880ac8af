"""The places along a road from which no house is too far, and where a stop may stand."""

HOUSES = frozenset({12, 30, 34, 55})
CLOSED = frozenset({33, 34})
INPUTS = [(HOUSES, 25, CLOSED), (HOUSES, 21, CLOSED), (frozenset(), 25, frozenset())]


def is_input(given):
    """Whether there is a house."""
    return len(given[0]) > 0


def candidates(given):
    """All places along the road."""
    return range(101)


def is_answer(given, place):
    """Whether a stop may stand there, and is near enough to each house."""
    houses, farthest, closed = given
    return place not in closed and all(abs(place - house) <= farthest for house in houses)
