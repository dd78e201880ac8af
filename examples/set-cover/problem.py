"""The sets of at most so many stations that reach all districts together."""

from itertools import combinations

DISTRICTS = frozenset({"airport", "castle", "docks", "east", "harbour", "market"})
REACH = {
    "bay": frozenset({"airport", "castle"}),
    "dale": frozenset({"castle", "docks", "east"}),
    "ford": frozenset({"east", "harbour"}),
    "gate": frozenset({"airport", "market"}),
    "hill": frozenset({"docks", "harbour", "market"}),
    "mill": frozenset({"airport", "harbour", "market"}),
}
INPUTS = [
    (DISTRICTS, REACH, 2),
    (DISTRICTS, REACH, 3),
    (frozenset({"airport", "castle", "docks"}), {"bay": frozenset({"airport"}), "dale": frozenset({"airport", "castle"})}, 2),
    (frozenset(), {"bay": frozenset({"east"})}, 0),
]


def candidates(given):
    """All sets of stations."""
    reach = given[1]
    return (frozenset(some) for size in range(len(reach) + 1) for some in combinations(reach, size))


def is_answer(given, opened):
    """Whether the stations are few enough, and each district is reached by one of them."""
    districts, reach, most = given
    return len(opened) <= most and all(any(one in reach[station] for station in opened) for one in districts)


def splits(given):
    """How many calls there are, with those that find that too many were opened or something can not be reached."""
    districts, reach, most = given
    return visited([reach[station] for station in sorted(reach)], districts, most)


def visited(open_ones, missing, left):
    """The count for the reaches of the open stations, the districts that are missing, and how many may be opened."""
    if left < 0 or not missing <= frozenset().union(*open_ones) or not open_ones:
        return 1
    first, *others = open_ones
    return 1 + visited(others, missing, left) + visited(others, missing - first, left - 1)
