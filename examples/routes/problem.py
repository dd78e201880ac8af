"""The routes between two towns that come to no town twice and are not too long."""

from itertools import permutations

ROADS = {
    ("ayr", "bath"): 7,
    ("ayr", "cork"): 9,
    ("ayr", "fowey"): 14,
    ("bath", "cork"): 10,
    ("bath", "dover"): 15,
    ("cork", "dover"): 11,
    ("cork", "fowey"): 2,
    ("dover", "ely"): 6,
    ("ely", "fowey"): 9,
}
INPUTS = [
    (ROADS, "ayr", "ely", 25),
    (ROADS, "ely", "ayr", 500),
    ({("ayr", "bath"): 7, ("cork", "dover"): 5}, "ayr", "dover", 500),
    ({}, "cork", "cork", 0),
    ({("ayr", "bath"): 7, ("bath", "ayr"): 8}, "ayr", "bath", 10),
]


def is_input(given):
    """Whether each road has two ends and is given once."""
    ends = [frozenset(road) for road in given[0]]
    return len(set(ends)) == len(ends) and all(len(two) == 2 for two in ends)


def candidates(given):
    """All rows of towns that are on some road or at an end of the route, with no town twice."""
    roads, start, goal, _ = given
    towns = {start, goal}.union(*roads)
    return (list(row) for size in range(1, len(towns) + 1) for row in permutations(towns, size))


def length_of(roads, route):
    """How long a route is; None where a road is missing."""
    both_ways = roads | {(other, one): length for (one, other), length in roads.items()}
    lengths = [both_ways.get(step) for step in zip(route, route[1:])]
    return None if None in lengths else sum(lengths)


def is_answer(given, route):
    """Whether the route has the right ends and a road for each step, and is short enough."""
    roads, start, goal, longest = given
    length = length_of(roads, route)
    return route[0] == start and route[-1] == goal and length is not None and length <= longest


def splits(given):
    """How many routes from the start are short enough and come to the goal at most at their end."""
    roads, start, goal, longest = given
    return sum(
        route[0] == start and goal not in route[:-1] and is_answer((roads, start, route[-1], longest), route)
        for route in candidates(given)
    )
