"""The ways to seat guests at a round table so that no two who quarrel sit side by side."""

from itertools import permutations

INPUTS = [
    (frozenset({"ann", "ben", "cleo", "dora"}), frozenset()),
    (frozenset({"ann", "ben", "cleo", "dora", "emil"}), frozenset({("ann", "ben"), ("cleo", "emil")})),
    (frozenset({"ann", "ben", "cleo", "dora", "emil"}), frozenset({("ann", "ben"), ("ann", "cleo"), ("ann", "dora")})),
    (frozenset({"ann", "ben"}), frozenset()),
]


def is_input(given):
    """Whether there are three guests."""
    guests, _ = given
    return len(guests) >= 3


def candidates(given):
    """All rows of the guests."""
    guests, _ = given
    return map(list, permutations(guests))


def is_answer(given, table):
    """Whether the row is the least of those that tell this table, and no neighbours quarrel."""
    _, quarrels = given
    turned = [row[place:] + row[:place] for row in (table, table[::-1]) for place in range(len(table))]
    beside = {frozenset(two) for two in zip(table, table[1:] + table[:1])}
    return table == min(turned) and not any(frozenset(quarrel) in beside for quarrel in quarrels)


def splits(given):
    """How many rows of guests without a quarrel begin with the least guest."""
    guests, quarrels = given
    forbidden = {*quarrels} | {(other, one) for one, other in quarrels}
    rows = (row for size in range(1, len(guests) + 1) for row in permutations(guests, size))
    return sum(row[0] == min(guests) and not {*zip(row, row[1:])} & forbidden for row in rows)
