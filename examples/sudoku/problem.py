"""Squares of four by four cells with each number once in each row, column and box."""

from itertools import chain, permutations, product

GIVEN = {1: 1, 4: 4, 6: 3, 11: 2, 14: 1}
INPUTS = [
    ({cell: frozenset({number}) for cell, number in GIVEN.items()},),
    (
        {
            1: frozenset({1}),
            2: frozenset({2}),
            7: frozenset({1, 2}),
            8: frozenset({1, 2}),
            9: frozenset({2}),
            16: frozenset({3}),
        },
    ),
    ({1: frozenset({1}), 6: frozenset({1})},),
]
ROWS = [range(start, start + 4) for start in (1, 5, 9, 13)]
COLUMNS = [range(start, 17, 4) for start in (1, 2, 3, 4)]
BOXES = [(start, start + 1, start + 4, start + 5) for start in (1, 3, 9, 11)]
UNITS = [*ROWS, *COLUMNS, *BOXES]


def candidates(given):
    """All squares whose rows have each number once, and in each cell one that may stand there."""
    (marks,) = given
    rows = [[row for row in permutations(range(1, 5)) if may_stand(marks, cells, row)] for cells in ROWS]
    return (dict(enumerate(chain(*square), 1)) for square in product(*rows))


def may_stand(marks, cells, numbers):
    """Whether the numbers may stand in the cells."""
    return all(number in marks.get(cell, [number]) for cell, number in zip(cells, numbers))


def is_answer(given, filled):
    """Whether all rows, columns and boxes have each number once, and the numbers may stand there."""
    (marks,) = given
    once = all({filled[cell] for cell in unit} == {1, 2, 3, 4} for unit in UNITS)
    return once and may_stand(marks, filled, filled.values())


def splits(given):
    """How many fillings are begun in which a number is left for each empty cell."""
    (marks,) = given
    return begun({cell: marks.get(cell, frozenset({1, 2, 3, 4})) for cell in range(1, 17)})


def begun(left):
    """The count for what is left for each empty cell; the next one filled is the first of those with the fewest."""
    if not left:
        return 1
    cell = min(left, key=lambda one: (len(left[one]), one))
    count = 1
    for number in left[cell]:
        beside = {other for unit in UNITS if cell in unit for other in unit}
        then = {one: some - {number} if one in beside else some for one, some in left.items() if one != cell}
        count += begun(then) if all(then.values()) else 0
    return count
