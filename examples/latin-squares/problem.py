"""The latin squares that agree with some known cells."""

from itertools import product

INPUTS = [
    (3, {}),
    (4, {(1, 1): 1, (1, 4): 3, (2, 2): 4, (4, 3): 2}),
    (2, {(1, 1): 1, (2, 2): 2}),
    (3, {(1, 1): 4}),
]


def is_input(given):
    """Whether the known cells lie in the square, and have numbers of it."""
    n, known = given
    return all(1 <= part <= n for (row, column), number in known.items() for part in (row, column, number))


def candidates(given):
    """All squares whose rows have each number once."""
    n, _ = given
    rows = [list(row) for row in product(range(1, n + 1), repeat=n) if len({*row}) == n]
    return map(list, product(rows, repeat=n))


def is_answer(given, square):
    """Whether the columns have each number once too, and the known cells their numbers."""
    n, known = given
    return all(square[row - 1][column - 1] == number for (row, column), number in known.items()) and all(
        len({*column}) == n for column in zip(*square)
    )


def splits(given):
    """How many calls there are: one for each filling of the first cells without a clash, and one more where a row ends."""
    n, known = given
    return filled(n, known, {})


def filled(n, known, numbers):
    """The count from the cells that have numbers on, row by row."""
    if len(numbers) == n * n:
        return 2
    row, column = len(numbers) // n + 1, len(numbers) % n + 1
    count = 2 if column == 1 and row > 1 else 1
    taken = {number for (r, c), number in numbers.items() if r == row or c == column}
    wanted = {known[row, column]} if (row, column) in known else {*range(1, n + 1)}
    return count + sum(filled(n, known, {**numbers, (row, column): number}) for number in wanted - taken)
