"""Queens on a board so that none attacks another: the row of the queen in each column."""

from itertools import combinations, product

INPUTS = [(4,), (3,), (6,)]


def candidates(given):
    """All choices of a row for each column."""
    (n,) = given
    return map(list, product(range(1, n + 1), repeat=n))


def is_answer(given, rows):
    """Whether all rows, all rising and all falling diagonals of the queens differ."""
    rising = {row - column for column, row in enumerate(rows)}
    falling = {row + column for column, row in enumerate(rows)}
    return len(rows) == len(set(rows)) == len(rising) == len(falling)


def splits(given):
    """How many boards there are with safe queens in the first columns, from none of them to all."""
    (n,) = given
    return sum(
        all(rows[i] != rows[j] and abs(rows[i] - rows[j]) != j - i for i, j in combinations(range(columns), 2))
        for columns in range(n + 1)
        for rows in product(range(n), repeat=columns)
    )
