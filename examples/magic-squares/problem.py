"""The magic squares of three by three that have some known numbers, row by row."""

from itertools import permutations

INPUTS = [({1: 2},), ({1: 6, 3: 8},), ({1: 5, 3: 4},)]
LINES = [(0, 1, 2), (3, 4, 5), (6, 7, 8), (0, 3, 6), (1, 4, 7), (2, 5, 8), (0, 4, 8), (2, 4, 6)]


def candidates(given):
    """All orders of the numbers from 1 to 9."""
    return map(list, permutations(range(1, 10)))


def is_answer(given, square):
    """Whether the known numbers stand in their places, and all lines have the same sum."""
    (known,) = given
    return all(square[place - 1] == number for place, number in known.items()) and 1 == len(
        {sum(square[place] for place in line) for line in LINES}
    )


def splits(given):
    """How many squares are begun whose full lines make up 15."""
    return begun(given[0], [])


def begun(known, square):
    """The count of those that begin with some numbers."""
    place = len(square)
    full = [line for line in LINES if max(line) == place - 1]
    if any(sum(square[one] for one in line) != 15 for line in full) or (
        place in known and square[-1] != known[place]
    ):
        return 0
    return 1 + sum(begun(known, [*square, number]) for number in range(1, 10) if number not in square)
