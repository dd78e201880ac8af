"""The amounts up to 60 that can not be paid with coins of two values."""

from itertools import product

INPUTS = [(3, 5), (5, 7), (1, 9), (7, 7)]


def is_input(given):
    """Whether the first value is the smaller."""
    a, b = given
    return a < b


def candidates(given):
    """The amounts from 1 to 60."""
    return range(1, 61)


def is_answer(given, amount):
    """Whether no numbers of the two coins make up the amount."""
    a, b = given
    return not any(i * a + j * b == amount for i, j in product(range(61), repeat=2))
