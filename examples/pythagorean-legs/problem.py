"""The legs of right-angled triangles with whole sides and a given longest side."""

from math import isqrt

INPUTS = [(5,), (25,), (65,), (7,)]


def candidates(given):
    """The numbers from 1 to 100."""
    return range(1, 101)


def is_answer(given, leg):
    """Whether the rest of the longest side's square is the square of a number that is not 0."""
    (longest,) = given
    rest = longest**2 - leg**2
    return rest > 0 and isqrt(rest) ** 2 == rest
