"""The whole square root of a number."""

INPUTS = [(49,), (0,), (4,)]


def is_input(given):
    """Whether the number is at least 1."""
    return given[0] >= 1


def candidates(given):
    """The numbers from 1 to 10."""
    return range(1, 11)


def is_answer(given, z):
    """Whether z times z is the number."""
    return z * z == given[0]
