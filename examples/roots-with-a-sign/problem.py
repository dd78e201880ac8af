"""The square root of a number that has a given sign."""

INPUTS = [(49, True), (49, False), (0, True), (50, True)]


def is_input(given):
    """Whether the number is at least 1."""
    return given[0] >= 1


def candidates(given):
    """The numbers from -10 to 10."""
    return range(-10, 11)


def is_answer(given, z):
    """Whether z is the negative root, where that is sought, and else the other one."""
    n, negative = given
    return z * z == n and z == (-abs(z) if negative else abs(z))
