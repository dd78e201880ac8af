"""The whole roots of a polynomial of the third degree."""

INPUTS = [(-6, 11, -6), (0, -19, 30), (3, 3, 1), (0, 0, 5)]


def candidates(given):
    """The whole numbers from -20 to 20."""
    return range(-20, 21)


def is_answer(given, z):
    """Whether the polynomial is 0 at z."""
    a, b, c = given
    return z**3 + a * z**2 + b * z + c == 0
