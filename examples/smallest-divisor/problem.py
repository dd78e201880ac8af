"""The smallest divisor of a number but 1."""

INPUTS = [(36,), (97,), (91,)]
FIRST = 1


def candidates(given):
    """The numbers from 2 to 200."""
    return range(2, 201)


def is_answer(given, z):
    """Whether some multiple of z is the number."""
    (n,) = given
    return any(z * times == n for times in range(1, n + 1))
