"""The divisors of a number."""

INPUTS = [(36,), (97,), (1,)]


def candidates(given):
    """The numbers from 1 to 200."""
    return range(1, 201)


def is_answer(given, z):
    """Whether some multiple of z is the number."""
    (n,) = given
    return any(z * times == n for times in range(1, n + 1))
