"""The numbers of n binary digits of which no two ones stand side by side."""

INPUTS = [(3,), (1,)]


def candidates(given):
    """The numbers of so many binary digits."""
    return range(2 ** given[0])


def is_answer(given, z):
    """Whether no two ones stand side by side."""
    return "11" not in f"{z:b}"


def splits(given):
    """How many such rows there are of no digit, of one, and so on up to n."""
    return sum(is_answer(given, z) for size in range(given[0] + 1) for z in range(2**size))
