"""The places of a sequence after which a greater item follows."""

INPUTS = [([3, 1, 4, 1, 5, 9, 2, 6],), ([7],), ([],)]


def is_input(given):
    """Each sequence may be given."""
    return True


def candidates(given):
    """The places of a sequence, from 1."""
    return range(1, 10)


def is_answer(given, z):
    """Whether there is a next item, and it is greater."""
    items = given[0]
    return z < len(items) and items[z - 1] < items[z]
