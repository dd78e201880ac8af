"""The places of a sequence whose item stands at another place too."""

INPUTS = [([2, 4, 1, 4, 2],), ([1, 2, 3],), ([],)]


def is_input(given):
    """Each sequence may be given."""
    return True


def candidates(given):
    """The places of a sequence, from 1."""
    return range(1, 9)


def is_answer(given, z):
    """Whether the place is there, and another has the same item."""
    items = given[0]
    return z <= len(items) and items.count(items[z - 1]) > 1
