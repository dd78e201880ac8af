"""The numbers below 210 that leave given remainders."""

INPUTS = [({3: 2, 5: 3, 7: 2},), ({4: 1, 6: 2},), ({4: 3, 6: 5, 10: 9},), ({5: 7},)]


def is_input(given):
    """Whether each remainder is one that its divisor can leave."""
    (remainders,) = given
    return all(remainder < divisor for divisor, remainder in remainders.items())


def candidates(given):
    """The numbers from 0 to 209."""
    return range(210)


def is_answer(given, z):
    """Whether z is, for each divisor, some multiple of it and the remainder."""
    (remainders,) = given
    return all(z in range(remainder, 210, divisor) for divisor, remainder in remainders.items())
