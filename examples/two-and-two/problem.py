"""TWO + TWO = FOUR, where each letter stands for a digit of its own."""

INPUTS = [()]


def candidates(given):
    """The numbers of three digits."""
    return range(100, 1000)


def is_answer(given, two):
    """Whether letters and digits of both words stand for each other."""
    words, digits = "TWOFOUR", f"{two}{two + two}"
    both = set(zip(words, digits))
    return len(words) == len(digits) and len(both) == len(set(words)) == len(set(digits))
