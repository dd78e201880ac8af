"""The days of a month on which everybody is free."""

INPUTS = [
    (
        {
            "ann": frozenset({3, 4, 11, 18, 25}),
            "bob": frozenset({4, 5, 11, 12, 25}),
            "cyd": frozenset({1, 4, 9, 11, 24, 25}),
        },
    ),
]


def candidates(given):
    """All days of a month."""
    return range(1, 32)


def is_answer(given, day):
    """Whether each person is free on the day."""
    (free,) = given
    return all(day in days for days in free.values())
