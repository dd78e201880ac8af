"""The timetables without clashes, in hours that suit, and with a room for each lecture."""

from itertools import product

SUITS = {
    "algebra": frozenset({1, 2}),
    "biology": frozenset({1, 2, 3}),
    "chemistry": frozenset({2, 3}),
    "drawing": frozenset({1, 3}),
    "english": frozenset({2}),
}
STUDENTS = frozenset({
    frozenset({"algebra", "biology"}),
    frozenset({"biology", "chemistry", "drawing"}),
    frozenset({"algebra", "english"}),
    frozenset({"drawing", "english"}),
})
INPUTS = [
    (SUITS, STUDENTS, 2),
    (SUITS, STUDENTS, 1),
    ({"algebra": frozenset({1, 2}), "biology": frozenset()}, frozenset({frozenset({"algebra"})}), 1),
    ({"algebra": frozenset({1, 2})}, frozenset({frozenset({"algebra", "biology"})}), 1),
]


def is_input(given):
    """Whether the students take lectures that are there."""
    suits, students, _ = given
    return all(lecture in suits for taken in students for lecture in taken)


def candidates(given):
    """All choices of one of the four hours for each lecture."""
    return all_plans(sorted(given[0]))


def all_plans(lectures):
    """All choices of an hour for each of the lectures."""
    return (dict(zip(lectures, row)) for row in product(range(1, 5), repeat=len(lectures)))


def is_answer(given, plan):
    """Whether the hours suit, each student's hours differ, and no hour has too many lectures."""
    suits, students, rooms = given
    hours = list(plan.values())
    return (
        all(hour in suits[lecture] for lecture, hour in plan.items())
        and all(len({plan[lecture] for lecture in taken}) == len(taken) for taken in students)
        and all(hours.count(hour) <= rooms for hour in hours)
    )


def splits(given):
    """How many timetables there are of the first lectures alone, from none of them to all."""
    suits, students, rooms = given
    count = 0
    for size in range(len(suits) + 1):
        first = sorted(suits)[:size]
        known = {taken & {*first} for taken in students}
        count += sum(is_answer((suits, known, rooms), plan) for plan in all_plans(first))
    return count
