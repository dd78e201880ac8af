"""When jobs can begin, so that their order, the crews and the deadline are kept."""

from itertools import product

HOURS = {"floor": 1, "paint": 2, "plumb": 1, "roof": 2, "walls": 2, "wire": 1}
BEFORE = frozenset({
    ("walls", "roof"),
    ("roof", "plumb"),
    ("roof", "wire"),
    ("plumb", "floor"),
    ("floor", "paint"),
    ("wire", "paint"),
})
INPUTS = [
    (HOURS, BEFORE, 2, 8),
    (HOURS, BEFORE, 1, 9),
    (HOURS, BEFORE, 1, 8),
    ({"roof": 2, "walls": 2}, frozenset({("walls", "roof"), ("roof", "walls")}), 2, 8),
    ({"roof": 2}, frozenset({("walls", "roof")}), 1, 8),
]


def is_input(given):
    """Whether each job that has a place in the order takes some hours."""
    hours, before, _, _ = given
    return all(one in hours and other in hours for one, other in before)


def candidates(given):
    """All choices of an hour for each job at which it can begin to be done in time."""
    hours, _, _, deadline = given
    return all_plans(sorted(hours), hours, deadline)


def all_plans(jobs, hours, deadline):
    """All choices of such an hour for each of the jobs."""
    return (dict(zip(jobs, row)) for row in product(*(range(deadline - hours[job] + 1) for job in jobs)))


def is_answer(given, plan):
    """Whether the plan keeps the order of its jobs, and needs no more crews than there are."""
    hours, before, crews, deadline = given
    ends = {job: start + hours[job] for job, start in plan.items()}
    in_order = all(ends[one] <= plan[other] for one, other in before if one in plan and other in plan)
    return in_order and all(sum(plan[job] <= hour < ends[job] for job in plan) <= crews for hour in range(deadline))


def splits(given):
    """How many plans there are of the first jobs alone, from none of them to all."""
    hours, _, _, deadline = given
    jobs = sorted(hours)
    firsts = (jobs[:size] for size in range(len(jobs) + 1))
    return sum(is_answer(given, plan) for first in firsts for plan in all_plans(first, hours, deadline))
