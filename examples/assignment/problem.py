"""The ways to give each of some people a task of their own, at a cost that is not too high."""

from itertools import permutations

TABLE = {"ann": [9, 2, 7, 8], "bob": [6, 4, 3, 7], "cyd": [5, 8, 1, 8], "dan": [7, 6, 9, 4]}
TASKS = ["cook", "drive", "paint", "shop"]
COST = {(person, task): cost for person, row in TABLE.items() for task, cost in zip(TASKS, row)}
THREE = {("ann", "cook"): 3, ("ann", "drive"): 5, ("bob", "cook"): 4, ("cyd", "drive"): 1, ("cyd", "shop"): 6}
INPUTS = [
    (frozenset(TABLE), frozenset(TASKS), COST, 15),
    (frozenset({"ann", "bob", "cyd"}), frozenset(TASKS), THREE, 20),
    (frozenset({"ann", "bob"}), frozenset({"cook", "drive"}), {("ann", "cook"): 3, ("bob", "cook"): 4}, 100),
]


def candidates(given):
    """All ways to give each person a task of their own."""
    people, tasks, _, _ = given
    return (dict(zip(sorted(people), row)) for row in permutations(tasks, len(people)))


def is_answer(given, plan):
    """Whether each can do the task, and the whole cost is not too high."""
    _, _, cost, most = given
    return all(pair in cost for pair in plan.items()) and sum(cost[pair] for pair in plan.items()) <= most


def splits(given):
    """How many calls there are, with those that find that it will cost too much."""
    people, tasks, cost, most = given
    return visited(sorted(people), tasks, cost, most)


def visited(people, tasks, cost, left):
    """The count for the people without a task, the tasks that are free, and what may still be spent."""
    prices = [{task: cost[person, task] for task in tasks if (person, task) in cost} for person in people]
    if sum(min(price.values(), default=50) for price in prices) > left or not people:
        return 1
    return 1 + sum(visited(people[1:], tasks - {task}, cost, left - price) for task, price in prices[0].items())
