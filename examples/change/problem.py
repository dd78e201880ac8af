"""The ways to pay an amount with coins of given values."""

from itertools import product

INPUTS = [
    (frozenset({2, 5, 10}), 20),
    (frozenset({1, 5, 10}), 12),
    (frozenset({5, 7}), 23),
    (frozenset(), 10),
]


def is_input(given):
    """Whether there is a coin at all."""
    coins, _ = given
    return len(coins) > 0


def candidates(given):
    """All rows of coins that are not too long to be a payment."""
    coins, amount = given
    most = amount // min(coins)
    return (list(row) for size in range(most + 1) for row in product(coins, repeat=size))


def is_answer(given, payment):
    """Whether the coins make up the amount, and stand in their order."""
    _, amount = given
    return sum(payment) == amount and payment == sorted(payment)


def splits(given):
    """How many payments are begun."""
    coins, amount = given
    return begun(sorted(coins), amount)


def begun(coins, owed):
    """The count where these coins may follow: each but the last leaves enough for one that is not smaller."""
    rests = ((owed - coin, place) for place, coin in enumerate(coins))
    return 1 + sum(begun(coins[place:], rest) for rest, place in rests if rest == 0 or rest >= coins[place])
