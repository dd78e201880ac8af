"""The search of bench/run by hand: halves the range 1 to COUNT, for each of INPUTS inputs that are all 4."""

import sys


def search(low, high, n, found):
    """The splits from low to high."""
    if low == high:
        if low * low % 1000003 == n:
            found.append(low)
        return 1
    middle = (low + high) // 2
    return 1 + search(low, middle, n, found) + search(middle + 1, high, n, found)


count, inputs = int(sys.argv[1]), int(sys.argv[2])
for _ in range(inputs):
    found = []
    splits = search(1, count, 4, found)
    for z in found:
        print(z)
    print(f"(answers {len(found)} splits {splits})")
