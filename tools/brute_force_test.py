#!/usr/bin/env python3
"""Tests value_text.py on tables, and that brute_force.py says what is wrong with folders of examples that were spoiled.

    tools/brute_force_test.py

Prints nothing and ends with 0 where all is right, else a line for each test that failed, and ends with 1.
"""

import pathlib
import shutil
import subprocess
import sys
import tempfile
from itertools import combinations
from typing import Iterator

sys.dont_write_bytecode = True

from value_text import ascending, compare, meant, read, text  # noqa: E402

TOOLS = pathlib.Path(__file__).resolve().parent
EXAMPLES = TOOLS.parent / "examples"

ASCENDING = [
    [-12, -1, 0, 3, 20],
    [False, True],
    [(1, 5), (2, 1), (2, 3)],
    [[], [1], [1, 9], [2], [2, 0]],
    [frozenset(), frozenset({3}), frozenset({2}), frozenset({2, 3}), frozenset({1}), frozenset({1, 2, 3})],
    [frozenset(), frozenset({frozenset({1})}), frozenset({frozenset()})],
    [{}, {3: 1}, {2: 5}, {2: 5, 3: 0}, {2: 6}, {1: 0}, {1: 0, 2: 0}],
    ["blue", "red", "red-1", "reds"],
]

TEXTS = [
    (-7, "-7"),
    (True, "true"),
    ((1, False), "(pair 1 false)"),
    (frozenset(), "(set)"),
    (frozenset({10, 9, -1}), "(set -1 9 10)"),
    (frozenset({frozenset({1}), frozenset({2}), frozenset()}), "(set (set) (set 2) (set 1))"),
    ([3, 1, 3], "(seq 3 1 3)"),
    ([(2, 1), (1, 2)], "(seq (pair 2 1) (pair 1 2))"),
    ({2: [1], 1: []}, "(map (1 (seq)) (2 (seq 1)))"),
    ({2: "red", 1: "blue"}, "(map (1 'blue) (2 'red))"),
    (frozenset({"red", "blue"}), "(set 'blue 'red)"),
    ({(2, 1): 0, (1, 9): 4}, "(map ((pair 1 9) 4) ((pair 2 1) 0))"),
]

ALIKE = [
    ("((set 2 1 2))", " ( (set\t1 2) ) ; a comment (\n"),
    ("((map (1 (set 3 4)) (2 (set))))", "((map (2 (set)) (1 (set 4 3))))"),
]
DIFFERENT = [
    ("((seq 1 2))", "((seq 2 1))"),
    ("((pair 1 2))", "((pair 2 1))"),
    ("((map (1 2)))", "((map (2 1)))"),
    ("(1 2)", "(1) (2)"),
    ("((set 1))", "((set 1 2))"),
]

# a folder, a file in it, what is put in which place there, and what is then said
SPOILED = [
    ("divisors", "stdout", "12\n18\n", "18\n", "input 1: the answer 12 is missing"),
    ("divisors", "stdout", "1\n97\n", "1\n89\n97\n", "input 2: 89 is no answer"),
    ("divisors", "stdout", "1\n97\n", "1\n1\n97\n", "input 2: the answer 1 stands 2 times"),
    ("divisors", "stdout", "1\n97\n", "97\n1\n", "input 2: the answers do not ascend"),
    ("divisors", "stdout", "(answers 9", "(answers 8", "input 1: there are 9 answers and not 8"),
    ("divisors", "stdout", "(answers 2 splits 399)", "(answers 2 splits 400)", "input 2: there are 399 splits and not 400"),
    ("divisors", "stdout", "1\n97\n(answers 2 splits 399)\n", "", "stdout has 2 inputs and INPUTS has 3"),
    ("divisors", "stdout", "(answers 1 splits 399)\n", "(fuel 5)\n", "stdout ends within an input"),
    ("divisors", "divisors.in", "(97)", "(98)", "input 2 of divisors.in is not that of INPUTS"),
    ("divisors", "divisors.in", "(97)", "", "divisors.in has 2 inputs and INPUTS has 3"),
    ("divisors", "divisors.in", "(97)", "(97", "a bracket is not closed"),
    ("divisors", "problem.py", "INPUTS = ", "INPUTS = [] and ", "problem.py states no INPUTS"),
    ("divisors", "problem.py", "def is_answer(given, z)", "def answers(given, z)", "problem.py states no is_answer"),
    ("divisors", "command", "kids solve", "kids derive", "the command is neither one solve nor one run"),
    ("queens", "stdout", "(seq 2 4 1 3)\n", "(seq 2 4 3 1)\n", "input 1: the answer (seq 2 4 1 3) is missing"),
    ("queens", "stdout", "(answers 0 splits 6)", "(outside)", "input 2: the input is not outside, and stdout has (outside)"),
    ("queens", "stdout", "splits 153", "splits 152", "input 3: there are 153 splits and not 152"),
    ("change", "stdout", "(outside)", "(answers 0 splits 1)",
     "input 4: the input is outside, and stdout has (answers 0 splits 1)"),
]


def wrong_values() -> Iterator[str]:
    """What is wrong with the order, the text and the reading of values."""
    for row in ASCENDING:
        for low, high in combinations(row, 2):
            if not compare(low, high) < 0 < compare(high, low):
                yield f"{low} and {high} do not ascend"
        if ascending(reversed(row)) != row or any(compare(value, value) for value in row):
            yield f"{row} is put in another order"
    for value, wanted in TEXTS:
        if text(value) != wanted:
            yield f"the text of {value} is {text(value)}"
    for pairs, alike in ((ALIKE, True), (DIFFERENT, False)):
        for one, other in pairs:
            if (list(map(meant, read(one))) == list(map(meant, read(other)))) != alike:
                yield f"{one} and {other} are {'not ' if alike else ''}taken for the same"


def said_of(folder: pathlib.Path) -> tuple[int, list[str]]:
    """The status of brute_force.py on a folder, and the lines that it prints."""
    words = [sys.executable, str(TOOLS / "brute_force.py"), str(folder)]
    done = subprocess.run(words, capture_output=True, text=True, check=False)
    return done.returncode, (done.stdout + done.stderr).splitlines()


def wrong_judgements() -> Iterator[str]:
    """Which folders are judged otherwise than they should be."""
    for name in sorted({row[0] for row in SPOILED}):
        if said_of(EXAMPLES / name) != (0, []):
            yield f"{name} is not taken for right"
    for name, file, old, new, complaint in SPOILED:
        with tempfile.TemporaryDirectory() as place:
            folder = pathlib.Path(place) / name
            shutil.copytree(EXAMPLES / name, folder)
            whole = (folder / file).read_text()
            if whole.count(old) != 1:
                yield f"{old!r} does not stand once in {name}/{file}"
                continue
            (folder / file).write_text(whole.replace(old, new))
            status, lines = said_of(folder)
            if status != 1 or f"{folder}: {complaint}" not in lines:
                yield f"{name}/{file} with {new!r} for {old!r}: status {status}, {lines}"


def main() -> int:
    """Run all tests."""
    wrong = [*wrong_values(), *wrong_judgements()]
    for what in wrong:
        print(what)
    return 1 if wrong else 0


if __name__ == "__main__":
    sys.exit(main())
