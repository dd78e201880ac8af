#!/usr/bin/env python3
"""Finds the answers of a problem by trying all values, and compares them with what a folder of examples/ says.

    tools/brute_force.py FOLDER..
    tools/brute_force.py --print FOLDER

A folder states its problem once more in `problem.py`, in plain Python that reads nothing else:

    INPUTS                  the inputs in the order of the input file: for each a tuple with a value for each name
    candidates(given)       all values that could be answers at the input `given`, each once
    is_answer(given, value) the output condition
    is_input(given)         the input condition; it need not be there where each input is allowed
    splits(given)           how many calls the program makes, counted by a search that is written anew in Python; the
                            splits of a program are compared only where it is there
    FIRST                   how many answers are asked for, where the theory or program says so

How values stand in Python is told in value_text.py. In a folder that uses `solve` the candidates are all values of the
output's sort, which are integers, and there is no `splits`: it is the number of intervals that a search by halves visits
up to the last answer that is asked for, 2N - 1 for N candidates where all are.

Compared are the input file with INPUTS, and `stdout` with the answers: `(outside)` where the input condition is false;
else just the answers, each once (in ascending order where the folder uses `solve`), their number, and the splits. Nothing
is printed where all is right, and else a line for each thing that is wrong, and the status is 1. With --print the lines
are printed that `stdout` should have, with the answers in ascending order.
"""

import argparse
import pathlib
import re
import runpy
import sys
from collections import Counter
from typing import Any, Callable, Iterator

sys.dont_write_bytecode = True  # folders of examples hold files alone

from value_text import Value, ascending, meant, read, text  # noqa: E402

CLOSING = re.compile(r"\(answers (\d+) splits (\d+)\)")
OUTSIDE = "(outside)"


class Unfit(Exception):
    """A folder that can not be compared at all."""


class Problem:
    """What a folder's problem.py states."""

    def __init__(self, folder: pathlib.Path):
        """Run the file, and ask for the names that it must have."""
        stated = runpy.run_path(str(folder / "problem.py"))
        for name in ("INPUTS", "candidates", "is_answer"):
            if not stated.get(name):
                raise Unfit(f"problem.py states no {name}")
        self.inputs: list[tuple] = stated["INPUTS"]
        self.candidates = stated["candidates"]
        self.is_answer = stated["is_answer"]
        self.is_input = stated.get("is_input", lambda given: True)
        self.splits = stated.get("splits")
        self.first: int | None = stated.get("FIRST")
        self.solves = uses_solve(folder)
        if self.solves and self.splits:
            raise Unfit("problem.py has splits, which solve fixes")

    def answers(self, given: tuple) -> list[str]:
        """The texts of the answers at an input that are asked for, in ascending order."""
        found = [value for value in self.candidates(given) if self.is_answer(given, value)]
        return [text(value) for value in ascending(found)[: self.first]]

    def count_of_splits(self, given: tuple) -> int | None:
        """How many splits there are to be; None where nothing says it."""
        if self.solves:
            values = [*self.candidates(given)]
            return halvings(min(values), max(values), lambda value: self.is_answer(given, value), self.first)
        return self.splits(given) if self.splits else None


def halvings(low: int, high: int, is_answer: Callable[[int], bool], wanted: int | None) -> int:
    """How many intervals a search by halves visits, up to the one that is the last answer that is wanted."""
    waiting, count, found = [(low, high)], 0, 0
    while waiting and (wanted is None or found < wanted):
        low, high = waiting.pop()
        count += 1
        if low == high:
            found += is_answer(low)
            continue
        middle = (low + high) // 2
        waiting += [(middle + 1, high), (low, middle)]
    return count


def uses_solve(folder: pathlib.Path) -> bool:
    """Whether the folder's command solves a theory; else it runs a program."""
    words = (folder / "command").read_text().split()
    if "derive" in words or ("solve" in words) == ("run" in words):
        raise Unfit("the command is neither one solve nor one run")
    return "solve" in words


def wrong_inputs(folder: pathlib.Path, problem: Problem) -> Iterator[str]:
    """What is wrong with the input file."""
    names = sorted(folder.glob("*.in"))
    if len(names) != 1:
        yield f"there are {len(names)} input files and not one"
        return
    spelled = [meant(tree) for tree in read(names[0].read_text())]
    stated = [meant(read(f"({' '.join(text(value) for value in given)})")[0]) for given in problem.inputs]
    if len(spelled) != len(stated):
        yield f"{names[0].name} has {len(spelled)} inputs and INPUTS has {len(stated)}"
    for number, (one, other) in enumerate(zip(spelled, stated), 1):
        if one != other:
            yield f"input {number} of {names[0].name} is not that of INPUTS"


def blocks(stdout: str) -> list[list[str]]:
    """The lines of `stdout`, cut behind the line that closes each input."""
    parts: list[list[str]] = [[]]
    for line in stdout.splitlines():
        parts[-1].append(line)
        if line == OUTSIDE or CLOSING.fullmatch(line):
            parts.append([])
    if parts.pop():
        raise Unfit("stdout ends within an input")
    return parts


def wrong_values(values: list[str], answers: list[str], in_order: bool) -> Iterator[str]:
    """What is wrong with the values that were found at an input."""
    seen = Counter(values)
    for value in answers:
        if value not in seen:
            yield f"the answer {value} is missing"
    for value, times in seen.items():
        if value not in answers:
            yield f"{value} is no answer"
        elif times > 1:
            yield f"the answer {value} stands {times} times"
    if in_order and Counter(answers) == seen and values != answers:
        yield "the answers do not ascend"


def wrong_block(problem: Problem, given: tuple, block: list[str]) -> Iterator[str]:
    """What is wrong with the lines of an input."""
    *values, last = block
    if not problem.is_input(given):
        if block != [OUTSIDE]:
            yield f"the input is outside, and stdout has {last}"
        return
    closing = CLOSING.fullmatch(last)
    if not closing:
        yield f"the input is not outside, and stdout has {last}"
        return
    answers = problem.answers(given)
    yield from wrong_values(values, answers, problem.solves)
    count, splits = int(closing[1]), problem.count_of_splits(given)
    if count != len(answers):
        yield f"there are {len(answers)} answers and not {count}"
    if splits is not None and int(closing[2]) != splits:
        yield f"there are {splits} splits and not {closing[2]}"


def wrong_things(folder: pathlib.Path) -> Iterator[str]:
    """All that is wrong with a folder."""
    problem = Problem(folder)
    yield from wrong_inputs(folder, problem)
    found = blocks((folder / "stdout").read_text())
    if len(found) != len(problem.inputs):
        yield f"stdout has {len(found)} inputs and INPUTS has {len(problem.inputs)}"
    for number, (given, block) in enumerate(zip(problem.inputs, found), 1):
        for what in wrong_block(problem, given, block):
            yield f"input {number}: {what}"


def wanted_lines(folder: pathlib.Path) -> Iterator[str]:
    """The lines that the folder's `stdout` should have."""
    problem = Problem(folder)
    for given in problem.inputs:
        if not problem.is_input(given):
            yield OUTSIDE
            continue
        answers = problem.answers(given)
        yield from answers
        splits = problem.count_of_splits(given)
        yield f"(answers {len(answers)}{'' if splits is None else f' splits {splits}'})"


def main() -> int:
    """Compare the folders that are named, or print the lines of one."""
    parser = argparse.ArgumentParser(description="Compare the answers of examples with those found by trying all values.")
    parser.add_argument("--print", action="store_true", help="print the lines that stdout should have")
    parser.add_argument("folder", nargs="+", type=pathlib.Path, metavar="FOLDER")
    options: Any = parser.parse_args()
    status = 0
    for folder in options.folder:
        try:
            if options.print:
                print(*wanted_lines(folder), sep="\n")
                continue
            for what in wrong_things(folder):
                print(f"{folder}: {what}")
                status = 1
        except (Unfit, ValueError, OSError) as fault:
            print(f"{folder}: {fault}")
            status = 1
    return status


if __name__ == "__main__":
    sys.exit(main())
