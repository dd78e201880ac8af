"""What `kids run` and `kids solve` print, input by input, and a value as other programs take it.

An input's lines are the values that were found and one line that closes them: `(answers K splits C)` where the run came
to its end, `(fuel N)` where its fuel ran out, and `(outside)` where the input condition is false.
"""
import re
from dataclasses import dataclass, field
from typing import Any, Iterable, Iterator

from value_text import Tree, read

CLOSING = re.compile(r"\(answers ([0-9]+) splits ([0-9]+)\)")
FUEL = re.compile(r"\(fuel ([0-9]+)\)")
OUTSIDE = "(outside)"
INTEGER = re.compile(r"-?[0-9]+")
TRUTH = {"true": True, "false": False}


class Unfit(Exception):
    """A text that is not the whole of what kids prints, and why."""


@dataclass
class Printed:
    """What was printed for one input: the lines of values, and how the run ended."""

    values: list[str] = field(default_factory=list)
    splits: int | None = None
    fuel: int | None = None

    @property
    def outside(self) -> bool:
        """Whether the input condition is false at the input."""
        return self.splits is None and self.fuel is None

    @property
    def whole(self) -> bool:
        """Whether the run came to its end, so that there are no more values."""
        return self.splits is not None

    def closing(self) -> str:
        """The line that closes the values."""
        if self.outside:
            return OUTSIDE
        return f"(answers {len(self.values)} splits {self.splits})" if self.whole else f"(fuel {self.fuel})"


def closed(values: list[str], line: str, number: int) -> Printed | None:
    """What was printed for an input whose lines end with this one, or None where the line is a value."""
    if line == OUTSIDE:
        if values:
            raise Unfit(f"input {number} is outside, and there are values of it")
        return Printed()
    if fuel := FUEL.fullmatch(line):
        return Printed(values, fuel=int(fuel[1]))
    if closing := CLOSING.fullmatch(line):
        if int(closing[1]) != len(values):
            raise Unfit(f"input {number} has {len(values)} values, and its last line says {closing[1]}")
        return Printed(values, splits=int(closing[2]))
    return None


def printed(lines: Iterable[str]) -> Iterator[Printed]:
    """What was printed for each input, in order."""
    values: list[str] = []
    number = 1
    for line in lines:
        line = line.rstrip("\n")
        done = closed(values, line, number)
        if done is None:
            values.append(line)
            continue
        yield done
        values, number = [], number + 1
    if values:
        raise Unfit(f"the text ends within input {number}, so values of it may be missing")


def tree_of(text: str) -> Tree:
    """The tree of a value's text."""
    try:
        trees = read(text)
    except ValueError as fault:
        raise Unfit(f"{text} is no value: {fault}") from None
    if len(trees) != 1:
        raise Unfit(f"{text!r} is no value")
    return trees[0]


def word(tree: str) -> Any:
    """A number, a truth value, or the name of a tag."""
    if tree in TRUTH:
        return TRUTH[tree]
    if INTEGER.fullmatch(tree):
        return int(tree)
    if tree.startswith("'"):
        return tree[1:]
    raise Unfit(f"{tree} is no value")


def entries(tree: Tree) -> list[tuple[Tree, Tree]]:
    """The keys and values of a map's tree."""
    if any(isinstance(entry, str) or len(entry) != 2 for entry in tree[1:]):
        raise Unfit("a map has something else than keys and values")
    return [(key, value) for key, value in tree[1:]]


def kind(tree: Tree) -> str:
    """The word with which the tree of a value begins, or word where it is one itself."""
    if isinstance(tree, str):
        return "word"
    if not tree or tree[0] not in ("pair", "set", "seq", "map"):
        raise Unfit("a list is no value")
    return tree[0]


def spelled(tree: Tree) -> str:
    """A tree as it is printed."""
    return tree if isinstance(tree, str) else f"({' '.join(map(spelled, tree))})"
