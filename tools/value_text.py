"""Values in Python, their order and their text, by docs/REFERENCE.md alone.

A value stands in Python as

    an integer      int
    a truth value   bool
    a pair          tuple of two values
    a set           frozenset of values
    a sequence      list of values
    a map           dict from values to values
    a tag           str, its name
"""

import re
from functools import cmp_to_key
from typing import Any, Iterable, Iterator

Value = Any
Tree = Any  # a word is a str, and a list of trees a list

COMMENT = re.compile(r";[^\n]*")
TOKEN = re.compile(r"[()]|[^\s()]+")


def compare(a: Value, b: Value) -> int:
    """Negative where a comes before b, 0 where they are equal, positive where a comes after b."""
    if a == b:
        return 0
    if isinstance(a, frozenset):
        return 1 if least(a ^ b) in a else -1
    if isinstance(a, dict):
        return compare_maps(a, b)
    if isinstance(a, (tuple, list)):
        for one, other in zip(a, b):
            if one != other:
                return compare(one, other)
        return len(a) - len(b)
    return -1 if a < b else 1


def compare_maps(a: dict, b: dict) -> int:
    """The order of two maps that are not equal."""
    key = least(k for k in a.keys() | b.keys() if k not in a or k not in b or a[k] != b[k])
    if key not in a:
        return -1
    if key not in b:
        return 1
    return compare(a[key], b[key])


def ascending(values: Iterable[Value]) -> list[Value]:
    """The values in ascending order."""
    return sorted(values, key=cmp_to_key(compare))


def least(values: Iterable[Value]) -> Value:
    """The least of some values."""
    return min(values, key=cmp_to_key(compare))


def text(value: Value) -> str:
    """The text of a value, with sets and maps in ascending order."""
    if isinstance(value, bool):
        return "true" if value else "false"
    if isinstance(value, int):
        return str(value)
    if isinstance(value, str):
        return "'" + value
    if isinstance(value, tuple):
        return listed("pair", [text(part) for part in value])
    if isinstance(value, list):
        return listed("seq", [text(item) for item in value])
    if isinstance(value, frozenset):
        return listed("set", [text(member) for member in ascending(value)])
    if isinstance(value, dict):
        return listed("map", [f"({text(key)} {text(value[key])})" for key in ascending(value)])
    raise TypeError(f"no value: {value!r}")


def listed(head: str, parts: list[str]) -> str:
    """A list of a word and some parts, in one-space text."""
    return f"({' '.join([head, *parts])})"


def read(source: str) -> list[Tree]:
    """The trees of a text; ValueError where its brackets do not fit."""
    tokens = iter(TOKEN.findall(COMMENT.sub("", source)))
    trees = read_row(tokens, False)
    return trees


def read_row(tokens: Iterator[str], inside: bool) -> list[Tree]:
    """The trees up to the bracket that closes the list, or up to the end of the text."""
    row: list[Tree] = []
    for token in tokens:
        if token == "(":
            row.append(read_row(tokens, True))
        elif token != ")":
            row.append(token)
        elif inside:
            return row
        else:
            raise ValueError("a bracket closes nothing")
    if inside:
        raise ValueError("a bracket is not closed")
    return row


def meant(tree: Tree) -> Any:
    """What a tree says: alike for two trees that differ in the order of a set's members or of a map's keys alone."""
    if isinstance(tree, str):
        return tree
    if tree[:1] == ["set"] or tree[:1] == ["map"]:
        return (tree[0], frozenset(meant(part) for part in tree[1:]))
    return tuple(meant(part) for part in tree)
