#!/usr/bin/env python3
"""Draws the tree of calls of a small program at one input.

    tools/search_tree.py PROGRAM INPUTS [--input K] [--svg | --dot] >PICTURE
    tools/search_tree.py --self-test

It draws the run at the K-th input of the file, or the first. The first kids on the PATH runs the program, and then the
same program with marks in place of what it finds, which tell the calls in their order. No more is known of a search
than these runs print. The marked programs have to make as many calls as the program itself.

A box is a call with its arguments, and behind => what it found. A call that stands alone in an `if` which is false is
drawn with dashes, where that `if` stands in another one or in a `for`, or in `main`. At most 2,000 boxes are drawn.
"""
import argparse
import re
import subprocess
import sys
import tempfile
from pathlib import Path

sys.dont_write_bytecode = True
from search_tree_drawing import Node, dot, shortened, svg  # noqa: E402
from search_tree_marks import FOUND, KINDS, VISIT, Form, marked, parameters_of, read, text_of  # noqa: E402

MOST = 2_000
CLOSING = re.compile(r"\(answers ([0-9]+) splits ([0-9]+)\)")


class Stop(Exception):
    """There is no picture, and why."""


def kids(program: str | Path, inputs: str | Path, fuel: int) -> list[str]:
    """The lines that kids prints where it runs the program, also where the fuel runs out."""
    words = ["kids", "run", str(program), str(inputs), "--fuel", str(fuel)]
    try:
        ended = subprocess.run(words, capture_output=True, text=True, stdin=subprocess.DEVNULL)
    except FileNotFoundError:
        raise Stop("there is no kids on the PATH") from None
    if ended.returncode not in (0, 4):
        raise Stop(f"kids ends with status {ended.returncode} and says {ended.stderr.strip() or 'nothing'}")
    return ended.stdout.splitlines()


def run(program: Path, inputs: Path) -> tuple[list[str], int]:
    """What a program finds at the one input, and how many calls it makes."""
    *found, last = kids(program, inputs, MOST) or [""]
    if last == "(outside)":
        raise Stop("the input condition is false at this input")
    if last == f"(fuel {MOST})":
        raise Stop(f"the search has more than {MOST:,} calls")
    closing = CLOSING.fullmatch(last)
    if not closing or int(closing[1]) != len(found):
        raise Stop(f"kids ends its lines with {last!r}")
    return found, int(closing[2])


def runs(program: list[Form], folder: Path) -> tuple[list[str], list[int], list[list[str]]]:
    """What the program finds, the marks of its shape, and for each argument the marks of its values."""
    def tried(name: str, forms: list[Form]) -> tuple[list[str], int]:
        (folder / name).write_text("\n".join(map(text_of, forms)) + "\n")
        return run(folder / name, folder / "in")

    found, calls = tried("prog", program)
    shape, *values = [tried(f"marked-{at}", marked(program, MOST + 1, at))
                      for at in (None, *range(len(parameters_of(program))))]
    for _, count in (shape, *values):
        if count != calls:
            raise Stop(f"a marked program makes {count} calls, and the program {calls}")
    return found, [int(mark) for mark in shape[0]], [marks for marks, _ in values]


def tree(found: list[str], shape: list[int], arguments: list[list[str]]) -> list[Node]:
    """The calls that the marks tell, as trees."""
    nodes = [mark for mark in shape if mark % KINDS != FOUND]
    if len(nodes) > MOST:
        raise Stop(f"the search has more than {MOST:,} calls, with those that are refused")
    if any(len(marks) != len(nodes) for marks in arguments) or len(shape) - len(nodes) != len(found):
        raise Stop("the marked programs do not tell the same calls")
    labels = list(zip(*arguments)) if arguments else [()] * len(nodes)
    top = Node([])
    path, labels_left, found_left = [top], iter(labels), iter(found)
    for mark in shape:
        depth, kind = divmod(mark, KINDS)
        if kind == FOUND:
            # what `main` itself finds is found by no call
            finder = path[depth] if depth else Node(["main"])
            finder.values.append(next(found_left))
            if not depth:
                top.kids.append(finder)
            continue
        node = Node(list(next(labels_left)), called=kind == VISIT, depth=depth - 1)
        path[depth - 1].kids.append(node)
        path[depth:] = [node]
    return top.kids


def search(program_file: str, inputs_file: str, place: int) -> tuple[list[Node], str]:
    """The trees of a program's calls at one input, and a title for them."""
    # kids judges both files first, so that what is read below has the shape that it has to have
    kids(program_file, inputs_file, 1)
    program = read(Path(program_file).read_text("ascii"))
    inputs = read(Path(inputs_file).read_text("ascii"))
    if not 1 <= place <= len(inputs):
        raise Stop(f"the file has {len(inputs)} inputs")
    with tempfile.TemporaryDirectory(prefix="kids-tree-") as folder:
        (Path(folder) / "in").write_text(text_of(inputs[place - 1]) + "\n")
        found, shape, arguments = runs(program, Path(folder))
    roots = tree(found, shape, arguments)
    if not roots:
        raise Stop("there are no calls")
    calls = sum(mark % KINDS == VISIT for mark in shape)
    name, text = Path(program_file).name, shortened(text_of(inputs[place - 1]))
    return roots, f"{name} at {text}: calls {calls}, answers {len(found)}"


def main() -> None:
    """Draws what is asked for."""
    parser = argparse.ArgumentParser(description="draws the tree of calls of a program at one input")
    parser.add_argument("program", nargs="?", metavar="PROGRAM")
    parser.add_argument("inputs", nargs="?", metavar="INPUTS")
    parser.add_argument("--input", type=int, default=1, metavar="K", help="the number of the input, from 1")
    parser.add_argument("--svg", action="store_const", const=svg, dest="draw", default=svg, help="an SVG picture")
    parser.add_argument("--dot", action="store_const", const=dot, dest="draw", help="text for Graphviz")
    parser.add_argument("--self-test", action="store_true", help="draws pictures whose numbers are known")
    asked = parser.parse_args()
    if asked.self_test:
        import search_tree_test
        sys.exit(search_tree_test.main())
    if asked.inputs is None:
        parser.error("a program and an input file are needed")
    try:
        roots, title = search(asked.program, asked.inputs, asked.input)
    except (Stop, OSError, UnicodeError) as stop:
        sys.exit(f"search_tree: {stop}")
    print(asked.draw(roots, title), end="")


if __name__ == "__main__":
    main()
