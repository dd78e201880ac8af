"""Trees whose numbers are known by thought, and the pictures of docs/pictures."""
import subprocess
import sys
import tempfile
from pathlib import Path
from typing import Callable
from unittest import mock
from xml.etree import ElementTree

from search_tree import MOST, Stop, search
from search_tree_drawing import BOX, Node, all_nodes, dot, lay_out, shortened, svg
from search_tree_marks import Form, marked, read, text_of

TOP = Path(__file__).resolve().parent.parent
EXAMPLES = TOP / "examples"

# a line of calls, each of which finds its number after the call that it makes returned. None is refused at the end of
# the line, as the one `if` says of what kind a call is
LINE = """(program 1) (input n (int 0 3000)) (require (lt 0 n)) (output z (int 0 3000)) (main (call 1))
(search ((depth (int 0 3000)))
  (if (lt depth n) (call (cast (int 0 3000) (add depth 1))))
  (emit depth))"""
# calls from main and values of main itself, without arguments
BARE = """(program 1) (require true) (output z bool) (main (emit false) (call) (if false (call)) (call))
(search () (emit true))"""


def counts(roots: list[Node]) -> tuple[int, int, int, int, int]:
    """How many calls there are, those without calls of their own, answers, refused calls, and the depth."""
    nodes = all_nodes(roots)
    called = [node for node in nodes if node.called]
    ends = [node for node in called if not any(kid.called for kid in node.kids)]
    return (len(called), len(ends), sum(len(node.values) for node in nodes), len(nodes) - len(called),
            max(node.depth for node in called) + 1)


def boxes_apart(roots: list[Node]) -> bool:
    """Whether no two boxes touch, each lies within the picture, and kids lie to the right of their parent."""
    width, height = lay_out(roots)
    nodes = all_nodes(roots)
    inside = all(0 <= node.x and node.x + node.width() <= width + 0.1 and 0 <= node.y <= height - BOX for node in nodes)
    columns: dict[int, list[float]] = {}
    for node in nodes:
        columns.setdefault(node.depth, []).append(node.y)
    rows = all(low + BOX < high for ys in columns.values() for low, high in zip(sorted(ys), sorted(ys)[1:]))
    return inside and rows and all(node.x + node.width() < kid.x for node in nodes for kid in node.kids)


def square(folder: Path) -> tuple[str, str]:
    """The derived program of the example and its inputs."""
    there = EXAMPLES / "square"
    program = folder / "square.prog"
    words = ["derive", there / "square.th", there / "square.sc", folder / "square.der", program]
    subprocess.run(["kids", *words], check=True)
    return str(program), str(there / "square.in")


def written(folder: Path, program: str, inputs: str) -> tuple[str, str]:
    """Files of these two texts."""
    (folder / "prog").write_text(program)
    (folder / "in").write_text(inputs)
    return str(folder / "prog"), str(folder / "in")


def example(name: str, program: str, inputs: str) -> tuple[str, str]:
    """The files of an example."""
    return str(EXAMPLES / name / program), str(EXAMPLES / name / inputs)


def known(folder: Path) -> list[tuple[str, tuple[str, str], int, tuple[int, int, int, int, int]]]:
    """Programs, which input, and the counts of its tree."""
    plain = example("subset-sum-plain", "plain.prog", "subset-sum.in")
    pruned = example("subset-sum-pruned", "pruned.prog", "subset-sum.in")
    words = example("run", "words.prog", "words.in")
    return [
        # ten ends by halves: 10, 5, 3, 2 and 1 integers
        ("square", square(folder), 1, (19, 10, 1, 0, 5)),
        # each of three members is out or in
        ("subset-sum-plain", plain, 1, (15, 8, 2, 0, 4)),
        ("subset-sum-plain, the second input", plain, 2, (7, 4, 0, 0, 3)),
        ("subset-sum-plain, the third input", plain, 3, (1, 1, 1, 0, 1)),
        # 3 may not join 2, 1, or 1 and 2
        ("subset-sum-pruned", pruned, 1, (12, 5, 2, 3, 4)),
        ("subset-sum-pruned, the second input", pruned, 2, (3, 1, 0, 2, 3)),
        # words of up to three digits without ones side by side: 1, 2, 3 and 5; 1 and 01 take no further 1
        ("words", words, 1, (11, 5, 5, 2, 4)),
        # of nine pairs of three members three ascend
        ("sums", example("run-over-a-set", "sums.prog", "sums.in"), 1, (3, 3, 3, 6, 1)),
        ("a line", written(folder, LINE, "(5)"), 1, (5, 1, 5, 0, 5)),
    ]


def tests_of_trees(folder: Path) -> list[tuple[str, bool]]:
    """Each program has its numbers, and its picture is one."""
    results = []
    for name, files, place, wanted in known(folder):
        roots, title = search(*files, place)
        found = counts(roots)
        if found != wanted:
            print(f"{name}: {found}, wanted {wanted}")
        picture = ElementTree.fromstring(svg(roots, title))
        rectangles = len(picture.findall(".//{*}rect")) - 1 - len({node.kind() for node in all_nodes(roots)})
        results += [(name, found == wanted), (f"{name}: boxes", boxes_apart(roots)),
                    (f"{name}: as many boxes as calls", rectangles == wanted[0] + wanted[3]),
                    (f"{name}: graph", dot(roots, title).count("label=") == 1 + wanted[0] + wanted[3])]
    return results


def labels(files: tuple[str, str]) -> list[str]:
    """The labels of a tree in the order of the run."""
    return [node.label() for node in all_nodes(search(*files, 1)[0])]


def stop_of(action: Callable[[], object]) -> str:
    """Why an action stops."""
    try:
        action()
    except Stop as stop:
        return str(stop)
    return ""


def fewer_calls(program: list[Form], deepest: int, argument: int | None = None) -> list[Form]:
    """The marked program, wrong: it calls nothing."""
    return [["main"] if form[0] == "main" else form for form in marked(program, deepest, argument)]


def tests_of_labels(folder: Path) -> list[tuple[str, bool]]:
    """What stands in the boxes, which call found what, and where a tree is too large."""
    line, bare = written(folder, LINE, "(3)"), "()"
    results = [("a value that is found late belongs to its call", labels(line) == ["1 => 1", "2 => 2", "3 => 3"])]
    large = written(folder, LINE, f"({MOST}) ({MOST + 1}) (0)")
    results += [("as many calls as may be", counts(search(*large, 1)[0])[0] == MOST),
                ("one call more", "more than 2,000 calls" in stop_of(lambda: search(*large, 2))),
                ("an input outside", "false" in stop_of(lambda: search(*large, 3))),
                ("no such input", "has 3 inputs" in stop_of(lambda: search(*large, 4)))]
    results.append(("no arguments", labels(written(folder, BARE, bare)) == ["main => false", "=> true", "", "=> true"]))
    results.append(("no program", "(program 0 read)" in stop_of(lambda: search(*written(folder, "(", bare), 1))))
    with mock.patch("search_tree.marked", fewer_calls):
        stop = stop_of(lambda: search(*written(folder, LINE, "(3)"), 1))
    results.append(("marks that change the calls", stop == "a marked program makes 0 calls, and the program 3"))
    results.append(("a long text", len(shortened("x" * 500)) == 44 and shortened("x" * 44) == "x" * 44))
    results.append(("forms", text_of(read("(a ;)\n(b) c)")[0]) == "(a (b) c)"))
    return results


def tests_of_pictures(folder: Path) -> list[tuple[str, bool]]:
    """The pictures of the documents are those of today's programs."""
    files = {"square": square(folder), "subset-sum-plain": example("subset-sum-plain", "plain.prog", "subset-sum.in"),
             "subset-sum-pruned": example("subset-sum-pruned", "pruned.prog", "subset-sum.in")}
    return [(f"docs/pictures/{name}.svg", (TOP / f"docs/pictures/{name}.svg").read_text() == svg(*search(*pair, 1)))
            for name, pair in files.items()]


def main() -> int:
    """Runs the tests: 0 where none failed."""
    with tempfile.TemporaryDirectory(prefix="kids-tree-test-") as folder:
        results = [result for tests in (tests_of_trees, tests_of_labels, tests_of_pictures)
                   for result in tests(Path(folder))]
    failed = [name for name, passed in results if not passed]
    for name in failed:
        print(f"failed: {name}", file=sys.stderr)
    print(f"{len(results) - len(failed)} passed, {len(failed)} failed")
    return 1 if failed else 0
