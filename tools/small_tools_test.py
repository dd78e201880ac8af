#!/usr/bin/env python3
"""Tries the tools for answers, long searches and proofs: to_json, to_csv, first, split, lint and first_bad_line.

    tools/small_tools_test.py

The first kids on the PATH runs what they run. Prints nothing and ends with 0 where all is right, else a line for each
test that failed, and ends with 1.
"""
import json
import subprocess
import sys
import tempfile
from pathlib import Path
from typing import Iterator

sys.dont_write_bytecode = True

TOOLS = Path(__file__).resolve().parent
EXAMPLES = TOOLS.parent / "examples"
QUEENS = (str(EXAMPLES / "queens/queens.prog"), str(EXAMPLES / "queens/queens.in"))

# a text, and the objects that are made of it, with the status
JSON = [
    ("7\n(answers 1 splits 19)\n(outside)\n", 0, [{"answers": [7], "splits": 19}, {"outside": True}]),
    ("true\n'red\n(pair -1 (set))\n(answers 3 splits 0)\n", 0, [{"answers": [True, "red", [-1, []]], "splits": 0}]),
    ("(seq (set 1 2) (set))\n(fuel 5)\n", 4, [{"answers": [[[1, 2], []]], "fuel": 5}]),
    ("(map ('a 1) ('b (seq)))\n(answers 1 splits 2)\n", 0, [{"answers": [{"a": 1, "b": []}], "splits": 2}]),
    ("(map (1 true) (true 1))\n(answers 1 splits 2)\n", 0, [{"answers": [{"1": True, "true": 1}], "splits": 2}]),
    ("(map ((pair 1 2) 3))\n(answers 1 splits 2)\n", 0, [{"answers": [[[[1, 2], 3]]], "splits": 2}]),
    ("", 0, []),
    ("(outside)\n7\n", 1, [{"outside": True}]),
    ("7\n(answers 2 splits 19)\n", 1, []),
    ("7\n(outside)\n", 1, []),
    ("7)\n(answers 1 splits 19)\n", 1, []),
    ("(red 1)\n(answers 1 splits 19)\n", 1, []),
    ("kids: no value\n(answers 1 splits 19)\n", 1, []),
]

# a text, the words of to_csv, the status, and the table
CSV = [
    ("7\n8\n(answers 2 splits 19)\n(outside)\n", [], 0, "input,answer\n1,7\n1,8\n"),
    ("(seq 4 1)\n(answers 1 splits 3)\n(seq 2 5 9)\n(answers 1 splits 3)\n", [], 0, "input,1,2,3\n1,4,1,\n2,2,5,9\n"),
    ("(map ('b 1))\n(map ('a (set 'x 'y)))\n(answers 2 splits 3)\n", [], 0, "input,a,b\n1,,1\n1,x y,\n"),
    ("(map (-2 1) (10 2) (9 3))\n(answers 1 splits 3)\n", [], 0, "input,-2,9,10\n1,1,3,2\n"),
    ("(pair 'a (seq 1 2))\n(answers 1 splits 3)\n", [], 0, "input,first,second\n1,a,(seq 1 2)\n"),
    ("(set (set 1) 2)\n(answers 1 splits 3)\n", [], 0, "input,answer\n1,(set (set 1) 2)\n"),
    ("7\n(fuel 9)\n", [], 4, "input,answer\n1,7\n"),
    ("7\n(fuel 9)\n(outside)\n8\n(answers 1 splits 2)\n", ["--counts"], 4,
     "input,end,answers,splits\n1,fuel,1,9\n2,outside,,\n3,all,1,2\n"),
    ("7\n", [], 1, ""),
]

DIVIDES = """(theory h)
(def part ((a (int 0 9)) (b (int 0 9))) (int -9 9) (div a b))
(input m (map (int 0 9) (int 0 9)))
(input d (int 0 9))
(require (lt 0 (card (dom m))))
(output z (int 0 9))
(ensure (and (in z (dom m)) (eq (part (get m z 0) d) (div 8 2))))
"""
GROWS = """(program 1)
(input n (int 0 9))
(require true)
(output v (seq bool 2))
(main (call (seq) 0))
(search ((w (seq bool 2)) (i (int 0 9)))
  (emit w)
  (if (lt i n) (call (cast (seq bool 2) (snoc w true)) (cast (int 0 9) (add i 1)))))
"""
# a test in a definition that is called under a binder, the second term of `or`, and a remainder by a number
WITHIN = """(program 1)
(def f ((v (seq (int 0 9) 3)) (i (int 0 4))) (int 0 9) (if (le i (len v)) (at v i 9) 0))
(input s (set (int 0 4)))
(input v (seq (int 0 9) 3))
(require (or (eq s (set)) (lt 0 (least s 0))))
(output z (set (int 0 9)))
(main (emit (image i s (f v i))) (emit (image j s (at v j 0))) (for x s (emit (set (mod x 2)))) (if (eq s (set)) (let y (least s 1)) (emit (set y))))
(search ())
"""
# a text, its inputs, and what stands behind the places in the list
LINT = [
    (DIVIDES, "((map (8 8)) 2) ((map (8 8)) 0)", [
        "2:52: (div a b): no test before it; TAKEN at 1 of 2 inputs, first at ((map (8 8)) 0)",
        "7:39: (get m z 0): behind (in z (dom m)) of line 7; not taken at 2 inputs",
        "3 terms: 1 can not by their sorts, 1 did, 1 did not at 2 inputs"]),
    (GROWS, "(2) (3)", [
        "8:22: (cast (seq bool 2) (snoc w true)): no test before it; TAKEN at 1 of 2 inputs, first at (3)",
        "8:56: (cast (int 0 9) (add i 1)): behind (lt i n) of line 8; not taken at 2 inputs",
        "2 terms: 0 can not by their sorts, 1 did, 1 did not at 2 inputs"]),
    (WITHIN, "((set 1 2) (seq 7)) ((set) (seq))", [
        "2:75: (at v i 9): behind (le i (len v)) of line 2; not taken at 2 inputs",
        "5:33: (least s 0): behind (not (eq s (set))) of line 5; not taken at 2 inputs",
        "7:51: (at v j 0): behind (in j s) of line 7; TAKEN at 1 of 2 inputs, first at ((set 1 2) (seq 7))",
        "7:121: (least s 1): behind (eq s (set)) of line 7; TAKEN at 1 of 2 inputs, first at ((set) (seq))",
        "5 terms: 1 can not by their sorts, 2 did, 2 did not at 2 inputs"]),
]

# the moves of the law below, and what is said first of its proof; nothing where it is proved
GROWS_BY = ["(have m5 (a b a))", "(have m5 (a b b))", "(copy 3 (at (1) e19))", "(have m2 ((mul a a) (mul a b) (mul b b)))"]
SQUARES = """(theory t)
(input n (int 0 100))
(require (le 1 n))
(law before () (given) (holds true) (by (again 1)))
(law grows ((a (int 0 10)) (b (int 0 10))) (given (le a b)) (holds (le (mul a a) (mul b b)))
  (by
"""
ENDED = ")\n(law behind ((a (int 0 10))) (given) (holds (le (mul a a) (mul 10 10))) (by (have grows (a 10))))\n(output z bool)\n(ensure z)\n"
PROOFS: list[tuple[list[str], str | None]] = [
    (GROWS_BY, None),
    (GROWS_BY[:3], "5:61: all its 3 moves apply, but what the law grows says does not hold after that"),
    ([], "5:61: there is no move, but what the law grows says does not hold after that"),
    (["(have m5 (b a a))", *GROWS_BY[1:]], "7:1: move 1 of the law grows does not apply: (have m5 (b a a))"),
    ([*GROWS_BY[:2], "(again 9)", *GROWS_BY[3:]],
     "9:8: move 3 of the law grows: there is no fact 9 here: the facts are numbered from 1 to 4"),
    ([*GROWS_BY[:3], "(join 1 0)"], "10:9: move 4 of the law grows: there is no fact 0 here: the facts are numbered from 1 to 5"),
    ([*GROWS_BY[:2], "(copy 9 (at (1) e19))"],
     "9:7: move 3 of the law grows: there is no fact 9 here: the facts are numbered from 1 to 4"),
    ([*GROWS_BY[:2], "(copy 3 (at (1) e19) (at (1) e14))", GROWS_BY[3]],
     "9:22: line 2 of move 3 of the law grows does not apply: (at (1) e14)"),
    ([*GROWS_BY[:2], "(copy 3 (back () e7) (at () e7) (at () e1) (at () e7))", GROWS_BY[3]],
     "9:33: line 3 of move 3 of the law grows does not apply: (at () e1)"),
    ([*GROWS_BY[:3], "(copy 5 (at () (use 6)))"],
     "10:21: line 1 of move 4 of the law grows: there is no fact 6 here: the facts are numbered from 1 to 5"),
    (["(left 2)"], "7:1: move 1 of the law grows does not apply: (left 2)"),
    ([*GROWS_BY[:2], *["(again 1)"] * 60, "(have m2 (a b n))", *["(again 1)"] * 40, *GROWS_BY[2:]],
     "69:1: move 63 of the law grows does not apply: (have m2 (a b n))"),
]

# programs that are cut at each of these depths: an example, the number of the input
CUT = [("queens/queens.prog", "queens/queens.in", 1), ("change/change.prog", "change/change.in", 2),
       ("named-colours/colours.prog", "named-colours/colours.in", 2), ("run/words.prog", "run/words.in", 1)]
DEPTHS = (1, 2, 4, 30)
# calls and values of main itself, between which the parts stand, and a call below that finds its value late
LATE = """(program 1) (input n (int 0 9)) (require true) (output z (int 0 99))
(main (emit 90) (call n 1) (if (lt 2 n) (emit 91) (call 1 2)) (emit 92))
(search ((depth (int 0 9)) (depth-1 (int 0 99))) (for i (range 1 depth)
  (let less (cast (int 0 9) (sub depth i))) (if (lt less depth) (call less i))) (emit depth-1))"""
# calls without arguments, one after another
BARE = """(program 1) (require true) (output z bool) (main (emit false) (call) (if false (call)) (call))
(search () (emit true))"""


def ran(tool: str, *words: str, given: str = "") -> subprocess.CompletedProcess:
    """How a tool ends with these words."""
    return subprocess.run([sys.executable, str(TOOLS / tool), *words], input=given, capture_output=True, text=True)


def wrong_texts() -> Iterator[str]:
    """What to_json and to_csv make of texts that they should not."""
    for given, status, objects in JSON:
        done = ran("to_json", given=given)
        found = [json.loads(line) for line in done.stdout.splitlines()]
        if (done.returncode, found) != (status, objects) or bool(done.stderr) != (status == 1):
            yield f"to_json of {given!r}: {done}"
    for given, words, status, table in CSV:
        done = ran("to_csv", *words, given=given)
        if (done.returncode, done.stdout) != (status, table) or bool(done.stderr) != (status == 1):
            yield f"to_csv of {given!r}: {done}"


def wrong_options(folder: Path) -> Iterator[str]:
    """What to_json does otherwise with its options."""
    (folder / "in").write_text("; two\n(1 (map (1 2))) (3 (map))\n")
    for words, text, wanted in [
        (["--inputs", str(folder / "in")], "(outside)\n(outside)\n",
         [{"input": [1, {"1": 2}], "outside": True}, {"input": [3, {}], "outside": True}]),
        (["--pairs"], "(map (1 2))\n(answers 1 splits 0)\n", [{"answers": [[[1, 2]]], "splits": 0}]),
    ]:
        done = ran("to_json", *words, given=text)
        if done.returncode or [json.loads(line) for line in done.stdout.splitlines()] != wanted:
            yield f"to_json {words}: {done}"
    for text in ("(outside)\n", "(outside)\n" * 3):
        if ran("to_json", "--inputs", str(folder / "in"), given=text).returncode != 1:
            yield "to_json takes another number of inputs"


def wrong_firsts(folder: Path) -> Iterator[str]:
    """What `first` does otherwise."""
    (folder / "broken").write_text("(theory t")
    theory = [str(EXAMPLES / "divisors" / f"divisors.{kind}") for kind in ("th", "sc", "in")]
    small = [str(EXAMPLES / "smallest-divisor" / f"smallest.{kind}") for kind in ("th", "sc", "in")]
    for words, status, out, last in [
        ([*theory, "2"], 0, "1\n2\n(answers 2 splits 10)\n1\n97\n(answers 2 splits 195)\n1\n(answers 1 splits 399)\n",
         "first: input 3 of 3, fuel 1000: 1 of 2 answers"),
        ([*QUEENS, "1", "--most", "9"], 4, "(seq 2 4 1 3)\n(answers 1 splits 9)\n(answers 0 splits 6)\n(fuel 9)\n",
         "first: input 3 of 3, fuel 9: 0 of 1 answers, and the fuel ran out"),
        ([*small, "1"], 2, "", "first: the file has (first K) already"),
        ([str(folder / "broken"), *theory[1:], "1"], 5, "", "(theory 0 read)"),
        ([*theory[:2], str(folder / "absent"), "1"], 12, "", "(absent 3)"),
    ]:
        done = ran("first", *words)
        if (done.returncode, done.stdout, done.stderr.splitlines()[-1:]) != (status, out, [last]):
            yield f"first {words}: {done}"
    if any(ran("first", *words).returncode != 2 for words in ([*theory, "0"], [*theory, "x"], theory[:2])):
        yield "first takes words that fit no command"


def wrong_cuts(folder: Path) -> Iterator[str]:
    """Which programs are cut so that the parts are not the whole."""
    whole = [(str(EXAMPLES / program), str(EXAMPLES / inputs), place) for program, inputs, place in CUT]
    for name, program, inputs in (("late", LATE, "(3)"), ("bare", BARE, "()")):
        (folder / f"{name}.prog").write_text(program)
        (folder / f"{name}.in").write_text(inputs)
        whole.append((str(folder / f"{name}.prog"), str(folder / f"{name}.in"), 1))
    for program, inputs, place in whole:
        for depth in DEPTHS:
            done = ran("split", "--check", program, inputs, str(depth), "--input", str(place))
            if done.returncode or " parts give the whole: (answers " not in done.stdout:
                yield f"split {program} at {depth}: {done}"


def wrong_joins(folder: Path) -> Iterator[str]:
    """What `split` says otherwise of parts that are not whole, and of what is not cut."""
    parts = folder / "parts"
    done = ran("split", *QUEENS, "1", "--into", str(parts))
    if done.stdout != f"1 parts in {parts}\n":
        yield f"split: {done}"
    for text, said in [(None, "has not been run"), ("(seq 2 4 1 3)\n", ""), ("(fuel 3)\n", "ran out of fuel at 3"),
                       ("(outside)\n", "is outside"), ("", "does not end with its closing line")]:
        if text is not None:
            (parts / "1.out").write_text(text)
        done = ran("split", "--join", str(parts))
        if done.returncode == 0 or done.stdout or said not in done.stderr:
            yield f"split --join with {text!r}: {done}"
    first = (folder / "first.prog")
    first.write_text("(program 1) (require true) (output z bool) (first 1) (main (emit true)) (search ())")
    (folder / "one.in").write_text("()")
    change = [str(EXAMPLES / "change" / f"change.{kind}") for kind in ("prog", "in")]
    for words, said in [([str(first), str(folder / "one.in"), "1"], "has (first K)"), ([*QUEENS, "1", "--input", "4"], "3 inputs"),
                        ([*change, "1", "--input", "4"], "input condition"), ([*QUEENS, "3", "--fuel", "2"], "more than 2 calls"),
                        ([QUEENS[1], QUEENS[1], "1"], "(program 1 form)")]:
        done = ran("split", *words, "--into", str(folder / "none"))
        if done.returncode == 0 or said not in done.stderr or (folder / "none").exists():
            yield f"split {words}: {done}"


def wrong_lists(folder: Path) -> Iterator[str]:
    """What `lint` lists otherwise."""
    for text, inputs, lines in LINT:
        (folder / "file").write_text(text)
        (folder / "inputs").write_text(inputs)
        done = ran("lint", str(folder / "file"), str(folder / "inputs"))
        found = [line.removeprefix(f"{folder / 'file'}:") for line in done.stdout.splitlines()]
        if done.returncode or found != lines:
            yield f"lint of {text}: {done}"
    made = ran("lint", str(EXAMPLES / "subset-sum/bills.prog"))
    if made.returncode or not made.stdout.endswith("2 terms: 0 can not by their sorts, 0 did, 2 did not at 40 inputs\n"):
        yield f"lint with inputs by chance: {made}"
    (folder / "file").write_text("(program 1")
    broken = ran("lint", str(folder / "file"))
    if (broken.returncode, broken.stderr) != (7, "(program 0 read)\n"):
        yield f"lint of a broken file: {broken}"


def wrong_proofs(folder: Path) -> Iterator[str]:
    """What `first_bad_line` says otherwise of the moves of a proof, one in each line."""
    file = folder / "theory"
    for moves, said in PROOFS:
        file.write_text(SQUARES + "\n".join(moves) + ")" + ENDED)
        done = ran("first_bad_line", str(file))
        found = done.stdout.splitlines()[:1]
        if (done.returncode, found) != (1 if said else 0, [f"{file}:{said}" if said else f"{file}: kids takes it"]):
            yield f"first_bad_line of {moves}: {done}"
    file.write_text(SQUARES + "\n".join([*GROWS_BY[:2], "(copy 3 (at (1) e30))"]) + ")" + ENDED)
    if "stands a number: " not in ran("first_bad_line", str(file)).stdout:
        yield "first_bad_line does not say what stands at a path"
    file.write_text("(theory t) (require (all v (range 1 3) (le 1 v)))\n(law a ((v (int 0 9))) (given) (holds true) (by))\n(output z bool) (ensure z)")
    bound = ran("first_bad_line", str(file))
    if not bound.stdout.startswith(f"{file}:2:8: the input condition binds a name that is a variable of the law a\n"):
        yield f"first_bad_line of a condition that binds a variable: {bound}"
    file.write_text("(theory t) (require z)")
    refused = ran("first_bad_line", str(file))
    if (refused.returncode, refused.stdout) != (2, "") or "(theory 2 sort)" not in refused.stderr:
        yield f"first_bad_line of a theory without a sort: {refused}"
    if ran("first_bad_line").returncode != 2 or ran("first_bad_line", str(folder / "absent")).returncode != 2:
        yield "first_bad_line takes words that fit no theory"


def main() -> int:
    """Runs all tests."""
    wrong = list(wrong_texts())
    for test in (wrong_options, wrong_firsts, wrong_cuts, wrong_joins, wrong_lists, wrong_proofs):
        with tempfile.TemporaryDirectory(prefix="kids-small-tools-") as folder:
            wrong += test(Path(folder))
    print("".join(line + "\n" for line in wrong), end="")
    return 1 if wrong else 0


if __name__ == "__main__":
    sys.exit(main())
