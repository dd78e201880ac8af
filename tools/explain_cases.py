"""Broken files, with the place to look at: an @ stands before it, and is no part of the file.

A case has the kind of mistake, the name of the file, its text, and the text of the theory or program beside it.
"""
from __future__ import annotations

from typing import NamedTuple


class Case(NamedTuple):
    """A broken file."""

    kind: str
    file: str
    text: str
    other: str = ""


SQUARE = """(theory square)
(input n (int 0 100))
(require (le 1 n))
(output z (int 1 10))
(ensure (eq (mul z z) n))
"""
SHIFTS = """(program 2)
(input staff (set (enum ann bob eve)))
(input days (int 1 7))
(input wish (map (enum ann bob eve) (set (int 1 7))))
(require true)
(output plan (map (int 1 7) (enum ann bob eve)))
(main (call 1 (map)))
(search ((day (int 1 8)) (plan-so-far (map (int 1 7) (enum ann bob eve))))
  (if (lt days day) (emit plan-so-far))
  (if (le day days)
    (for who staff
      (if (not (in day (get wish who (set))))
        (call (cast (int 1 8) (add day 1)) (put plan-so-far (cast (int 1 7) day) who))))))
"""
QUEENS = """(program 1)
(def is-safe ((placed (seq (int 1 8) 8)) (row (int 1 8))) bool
  (all i (range 1 (len placed))
    (not (eq (at placed i 0) row))))
(input n (int 1 8))
(require true)
(output board (seq (int 1 8) 8))
(main (call (seq)))
(search ((placed (seq (int 1 8) 8)))
  (if (eq (len placed) n) (emit placed))
  (if (lt (len placed) n)
    (for row (range 1 n)
      (if (is-safe placed row)
        (call (cast (seq (int 1 8) 8) (snoc placed row)))))))
"""
PROVED = """(theory square)
(input n (int 0 100))
(require (le 1 n))
(law squares-grow ((a (int 0 10)) (b (int 0 10))) (given (le a b))
  (holds (le (mul a a) (mul b b)))
  (by (have m5 (a b a)) (have m5 (a b b)) (copy 3 (at (1) e19)) (have m2 ((mul a a) (mul a b) (mul b b)))))
(output z (int 1 10))
(ensure (eq (mul z z) n))
"""
PAIRED = "(program 2)\n(input a (int 1 9))\n(input m (map (int 1 9) (enum blue red)))\n(require true)\n(output z bool)\n(main (emit true))\n(search ())\n"


def with_change(text: str, old: str, new: str) -> str:
    """A text with one place changed."""
    assert text.count(old) == 1, old
    return text.replace(old, new)


CASES = [
    Case("byte", "umlaut.th", with_change(SQUARE, "(require", "; f@\xfcr n\n(require")),
    Case("byte", "quote.prog", with_change(QUEENS, "(main (call (seq)))", "(main (call (seq))) ; the program@\x92s start")),
    Case("byte order mark", "mark.th", "@\xef\xbb\xbf" + SQUARE),
    Case("byte order mark", "mark.in", "@\xef\xbb\xbf(49)\n", SQUARE),
    Case("unclosed bracket", "require.th", with_change(SQUARE, "(require (le 1 n))", "@(require (le 1 n)")),
    Case("unclosed bracket", "last.th", with_change(SQUARE, "(ensure (eq (mul z z) n))", "@(ensure (eq (mul z z) n)")),
    Case("unclosed bracket", "def.prog", with_change(QUEENS, "(def is-safe", "@(def is-safe").replace("row))))\n", "row)))\n")),
    Case("bracket too many", "require.th", with_change(SQUARE, "(require (le 1 n))", "(require (le 1 n))@)")),
    Case("bracket too many", "early.th", with_change(SQUARE, "(eq (mul z z) n)", "(eq (mul z z)@) n)")),
    Case("bracket too many", "main.prog", with_change(QUEENS, "(main (call (seq)))", "(main (call (seq)))@)")),
    Case("reserved name", "total.th", with_change(SQUARE, "(input n (int 0 100))", "(input @total (int 0 100))")),
    Case("reserved name", "m1.prog", with_change(QUEENS, "(for row (range 1 n)", "(for @m1 (range 1 n)")),
    Case("no name", "capital.th", with_change(SQUARE, "(output z", "(output @Z")),
    Case("no name", "underscore.prog", with_change(SHIFTS, "(input staff ", "(input @the_staff ")),
    Case("declared twice", "input.th", with_change(SQUARE, "(require", "(input @n bool)\n(require")),
    Case("declared twice", "search.prog", with_change(QUEENS, "(output board", "(output placed").replace("(search ((placed", "(search ((@placed")),
    Case("declared twice", "parameters.th", with_change(SQUARE, "(input n", "(def f ((x bool) (@x bool)) bool x)\n(input n")),
    Case("not declared", "ensure.th", with_change(SQUARE, "(mul z z)", "(mul z @y)")),
    Case("not declared", "emit.prog", with_change(SHIFTS, "(emit plan-so-far)", "(emit @plan)")),
    Case("not declared", "inner.prog", with_change(SHIFTS, "(get wish who (set))", "(get @wishes who (set))")),
    Case("not declared", "definition.prog", with_change(QUEENS, "(range 1 (len placed))", "(range 1 @n)")),
    Case("not declared", "twice.th", with_change(SQUARE, "(mul z z)", "(mul @y y)")),
    Case("not declared", "both.prog", with_change(SHIFTS, "(if (lt days day)", "(if (and (lt @last day) (le last 7))")),
    Case("unknown operator", "ge.th", with_change(SQUARE, "(le 1 n)", "@(ge n 1)")),
    Case("unknown operator", "typo.prog", with_change(QUEENS, "(snoc placed row)", "@(snok placed row)")),
    Case("unknown operator", "sign.th", with_change(SQUARE, "(mul z z)", "@(* z z)")),
    Case("unknown definition", "call.prog", with_change(QUEENS, "(if (is-safe placed row)", "(if @(is-save placed row)")),
    Case("wrong number of parts", "and.th", with_change(SQUARE, "(le 1 n)", "@(and (le 1 n) (le n 50) (le 2 n))")),
    Case("wrong number of parts", "least.prog", with_change(SHIFTS, "(call 1 (map))", "@(call 1)")),
    Case("wrong number of parts", "get.prog", with_change(SHIFTS, "(get wish who (set))", "@(get wish who)")),
    Case("wrong number of parts", "input.th", with_change(SQUARE, "(input n (int 0 100))", "@(input n)")),
    Case("kinds", "eq.th", with_change(SQUARE, "(eq (mul z z) n)", "@(eq (mul z z) (set n))")),
    Case("kinds", "in.prog", with_change(SHIFTS, "(in day (get wish who (set)))", "@(in who (get wish who (set)))")),
    Case("kinds", "lt.prog", with_change(SHIFTS, "(if (le day days)", "(if (le day @staff)")),
    Case("no truth value", "require.th", with_change(SQUARE, "(le 1 n)", "@n")),
    Case("no truth value", "if.prog", with_change(QUEENS, "(if (is-safe placed row)", "(if @(at placed 1 row)")),
    Case("beyond the sort", "snoc.prog", with_change(QUEENS, "(cast (seq (int 1 8) 8) (snoc placed row))", "@(snoc placed row)")),
    Case("beyond the sort", "emit.prog", with_change(SHIFTS, "(cast (int 1 8) (add day 1))", "@(add day 1)")),
    Case("beyond the sort", "key.prog", with_change(SHIFTS, "(put plan-so-far (cast (int 1 7) day) who)", "@(put plan-so-far day who)")),
    Case("beyond the sort", "def.th", with_change(SQUARE, "(input n", "(def twice ((x (int 0 9))) (int 0 9) @(add x x))\n(input n")),
    Case("sort not allowed", "bounds.th", with_change(SQUARE, "(int 1 10)", "@(int 10 1)")),
    Case("sort not allowed", "tags.prog", with_change(SHIFTS, "(set (enum ann bob eve))", "(set @(enum bob ann eve))")),
    Case("sort misspelled", "bound.th", with_change(SQUARE, "(int 0 100)", "@(int 100)")),
    Case("tag in version 1", "shifts.prog", with_change(SHIFTS, "(program 2)", "(program 1)").replace("(set (enum", "(set @(enum")),
    Case("no form of this kind", "where.th", with_change(SQUARE, "(require", "@(where")),
    Case("form missing", "require.th", with_change(SQUARE, "(require (le 1 n))\n(output", "@(output")),
    Case("form missing", "ensure.th", with_change(SQUARE, "10))\n(ensure (eq (mul z z) n))\n", "10)@)\n")),
    Case("form out of order", "input.th", with_change(SQUARE, "(output z", "@(input k bool)\n(output z")),
    Case("form out of order", "def.prog", with_change(QUEENS, "(main", "@(def f () bool true)\n(main")),
    Case("number misspelled", "zero.th", with_change(SQUARE, "(le 1 n)", "(le @01 n)")),
    Case("number misspelled", "point.th", with_change(SQUARE, "(int 1 10)", "(int 1 @10.5)")),
    Case("cycle", "self.th", with_change(SQUARE, "(input n", "(def f ((x (int 0 9))) (int 0 9) (if (eq x 0) 0 @(f x)))\n(input n")),
    Case("cycle", "later.th", with_change(SQUARE, "(input n", "(def f () bool (not @(g)))\n(def g () bool true)\n(input n")),
    Case("beyond the limits", "mul.th", with_change(SQUARE, "(int 0 100)", "(int 0 4611686018427387904)").replace("(le 1 n)", "(lt @(mul n 2) 9)")),
    Case("too many inputs", "many.th", "(theory t)\n" + "".join(f"(input n-{i} bool)\n" for i in range(16)) + "@(input last bool)\n(require true)\n"),
    Case("name in scope", "binder.th", with_change(SQUARE, "(le 1 n)", "(all @n (set 1 2) true)")),
    Case("name in scope", "let.prog", with_change(SHIFTS, "(for who staff", "(let @days 3)\n    (for who staff")),
    Case("for without a set", "for.prog", with_change(QUEENS, "(for row (range 1 n)", "(for row @n")),
    Case("input beyond its sort", "square.in", "(49)\n(@101)\n(4)\n", SQUARE),
    Case("input beyond its sort", "inner.in", "(3 (map (1 'blue) (@10 'red)))\n", PAIRED),
    Case("input of another count", "more.in", "(49)\n(4 @9)\n", SQUARE),
    Case("input of another count", "fewer.in", "(3@)\n", PAIRED),
    Case("input without a list", "bare.in", "(49)\n@4\n", SQUARE),
    Case("key twice", "twice.in", "(3 (map (1 'blue) (2 'red) (@1 'red)))\n", PAIRED),
    Case("tag misspelled", "tag.in", "(3 (map (1 'blue) (2 @red)))\n", PAIRED),
    Case("tag misspelled", "tag.in", "(3 (map (1 'blue) (2 @'green)))\n", PAIRED),
    Case("law without a proof", "move.th", with_change(PROVED, "(have m5 (a b b))", "@(have m5 (b a b))")),
    Case("law without a proof", "line.th", with_change(PROVED, "(at (1) e19)", "(at (1) e19) @(at (2) e19)")),
    Case("law without a proof", "fact.th", with_change(PROVED, "(copy 3 ", "(copy @9 ")),
    Case("law without a proof", "says.th", with_change(PROVED, "(holds (le (mul a a) (mul b b)))", "@(holds (lt (mul a a) (mul b b)))")),
    Case("script not built", "cut.sc", "; search\n@(match cut)\n", SQUARE),
    Case("script not built", "two.sc", "(match range)\n@(simplify)\n", SQUARE),
    Case("theory without a program", "low.th", SQUARE.replace("input n", "input @low").replace("le 1 n", "le 1 low").replace(") n))", ") low))")),
    Case("theory without a program", "set.th", "(theory t)\n(input n (int 0 9))\n(require true)\n(output z @(set (int 1 3)))\n(ensure (lt n (card z)))\n"),
]
