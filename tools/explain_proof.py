"""The first move or line that is refused in the proof of a law, found with kids by halving.

kids says of a law without a proof which form it is, and no more. So it is asked about the theory up to that law, with the
proof cut off after some moves and a conclusion that is reached for sure: that is refused just where one of these moves is.
"""
from __future__ import annotations

import dataclasses
from typing import Callable

from explain_judge import Answer, Judge
from explain_text import Tree

REACHED = "(holds true)"
# parts of a pair, by their kinds
PARTS = ("0", "true", "(set)", "(seq)", "(map)", "'tag")
# of a term that this may stand beside in an `if`, what it is
KINDS = {"0": "a number", "true": "a truth value", "(set)": "a set", "(seq)": "a sequence", "(map)": "a map", "'tag": "a tag",
         **{f"(pair {first} {second})": "a pair" for first in PARTS for second in PARTS}}
# where in a move, and in a line's rule, the numbers of facts stand
FACTS = {"left": [1], "right": [1], "join": [1, 2], "again": [1], "copy": [1]}


@dataclasses.dataclass
class Bad:
    """Where a proof goes wrong, what is wrong there, and what may cure it."""

    at: int
    what: str
    cures: list[str]


def first_refused(count: int, applies: Callable[[int], bool]) -> int | None:
    """The number of the first of so many steps that is refused, from 1; `applies` says whether the first N are taken."""
    if applies(count):
        return None
    taken, refused = 0, count
    while refused - taken > 1:
        middle = (taken + refused) // 2
        taken, refused = (middle, refused) if applies(middle) else (taken, middle)
    return refused


class Proof:
    """The proof of a law that kids refuses, and the theory before it."""

    def __init__(self, judge: Judge, text: str, forest: list[Tree], number: int) -> None:
        """Keeps the law, which is the form of this number."""
        self.judge, self.text, self.number = judge, text, number
        self.law = forest[number - 1]
        self.conclusion, self.moves = self.law.items[4], self.law.items[5].items[1:]
        self.name = self.law.items[1].word
        # the input condition, and the law's own
        self.start = len(self.law.items[3].items)

    def of(self, tree: Tree) -> str:
        """The text of a part."""
        return self.text[tree.start:tree.end]

    def takes(self, moves: list[str]) -> bool:
        """Whether all of these moves apply, one after another."""
        before, between = self.text[:self.conclusion.start], self.text[self.conclusion.end:self.law.items[5].start]
        found = self.judge.ask("theory", f"{before}{REACHED}{between}(by {' '.join(moves)}))\n")
        if found not in (Answer((self.number, "proof")), Answer((self.number + 1, "form"))):
            raise RuntimeError(f"kids says {found} of the theory with a part of a proof")
        return found[0] > self.number

    def takes_moves(self, count: int) -> bool:
        """Whether the first moves apply, so many of them."""
        return self.takes([self.of(move) for move in self.moves[:count]])

    def takes_lines(self, move: int, count: int) -> bool:
        """Whether a move of lines applies with the first lines alone, so many of them."""
        parts = self.moves[move - 1].items[:2 + count]
        return self.takes([self.of(other) for other in self.moves[:move - 1]] + [f"({' '.join(map(self.of, parts))})"])

    def bad(self) -> Bad:
        """What is refused first."""
        if not self.takes([]):
            return Bad(self.law.items[2].start, f"the input condition binds a name that is a variable of the law {self.name}",
                       ["give the variable, or the name behind the binder, another name"])
        move = first_refused(len(self.moves), self.takes_moves)
        if move is None:
            return self.bad_conclusion()
        tree = self.moves[move - 1]
        facts = self.start + move - 1
        for place in FACTS.get(tree.head(), []):
            if missing := self.missing(tree.items[place].word, facts):
                return Bad(tree.items[place].start, f"move {move} of the law {self.name}: {missing}", [counted(self.start)])
        if tree.head() == "copy" and self.takes_lines(move, 0):
            return self.bad_line(move, facts)
        return Bad(tree.start, f"move {move} of the law {self.name} does not apply: {self.shown(tree)}", cures_of(tree))

    def bad_conclusion(self) -> Bad:
        """What the law says is to blame, or what the moves lack."""
        count = len(self.moves)
        moves = "there is no move" if not count else "its one move applies" if count == 1 else f"all its {count} moves apply"
        return Bad(self.conclusion.start, f"{moves}, but what the law {self.name} says does not hold after that",
                   ["compare it with the last fact: (equal L R) asks for the fact (eq L R), to the letter and in this order",
                    "add the moves that are missing, or a condition behind given"])

    def bad_line(self, move: int, facts: int) -> Bad:
        """The first line of a move that is refused."""
        tree = self.moves[move - 1]
        number = first_refused(len(tree.items) - 2, lambda count: self.takes_lines(move, count))
        if number is None:
            raise RuntimeError("kids takes all lines of the move that it refuses")
        line = tree.items[1 + number]
        place = f"line {number} of move {move} of the law {self.name}"
        rule = line.items[2]
        if rule.head() == "use" and (missing := self.missing(rule.items[1].word, facts)):
            return Bad(rule.items[1].start, f"{place}: {missing}", [counted(self.start)])
        found = self.subterm(move, number, line.items[1])
        return Bad(line.start, f"{place} does not apply: {self.shown(line)}",
                   [f"at the path {self.of(line.items[1])} stands {found}: compare it with the side that the rule rewrites"]
                   if found else [f"count the path {self.of(line.items[1])} again, from 0 in each list of arguments"])

    def subterm(self, move: int, number: int, path: Tree) -> str | None:
        """What stands at the path of a line before it is used, as far as that is found."""
        tree = self.moves[move - 1]
        before = [self.of(other) for other in self.moves[:move - 1]]
        for term, kind in KINDS.items():
            line = f"(back {self.of(path)} (e10 {term}))"
            if self.takes([*before, f"({' '.join([*map(self.of, tree.items[:1 + number]), line])})"]):
                return kind
        return None

    def missing(self, word: str | None, facts: int) -> str | None:
        """That a fact is not there, if that is so."""
        if word is not None and word.isdigit() and 1 <= int(word) <= facts:
            return None
        last = "the one fact is number 1" if facts == 1 else f"the facts are numbered from 1 to {facts}"
        return f"there is no fact {word} here: {last}"

    def shown(self, tree: Tree) -> str:
        """The text of a move or line in one row, not too long."""
        text = " ".join(self.of(tree).split())
        return text if len(text) <= 100 else text[:97] + "..."


def counted(start: int) -> str:
    """How facts are counted."""
    own = {1: "", 2: ", and the condition behind given is 2"}.get(start, f", and those behind given are 2 to {start}")
    return f"the input condition is fact 1{own}; each move adds one"


def cures_of(tree: Tree) -> list[str]:
    """What to look at in a move that does not apply."""
    if tree.head() in ("left", "right"):
        return ["this fact is to be of the form (and p q)"]
    if tree.head() == "have":
        return ["compare the number and the order of its terms with docs/LAWS.md, or with the variables of the law",
                "each condition of the rule is to hold: add the fact for it by a move before, or behind given"]
    return ["look it up in docs/LAWS.md"]
