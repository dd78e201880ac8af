"""Finds the smallest part of a refused form that is to blame, by asking kids about the file with parts changed.

No rule of sorts stands here. A part is to blame where another in its place moves the fault further on; where that is so
of several parts of one list, they do not go together, and the list is to blame. Of a row of statements the first is to
blame with which the row, cut off behind it, is refused.
"""
from __future__ import annotations

import dataclasses

from explain_judge import Answer, Judge
from explain_text import Tree

# what may stand in the place of a part that has the wrong shape or name, and of one that has the wrong sort
SHAPES = ["fresh-name", "true", "1", "bool", "()", "(fresh-name bool)", "(given)", "(holds true)"]
TERMS = ["true", "0", "(set)", "fresh-name", "1", "bool", "(seq)", "(map)", "(set 0)", "(fill (set 0) 0)", "(pair 0 0)",
         "(set true)",
         "4611686018427387904", "-4611686018427387904", "a", "(fill (set 0) (set 0))", "()"]
# at which place of a list its statements begin
ROWS = {"main": 1, "search": 2, "if": 2, "for": 3}
Edit = tuple[int, int, str]


@dataclasses.dataclass
class Finding:
    """The part to blame, the lists around it from the form on, and what in its place moves the fault."""

    tree: Tree
    around: list[Tree]
    cure: str | None
    parts: list[Tree]


def edited(text: str, edits: list[Edit]) -> str:
    """The text with parts replaced; the parts do not overlap."""
    for start, end, new in sorted(edits, reverse=True):
        text = text[:start] + new + text[end:]
    return text


class Blame:
    """A refused theory or program, and the answer to it."""

    def __init__(self, judge: Judge, kind: str, text: str, forest: list[Tree], answer: Answer) -> None:
        """Keeps what was asked, and what may stand in the place of parts."""
        self.judge, self.kind, self.text, self.forest, self.answer = judge, kind, text, forest, answer
        self.form = forest[answer[0] - 1] if 0 < answer[0] <= len(forest) else None
        self.base: list[Edit] = []
        self.pool = TERMS + self.words_of_form() if answer[1] == "sort" else SHAPES

    def words_of_form(self) -> list[str]:
        """The names, numbers and tags that are the parts of the form's lists, not too many."""
        lists = [tree for tree in self.form.all_trees() if tree.items] if self.form else []
        words = dict.fromkeys(part.word for tree in lists for part in tree.items[1:] if part.word)
        return [word for word in words if word not in TERMS][:16]

    def moves(self, edits: list[Edit]) -> bool:
        """Whether the fault moves further on with these edits."""
        if self.judge.left <= 0:
            return False
        return self.judge.ask(self.kind, edited(self.text, self.base + edits)).is_later(self.answer)

    def cure_of(self, tree: Tree) -> str | None:
        """What in the place of a part moves the fault further on."""
        for new in self.pool:
            if new != tree.word and self.moves([(tree.start, tree.end, new)]):
                return new
        return None

    def find(self) -> Finding:
        """The smallest part of the refused form that is to blame."""
        around: list[Tree] = []
        tree, cure = self.form, None
        row = self.kind == "program" and ROWS.get(tree.head()) if tree.head() in ("main", "search") else None
        while True:
            statement = self.statement_of(tree, row)
            if statement:
                around, tree, cure, row = [*around, tree], statement, None, None
                row = ROWS.get(tree.head()) if tree.head() in ("if", "for") else None
                continue
            is_pair = bool(around) and not around[-1].head()
            parts = tree.items[:row] if row else tree.items
            if self.answer[1] == "cycle" and not around:
                # under another name the definition would not call itself, but that is no cure
                parts = parts[:1] + parts[2:]
            cured = self.cured(parts, is_pair)
            if len(cured) != 1:
                return self.lifted(Finding(tree, around, cure, [part for _, part, _ in cured]))
            way, tree, cure = [tree, *cured[0][0]], *cured[0][1:]
            around, row = [*around, *way], None
            if self.stands_alone(tree, cure):
                return Finding(tree, around, cure, [])

    def cured(self, parts: list[Tree], is_pair: bool, deeper: int = 3) -> list[tuple[list[Tree], Tree, str]]:
        """The parts of which another in their place moves the fault, and what it is; where there is none, those in the parts.

        Before each stand the lists around it, from these parts on. In a pair of a name and a sort the name is a part too.
        """
        found = []
        for part in parts[1:] if parts and parts[0].word and not is_pair else parts:
            new = self.cure_of(part)
            if new is not None:
                found.append(([], part, new))
        if found or not deeper:
            return found
        for part in parts:
            inner = self.cured(part.items, bool(parts) and not parts[0].word, deeper - 1)
            found += [([part, *way], tree, new) for way, tree, new in inner]
        return found

    def stands_alone(self, tree: Tree, cure: str | None) -> bool:
        """Whether a part has a sort by itself, so that only its place is wrong: kids takes it where it is compared with itself."""
        text = self.text[tree.start:tree.end]
        return cure is None or self.moves([(tree.start, tree.end, f"(if (eq {text} {text}) {cure} {cure})")])

    def lifted(self, found: Finding) -> Finding:
        """Of a number or name in a sort that is not allowed the sort, since all its bounds or names may be to blame."""
        if self.answer[1] == "sort" and found.around and found.tree.word and found.around[-1].head() in ("int", "enum"):
            return Finding(found.around[-1], found.around[:-1], self.cure_of(found.around[-1]), [])
        return found

    def statement_of(self, tree: Tree, row: int | None) -> Tree | None:
        """The first statement in a list with which its row is refused; what stands behind it is cut off from here on."""
        if not row or len(tree.items) <= row:
            return None
        statements = tree.items[row:]
        last = statements[-1].end
        emptied = (statements[0].start, last, "")
        if not self.moves([emptied]):
            self.base.append(emptied)
            return None
        for number, statement in enumerate(statements):
            behind = [(statement.end, last, "")] if number + 1 < len(statements) else []
            if not self.moves(behind):
                self.base += behind
                return statement
        return None
