"""The text of a file of kids as trees with places, and what is wrong with its bytes and brackets.

Text is decoded byte by byte (latin-1), so a place in it is the number of a byte, and a column counts bytes from 1.
"""
from __future__ import annotations

import dataclasses
import re

MOST_BYTES = 4_194_304
MOST_OPEN = 250
BAD_BYTE = re.compile(r"[^\t\n\r -~]")
TOKEN = re.compile(r";[^\n]*|[()]|[^\s();]+")
# what begins a form, and stands nowhere else
FORM_HEADS = {"theory", "def", "input", "require", "axiom", "law", "output", "ensure", "program", "main", "search", "match"}
MARKS = {"\xef\xbb\xbf": "a byte order mark (UTF-8)", "\xff\xfe": "a byte order mark (UTF-16)",
         "\xfe\xff": "a byte order mark (UTF-16)"}


@dataclasses.dataclass(eq=False)
class Tree:
    """A word, or a list of trees; it stands from the byte `start` to before the byte `end`."""

    start: int
    end: int
    word: str | None = None
    items: list["Tree"] = dataclasses.field(default_factory=list)

    def head(self) -> str:
        """The word with which a list begins, or nothing."""
        return (self.items[0].word or "") if self.items else ""

    def all_trees(self) -> list["Tree"]:
        """This tree and all in it, in the order in which they begin."""
        found, left = [], [self]
        while left:
            tree = left.pop()
            found.append(tree)
            left.extend(reversed(tree.items))
        return found


@dataclasses.dataclass
class TextFault:
    """Where bytes or brackets go wrong, what is wrong, what else to say with its place, and the cures."""

    at: int
    what: str
    cures: list[str]
    notes: list[tuple[int, str]] = dataclasses.field(default_factory=list)
    kind: str = "byte"


def line_and_column(text: str, at: int) -> tuple[int, int]:
    """The line and the column of a byte, each from 1."""
    return text.count("\n", 0, at) + 1, at - (text.rfind("\n", 0, at) + 1) + 1


def named(text: str, tree_start: int) -> str:
    """What begins at a bracket: its first two words, as they stand."""
    words = re.match(r"\(\s*([^\s();]*)\s*([^\s();]*)", text[tree_start:tree_start + 200])
    return "(" + " ".join([word for word in words.groups() if word] + ["..)"]) if words else "(..)"


def byte_fault(text: str) -> TextFault | None:
    """The first byte that no file may have."""
    if len(text) > MOST_BYTES:
        return TextFault(0, f"the file has {len(text)} bytes, and {MOST_BYTES} are the most",
                         ["look whether this is the file that you mean", "cut it into parts, as inputs can be"], kind="large")
    for mark, name in MARKS.items():
        if text.startswith(mark):
            return TextFault(0, f"the file begins with {name}, which is no text of kids",
                             ["save it as plain ASCII or as UTF-8 without a byte order mark",
                              "take the first bytes away: tail -c +4 FILE for the mark of UTF-8"])
    found = BAD_BYTE.search(text)
    if not found:
        return None
    return TextFault(found.start(), f"the byte {ord(found.group()):#04x} is none that a file may have, in comments too",
                     ["write it in ASCII: letters without marks, straight quotes, plain blanks and dashes",
                      "where it is the 0 of a file of UTF-16, save the file as ASCII"])


def likely_unclosed(text: str, opens: list[int]) -> tuple[list[int], int | None]:
    """The brackets that were open when a form began within another, and that form; or what is open at the end."""
    stack: list[int] = []
    for token in TOKEN.finditer(text):
        if token.group() == "(":
            begins_line = not text[text.rfind("\n", 0, token.start()) + 1:token.start()].strip()
            head = re.match(r"\(\s*([a-z]+)", text[token.start():token.start() + 60])
            is_form = begins_line and (line_and_column(text, token.start())[1] == 1 or head
                                       and head.group(1) in FORM_HEADS)
            if stack and is_form:
                return stack, token.start()
            stack.append(token.start())
        elif token.group() == ")" and stack:
            stack.pop()
    return opens, None


def unclosed(text: str, opens: list[int]) -> TextFault:
    """What to say where brackets are open at the end of the file."""
    stack, next_form = likely_unclosed(text, opens)
    missing = len(stack) if next_form is not None else len(opens)
    what = f"the bracket of {named(text, stack[0])} is not closed: {missing} closing bracket{'s are' * (missing > 1) or ' is'} missing"
    fault = TextFault(stack[0], what,
                      ["close it before the next form begins", "look for a closing bracket that a comment hides"],
                      kind="unclosed")
    if next_form is not None:
        fault.notes.append((next_form, f"{named(text, next_form)} begins here, still within it"))
    return fault


def read(text: str) -> tuple[list[Tree], TextFault | None]:
    """The trees of a text, or the trees up to the fault and the fault."""
    fault = byte_fault(text)
    if fault:
        return [], fault
    forest: list[Tree] = []
    opens: list[Tree] = []
    for token in TOKEN.finditer(text):
        word, start, end = token.group(), token.start(), token.end()
        if word == ")" and not opens:
            return forest, too_many(text, start, forest)
        if word == ")":
            opens[-1].end = end
            tree = opens.pop()
        elif word == "(":
            opens.append(Tree(start, end))
            if len(opens) > MOST_OPEN:
                return forest, TextFault(start, f"more than {MOST_OPEN} brackets are open here",
                                         ["make definitions of parts of the term",
                                          "look for brackets that are not closed"])
            continue
        elif word[0] == ";":
            continue
        else:
            tree = Tree(start, end, word)
        (opens[-1].items if opens else forest).append(tree)
    return forest, unclosed(text, [tree.start for tree in opens]) if opens else None


def too_many(text: str, at: int, forest: list[Tree]) -> TextFault:
    """What to say of a closing bracket that closes none."""
    fault = TextFault(at, "this bracket closes none: there is one too many",
                      ["take it away", "look for a bracket that closes too early before it"], kind="too many")
    if forest:
        fault.notes.append((forest[-1].start, f"{named(text, forest[-1].start)} begins here, and has ended before it"))
    return fault
