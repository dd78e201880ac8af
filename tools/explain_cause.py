"""Says why the part that is to blame is refused, as far as kids tells when it is asked further, and what cures it."""
from __future__ import annotations

import dataclasses
import difflib
import functools
import pathlib
import re

from explain_blame import Blame, Finding
from explain_judge import TOP, Answer
from explain_text import Tree, line_and_column

SPELLED = re.compile(r"[a-z][a-z0-9-]{0,31}")
NUMBER = re.compile(r"[+-]?\d+")
# at which place of a list a name is declared
DECLARES = {"theory": 1, "def": 1, "input": 1, "output": 1, "axiom": 1, "law": 1, "let": 1, "for": 1,
            "all": 1, "some": 1, "setof": 1, "image": 1, "sumof": 1}
OTHER_LANGUAGES = {
    "gt": "(lt b a)", "ge": "(le b a)", "ne": "(not (eq a b))", ">": "(lt b a)", ">=": "(le b a)", "<": "(lt a b)",
    "<=": "(le a b)", "=": "(eq a b)", "==": "(eq a b)", "!=": "(not (eq a b))", "+": "(add a b)", "-": "(sub a b)",
    "*": "(mul a b)", "/": "(div a b)", "%": "(mod a b)", "abs": "(max a (neg a))", "else": "a second (if (not ..) ..)",
    "xor": "(not (eq p q))", "forall": "(all x s p)", "exists": "(some x s p)", "size": "(card s) or (len v)",
    "length": "(len v)", "int": "a number, or (cast (int LO HI) a)"}
MEANINGS = {
    "limit": "there is more of something than may be, or calls of definitions go too deep",
    "version": "the format has the versions 1 and 2",
    "form": "it may not stand here, or a part of it has not the shape that it is to have",
    "name": "a word that is declared is no name, or is taken",
    "cycle": "a definition calls itself, or one that stands later",
    "sort": "a sort is not allowed, or a term has no sort or not the one that is wanted there",
    "proof": "a move of the law does not apply, or what the law says does not hold after them"}
# what may be missing in a list
EXTRA = ["true", "0", "(set)", "bool", "fresh-name", "(map)", "(seq)", "()"]
WORDS = {1: "one", 2: "two", 3: "three", 4: "four"}


@dataclasses.dataclass
class Cause:
    """Where to look, why, the cures, and what else to look at."""

    at: int
    what: str
    cures: list[str]
    notes: list[tuple[int, str]] = dataclasses.field(default_factory=list)


@functools.lru_cache(maxsize=1)
def known_words() -> tuple[str, ...]:
    """The words that have a meaning, as the reference lists them."""
    reference = TOP / "docs" / "REFERENCE.md"
    text = reference.read_text() if reference.is_file() else ""
    listed = re.search(r"These words are no names:\n\n```text\n(.*?)```", text, re.DOTALL)
    return tuple(listed.group(1).split()) if listed else ()


def shown(blame: Blame, tree: Tree) -> str:
    """A part as it stands in the file, not too long."""
    text = " ".join(blame.text[tree.start:tree.end].split())
    return text if len(text) <= 60 else text[:45] + " .. " + text[-10:]


def place(blame: Blame, tree: Tree) -> str:
    """The line and column of a part, in words."""
    line, column = line_and_column(blame.text, tree.start)
    return f"line {line}, column {column}"


def declarations(blame: Blame) -> list[Tree]:
    """The words of the file that stand where a name is declared: first those that forms declare, and then those within them."""
    found = [form.items[1] for form in blame.forest if form.head() in DECLARES and len(form.items) > 1]
    for form in blame.forest:
        for tree in form.all_trees():
            at = DECLARES.get(tree.head())
            if at is not None and len(tree.items) > at and tree is not form:
                found.append(tree.items[at])
            if not tree.head() and tree.items:
                found += [part.items[0] for part in tree.items if len(part.items) == 2]
    return [tree for tree in found if tree.word]


def near(word: str, words: list[str]) -> list[str]:
    """The words that are most like a word."""
    return difflib.get_close_matches(word, [other for other in dict.fromkeys(words) if other != word], 4, 0.5)


def cause(blame: Blame, finding: Finding) -> Cause:
    """Why a part is refused."""
    tree = finding.tree
    parent = finding.around[-1] if finding.around else None
    twice = twice_among(blame, tree)
    if twice:
        return twice
    if tree.word is None:
        return list_cause(blame, finding)
    if parent is not None and is_declared_there(parent, tree, finding.around):
        return name_cause(blame, tree)
    return word_cause(blame, finding, parent)


def is_declared_there(parent: Tree, tree: Tree, around: list[Tree]) -> bool:
    """Whether a word stands where a name is declared."""
    at = DECLARES.get(parent.head())
    if at is not None and len(parent.items) > at and parent.items[at] is tree:
        return True
    outer = around[-2] if len(around) > 1 else None
    return outer is not None and not outer.head() and len(parent.items) == 2 and parent.items[0] is tree


def twice_among(blame: Blame, tree: Tree) -> Cause | None:
    """What to say of a list of names with sorts that has a name twice."""
    if tree.word is not None or tree.head() or not all(len(part.items) == 2 for part in tree.items):
        return None
    seen: dict[str, Tree] = {}
    for part in tree.items:
        word = part.items[0].word or ""
        if word in seen:
            return Cause(part.items[0].start, f"the name {word} is declared twice",
                         ["take another name for one of the two", "leave one of the two out"],
                         [(seen[word].start, f"{word} is declared here first")])
        seen[word] = part.items[0]
    return None


def name_cause(blame: Blame, tree: Tree) -> Cause:
    """Why a word may not be declared."""
    word = tree.word
    if not blame.judge.is_name(word):
        if SPELLED.fullmatch(word):
            return Cause(tree.start, f"{word} is a reserved word and no name",
                         [f"take another name, such as {word}-of or the-{word}",
                          "names such as b1, e2, m3 are reserved too"])
        return Cause(tree.start, f"{word[:40]} is no name",
                     ["a name is of lower-case letters, digits and dashes, begins with a letter and has at most 32 bytes",
                      f"write {re.sub(r'[^a-z0-9]+', '-', word.lower()).strip('-')[:32] or 'a-name'}"])
    before = [other for other in declarations(blame) if other.word == word and other.start != tree.start]
    cures = ["take another name for one of the two", "look whether one of the two is not needed"]
    notes = [(before[0].start, f"{word} is declared here too")] if before else []
    return Cause(tree.start, f"the name {word} is declared already, and is in scope or taken here", cures, notes)


def word_cause(blame: Blame, finding: Finding, parent: Tree | None) -> Cause:
    """Why a word that stands as a term, a sort or a number is refused."""
    tree, word = finding.tree, finding.tree.word
    if needs_version_2(blame):
        return version_cause(blame, tree)
    if blame.answer[1] in ("form", "version"):
        return form_word_cause(blame, tree)
    where = f" in {shown(blame, parent)}" if parent else ""
    if SPELLED.fullmatch(word) and word not in ("true", "false") and not blame.stands_alone(tree, finding.cure):
        return unknown_name(blame, tree)
    if parent is not None and parent.head() == "for":
        return Cause(tree.start, f"for goes over the members of a set, and {word} is none",
                     ["write (range LO HI) for the numbers from LO to HI",
                      "write (items v) for the items of a sequence"])
    if parent is not None and parent.head() in ("require", "ensure", "if"):
        return Cause(tree.start, f"{word} stands where a truth value is due, and is none",
                     ["compare it, as in (lt 0 n) or (eq n 1)",
                      "where it is of another sort than you think, look at its declaration"])
    what = f"{word} is of another kind than is wanted here, or may lie outside of the sort that is wanted{where}"
    wider = "make the sort that is wanted wider where it is declared"
    if NUMBER.fullmatch(word) or word[0] == "'":
        return Cause(tree.start, what, ["look whether another value was meant", wider])
    return Cause(tree.start, what, ["where its values do fit, put (cast SORT ..) around it, with a test before", wider],
                 declared_notes(blame, word, tree))


def declared_notes(blame: Blame, word: str, tree: Tree) -> list[tuple[int, str]]:
    """Where the name of a word is declared."""
    return [(other.start, f"{word} is declared here") for other in declarations(blame) if other.word == word
            and other.start < tree.start][-1:]


def unknown_name(blame: Blame, tree: Tree) -> Cause:
    """What to say of a name that is not known where it stands."""
    word = tree.word
    others = [other for other in declarations(blame) if other.word == word]
    if others:
        cures = ["definitions see their parameters alone, search its parameters and the inputs: hand the value on as one more",
                 "move what declares it before this place"]
        return Cause(tree.start, f"the name {word} is not known here", cures,
                     [(others[0].start, f"{word} is declared here, for another scope")])
    like = [other for other in near(word, [other.word for other in declarations(blame)])
            if blame.moves([(tree.start, tree.end, other)])]
    cures = [f"did you mean {like[0]}? with it the fault is gone"] if like else []
    return Cause(tree.start, f"the name {word} is declared nowhere",
                 [*cures, f"declare it, as in (input {word} SORT)", f"for a tag write '{word}"][:2])


def needs_version_2(blame: Blame) -> bool:
    """Whether a program of version 1 would be taken further with version 2."""
    first = blame.forest[0]
    if blame.kind != "program" or len(first.items) != 2 or first.items[1].word != "1" or blame.form is first:
        return False
    return blame.moves([(first.items[1].start, first.items[1].end, "2")])


def version_cause(blame: Blame, tree: Tree) -> Cause:
    """What to say of a tag in a program of version 1."""
    return Cause(tree.start, f"tags and their sorts need version 2 of the format, and here is {shown(blame, tree)}",
                 ["begin with (program 2)", "take numbers in the place of tags"],
                 [(blame.forest[0].start, "the version stands here")])


def form_word_cause(blame: Blame, tree: Tree) -> Cause:
    """Why a word has no shape that may stand in its place."""
    word = tree.word
    if blame.answer[1] == "version":
        return Cause(tree.start, f"there is no version {word}", ["write 2 where the program has tags", "else write 1"])
    if blame.form.head() == "first":
        return Cause(tree.start, f"{word} is no number of answers to ask for", ["write a number from 1 to 1000000",
                                                                               "leave the form out where all answers are wanted"])
    if NUMBER.fullmatch(word):
        return Cause(tree.start, f"{word} is no number that may stand here",
                     ["numbers have no plus sign and no leading zeros, and go from -4611686018427387904 to 4611686018427387904",
                      "where a sort or a term is due, write that"])
    if word in known_words():
        return Cause(tree.start, f"{word} is a reserved word and stands where a term, a sort or a name is due",
                     [f"put it in brackets with its parts: ({word} ..)", "where it is meant as a name, take another"])
    if re.fullmatch(r"[bem]\d+", word):
        return Cause(tree.start, f"{word} is reserved: b, e, m with digits after them are no names",
                     [f"take another name, such as {word[0]}-{word[1:]}"])
    like = near(word, [*known_words(), "enum"])
    cures = [f"did you mean {like[0]}?"] if like else []
    return Cause(tree.start, f"{word} is no term, sort, name or number that may stand here",
                 [*cures, "look at the spelling: lower-case letters, digits and dashes",
                  "for a tag write an apostrophe before its name"][:2])


def list_cause(blame: Blame, finding: Finding) -> Cause:
    """Why a list is refused."""
    tree = finding.tree
    if finding.around and is_declared_there(finding.around[-1], tree, finding.around):
        return Cause(tree.start, f"{shown(blame, tree)} stands where a name is due", ["write the name alone, without brackets",
                                                                                      "look at the shape of this form in docs/REFERENCE.md"])
    for found in (version_of, sort_list_cause, head_cause, unknown_part, misplaced_cause, count_cause):
        told = found(blame, finding)
        if told:
            return told
    text = shown(blame, tree)
    if blame.answer[1] in ("form", "name", "limit") or not tree.items:
        return Cause(tree.start, f"{text}: {MEANINGS.get(blame.answer[1], 'it is refused')}",
                     ["look at the shape of this form in docs/REFERENCE.md",
                      "look for a part too many, too few, or in another order"])
    if finding.parts and all(is_number(blame, finding, part) for part in tree.items[1:]):
        return Cause(tree.start, f"the number or set that {text} may give by the sorts of its parts is beyond the limits",
                     ["make the sorts of its parts smaller: numbers lie within plus or minus 4611686018427387904, "
                      "and sets have members of at most 65,536 values",
                      "where the values are small, put (cast (int LO HI) ..) around a part, with a test before"])
    parts = " and ".join(shown(blame, part) for part in finding.parts) or "its parts"
    return Cause(tree.start, f"in {text} the sorts of {parts} do not go together",
                 ["give operators arguments of the kinds that they take, and compare values of one kind (docs/OPERATORS.md)",
                  "where a number may leave the limits, make the sorts of the parts smaller"])


def unknown_part(blame: Blame, finding: Finding) -> Cause | None:
    """The first name in a list that is not known there, where it stands more than once."""
    tree = finding.tree
    if blame.answer[1] != "sort" or not finding.cure and tree.head() not in ("call", "let", "emit"):
        return None
    if finding.cure and not blame.moves([(tree.start, tree.end, f"(if (eq 0 0) {finding.cure} {finding.cure})")]):
        return None
    trees = tree.all_trees()
    heads = {other.items[0].start for other in trees if other.items}
    bound = {other.items[1].word for other in trees if other.head() in DECLARES and len(other.items) > 1}
    for part in trees:
        word = part.word or ""
        if SPELLED.fullmatch(word) and part.start not in heads and word not in bound and word not in known_words():
            new = f"(if (eq {word} {word}) {finding.cure} {finding.cure})" if finding.cure else f"(if (eq {word} {word}))"
            if not blame.moves([(tree.start, tree.end, new)]):
                return unknown_name(blame, part)
    return None


def misplaced_cause(blame: Blame, finding: Finding) -> Cause | None:
    """A term that has a sort, which is not the one that is wanted in its place."""
    tree, text = finding.tree, shown(blame, finding.tree)
    if finding.cure is None or blame.answer[1] != "sort" or not blame.stands_alone(tree, finding.cure):
        return None
    parent = finding.around[-1].head() if finding.around else ""
    if parent in ("require", "ensure", "if"):
        return Cause(tree.start, f"{text} stands where a truth value is due, and is none",
                     ["compare it, as in (lt 0 n) or (eq n 1)", "look for an operator that was left out around it"])
    if parent == "for":
        return Cause(tree.start, f"for goes over the members of a set, and {text} is none",
                     ["write (range LO HI) for the numbers from LO to HI", "write (items v) for the items of a sequence"])
    return Cause(tree.start, f"the value of {text} may lie outside of the sort that is wanted here",
                 ["where the value does fit, put (cast SORT ..) around it, with a test before",
                  "make the sort that is wanted wider, or those of its parts narrower"])


def is_number(blame: Blame, finding: Finding, part: Tree) -> bool:
    """Whether a part is a number by its sort: kids takes it where it is compared with 0."""
    tree, cure = finding.tree, finding.cure
    spelled = blame.text[part.start:part.end]
    return cure is not None and blame.moves([(tree.start, tree.end, f"(if (le {spelled} 0) {cure} {cure})")])


def version_of(blame: Blame, finding: Finding) -> Cause | None:
    """A sort of tags in a program of version 1."""
    return version_cause(blame, finding.tree) if blame.answer[1] == "form" and needs_version_2(blame) else None


def head_cause(blame: Blame, finding: Finding) -> Cause | None:
    """A list whose first word is no operator, definition, statement or sort that could stand there."""
    tree, word = finding.tree, finding.tree.head()
    if not word:
        return None
    head = tree.items[0]
    defined = [form for form in blame.forest if form.head() == "def" and len(form.items) > 1
               and form.items[1].word == word]
    if blame.answer[1] == "cycle" or defined and defined[0].start >= blame.form.start:
        binder = "say it by a binder, such as sumof over a range, or write a program, whose search may call itself"
        if not defined or defined[0] is blame.form:
            return Cause(tree.start, f"a definition calls itself: {word}",
                         [binder, "look whether another definition was meant"])
        return Cause(tree.start, f"a definition calls one that stands later: {word}",
                     ["move the definition that is called before this one", binder],
                     [(defined[0].start, f"{word} is defined here")])
    if defined or word in known_words() and word not in OTHER_LANGUAGES:
        return None
    others = [*known_words(), "enum",
              *(form.items[1].word or "" for form in blame.forest if form.head() == "def" and len(form.items) > 1)]
    like = [] if word in OTHER_LANGUAGES else [other for other in near(word, others)
                                               if blame.moves([(head.start, head.end, other)])]
    if not like and not (word in OTHER_LANGUAGES or blame.judge.is_name(word) or not SPELLED.fullmatch(word)):
        return None
    if word in ("enum", "int", "bool") and not like:
        return None
    cures = [f"did you mean {like[0]}? with it the fault is gone"] if like else []
    cures += [f"write {OTHER_LANGUAGES[word]}"] if word in OTHER_LANGUAGES else []
    cures += [f"define it before: (def {word} (..) SORT TERM)"] if SPELLED.fullmatch(word) else []
    return Cause(tree.start, f"{word} is no operator, statement or sort, and no definition has the name",
                 [*cures, "look for the operator in docs/OPERATORS.md"][:2])


def count_cause(blame: Blame, finding: Finding) -> Cause | None:
    """A list with a part too many or too few."""
    tree, text = finding.tree, shown(blame, finding.tree)
    if len(tree.items) < 1 or finding.parts:
        return None
    for part in tree.items[1:]:
        if blame.moves([(part.start, part.end, "")]):
            return Cause(tree.start, f"{text} has a part too many",
                         ["and, or, add, mul, union and others take two: put one into the other" if len(tree.items) > 3
                          else
                          "look at its row in docs/OPERATORS.md",
                          f"without {shown(blame, part)} it has as many as it takes"])
    ends = [(part.end, part.end) for part in tree.items]
    for many in (1, 2):
        for at, _ in reversed(ends):
            for new in EXTRA:
                if blame.moves([(at, at, f" {new}" * many)]):
                    line, column = line_and_column(blame.text, at)
                    return Cause(tree.start, f"{text} has too few parts",
                                 [f"{WORDS[many]} more may stand at line {line}, column {column}",
                                  "look at its row in docs/REFERENCE.md or docs/OPERATORS.md"])
    return None


def sort_list_cause(blame: Blame, finding: Finding) -> Cause | None:
    """A sort that is not allowed: kids refuses it in a file of its own."""
    tree, text = finding.tree, shown(blame, finding.tree)
    if blame.answer[1] != "sort" or tree.head() not in ("int", "enum", "set", "seq", "map", "pair"):
        return None
    spelled = blame.text[tree.start:tree.end]
    alone = blame.judge.ask("program", f"(program 2)\n(input x {spelled})\n(require)\n")
    around = finding.around[-1].head() if finding.around else ""
    if alone != Answer((2, "sort")) and around not in ("set", "map"):
        return None
    if alone != Answer((2, "sort")):
        return Cause(tree.start, f"the sort {text} has too many values for the members of a set or the keys of a map",
                     ["take one of at most 65,536 values", "a sequence, (seq SORT N), may have items of any sort"])
    cures = {"int": ["the lower bound stands first", "bounds go from -4611686018427387904 to 4611686018427387904"],
             "enum": ["the names stand in alphabetical order, each once: " + ordered(tree), "there are 1 to 64 of them"]}
    return Cause(tree.start, f"the sort {text} is not allowed",
                 cures.get(tree.head(),
                           ["members and keys are of a sort of at most 65,536 values", "sorts are at most 8 deep"]))


def ordered(tree: Tree) -> str:
    """A sort of tags with its names in order."""
    return "(enum " + " ".join(sorted({part.word or "" for part in tree.items[1:]})) + ")"
