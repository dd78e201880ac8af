"""Inputs and scripts: which value is to blame, and why a script gives no program for a theory."""
from __future__ import annotations

import re

from explain_cause import Cause
from explain_judge import UNBUILT, Judge
from explain_text import Tree, read


def input_forms(beside: str) -> list[tuple[str, str]]:
    """The names and sorts of the inputs of a theory or a program."""
    forest, _ = read(beside)
    forms = [form for form in forest if form.head() == "input" and len(form.items) == 3]
    return [(form.items[1].word or "", beside[form.items[2].start:form.items[2].end]) for form in forms]


def inputs_cause(judge: Judge, text: str, forest: list[Tree], number: int, beside: str) -> Cause:
    """Which value of a refused form is to blame."""
    form, inputs = forest[number - 1], input_forms(beside)
    wanted = ", ".join(f"{name} {sort}" for name, sort in inputs) or "none, which is ()"
    if form.word is not None or form.head() in ("set", "seq", "map", "pair") and not (form.items[1:] and len(inputs) > 1):
        return Cause(form.start, "an input is a list of values, also where it is one value",
                     [f"put brackets around it: ({text[form.start:form.end][:30]})",
                      f"the values are: {wanted}"])
    for tree, (name, sort) in zip(form.items, inputs):
        if not judge.is_value(sort, text[tree.start:tree.end]):
            return value_cause(judge, text, tree, name, sort)
    if len(form.items) > len(inputs):
        return Cause(form.items[len(inputs)].start, f"a value too many: an input has {len(inputs)}",
                     ["end the list before it and begin another",
                      f"the values are: {wanted}"])
    return Cause(form.end - 1, f"a value too few: an input has {len(inputs)}, and here are {len(form.items)}",
                 [f"add a value for {inputs[len(form.items)][0]}", f"the values are: {wanted}"])


def value_cause(judge: Judge, text: str, tree: Tree, name: str, sort: str) -> Cause:
    """The smallest part of a value that is none of its sort."""
    parts = sort_parts(sort)
    for part, of in inner_values(tree, parts):
        if not judge.is_value(of, text[part.start:part.end]):
            return value_cause(judge, text, part, name, of)
    shown = " ".join(text[tree.start:tree.end].split())[:60]
    keys = [item.items[0] for item in tree.items[1:] if item.items] if parts[:1] == ["map"] else []
    spelled = [text[key.start:key.end] for key in keys]
    twice = [key for at, key in enumerate(keys) if spelled[at] in spelled[:at]]
    if twice:
        return Cause(twice[0].start, f"the map has the key {text[twice[0].start:twice[0].end]} twice",
                     ["leave one of the two out", "look for a typing error in a key"])
    return Cause(tree.start, f"{shown} is no value of {sort}, which is wanted here for {name}",
                 value_cures(tree, parts, shown))


def value_cures(tree: Tree, parts: list[str], shown: str) -> list[str]:
    """What may help where a value is not of its sort."""
    if parts[:1] == ["enum"]:
        return ["write a tag with an apostrophe, and one of the names of the sort" if not shown.startswith("'") else
                "look at the spelling of the tag: the names are " + " ".join(parts[1:]), "add the name to the sort"]
    if parts[:1] == ["bool"]:
        return ["write true or false", "look whether the values stand in the order of the inputs"]
    if tree.word is None and parts[:1] in (["set"], ["seq"], ["map"], ["pair"]) and tree.head() == parts[0]:
        return ["look how many parts it has: a sequence has no more than its sort says, a pair two, and each key of a map its value",
                "make the sort wider"]
    if parts[:1] == ["int"]:
        return ["mend the value: a number within the bounds, without plus sign and leading zeros",
                "make the sort wider where it is declared"]
    return [f"write it as ({parts[0]} ..)", "look whether the values stand in the order of the inputs"]


def sort_parts(sort: str) -> list[str]:
    """The word of a sort and the texts of its parts."""
    forest, _ = read(sort)
    tree = forest[0]
    return [tree.word] if tree.word is not None else [sort[part.start:part.end] for part in tree.items]


def inner_values(tree: Tree, parts: list[str]) -> list[tuple[Tree, str]]:
    """The values in a value, with their sorts, where it is spelled as the sort wants it."""
    if not parts or tree.word is not None or tree.head() != parts[0]:
        return []
    if parts[0] in ("set", "seq"):
        return [(item, parts[1]) for item in tree.items[1:]]
    if parts[0] == "pair":
        return list(zip(tree.items[1:], parts[1:]))
    if parts[0] == "map":
        entries = [item for item in tree.items[1:] if len(item.items) == 2]
        return [(part, of) for item in entries for part, of in zip(item.items, parts[1:])]
    return []


def script_cause(judge: Judge, text: str, forest: list[Tree], theory: str) -> Cause | None:
    """Why a script is refused: by itself, or since it gives no program for the theory."""
    simple = "(theory t)\n(require true)\n(output z (int 0 1))\n(ensure true)\n"
    if judge.ask("script", text, simple) == UNBUILT:
        at = forest[1].start if len(forest) > 1 and forest[0].head() == "match" and len(forest[0].items) == 2 else forest[0].start if forest else 0
        return Cause(at, "the script is another one than (match range), and no other is built",
                     ["write (match range) and nothing else",
                      "write the program by hand (docs/GUIDE.md)"])
    if not theory or judge.ask("script", text, theory) != UNBUILT:
        return None
    return Cause(forest[0].start,
                 "the script is right, and it gives no program for this theory: tools/explain THEORY says why",
                 ["look at the theory's output and at the names low and high",
                  "write the program by hand (docs/GUIDE.md)"])


def unbuilt_cause(judge: Judge, text: str, forest: list[Tree]) -> Cause | None:
    """Why there is no program for a theory that is read."""
    script = "(match range)\n"
    if judge.ask("script", script, text) != UNBUILT:
        return None
    renamed = re.sub(r"(?<![\w'-])(low|high)(?![\w-])", r"\1-renamed", text)
    if renamed != text and judge.ask("script", script, renamed) != UNBUILT:
        taken = next(tree for form in forest for tree in form.all_trees() if tree.word in ("low", "high"))
        return Cause(taken.start, f"the search takes the names low and high, and {taken.word} stands here",
                     [f"take another name, such as the-{taken.word}",
                      f"or {taken.word}est"])
    output = next(form for form in forest if form.head() == "output")
    sort = output.items[2]
    ensure = next(form for form in forest if form.head() == "ensure")
    plain = text[:sort.start] + "(int 0 1)" + text[sort.end:ensure.start] + "(ensure true)" + text[ensure.end:]
    kept = text[:ensure.start] + "(ensure true)" + text[ensure.end:]
    if judge.ask("script", script, kept) == UNBUILT and judge.ask("script", script, plain) != UNBUILT:
        return Cause(sort.start, "no script is built that searches this sort of outputs",
                     ["take a sort of integers within plus or minus 2305843009213693951",
                      "write the program by hand (docs/GUIDE.md)"])
    return Cause(ensure.start, "the condition is too large once casts stand in it, or the program would be",
                 ["make definitions of its parts",
                  "make the condition smaller"])
