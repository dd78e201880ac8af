"""Forms that are missing, too many, or not in their order.

kids is asked about the file with forms added, moved and taken away.
"""
from __future__ import annotations

import difflib

from explain_blame import Blame
from explain_cause import Cause
from explain_judge import ACCEPTED
from explain_text import Tree, named

DUE = {"theory": ["(theory fresh-name)", "(require true)", "(output fresh-name bool)", "(ensure true)"],
       "program": ["(program 2)", "(require true)", "(output fresh-name bool)", "(main)", "(search ())"]}
HEADS = {"theory": ["theory", "def", "input", "require", "axiom", "law", "output", "ensure", "first"],
         "program": ["program", "def", "input", "require", "output", "first", "main", "search"]}
SHAPES = {"theory": "(theory NAME)", "program": "(program 1) or (program 2)",
          "def": "(def NAME ((NAME SORT) ..) SORT TERM)",
          "input": "(input NAME SORT)", "require": "(require TERM)", "output": "(output NAME SORT)",
          "ensure": "(ensure TERM)",
          "first": "(first K), with K from 1 to 1000000", "main": "(main STATEMENT ..)",
          "search": "(search ((NAME SORT) ..) STATEMENT ..)",
          "axiom": "(axiom NAME ((NAME SORT) ..) (given TERM ..) (holds TERM)) or (.. (equal TERM TERM))",
          "law": "(law NAME ((NAME SORT) ..) (given TERM ..) (holds TERM) (by MOVE ..)) or (.. (equal TERM TERM) (by MOVE ..))"}
ORDER = {"theory": "theory, def.., input.., require, axiom.. and law.. as they come, output, ensure, first",
         "program": "program, def.., input.., require, output, first, main, search"}


def missing_at_end(blame: Blame) -> Cause:
    """What to say where the file ends without a form that is due."""
    last = blame.forest[-1] if blame.forest else None
    at = last.end - 1 if last else 0
    for due in DUE[blame.kind]:
        if blame.judge.ask(blame.kind, f"{blame.text}\n{due}\n").is_later(blame.answer):
            head = due[1:].split()[0].rstrip(")")
            return Cause(at, f"behind this the form {SHAPES[head]} is missing",
                         [f"add {SHAPES[head]}", f"the order is {ORDER[blame.kind]}"])
    return Cause(at, "behind this a form is missing",
                 [f"the order is {ORDER[blame.kind]}", "look whether the file was cut off"])


def form_cause(blame: Blame) -> Cause | None:
    """What to say of a form that has another place or another head than may stand there; nothing where its parts are to blame."""
    form = blame.form
    if blame.answer[1] == "limit":
        return limit_cause(blame, form)
    if blame.answer[1] != "form":
        return None
    return head_cause(blame, form) or due_before(blame, form) or moved(blame, form) or shape_cause(blame,
                                                                                                   form) or in_excess(blame, form)


def head_cause(blame: Blame, form: Tree) -> Cause | None:
    """A form whose first word is none of those that forms begin with."""
    head = form.head()
    if head in HEADS[blame.kind]:
        return None
    text = blame.text[form.start:form.start + 40].split("\n")[0]
    if form.word is not None or not head:
        return Cause(form.start, f"{text}: a form is a list that begins with a word such as input",
                     ["look for a bracket that closes too early before it", f"the forms are {ORDER[blame.kind]}"])
    like = difflib.get_close_matches(head, HEADS[blame.kind], 2, 0.5)
    cures = [f"did you mean {like[0]}?"] if like else []
    if blame.answer[0] == 1:
        cures = ["look at the order of the words of the command: each file has its place", *cures]
    return Cause(form.start, f"no form of a {blame.kind} begins with {head}",
                 [*cures, f"the forms are {ORDER[blame.kind]}"][:2])


def due_before(blame: Blame, form: Tree) -> Cause | None:
    """A form that is right, but before which another is due."""
    number = blame.answer[0]
    for due in DUE[blame.kind]:
        text = blame.text[:form.start] + due + "\n" + blame.text[form.start:]
        found = blame.judge.ask(blame.kind, text)
        if found[0] > number + 1 or found[0] == number + 1 and found[1] != "form":
            head = due[1:].split()[0].rstrip(")")
            return Cause(form.start, f"before {named(blame.text, form.start)} the form {SHAPES[head]} is missing",
                         [f"add {SHAPES[head]} before it" + (", such as (require true)" if head == "require" else ""),
                          f"the order is {ORDER[blame.kind]}"])
    return None


def moved(blame: Blame, form: Tree) -> Cause | None:
    """A form that is right at an earlier place."""
    number, text = blame.answer[0], blame.text[form.start:form.end]
    without = blame.text[:form.start] + blame.text[form.end:]
    for other in blame.forest[1:number - 1]:
        found = blame.judge.ask(blame.kind, without[:other.start] + text + "\n" + without[other.start:])
        if found[0] > number or found == ACCEPTED:
            return Cause(form.start,
                         f"{named(blame.text, form.start)} stands too late: it belongs before {named(blame.text, other.start)}",
                         [f"move it before {named(blame.text, other.start)}", f"the order is {ORDER[blame.kind]}"],
                         [(other.start, "this stands behind it")])
    return None


def in_excess(blame: Blame, form: Tree) -> Cause | None:
    """A form without which the fault moves on."""
    same = [other for other in blame.forest if other.head() == form.head() and other.start < form.start
            and form.head() not in ("def", "input", "axiom", "law")]
    found = blame.judge.ask(blame.kind, blame.text[:form.start] + blame.text[form.end:])
    is_last = blame.answer[0] == len(blame.forest)
    if not same or not (found == ACCEPTED or found[0] > len(blame.forest) - 1 or not is_last
                        and found[0] >= blame.answer[0] and found[1] != "form"):
        return None
    return Cause(form.start, f"there is one {named(blame.text, form.start)} too many",
                 ["take one of them away", "put conditions together with (and p q)"],
                 [(same[0].start, "another stands here")])


def shape_cause(blame: Blame, form: Tree) -> Cause | None:
    """A form with another number of parts than its shape has."""
    least = {"theory": 2, "program": 2, "def": 5, "input": 3, "require": 2, "output": 3, "ensure": 2, "first": 2,
             "axiom": 5, "law": 6, "search": 2, "main": 1}
    head, count = form.head(), len(form.items)
    exact = head not in ("main", "search")
    if count >= least[head] and (not exact or count == least[head]):
        return None
    what = "few" if count < least[head] else "many"
    at = form.start if what == "few" else form.items[least[head]].start
    return Cause(at, f"{named(blame.text, form.start)} has too {what} parts: its shape is {SHAPES[head]}",
                 [f"write {SHAPES[head]}", "look for a bracket that closes too early or too late in it"])


def limit_cause(blame: Blame, form: Tree) -> Cause | None:
    """A form too many, or a definition whose calls go too deep."""
    if form.head() == "input":
        return Cause(form.start, "there are more than 16 inputs",
                     ["put some together as a pair, a sequence or a map", "look for inputs that nothing uses"])
    if form.head() == "def" and blame.answer[0] <= 1024:
        return Cause(form.start, "calls of definitions go more than 16 deep here",
                     ["put a body in the place of a call", "put definitions together"])
    return Cause(form.start, "there are more than 1,024 forms",
                 ["put definitions together", "put conditions into one with and"])
