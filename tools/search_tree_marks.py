"""Programs that tell of the calls of another program.

A program is a list of forms, a form a word or a list of forms. What is read here was read by kids before, so it has
the shape of a program.
"""
import re
from dataclasses import dataclass

Form = str | list

VISIT, FOUND, REFUSED = range(3)
KINDS = 3


def read(text: str) -> list[Form]:
    """The forms of a text whose brackets fit."""
    open_lists: list[list[Form]] = [[]]
    for token in re.findall(r";[^\n]*|[()]|[^\s();]+", text):
        if token == "(":
            open_lists.append([])
        elif token == ")":
            done = open_lists.pop()
            open_lists[-1].append(done)
        elif not token.startswith(";"):
            open_lists[-1].append(token)
    return open_lists[0]


def text_of(form: Form) -> str:
    """The text of a form, with one space between the members of a list."""
    return form if isinstance(form, str) else f"({' '.join(map(text_of, form))})"


def words_of(form: Form) -> set[str]:
    """All words of a form."""
    return {form} if isinstance(form, str) else set().union(*map(words_of, form))


@dataclass
class Marks:
    """What a marked program finds: each call as it is begun, each refused call, and in `shape` each found value.

    In `shape` they are numbers, of the depth of the call and the kind of the mark. Else they are the values of one
    argument. Both are in the order of the run.
    """

    depth: str
    deepest: int
    argument: int | None = None

    def number(self, depth: Form, kind: int) -> list[Form]:
        """The statement that marks something at a depth."""
        return ["emit", ["add", ["mul", str(KINDS), depth], str(kind)]]

    def sort(self, parameters: list[Form]) -> Form:
        """The sort of what is found."""
        if self.argument is None:
            return ["int", "0", str(KINDS * (self.deepest + 1))]
        return parameters[self.argument][1]

    def visit(self, parameters: list[Form]) -> Form:
        """What marks the call that was begun."""
        if self.argument is None:
            return self.number(self.depth, VISIT)
        return ["emit", parameters[self.argument][0]]

    def found(self, depth: Form) -> list[Form]:
        """The statements in place of one that finds a value."""
        return [self.number(depth, FOUND)] if self.argument is None else []

    def refused(self, depth: Form, call: Form) -> Form:
        """What marks a call that is not begun."""
        return self.number(depth, REFUSED) if self.argument is None else ["emit", call[1 + self.argument]]

    def below(self, depth: Form) -> Form:
        """The depth of a call from this depth."""
        if depth == "0":
            return "1"
        return ["cast", ["int", "1", str(self.deepest)], ["add", depth, "1"]]


def is_tested_call(statement: Form) -> bool:
    """Whether the statement tests and does nothing else than to call, perhaps after names are bound."""
    body = statement[2:]
    return (statement[0] == "if" and statement[1] != "true" and bool(body) and body[-1][0] == "call"
            and all(before[0] == "let" for before in body[:-1]))


def marked_row(row: list[Form], depth: Form, tests: bool, marks: Marks) -> list[Form]:
    """A row of statements with marks. `tests` says that calls under a test in this row are kids that may be refused."""
    new: list[Form] = []
    for statement in row:
        word = statement[0]
        if word == "emit":
            new += marks.found(depth)
        elif word == "call":
            new.append([*statement, marks.below(depth)])
        elif word == "let":
            new.append(statement)
        else:
            front = 2 if word == "if" else 3
            body = marked_row(statement[front:], depth, True, marks)
            # what finds nothing more may be left out, and a statement has to have a body
            new += [[*statement[:front], *body]] if body else []
            if tests and is_tested_call(statement):
                mark = marks.refused(marks.below(depth), statement[-1])
                new.append(["if", ["not", statement[1]], *statement[2:-1], mark])
    return new


def fresh_name(program: list[Form]) -> str:
    """A name that no form has."""
    taken = words_of(program)
    names = ["depth", *(f"depth-{number}" for number in range(len(taken) + 1))]
    return next(name for name in names if name not in taken)


def parameters_of(program: list[Form]) -> list[Form]:
    """The parameters of the search procedure, each a name and a sort."""
    return program[-1][1]


def marked(program: list[Form], deepest: int, argument: int | None = None) -> list[Form]:
    """The program that makes the same calls and finds marks: of its shape, or the values of one argument."""
    marks = Marks(fresh_name(program), deepest, argument)
    parameters = parameters_of(program)
    new: list[Form] = []
    for form in program:
        if form[0] == "output":
            form = [*form[:2], marks.sort(parameters)]
        elif form[0] == "main":
            form = ["main", *marked_row(form[1:], "0", True, marks)]
        elif form[0] == "search":
            places = [*parameters, [marks.depth, ["int", "1", str(deepest)]]]
            # an `if` of the procedure itself says of what kind the call is, and those within it which kids it has
            form = ["search", places, marks.visit(parameters), *marked_row(form[2:], marks.depth, False, marks)]
        new.append(form)
    return new
