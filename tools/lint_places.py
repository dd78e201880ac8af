"""Forms of a theory or program with the places where they stand, and the terms in them that may give a default."""
import re
from dataclasses import dataclass, field
from typing import Iterator

Form = str | list
TOKEN = re.compile(r";[^\n]*|[()]|[^\s();]+")
BINDERS = ("all", "some", "setof", "image", "sumof")
# the operators that have a default, and which of their terms decide whether it is taken
DECIDED_BY = {"cast": [2], "get": [1, 2], "at": [1, 2], "least": [1], "div": [2], "mod": [2]}
Path = tuple[int, ...]


class Word(str):
    """A word, and where it stands."""

    place: tuple[int, int]


class Row(list):
    """A list of forms, and where it begins."""

    place: tuple[int, int]


def read(text: str) -> list[Form]:
    """The forms of a text whose brackets fit, each with the line and the column where it begins, from 1."""
    rows: list[Row] = [Row()]
    for token in TOKEN.finditer(text):
        found = token.group()
        if found.startswith(";"):
            continue
        if found == ")":
            done = rows.pop()
            rows[-1].append(done)
            continue
        new = Row() if found == "(" else Word(found)
        start = text.rfind("\n", 0, token.start())
        new.place = (text.count("\n", 0, token.start()) + 1, token.start() - start)
        rows.append(new) if found == "(" else rows[-1].append(new)
    return list(rows[0])


def text_of(form: Form) -> str:
    """The text of a form, with one space between the members of a list."""
    return form if isinstance(form, str) else f"({' '.join(map(text_of, form))})"


def words_of(form: Form) -> set[str]:
    """All words of a form."""
    return {str(form)} if isinstance(form, str) else set().union(*map(words_of, form))


def names_in(form: Form) -> set[str]:
    """The words of a form that are bound or declared somewhere in it: names of values."""
    if isinstance(form, str) or not form:
        return set()
    found = {str(form[1])} if form[0] in (*BINDERS, "input", "output", "let", "for") else set()
    if form[0] in ("def", "search"):
        found |= {str(parameter[0]) for parameter in form[2 if form[0] == "def" else 1]}
    return found.union(*map(names_in, form[1:]))


@dataclass
class Test:
    """A condition that is true where what stands behind it is evaluated, and where it stands.

    `bound` says that it is no test, but that a binder or a `for` takes a name from a set.
    """

    condition: Form
    place: tuple[int, int]
    bound: bool = False


@dataclass
class Site:
    """A term that may give a default: the form and the path to it there, and the tests that stand before it."""

    form: int
    path: Path
    term: Form
    tests: list[Test] = field(default_factory=list)

    @property
    def operator(self) -> str:
        """Its first word."""
        return str(self.term[0])

    def deciding(self) -> set[str]:
        """The words of the terms that decide whether the default is taken."""
        return set().union(*(words_of(self.term[at]) for at in DECIDED_BY[self.operator]))

    def test(self, names: set[str]) -> Test | None:
        """The nearest test before it that speaks of a name which decides, of these names of values, or none.

        Where there is none before a look-up, the nearest set from which a name in it is taken says what may be asked for.
        """
        deciding = names & self.deciding()
        near = [test for test in reversed(self.tests) if deciding & words_of(test.condition)]
        tests = [test for test in near if not test.bound] or [test for test in near if self.operator in ("get", "at")]
        return tests[0] if tests else None


def test_before(term: Form, at: int) -> list[Test]:
    """The test that stands in a term or statement before its part at a place: none, or one."""
    head, first = term[0], term[1]
    if not isinstance(first, (Row, Word)):
        return []
    if head == "if" and at == 2 or head in ("and", "implies") and at == 2:
        return [Test(first, first.place)]
    if head == "if" and at == 3 or head == "or" and at == 2:
        return [Test(["not", first], first.place)]
    if head in (*BINDERS, "for") and at == 3:
        return [Test(["in", first, term[2]], first.place, bound=True)]
    return []


def sites_in(form: int, term: Form, path: Path, tests: list[Test]) -> Iterator[Site]:
    """The sites of a term, those within others first, each with the tests of the term itself that stand before it."""
    if isinstance(term, str) or not term:
        return
    head = term[0]
    for at, part in enumerate(term[1:], 1):
        if not (head == "cast" and at == 1):
            yield from sites_in(form, part, (*path, at), [*tests, *test_before(term, at)])
    if head in DECIDED_BY:
        yield Site(form, path, term, tests)


def sites_of_row(form: int, row: list[Form], path: Path, first: int, tests: list[Test]) -> Iterator[Site]:
    """The sites of the statements of a row that begin at the place `first` of their list."""
    for at, statement in enumerate(row[first:], first):
        here = (*path, at)
        word = statement[0]
        if word in ("let", "emit"):
            yield from sites_in(form, statement[-1], (*here, len(statement) - 1), tests)
        elif word == "call":
            for place, term in enumerate(statement[1:], 1):
                yield from sites_in(form, term, (*here, place), tests)
        else:
            term_at = 1 if word == "if" else 2
            yield from sites_in(form, statement[term_at], (*here, term_at), tests)
            inner = [*tests, *test_before(statement, term_at + 1)]
            yield from sites_of_row(form, statement, here, term_at + 1, inner)


def sites(forms: list[Form]) -> list[Site]:
    """All sites of a program whose terms have places, in the order of their places."""
    found: list[Site] = []
    for number, form in enumerate(forms):
        if form[0] == "def":
            found += sites_in(number, form[4], (4,), [])
        elif form[0] == "require":
            found += sites_in(number, form[1], (1,), [])
        elif form[0] == "main":
            found += sites_of_row(number, form, (), 1, [])
        elif form[0] == "search":
            found += sites_of_row(number, form, (), 2, [])
    return sorted((site for site in found if isinstance(site.term, Row)), key=lambda site: site.term.place)


def with_term(form: Form, path: Path, new: Form) -> Form:
    """A form with another term at a path."""
    if not path:
        return new
    at, *rest = path
    return [*form[:at], with_term(form[at], tuple(rest), new), *form[at + 1:]]


# ---- whether a site takes its default -------------------------------------------


FALSE = "false"


def either(terms: list[Form]) -> Form:
    """A term that is true where one of the terms is."""
    kept = [term for term in terms if term != FALSE]
    if not kept:
        return FALSE
    return kept[0] if len(kept) == 1 else ["if", kept[0], "true", either(kept[1:])]


def both(test: Form, term: Form) -> Form:
    """A term that is true where both are, false where the second never is."""
    return FALSE if term == FALSE else ["and", test, term]


def default_of(term: Form) -> Form:
    """A term that is true where this one takes its default."""
    word = term[0]
    if word == "cast":
        return ["not", ["eq", term, term[2]]]
    if word == "get":
        return ["not", ["in", term[2], ["dom", term[1]]]]
    if word == "at":
        return ["if", ["lt", term[2], "1"], "true", ["lt", ["len", term[1]], term[2]]]
    if word == "least":
        return ["eq", term[1], ["set"]]
    return ["eq", term[2], "0"]


@dataclass
class Taken:
    """Terms that tell whether one site is reached and takes its default, where another term is evaluated.

    `calls` has the definitions in which the site is, or which call one of these: for each the name of the definition
    that tells it.
    """

    site: Site
    calls: dict[str, str] = field(default_factory=dict)

    def of(self, term: Form) -> Form:
        """Whether the site takes its default where this term is evaluated and its value matters."""
        if isinstance(term, str) or not term:
            return FALSE
        head = term[0]
        if head == "if":
            return either([self.of(term[1]), both(term[1], self.of(term[2])), both(["not", term[1]], self.of(term[3]))])
        if head in ("and", "implies"):
            return either([self.of(term[1]), both(term[1], self.of(term[2]))])
        if head == "or":
            return either([self.of(term[1]), both(["not", term[1]], self.of(term[2]))])
        if head in BINDERS:
            inner = self.of(term[3])
            return either([self.of(term[2]), FALSE if inner == FALSE else ["some", term[1], term[2], inner]])
        parts = term[2:] if head == "cast" else term[1:]
        own = default_of(term) if term is self.site.term else FALSE
        within = [self.calls[head], *parts] if head in self.calls else FALSE
        return either([*map(self.of, parts), own, within])

    def row(self, row: list[Form]) -> list[Form]:
        """The statements of a row, with one that finds `true` before each in which the site takes its default."""
        new: list[Form] = []
        for statement in row:
            word = statement[0]
            front = {"if": 2, "for": 3}.get(word, len(statement))
            terms = [statement[-1]] if word in ("let", "emit") else statement[1:] if word == "call" else [statement[front - 1]]
            test = either([self.of(term) for term in terms])
            new += [] if test == FALSE else [["if", test, ["emit", "true"]]]
            if word in ("if", "for"):
                body = self.row(statement[front:])
                new += [[*statement[:front], *body]] if body else []
            elif word != "emit":
                new.append(statement)
        return new

    def definitions(self, forms: list[Form], fresh: list[str]) -> list[Form]:
        """The definitions, each followed by the one that tells of it where there is one."""
        new: list[Form] = []
        for form in forms:
            if form[0] != "def":
                continue
            new.append(form)
            test = self.of(form[4])
            if test != FALSE:
                name = fresh.pop()
                self.calls[form[1]] = name
                new.append(["def", name, form[2], "bool", test])
        return new
