"""Edits of planted/ and must-fail/: what they change, and in which function."""
import itertools
import re


class Bad(Exception):
    """Why an edit cannot be tried."""


class Edit:
    """An edit, and where it stands in the crate."""

    def __init__(self, file, folder):
        self.name, self.path, self.pairs, old = file.stem, None, [], None
        for line in file.read_text().split("\n"):
            if line.startswith("file: "):
                if self.path:
                    raise Bad("it names two files")
                self.path = line[len("file: "):].strip()
            elif line.startswith("old: "):
                old = line[len("old: "):]
            elif line.startswith("new:"):
                self.pairs.append((old, line[len("new:"):].removeprefix(" ")))
        if not self.path or not self.pairs or not (folder / self.path).is_file():
            raise Bad("it names no file, or has no pair of texts")
        text = (folder / self.path).read_text()
        self.applied(text)
        self.function, self.cycle = function_at(folder, text, text.index(self.pairs[0][0]), self.path)

    def applied(self, text):
        """The text with the edit."""
        for old, new in self.pairs:
            if text.count(old) != 1:
                raise Bad(f"an old text stands there {text.count(old)} times")
            text = text.replace(old, new)
        return text


def impl_name(line):
    """How rattle names an impl: its type, and after that its trait with the names of the trait's own arguments."""
    said = re.sub(r"^impl\s*", "", line)
    if said.startswith("<"):
        depth = 0
        for at, letter in enumerate(said):
            depth += (letter == "<") - (letter == ">")
            if depth == 0:
                said = said[at + 1:]
                break
    said = re.split(r"\bwhere\b|\{", said)[0].strip()
    short = lambda one: re.match(r"&?(?:\w+::)*(\w+)", one.strip())[1]
    if " for " not in said:
        return short(said)
    trait, of = said.split(" for ")
    inside = re.search(r"<(.*)>", trait)
    arguments = [short(one) for one in inside[1].split(",")] if inside else []
    return short(of) + short(trait) + "".join(arguments)


def module_of(path):
    """The module of a file of src/."""
    return [part for part in str(path).removesuffix(".rt").split("/")[1:] if part not in ("lib", "mod", "main")]


def function_at(folder, text, place, path):
    """The names by which rattle knows the function around a place of a file, and the cycle of calls that it is in, or None twice where there is none."""
    rows = text.split("\n")
    at = text.count("\n", 0, place)
    for above in range(at, -1, -1):
        found = re.match(r"( *)(?:pub(?:\([^)]*\))? )?(?:const |unsafe )*fn (\w+)", rows[above])
        if not found:
            continue
        if any(row == found[1] + "}" for row in rows[above:at]):
            break
        module, names = module_of(path), [found[2]]
        if found[1]:
            owner = next((row for row in reversed(rows[:above]) if re.match(r"\S", row) and row != "}"), "")
            if not owner.startswith("impl"):
                break
            names.insert(0, impl_name(owner))
            # A type's own methods are known by the module that has the type.
            if " for " not in owner:
                has = re.compile(rf"^pub(\([^)]*\))? (struct|enum) {names[0]}\b", re.M)
                module = next((module_of(file.relative_to(folder)) for file in folder.glob("src/**/*.rt") if has.search(file.read_text())), module)
        name = "::".join([*module, *names])
        marks = itertools.takewhile(lambda row: re.match(r" *(#\[|//)", row), reversed(rows[:above]))
        cycle = next(filter(None, (re.match(r" *#\[cycle\((.*)\)\]", row) for row in marks)), None)
        return name, f"+{cycle[1]}" if cycle else name
    return None, None
