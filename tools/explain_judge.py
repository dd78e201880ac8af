"""kids as the judge of texts: which form it refuses, and with which code."""
from __future__ import annotations

import os
import pathlib
import re
import shutil
import subprocess
import tempfile

TOP = pathlib.Path(__file__).resolve().parent.parent
SCRIPT = "(match range)\n"
SECONDS = 60
# the order in which the codes of one form are judged
RANKS = {"large": 0, "read": 1, "limit": 2, "version": 3, "form": 3, "name": 4, "cycle": 5, "sort": 6, "proof": 7}
PROGRAM = re.compile(r"(?:\s|;[^\n]*\n)*\(\s*program\b")
ANSWER = re.compile(r"\((theory|program|inputs|unbuilt) (\d+)(?: (\w+))?\)")


class NoProgram(Exception):
    """There is no built program that could be asked."""


def program() -> str:
    """The built program: that of KIDS_PROGRAM, that of the repository, or the first on the PATH that is no launcher."""
    named = os.environ.get("KIDS_PROGRAM")
    if named:
        return os.path.abspath(named)
    built = TOP / "crates" / "kids" / "out" / "kids"
    if os.access(built, os.X_OK):
        return str(built)
    found = shutil.which("kids")
    if found and pathlib.Path(found).read_bytes()[:2] != b"#!":
        return os.path.abspath(found)
    raise NoProgram


class Answer(tuple):
    """The form that is refused and the code; what is accepted is beyond all forms."""

    def is_later(self, other: "Answer") -> bool:
        """Whether this fault lies further on: in a later form, or of a code that is judged later."""
        return (self[0], RANKS.get(self[1], 9)) > (other[0], RANKS.get(other[1], 9))


ACCEPTED = Answer((10**9, "accepted"))
UNBUILT = Answer((10**9, "unbuilt"))


class Judge:
    """Asks the program about texts, and remembers the answers."""

    def __init__(self, most: int = 4000) -> None:
        """Finds the program; `most` is how often it may be asked."""
        self.program = program()
        self.left = most
        self.asked = 0
        self.known: dict[tuple[str, ...], Answer] = {}
        self.folder = tempfile.TemporaryDirectory(prefix="kids-explain-")

    def close(self) -> None:
        """Takes the files away."""
        self.folder.cleanup()

    def ran(self, words: str, files: dict[str, str]) -> Answer:
        """What the program says about files."""
        key = (words, *files.values())
        if key not in self.known:
            self.left -= 1
            self.asked += 1
            for name, text in files.items():
                (pathlib.Path(self.folder.name) / name).write_bytes(text.encode("latin-1"))
            ended = subprocess.run([self.program, *words.split()], cwd=self.folder.name, stdin=subprocess.DEVNULL,
                                   capture_output=True, timeout=SECONDS)
            self.known[key] = self.told(ended.returncode, ended.stderr.decode("latin-1"))
        return self.known[key]

    @staticmethod
    def told(status: int, err: str) -> Answer:
        """The answer that a status and a line tell."""
        found = ANSWER.match(err)
        if status in (0, 4):
            return ACCEPTED
        if not found:
            raise RuntimeError(f"kids ended with the status {status} and said {err.strip() or 'nothing'}")
        kind, form, code = found.groups()
        return UNBUILT if kind == "unbuilt" else Answer((int(form), code or kind))

    def ask(self, kind: str, text: str, beside: str = "") -> Answer:
        """The answer to a theory, a program, the inputs of a theory or a program, or a script with its theory."""
        if kind == "theory":
            found = self.ran("solve t s i", {"t": text, "s": SCRIPT, "i": ""})
            return ACCEPTED if found == UNBUILT else found
        if kind == "program":
            return self.ran("run p i", {"p": text, "i": ""})
        if kind == "script":
            return self.ran("solve t s i", {"t": beside, "s": text, "i": ""})
        if PROGRAM.match(beside):
            return self.ran("run p i --fuel 1", {"p": beside, "i": text})
        return self.ran("solve t s i --fuel 1", {"t": beside, "s": SCRIPT, "i": text})

    def is_name(self, word: str) -> bool:
        """Whether a word may be declared."""
        return self.ask("program", f"(program 1)\n(input {word} bool)\n(require)\n")[0] > 2

    def is_value(self, sort: str, spelled: str) -> bool:
        """Whether a text spells one value of a sort."""
        beside = f"(program 2)\n(input x {sort})\n(require true)\n(output y bool)\n(main)\n(search ())\n"
        return self.ask("inputs", f"({spelled})\n", beside) == ACCEPTED
