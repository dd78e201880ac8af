"""What a hostile or unlucky user gives to kids, and what has to come of it.

The answers are taken from docs/REFERENCE.md and from thought, and none of them from a run of the program.
"""
from collections.abc import Callable, Iterator
from dataclasses import dataclass, field
from functools import partial

THEORY = b"""(theory square)
(input n (int 0 100))
(require (le 1 n))
(output z (int 1 10))
(ensure (eq (mul z z) n))
"""
SCRIPT = b"(match range)\n"
INPUTS = b"; one list for each input\n(49) (0)\n(4)\n"
DERIVATION = b"(match range (low high) 1 10 (by))\n"
PROGRAM = b"""(program 1)
(input n (int 0 100))
(require (le 1 n))
(output z (int 1 10))
(main (if true (call 1 10)))
(search ((low (int 1 11)) (high (int 0 10))) \
(if (eq low high) (if (eq (mul (cast (int 1 10) low) (cast (int 1 10) low)) n) (emit (cast (int 1 10) low)))) \
(if (lt low high) (if true (call low (div (add low high) 2))) \
(if true (call (add (div (add low high) 2) 1) high))))
"""
ANSWERS = b"7\n(answers 1 splits 19)\n(outside)\n2\n(answers 1 splits 19)\n"

# finds its own input, in the one call of each run
ECHO = b"""(program 1)
(input n (int 0 100))
(require (le 1 n))
(output z (int 0 100))
(main (call n))
(search ((m (int 0 100))) (emit m))
"""

GOOD = {"t": THEORY, "s": SCRIPT, "i": INPUTS, "p": PROGRAM}
SOLVE = ("solve", "t", "s", "i")
RUN = ("run", "p", "i")
DERIVE = ("derive", "t", "s", "d", "o")
SAVED = {"d": DERIVATION, "o": PROGRAM}
COMMANDS = (SOLVE, RUN, DERIVE)
# which words of a command are files that it loads
LOADED = {"solve": 3, "run": 2, "derive": 2}

USAGE, FAULT = b"(usage)\n", b"(fault)\n"
LARGEST = 4_194_304


Words = tuple[str | bytes, ...]


@dataclass
class Case:
    """One run of kids in a folder of its own, which holds the good files but for what is said here."""

    name: str
    words: Words
    status: int
    err: bytes = b""
    out: bytes = b""
    # files beside the good ones or in place of them, and what else stands under a name, or does not. What is long is
    # made where it is needed
    files: dict[str, bytes | Callable[[], bytes]] = field(default_factory=dict)
    lacking: tuple[str, ...] = ()
    folders: tuple[str, ...] = ()
    links: dict[str, str] = field(default_factory=dict)
    modes: dict[str, int] = field(default_factory=dict)
    # what the command has to leave behind
    saved: dict[str, bytes] = field(default_factory=dict)
    # how a shell starts it, what stands on standard input, and what the signal of broken pipes does where the reader
    # takes one line of standard output and leaves
    streams: str = ""
    given: bytes = b""
    leaves: str = ""


def done(name: str, words: Words, **more) -> Case:
    """A case in which the command does its work."""
    if words[0] == "derive":
        return Case(name, words, 0, **{"saved": SAVED, **more})
    return Case(name, words, 0, **{"out": ANSWERS, **more})


def kind_of(words: Words, place: int) -> str:
    """Which format the file has whose name is the word at this place, from 1."""
    if words[0] == "run":
        return ("program", "inputs")[place - 1]
    return ("theory", "script", "inputs")[place - 1]


def places() -> Iterator[tuple[Words, int, str]]:
    """Each place of each command where a file is loaded, with its format."""
    for words in COMMANDS:
        for place in range(1, LOADED[words[0]] + 1):
            yield words, place, kind_of(words, place)


def refused(kind: str, form: int, code: str) -> tuple[int, bytes]:
    """The status and the line of a file of this format that is refused."""
    if kind == "script":
        return 10, b"(unbuilt 2)\n"
    if kind == "inputs":
        return 8, b"(inputs %d)\n" % form
    return {"theory": 5, "program": 7}[kind], f"({kind} {form} {code})\n".encode()


def fuel_words() -> Iterator[Case]:
    """Fuel that is none, for both commands that take it, and the ends of what is fuel."""
    wrong = ["", "0", "00", "01", "-1", "-0", "+1", "1000000000001", "1.0", "1e3", "0x10", " 1", "1 ", "1\n", "five",
             "4611686018427387905", "18446744073709551617", "9" * 1000, "\uff11", "--fuel"]
    for words in (SOLVE, RUN):
        for fuel in wrong:
            yield Case(f"{words[0]} with fuel {fuel[:30]!r}", words + ("--fuel", fuel), 2, USAGE)
        for flag in ("-fuel", "--Fuel", "--fuel ", "", "fuel", "--f"):
            yield Case(f"{words[0]} with flag {flag!r}", words + (flag, "5"), 2, USAGE)
        yield Case(f"{words[0]} with fuel in one word", words + ("--fuel=5",), 2, USAGE)
        yield Case(f"{words[0]} with fuel and no number", words + ("--fuel",), 2, USAGE)
        yield Case(f"{words[0]} with fuel twice", words + ("--fuel", "5", "--fuel", "5"), 2, USAGE)
        yield Case(f"{words[0]} with fuel first", (words[0], "--fuel", "5") + words[1:], 2, USAGE)
        for fuel in ("19", "1000000000000"):
            yield done(f"{words[0]} with fuel {fuel}", words + ("--fuel", fuel))
        yield Case(f"{words[0]} with fuel 1", words + ("--fuel", "1"), 4, out=b"(fuel 1)\n(outside)\n(fuel 1)\n")
    yield Case("derive with fuel", DERIVE + ("--fuel", "5"), 2, USAGE)


def wrong_words() -> Iterator[Case]:
    """Words that fit no command, and some that only look so."""
    # check and demo are not built
    wrong: list[Words] = [(), ("",), ("help",), ("--help",), ("-h",), ("--version",), ("Solve", "t", "s", "i"),
                          ("solve ", "t", "s", "i"), ("kids",) + SOLVE, ("", "t", "s", "i"), ("t", "s", "i"),
                          ("check", "t", "d", "p"), ("demo", "0"), ("demo",), ("derive", "t", "s", "d", "d"),
                          ("derive", "t", "s", "", ""), ("x",) * 10_000, ("--", "run", "p", "i")]
    for words in COMMANDS:
        wrong += [words[:count] for count in range(1, len(words))] + [words + ("more",), words + ("",)]
    for words in wrong:
        yield Case(f"words {words[:6]!r}", words, 2, USAGE)
    # three words, so a program and its inputs
    yield Case("a program of the name --fuel", ("run", "--fuel", "5"), 12, b"(absent 1)\n")
    yield Case("one name for both files of run", ("run", "p", "p"), 8, b"(inputs 1)\n")


def absent_files() -> Iterator[Case]:
    """A file that is not there, at each place."""
    for words, place, kind in places():
        name = f"{words[0]}: {kind}: "
        line = b"(absent %d)\n" % place
        yield Case(name + "absent", words, 12, line, lacking=(words[place],))
        for other in ("", "no/such", "./nothing"):
            yield Case(name + f"absent as {other!r}", put_at(words, place, other), 12, line)
        yield Case(name + "a link to nothing", words, 12, line, links={words[place]: "nothing"})
    for words in COMMANDS:
        yield Case(f"{words[0]}: no file is there", words, 12, b"(absent 1)\n", lacking=tuple(GOOD))


def put_at(words: Words, place: int, name: str | bytes) -> Words:
    """The words with this name at that place."""
    return words[:place] + (name,) + words[place + 1:]


def files_that_fail() -> Iterator[Case]:
    """Something that is there and is no file that can be read, at each place."""
    for words, place, kind in places():
        name, file = f"{words[0]}: {kind}: ", words[place]
        yield Case(name + "a folder", words, 3, FAULT, folders=(file,))
        yield Case(name + "this folder", put_at(words, place, "."), 3, FAULT)
        yield Case(name + "unreadable", words, 3, FAULT, modes={file: 0})
        yield Case(name + "a link to itself", words, 3, FAULT, links={file: file})
        yield Case(name + "a place below a file", put_at(words, place, file + "/x"), 3, FAULT)
        yield Case(name + "a name that is too long", put_at(words, place, "n" * 256), 3, FAULT)
        yield Case(name + "a path that is too long", put_at(words, place, "./" * 4096 + file), 3, FAULT)


def which_is_first() -> Iterator[Case]:
    """Of several faults the first in the order of the work is named."""
    x = b"x"
    yield Case("a wrong theory before an absent script", SOLVE, 5, b"(theory 1 form)\n", files={"t": x}, lacking=("s",))
    yield Case("a wrong script before absent inputs", SOLVE, 10, b"(unbuilt 2)\n", files={"s": x}, lacking=("i",))
    yield Case("a wrong program before absent inputs", RUN, 7, b"(program 1 form)\n", files={"p": x}, lacking=("i",))
    yield Case("a folder before an absent script", SOLVE, 3, FAULT, folders=("t",), lacking=("s",))
    yield Case("an absent theory before a folder", SOLVE, 12, b"(absent 1)\n", lacking=("t",), folders=("s",))
    yield Case("a wrong script before a folder to save to", DERIVE, 10, b"(unbuilt 2)\n", files={"s": x},
               folders=("d",))
    yield Case("words before files", ("solve", "t", "s"), 2, USAGE, lacking=tuple(GOOD))
    yield Case("wrong inputs before closed output", RUN, 8, b"(inputs 2)\n", files={"i": b"(1) (x)"}, streams=">&-")
    yield Case("a refused derive saves nothing", DERIVE, 5, b"(theory 1 form)\n", files={"t": x, "d": x, "o": x})


def filled(content: bytes, length: int, last: bytes = b"") -> bytes:
    """The content with a comment at its end, so that it is so long."""
    return content + b";" + b"x" * (length - len(content) - 1 - len(last)) + last


def sizes() -> Iterator[Case]:
    """The longest files that are read, and one byte more, at each place."""
    no_text = b"\xff" * (LARGEST + 1)
    for words, place, kind in places():
        name, file = f"{words[0]}: {kind}: ", words[place]
        too_large = refused(kind, 0, "large")
        yield done(name + "as long as may be", words, files={file: partial(filled, GOOD[file], LARGEST)})
        yield Case(name + "too long", words, *too_large, files={file: partial(filled, GOOD[file], LARGEST + 1)})
        yield Case(name + "too long and no text", words, *too_large, files={file: no_text})
        yield Case(name + "without an end", put_at(words, place, "/dev/zero"), *too_large)
        yield Case(name + "a full device", put_at(words, place, "/dev/full"), *too_large)
        yield Case(name + "a wrong byte at the end", words, *refused(kind, 0, "read"),
                   files={file: partial(filled, GOOD[file], LARGEST, b"\x7f")})
        yield done(name + "through a pipe", put_at(words, place, "/dev/stdin"), given=GOOD[file])
    yield Case("a theory of open brackets", SOLVE, 5, b"(theory 0 read)\n", files={"t": b"(" * LARGEST})
    yield Case("a program of closed brackets", RUN, 7, b"(program 0 read)\n", files={"p": b")" * LARGEST})


LONG = "n" * 32


def definition(name: str, uses: int, zeros: int) -> bytes:
    """A definition with so many uses of a long name and so many zeros, which have two bytes each."""
    body = f" {LONG}" * uses + " 0" * zeros
    return f"(def {name} (({LONG} (int 0 0))) (set (int 0 0)) (set{body}))\n".encode()


def with_definitions(text: bytes, length: int) -> bytes:
    """The text with so many bytes of definitions after its first form."""
    count, made = 60, []
    for number in range(count):
        size = length * (number + 1) // count - length * number // count
        uses, left = divmod(size - len(definition(f"f-{number}", 0, 0)), len(LONG) + 1)
        zeros, one = divmod(left, 2)
        made.append(definition(f"f-{number}" + "x" * one, uses, zeros))
    first, rest = text.split(b"\n", 1)
    return first + b"\n" + b"".join(made) + rest


def long_programs() -> Iterator[Case]:
    """A theory whose program is as long as may be, and one whose program is too long though the theory is not."""
    for name, length in (("as long as may be", LARGEST), ("too long", LARGEST + 1)):
        room = length - len(PROGRAM)
        theory, program = with_definitions(THEORY, room), with_definitions(PROGRAM, room)
        assert len(program) == length and len(theory) < LARGEST
        if length == LARGEST:
            yield done(f"derive: a program {name}", DERIVE, files={"t": theory}, saved={"d": DERIVATION, "o": program})
        else:
            yield Case(f"derive: a program {name}", DERIVE, 10, b"(unbuilt 2)\n", files={"t": theory})


def wide_test(uses: int, more: str) -> str:
    """A test of `uses + 3` nodes and those in `more` that is true where z is 1. The program's has `2 * uses + 4` and those."""
    return f"(in z (set{' z' * uses}{more}))"


def deep_test(times: int) -> str:
    """A test of depth `times + 2` that is true where z is 1 and `times` is odd. The program's is one deeper."""
    return "(not " * times + "(eq z 2)" + ")" * times


def large_tests() -> Iterator[Case]:
    """Output conditions that a theory may have, and whose program's test is as large as a term may be, or larger."""
    within = (("of 4,096 nodes", wide_test(2046, "")), ("of depth 128", deep_test(125)))
    beyond = (("of 4,097 nodes", wide_test(2046, " 1")), ("of depth 129", deep_test(126)))
    for cases, taken in ((within, True), (beyond, False)):
        for size, test in cases:
            name = f"solve: a program with a test {size}"
            files = {"t": f"(theory t) (require true) (output z (int 1 1)) (ensure {test})".encode(), "i": b"()"}
            if taken:
                yield done(name, SOLVE, files=files, out=b"1\n(answers 1 splits 1)\n")
            else:
                yield Case(name, SOLVE, 10, b"(unbuilt 2)\n", files=files)


FORMATS = (("theory", SOLVE, "t"), ("script", SOLVE, "s"), ("program", RUN, "p"), ("inputs", RUN, "i"))
# the number of a form behind all that are there
NEXT_FORM = {"theory": 6, "script": 2, "program": 7, "inputs": 4}


def of_no_form(name: str, words: Words, kind: str, **more) -> Case:
    """A case in which a file of this format has no form: of inputs there are none then."""
    if kind == "inputs":
        return done(name, words, out=b"", **more)
    return Case(name, words, *refused(kind, 1, "form"), **more)


def byte_alone(kind: str, words: Words, file: str, code: int) -> Case:
    """A file of one byte."""
    byte = bytes([code])
    name, files = f"{kind}: byte {code} alone", {file: byte}
    if byte in b"\t\n\r ;":
        return of_no_form(name, words, kind, files=files)
    if byte in b"()" or not 32 < code < 127:
        return Case(name, words, *refused(kind, 0, "read"), files=files)
    return Case(name, words, *refused(kind, 1, "form"), files=files)


def byte_in_comment(kind: str, words: Words, file: str, code: int) -> Case:
    """A good file and then a comment with the byte: the line end alone ends it before the x."""
    name, files = f"{kind}: byte {code} in a comment", {file: GOOD[file] + b";" + bytes([code]) + b"x\n"}
    if code == 10:
        return Case(name, words, *refused(kind, NEXT_FORM[kind], "form"), files=files)
    if code in (9, 13) or 32 <= code < 127:
        return done(name, words, files=files)
    return Case(name, words, *refused(kind, 0, "read"), files=files)


def each_byte() -> Iterator[Case]:
    """Each byte, alone and in a comment, in each format."""
    for kind, words, file in FORMATS:
        for code in range(256):
            yield byte_alone(kind, words, file, code)
            yield byte_in_comment(kind, words, file, code)
        yield of_no_form(f"{kind}: an empty file", words, kind, files={file: b""})


def brackets() -> Iterator[Case]:
    """As many open brackets as may be, and one more."""
    for kind, words, file in FORMATS:
        front, number = (b"", 1) if kind == "inputs" else (GOOD[file], NEXT_FORM[kind])
        unread = refused(kind, 0, "read")
        for name, answer, text in (
            ("250 brackets", refused(kind, number, "form"), b"(" * 250 + b")" * 250),
            ("251 brackets", unread, b"(" * 251 + b")" * 251),
            ("250 open brackets", unread, b"(" * 250),
            ("251 open brackets", unread, b"(" * 251),
            ("a bracket that closes none", unread, b")"),
            ("250 brackets twice", refused(kind, number, "form"), (b"(" * 250 + b")" * 250) * 2),
        ):
            yield Case(f"{kind}: {name}", words, *answer, files={file: front + text})
        yield done(f"{kind}: 251 brackets in a comment", words, files={file: GOOD[file] + b";" + b"(" * 251})


def lines() -> Iterator[Case]:
    """Line ends of other kinds, or none."""
    for words in COMMANDS:
        loaded = words[1:LOADED[words[0]] + 1]
        yield done(f"{words[0]}: no last line end", words, files={file: GOOD[file].rstrip() for file in loaded})
        yield done(f"{words[0]}: line ends of two bytes", words,
                   files={file: GOOD[file].replace(b"\n", b"\r\n") for file in loaded})
        yield done(f"{words[0]}: carriage returns for line ends", words,
                   files={file: GOOD[file].replace(b"\n", b"\r") for file in loaded if file != "i"})
    yield done("a carriage return ends no comment", RUN, out=b"", files={"i": INPUTS.replace(b"\n", b"\r")})


def many_inputs(count: int) -> tuple[bytes, bytes]:
    """An input file of so many inputs for the program that echoes, and what is printed for it."""
    numbers = [number % 101 for number in range(count)]
    answers = "".join(f"{number}\n(answers 1 splits 1)\n" if number else "(outside)\n" for number in numbers)
    return "".join(f"({number})\n" for number in numbers).encode(), answers.encode()


def many() -> Iterator[Case]:
    """A file with many inputs, and a reader that does not want all that is printed."""
    inputs, answers = many_inputs(100_000)
    yield done("100,000 inputs", RUN, files={"p": ECHO, "i": inputs}, out=answers)
    yield Case("100,000 inputs and then none", RUN, 8, b"(inputs 100001)\n", files={"p": ECHO, "i": inputs + b"(101)"})
    some = many_inputs(10_000)[0]
    for signal in ("default", "ignored"):
        yield Case(f"a reader that leaves, the signal of broken pipes {signal}", RUN, 3, FAULT, b"(outside)\n",
                   files={"p": ECHO, "i": some}, leaves=signal)


def bare_program(*statements: str) -> bytes:
    """A program without inputs and parameters, whose search has these statements."""
    row = " ".join(statements)
    return f"(program 1) (require true) (output z bool) (main (call)) (search () {row})".encode()


def without_end() -> Iterator[Case]:
    """Searches that the fuel alone ends, and statements in each other as deep as brackets go."""
    for name, program in (("last", bare_program("(call)")), ("first", bare_program("(call)", "(emit true)"))):
        yield Case(f"a search that calls itself {name}", RUN, 4, out=b"(fuel 1000000)\n",
                   files={"p": program, "i": b"()"})
    nested = {depth: bare_program("(if true " * depth + "(emit true)" + ")" * depth) for depth in (248, 249)}
    # with the brackets of the search and the one around `emit` 248 make 250
    yield done("statements 250 brackets deep", RUN, files={"p": nested[248], "i": b"()"},
               out=b"true\n(answers 1 splits 1)\n")
    yield Case("statements 251 brackets deep", RUN, 7, b"(program 0 read)\n", files={"p": nested[249], "i": b"()"})


def streams() -> Iterator[Case]:
    """Standard streams that are closed or full."""
    for closed in (">&-", ">/dev/full"):
        for words in (SOLVE, RUN):
            yield Case(f"{words[0]} {closed}", words, 3, FAULT, streams=closed)
            yield done(f"{words[0]} {closed} and no inputs", words, out=b"", files={"i": b""}, streams=closed)
        yield Case(f"run {closed} and an input outside", RUN, 3, FAULT, files={"i": b"(0)"}, streams=closed)
        yield done(f"derive {closed}", DERIVE, streams=closed)
        yield Case(f"usage {closed}", ("run",), 2, USAGE, streams=closed)
    for closed in ("2>&-", "2>/dev/full"):
        for words in COMMANDS:
            yield done(f"{words[0]} {closed}", words, streams=closed)
            yield Case(f"{words[0]} {closed} and an absent file", words, 12, lacking=(words[2],), streams=closed)
        yield Case(f"usage {closed}", ("run",), 2, streams=closed)
        yield Case(f"refused inputs {closed}", RUN, 8, files={"i": b"x"}, streams=closed)
        yield Case(f"fuel that runs out {closed}", RUN + ("--fuel", "1"), 4, out=b"(fuel 1)\n(outside)\n(fuel 1)\n",
                   streams=closed)
        yield Case(f"run >&- {closed}", RUN, 3, streams=">&- " + closed)
    # what opens a file takes the number of a closed stream, and nothing of the streams may come into that file
    for closed in ("2>&-", ">&- 2>&-", "<&- >&- 2>&-"):
        yield done(f"derive {closed} as well", DERIVE, streams=closed)
        yield Case(f"derive {closed} to a folder", DERIVE, 3, folders=("o",), saved={"d": DERIVATION}, streams=closed)
    for words in COMMANDS:
        yield done(f"{words[0]} <&-", words, streams="<&-")


def saving() -> Iterator[Case]:
    """Places where derive can save one of its files or none."""
    def derive(derivation: str, program: str) -> Words:
        return ("derive", "t", "s", derivation, program)

    half = {"d": DERIVATION}
    for why, bad in (("a folder that is absent", "no/d"), ("a full device", "/dev/full"), ("no name", ""),
                     ("a place below a file", "t/x"), ("this folder", "."), ("a long name", "n" * 256)):
        yield Case(f"derive: the derivation to {why}", derive(bad, "o"), 3, FAULT)
        yield Case(f"derive: the program to {why}", derive("d", bad), 3, FAULT, saved=half)
    long = b"(" * 10_000
    yield done("derive: over longer files", DERIVE, files={"d": long, "o": long})
    for derivation, program in (("t", "o"), ("s", "o"), ("d", "t"), ("d", "s"), ("t", "s"), ("s", "t"), ("i", "p")):
        yield done(f"derive: over {derivation} and {program}", derive(derivation, program),
                   saved={derivation: DERIVATION, program: PROGRAM})
    yield done("derive: two names of one file", derive("o", "./o"), saved={"o": PROGRAM})
    yield done("derive: to nowhere", derive("/dev/null", "/dev//null"), saved={})
    yield done("derive: through a link", DERIVE, links={"o": "far"}, saved={"d": DERIVATION, "far": PROGRAM})
    old = {"d": b"old", "o": b"old"}
    yield Case("derive: over a derivation that is read-only", DERIVE, 3, FAULT, files=old, modes={"d": 0o444})
    yield Case("derive: over a program that is read-only", DERIVE, 3, FAULT, files=old, modes={"o": 0o444}, saved=half)
    yield Case("derive: into a folder that is read-only", DERIVE, 3, FAULT, modes={".": 0o555})
    yield done("derive: over files in a folder that is read-only", DERIVE, files=old, modes={".": 0o555})


def names() -> Iterator[Case]:
    """Names of every kind, and words that are no text."""
    for name in ("a b", " ", "a\nb", "a\tb", "\x01", "gr\u00f6\u00dfe", "\u6570", "\U0001f600", "-x", "--", "--fuel",
                 "*", "$(touch x)", "a;b", "\\", "'", '"', "(usage)", "n" * 253):
        yield done(f"the name {name[:20]!r}", ("derive", name, name + ".s", name + ".d", name + ".p"),
                   files={name: THEORY, name + ".s": SCRIPT}, saved={name + ".d": DERIVATION, name + ".p": PROGRAM})
    for word in (b"\xff", b"a\xc3", b"\xed\xa0\x80", b"\xc0\xaf", b"\xf4\x90\x80\x80"):
        yield Case(f"the one word {word!r}", (word,), 13)
        for words in COMMANDS:
            for place in range(len(words) + 1):
                yield Case(f"{words[0]} with {word!r} at {place}", put_at(words, place, word), 13)


# all words that are no names though they are spelled as such, and some that begin, end or are spelled like one of them
RESERVED = """
not and or implies if eq  le lt add sub neg mul div mod min max  pair fst snd
set range in subset union with inter diff without card sum least  seq len at snoc rest items total prefix
map dom ran get put drop fill submap fits narrow
wenc wdec wor wand wnot wcard win wleast renc rdec rget rput rdrop
cast all some setof image sumof  true false bool int
theory def input require law axiom given equal holds by output ensure program main search let for emit call
match filter cut simplify maintain refine left right join again have copy back normal closure want
unfold fold compute use fails uncast
e1 e48 e0 m1 m20 b1 b18 b007 e4611686018427387905
""".split()
FREE = """
x a z n9 n-1 n- e m b e-1 e1a e1-1 em1 ee1 bb1 f1 a1 c1 nots an nand ors im eqs adds mu divs mode mini maxi pairs fs sn
sets ranges inn subsets unions within inters different card-s sums lea seqs lens att snocs rests item totals
maps domain ra gets puts drops fills fit narrows wen w win-s rde casts al somes image-of summ true-1 fals bools ints
theories de inputs requires laws axioms give equals hold bye outputs ensures programs mains serach searches lets fo emits calls
matches filters cuts simple maintains refines lef rights joins againn has copies backs normals closures wants
unfolds folds computes used fail uncasts never bits row product linear enum first
""".split()


def words_as_names() -> Iterator[Case]:
    """Each reserved word as the name of an input, and other words like it."""
    for word in RESERVED:
        theory, program = (text.replace(b"(input n ", b"(input %s " % word.encode()) for text in (THEORY, PROGRAM))
        yield Case(f"theory: the reserved word {word}", SOLVE, *refused("theory", 2, "name"), files={"t": theory})
        yield Case(f"program: the reserved word {word}", RUN, *refused("program", 2, "form"), files={"p": program})
    for word in FREE:
        theory = f"(theory t) (input {word} bool) (require {word}) (output answer (int 1 2)) (ensure (lt 1 answer))"
        yield done(f"theory: the name {word}", SOLVE, files={"t": theory.encode(), "i": b"(true)"},
                   out=b"2\n(answers 1 splits 3)\n")


def in_place(text: bytes, old: bytes, new: bytes) -> bytes:
    """The text with the one place of `old` exchanged."""
    assert text.count(old) == 1
    return text.replace(old, new)


def first_answers() -> Iterator[Case]:
    """How many answers are asked for: numbers that may be, others, and other places."""
    # 7 is the leaf of the 15th interval that is visited, and 2 that of the 6th
    for many, splits in (("1", (15, 6)), ("2", (19, 19)), ("1000000", (19, 19))):
        form = f"(first {many})\n".encode()
        program = in_place(PROGRAM, b"(main", form + b"(main")
        out = b"7\n(answers 1 splits %d)\n(outside)\n2\n(answers 1 splits %d)\n" % splits
        yield done(f"solve: the first {many}", SOLVE, files={"t": THEORY + form}, out=out)
        yield done(f"run: the first {many}", RUN, files={"p": program}, out=out)
        yield done(f"derive: the first {many}", DERIVE, files={"t": THEORY + form}, saved={"d": DERIVATION, "o": program})
    for form in ("(first 0)", "(first -1)", "(first 01)", "(first 1000001)", "(first +1)", "(first n)", "(first)", "first",
                 "(first 1 1)", "(first (1))", "(First 1)", "(first 4611686018427387905)", "(first 18446744073709551617)"):
        yield Case(f"theory: {form}", SOLVE, *refused("theory", 6, "form"), files={"t": THEORY + form.encode()})
        yield Case(f"program: {form}", RUN, *refused("program", 5, "form"),
                   files={"p": in_place(PROGRAM, b"(main", form.encode() + b"(main")})
    twice = b"(first 1) (first 1)"
    yield Case("theory: first twice", SOLVE, *refused("theory", 7, "form"), files={"t": THEORY + twice})
    yield Case("program: first twice", RUN, *refused("program", 6, "form"),
               files={"p": in_place(PROGRAM, b"(main", twice + b"(main")})
    yield Case("theory: first before ensure", SOLVE, *refused("theory", 5, "form"),
               files={"t": in_place(THEORY, b"(ensure", b"(first 1) (ensure")})
    yield Case("program: first before output", RUN, *refused("program", 4, "form"),
               files={"p": in_place(PROGRAM, b"(output", b"(first 1) (output")})
    one = {"t": THEORY + b"(first 1)", "i": b"(49)"}
    yield done("solve: fuel for the first", SOLVE + ("--fuel", "15"), files=one, out=b"7\n(answers 1 splits 15)\n")
    yield Case("solve: fuel for one less than the first", SOLVE + ("--fuel", "14"), 4, files=one, out=b"(fuel 14)\n")


# finds its own input, which is a tag
ECHO_TAG = b"""(program 2) (input n (enum a b b-1 bc)) (require true) (output z (enum a b b-1 bc)) (main (call n))
(search ((m (enum a b b-1 bc))) (emit m))"""

NO_TAGS = ("a", "'c", "'", "''a", "'a'", "(' a)", "('a)", "'A", "'true", "'e1", "'set", "'-a", "'1", "0", "true", '"a"',
           "'a 'b", "(enum a)", "'" + "a" * 33)
SIXTY_FOUR = " ".join(f"n-{number:02}" for number in range(64))
# sorts of names, and the code with which a file is refused that has one
NAME_SORTS = (("(enum a b)", ""), ("(enum a)", ""), (f"(enum {SIXTY_FOUR})", ""), ("(enum enum first)", ""),
              (f"(enum {'a' * 32})", ""), ("(enum)", "sort"), ("(enum b a)", "sort"), ("(enum a a)", "sort"),
              (f"(enum {SIXTY_FOUR} o)", "sort"), ("(enum A)", "form"), ("(enum true)", "form"), ("(enum e1)", "form"),
              ("(enum (a))", "form"), ("(enum 'a)", "form"), ("(enum a 1)", "form"), ("enum", "form"),
              ("(enum b a A)", "form"), (f"(enum {'a' * 33})", "form"))


def named_values() -> Iterator[Case]:
    """Tags that are of their sort and words that are none, and sorts of names in and out of order."""
    for name in ("a", "b", "b-1", "bc"):
        yield done(f"input: the tag {name}", RUN, files={"p": ECHO_TAG, "i": f"('{name})".encode()},
                   out=f"'{name}\n(answers 1 splits 1)\n".encode())
    for word in NO_TAGS:
        yield Case(f"input: {word}, which is no tag of the sort", RUN, 8, b"(inputs 1)\n",
                   files={"p": ECHO_TAG, "i": f"({word})".encode()})
    for sort, code in NAME_SORTS:
        theory = f"(theory t) (input n {sort}) (require true) (output z (int 1 1)) (ensure true)"
        program = f"(program 2) (input n {sort}) (require true) (output z bool) (main) (search ())"
        files = {"t": theory.encode(), "i": b"", "p": program.encode()}
        for kind, words in (("theory", SOLVE), ("program", RUN)):
            name = f"{kind}: the sort {sort if len(sort) < 50 else len(sort)}"
            if code:
                yield Case(name, words, *refused(kind, 2, code), files=files)
            else:
                yield done(name, words, files=files, out=b"")


def versions() -> Iterator[Case]:
    """Programs of each version, with and without tags, and of none."""
    definitions = (("a sort", b"(def f ((x (enum a))) bool true)", ""), ("a tag", b"(def f () bool (eq 'a 'a))", ""),
                   ("a cast", b"(def f () bool (eq 1 (cast (enum b a) 1)))", "sort"))
    for version in (1, 2):
        front = b"(program %d)" % version
        yield done(f"version {version} without tags", RUN, files={"p": in_place(PROGRAM, b"(program 1)", front)})
        for what, form, code in definitions:
            files = {"p": front + form + b"(require true) (output z bool) (main) (search ())", "i": b""}
            code = "form" if version == 1 else code
            if code:
                yield Case(f"version {version} with {what}", RUN, *refused("program", 2, code), files=files)
            else:
                yield done(f"version {version} with {what}", RUN, files=files, out=b"")
    for front, number, code in (("(program 3)", 1, "version"), ("(program 0)", 1, "version"), ("(program -1)", 1, "version"),
                                ("(program 02)", 1, "form"), ("(program)", 1, "form"), ("(program 1 2)", 1, "form"),
                                ("(program 2) (program 2)", 2, "form")):
        yield Case(f"program: {front}", RUN, *refused("program", number, code),
                   files={"p": in_place(PROGRAM, b"(program 1)", front.encode())})


def all_cases() -> list[Case]:
    """Every case."""
    # those that take long come first, so that none is waited for at the end
    groups = (long_programs, many, without_end, sizes, wrong_words, fuel_words, absent_files, files_that_fail,
              large_tests, which_is_first, each_byte, brackets, lines, streams, saving, names, words_as_names, first_answers,
              named_values, versions)
    return [case for group in groups for case in group()]
