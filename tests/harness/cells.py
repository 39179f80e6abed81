"""The answers of the probe's subjects that speak of cells, as the cases say them: `C1` a
character, `1D60` an attribute."""
import functools
import pathlib
import re
from collections.abc import Callable, Iterator

from harness.case import Case, same
from harness.data import Line, blocks_of, lines_of
from harness.probe import Probe

# The graphic codes of six-bit values (GA23-0059-07), in their order: the first and the last of
# each run.
RUNS = (
    *((0x40, 0x40), (0xC1, 0xC9), (0x4A, 0x4F), (0x50, 0x50), (0xD1, 0xD9), (0x5A, 0x5F)),
    *((0x60, 0x61), (0xE2, 0xE9), (0x6A, 0x6F), (0xF0, 0xF9), (0x7A, 0x7F)),
)
GRAPHIC = [code for first, last in RUNS for code in range(first, last + 1)]
DISPLAYS = ("Normal", "Detectable", "Bright", "Hidden")
SIZES = {"M2": "24 80", "M3": "32 80", "M4": "43 80", "M5": "27 132"}


def attribute(found: re.Match[str]) -> str:
    """The code of an attribute that is printed by Debug."""
    protected, numeric, display, mdt = found.groups()
    bits = 32 * (protected == "true") + 16 * (numeric == "true") + (mdt == "true")
    bits += 4 * DISPLAYS.index(display)
    return f"{GRAPHIC[bits]:02X}"


def text_of(numbers: str) -> str:
    return "".join(f"{int(it):02X}" for it in numbers.split(", ") if it) or "-"


# What is printed by Debug, and how the cases say it: one after the other.
SPELLINGS = [(re.compile(pattern), said) for pattern, said in (
    (r"Addr \{ position: (\d+) \}", r"\1"),
    (r"Attr \{ protected: (\w+), numeric: (\w+), display: (\w+), mdt: (\w+) \}", attribute),
    (
        r"ReturnedField \{ first: (\d+), text: \[([\d, ]*)\] \}",
        lambda it: f"{it[1]} {text_of(it[2])}",
    ),
    (r"Field \{ attr: (\d+), length: (\d+) \}", r"\1+\2"),
    (r"Wcc \{ alarm: (\w+), restore: (\w+), reset: (\w+) \}", r"alarm \1 restore \2 reset \3"),
    (r"Ra\((\d+), (\d+)\)", lambda it: f"ra:{it[1]}:{text_of(it[2])}"),
    (r"\b(Sba|Eua|At)\((\d+)\)", lambda it: f"{it[1].lower()}:{it[2]}"),
    (r"\bChar\((\d+)\)", lambda it: text_of(it[1])),
    (r"\b(?:Sf|Attr)\((\w\w)\)", r"1D\1"),
    (r"\bSome\(([^()]*)\)", r"\1"),
    (r"\b(None|Keep|Pt|Ic)\b", lambda it: it[1].lower()),
    (r"Size \{ model: (M\d) \}", lambda it: SIZES[it[1]]),
    # The first line of a command, of inbound data and of a wanted screen.
    (r"\((\w+), (\w+), (\d+ \d+), ([^(]*)\)", r"\1 has-orders \2\nsize \3\nwcc \4"),
    (
        r"\((\w+), (\d+ \d+), \[(\d+)\], (\w+), \[([\d, ]*)\]\)",
        lambda it: f"{it[1]}\nsize {it[2]}\naid {int(it[3]):02X}\ncursor {it[4]}\n"
        f"leading {text_of(it[5])}",
    ),
    (r"\((\d+ \d+), (\d+), (\w+)\)", r"size \1\ncursor \2\nreset \3"),
)]


def plainly(answer: list[str]) -> list[str]:
    """An answer as the cases say it."""
    text = "\n".join(answer)
    for pattern, said in SPELLINGS:
        text = pattern.sub(said, text)
    return text.split("\n") if answer else []


# A step of a case: does what a line says with what the case speaks of.
Step = Callable[[object, Line, list[str]], None]


def tokens(text: str) -> list[str]:
    """The tokens of a line, where TOKEN*N is N of them."""
    found: list[str] = []
    for word in text.split():
        token, star, times = word.partition("*")
        found += [token] * int(times) if star else [token]
    return found


def is_character(token: str) -> bool:
    return len(token) == 2 and token != "pt" and token != "ic"


def in_runs(single: list[str]) -> list[str]:
    """Single items as runs of characters, `-` for none, with the item behind each."""
    found, run = [], ""
    for token in single:
        if is_character(token):
            run += token
        else:
            found += [run or "-", token]
            run = ""
    return [*found, run or "-"]


def line_of(answer: list[str], word: str) -> list[str]:
    """The tokens behind a word that begins a line of an answer."""
    return next((line.split()[1:] for line in answer if line.split(" ", 1)[0] == word), [])


def check_part(wanted: list[str], answer: list[str], line: Line) -> None:
    """Looks for wanted lines in an answer: each is the line that begins with its word, or else the
    first one."""
    for text in wanted:
        first = text.split(" ", 1)[0]
        came = next(
            (it for it in answer if it.split(" ", 1)[0] == first), answer[0] if answer else ""
        )
        same(" ".join(tokens(text)), came.rstrip(), line.at)


def check_row(probe: Callable[[], Probe], line: Line) -> None:
    command, equals, wanted = line.text.partition(" = ")
    if not equals:
        raise line.bad("needs COMMAND = LINE; LINE")
    answer = plainly(probe().ask(command, line.at))
    check_part(wanted.split("; "), answer, line)
    for single in ("orders", "cells"):
        if any(it.split(" ", 1)[0] == single for it in answer):
            runs = " ".join(in_runs(line_of(answer, single)))
            same(runs, " ".join(line_of(answer, "runs")), line.at)
    parts = ["none" if it.startswith("at:") else it for it in line_of(answer, "parts")]
    same(" ".join(parts), " ".join(line_of(answer, "as-cells")), line.at)


def rows_in_part(path: pathlib.Path, subject: str) -> Iterator[Case]:
    """The cases of a file of lines `COMMAND = LINE; LINE`, where the answer may have other lines
    too. What an answer has as runs or as cells follows from what it has one by one."""
    probe = functools.cache(lambda: Probe(subject))
    for line in lines_of(path):
        if line.text.strip() and not line.text.startswith("#"):
            yield Case(
                line.text.partition(" = ")[0], line.at, functools.partial(check_row, probe, line)
            )


def take_step(steps: dict[str, Step], subject: object, line: Line) -> None:
    """Does the step of a line."""
    word, *words = line.text.split()
    if word not in steps:
        raise line.bad("needs a step's word")
    try:
        steps[word](subject, line, words)
    except (IndexError, ValueError):
        raise line.bad(f"isn't a step {word}") from None


def steps_of(cls: type) -> dict[str, Step]:
    """The steps that a class has as methods, `do_` and the word."""
    return {
        name[3:].replace("_", "-"): step
        for name, step in vars(cls).items() if name.startswith("do_")
    }


def cases_of(path: pathlib.Path, make: Callable[[], object]) -> Iterator[Case]:
    """The cases of a file of blocks `case NAME`, whose lines are steps of what `make` makes, which
    is closed at the end."""
    for head, name, lines in blocks_of(path, "case"):
        yield Case(name, head.at, functools.partial(check_steps, make, lines, head))


def check_steps(make: Callable[[], object], lines: list[Line], head: Line) -> None:
    if not lines:
        raise head.bad("needs steps")
    subject = make()
    try:
        for line in lines:
            take_step(steps_of(type(subject)), subject, line)
    finally:
        subject.probe.close()


def appended(probe: Probe, call: str, line: Line) -> bytes:
    """The bytes that a call leaves in the vector that it appends to."""
    same(["done"], probe.ask(call, line.at), line.at)
    return line.data(probe.ask("appended", line.at)[0].removeprefix("appended "))
