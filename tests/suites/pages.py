"""Runs of the program as the pages of tests/pages say.

A page has a heading for each few runs, and an indented block for each run:

    $ WORDS      the words behind the program's name; FREE is a port that is free, and TAKEN one
                 that isn't
    < TEXT       a line of its standard input
    <x HEX       bytes of it, as they are
    <= NAME      the lines of the page's block that begins with `= NAME`; that block is no run
    <f FILE      the lines of a file of tests/cases
    > TEXT       a line of its standard output
    ! TEXT       a line of its standard error; TAKEN is that port
    (N times)    the line above is there N times in all
    (status N)   its exit status, if that isn't 0

Of each run of `script` a second case asks `check` about the same input: it finds a fault, in its
own words, exactly if `script` refuses the panel text.
"""
import re
import socket
import subprocess
from collections.abc import Iterator
from dataclasses import dataclass, field

from harness import programs
from harness.case import CASES, TOP, Case, Difference, Place
from harness.data import Line, lines_of
from harness.hosts import LOCALHOST, free_port

PAGES = TOP / "tests/pages"
PARTS = 2


@dataclass
class Run:
    """A run: where its page has it, what it is given, and what is wanted."""

    at: Place
    words: list[str]
    given: list[bytes] = field(default_factory=list)
    out: list[bytes] = field(default_factory=list)
    faults: list[bytes] = field(default_factory=list)
    status: int = 0
    # What the last line was added to.
    last: list[bytes] = field(default_factory=list)

    def check(self) -> None:
        """Raises a Difference if the program does something else."""
        with socket.create_server((LOCALHOST, 0)) as taken:
            ports = {"FREE": str(free_port()), "TAKEN": str(taken.getsockname()[1])}
            run = ran([ports.get(it, it) for it in self.words], b"".join(self.given))
        faults = b"".join(self.faults).replace(b"TAKEN", ports["TAKEN"].encode())
        came = run.returncode, run.stdout, run.stderr
        if came != (self.status, b"".join(self.out), faults):
            raise Difference(shown(self.status, b"".join(self.out), faults), shown(*came))

    def is_checked(self) -> bool:
        """Whether `check` is asked, too."""
        return self.words == ["script"] and self.faults != [b"input not read\n"]

    def check_by_check(self) -> None:
        """Raises a Difference if `script` refuses the panel text and `check` finds no such fault,
        or the other way round."""
        refused = self.status == 1 and not self.faults[0].startswith(b"line ")
        run = ran(["check"], b"".join(self.given))
        # A fault that `check` didn't find by itself has the words of `script`.
        explained = not refused or b": " + self.faults[0] not in run.stdout
        if run.returncode != refused or not explained:
            wanted = "a fault in check's own words, status 1" if refused else "no fault, status 0"
            raise Difference(wanted, shown(run.returncode, run.stdout, run.stderr))


def ran(words: list[str], given: bytes) -> subprocess.CompletedProcess[bytes]:
    return subprocess.run(
        [programs.panel3270(), *words], input=given, capture_output=True, timeout=60, check=False
    )


def shown(status: int, out: bytes, faults: bytes) -> str:
    """A run's outcome in the words of a page."""
    lines = [f"> {it}" for it in out.decode(errors="replace").splitlines()] + [
        f"! {it}" for it in faults.decode(errors="replace").splitlines()
    ]
    return "\n".join([*lines, f"(status {status})"])


def blocks(lines: list[Line]) -> Iterator[list[Line]]:
    """The indented blocks of a page, without the indent."""
    block: list[Line] = []
    for line in lines:
        if line.text.startswith("    "):
            block.append(Line(line.at, line.text[4:]))
        elif block:
            yield block
            block = []
    if block:
        yield block


def put(run: Run, line: Line, named: dict[str, list[bytes]]) -> None:
    """Adds what a line says to a run."""
    mark, _, text = line.text.partition(" ")
    spelt = text.encode() + b"\n"
    if again := re.fullmatch(r"\((\d+) times\)", line.text):
        run.last.extend(run.last[-1:] * (int(again[1]) - 1))
    elif status := re.fullmatch(r"\(status (\d+)\)", line.text):
        run.status = int(status[1])
    elif mark in ("<", "<x", "<=", "<f"):
        run.last = run.given
        run.given += given_by(mark, text, line, named)
    elif mark in (">", "!"):
        run.last = run.out if mark == ">" else run.faults
        run.last.append(spelt)
    else:
        raise line.bad("is no line of a run")


def given_by(mark: str, text: str, line: Line, named: dict[str, list[bytes]]) -> list[bytes]:
    """The input that a line gives."""
    if mark == "<":
        return [text.encode() + b"\n"]
    if mark == "<x":
        return [line.data(text)]
    if mark == "<f":
        if not (CASES / text).is_file():
            raise line.bad("names no file")
        return (CASES / text).read_bytes().splitlines(keepends=True)
    if text not in named:
        raise line.bad("names no block")
    return named[text]


def runs(lines: list[Line]) -> Iterator[Run]:
    """The runs of a page."""
    named: dict[str, list[bytes]] = {}
    for first, *rest in blocks(lines):
        mark, _, text = first.text.partition(" ")
        run = Run(first.at, text.split())
        for line in rest:
            put(run, line, named)
        if mark == "=":
            named[text] = run.given
        elif mark == "$":
            yield run
        else:
            raise first.bad("begins a block, and not by `$` or `=`")


def cases() -> Iterator[Case]:
    for page in sorted(PAGES.glob("*.md")):
        for run in runs(lines_of(page)):
            name = f"{page.stem}: {' '.join(run.words)}"
            yield Case(name, run.at, run.check)
            if run.is_checked():
                yield Case(f"{name}, and check", run.at, run.check_by_check)
