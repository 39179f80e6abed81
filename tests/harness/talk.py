"""Cases as data: commands of the probe, and the answers that are wanted.

A file of rows has a case a line, `COMMAND = ANSWER`. The lines of an answer are joined by `; `.
A file of talks has a block for each case, with a probe of its own:

    case NAME
    > COMMAND
    ANSWER, line by line
"""
import functools
import pathlib
from collections.abc import Iterator

from harness.case import Case, same
from harness.data import Line, blocks_of, lines_of
from harness.probe import Probe


def rows(path: pathlib.Path, subject: str) -> Iterator[Case]:
    """The cases of a file of rows, for a subject that keeps nothing from one command to the
    next."""
    probe = functools.cache(lambda: Probe(subject))
    for line in lines_of(path):
        if line.text.strip() and not line.text.startswith("#"):
            yield Case(line.text, line.at, functools.partial(check_row, probe, line))


def check_row(probe, line: Line) -> None:
    command, equals, wanted = line.text.partition(" = ")
    if not equals:
        raise line.bad("needs COMMAND = ANSWER")
    same(wanted, "; ".join(probe().ask(command, line.at)))


def talks(path: pathlib.Path, subject: str) -> Iterator[Case]:
    """The cases of a file of talks."""
    for head, name, lines in blocks_of(path, "case"):
        yield Case(name, head.at, functools.partial(check_talk, subject, head, lines))


def check_talk(subject: str, head: Line, lines: list[Line]) -> None:
    if not lines or not lines[0].text.startswith("> "):
        raise head.bad("needs a line `> COMMAND` after it")
    with Probe(subject) as probe:
        for place, line in enumerate(lines):
            if line.text.startswith("> "):
                wanted = wanted_after(lines[place + 1 :])
                same("\n".join(wanted), "\n".join(probe.ask(line.text[2:], line.at)), line.at)


def wanted_after(lines: list[Line]) -> list[str]:
    """The texts of the lines before the next command."""
    found = []
    for line in lines:
        if line.text.startswith("> "):
            break
        found.append(line.text)
    return found
