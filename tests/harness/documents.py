"""What the documents print: runs of the program, and other indented blocks.

A document shows a run as an indented block: a line `$ COMMAND`, and then what it prints on both of
its outputs. A line `.. N empty lines ..` means N empty lines. A block's last line may be `(status
N)`; without one the status is 0.
"""
import re
import subprocess
from collections.abc import Iterator

from harness import programs
from harness.case import TOP, BadCase, Difference, Place

PROGRAM = "crates/panel3270/out/panel3270"
DOCUMENTS = [
    "README.md",
    "examples/README.md",
    *sorted(f"docs/{it.name}" for it in (TOP / "docs").glob("*.md")),
]


def read(name: str) -> str:
    """The text of a file of this repository."""
    return (TOP / name).read_text(encoding="utf-8")


def ran(command: str) -> tuple[str, int]:
    """What a command prints that sh runs at the top of the repository, and its status. The program
    that is tested takes PROGRAM's place."""
    words = ["sh", "-c", command.replace(PROGRAM, str(programs.panel3270()))]
    done = subprocess.run(
        words,
        cwd=TOP,
        stdin=subprocess.DEVNULL,
        stdout=subprocess.PIPE,
        stderr=subprocess.STDOUT,
        check=False,
    )
    return done.stdout.decode("utf-8"), done.returncode


def printed(lines: list[str]) -> tuple[str, int]:
    """The text that a document's lines mean, and the status."""
    status, text = 0, []
    for line in lines:
        empty, told = re.fullmatch(r"\.\. (\d+) empty lines \.\.", line), re.fullmatch(
            r"\(status (\d+)\)", line
        )
        if empty:
            text += [""] * int(empty[1])
        elif told:
            status = int(told[1])
        else:
            text.append(line)
    return "".join(f"{line}\n" for line in text), status


def runs(document: str) -> Iterator[tuple[Place, str, list[str]]]:
    """The commands that a document shows as run, each with its place and the lines behind it."""
    command, number, behind = None, 0, []
    for at, line in enumerate([*read(document).splitlines(), "end"], 1):
        inside, text = line.startswith("    ") or not line, line[4:]
        if command is not None and (not inside or text.startswith("$ ")):
            while behind and not behind[-1]:
                behind.pop()
            yield Place(document, number), command, behind
            command = None
        if inside and text.startswith("$ "):
            command, number, behind = text[2:], at, []
        elif command is not None:
            behind.append(text)


def same_output(at: Place, wanted: tuple[str, int], came: tuple[str, int]) -> None:
    """Raises a Difference if a run's output or status isn't the document's."""
    if came != wanted:
        raise Difference(*(f"{text}(status {status})" for text, status in (wanted, came)), at)


def block(document: str, before: str) -> str:
    """The first indented block after the line of a document that has this text."""
    found = re.search(
        rf"{re.escape(before)}.*\n(?:(?!    ).*\n)*((?:    .*\n|\n)+)", read(document)
    )
    if not found:
        raise BadCase(f"no block after {before!r}", Place(document, 1))
    return re.sub("^    ", "", found[1].rstrip("\n"), flags=re.M)


def same(text: str) -> str:
    """A text without the times and ports of its run, and without what the host drew when it
    started."""
    text = re.sub(
        r"\b(session\W+)[0-9a-f]{16}-", r"\1BOOT-", re.sub(r"\btime=\S+", "time=TIME", text)
    )
    return re.sub(r"((?:127|0)\.0\.0\.[01]:)\d+", r"\1PORT", text)
