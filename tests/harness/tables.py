"""Tables of commands of the probe and their answers, `COMMAND = ANSWER` a line.

The lines of an answer are joined by `; `; an answer without lines is `()`. On both sides a word
with a quote, `*` or `+` stands for bytes: the pieces between `+`, each pairs of hexadecimal digits,
PAIRS*N, or "TEXT". In a file of rows each line is a case. In a file of blocks a case is a line
`case NAME` and the rows below it, which one probe answers in order.
"""
import functools
import pathlib
import re
from collections.abc import Callable, Iterator

from harness.case import Case, same
from harness.data import Line, blocks_of, lines_of, word_bytes
from harness.probe import Probe

# An answer without lines.
NOTHING = "()"
# How an answer of the probe is made ready for comparing.
Reads = Callable[[str], str]


def hexadecimal(data: bytes) -> str:
    """Bytes as the probe prints them."""
    return data.hex().upper() or "-"


def spelt(line: Line, text: str) -> str:
    """Words of a line, with those that stand for bytes in hexadecimal digits."""
    try:
        return re.sub(
            r'[^\s(),;]*["*+][^\s(),;]*', lambda word: hexadecimal(bytes_of(word[0])), text
        )
    except ValueError as error:
        raise line.bad(str(error)) from None


def named(answer: str) -> str:
    """An answer with the names of LUs in place of their letters, and other lists of bytes in
    hexadecimal digits."""
    def listed(numbers: str) -> bytes:
        return bytes(map(int, numbers.split(", "))) if numbers else b""

    lu = r"Lu \{ letters: \[([\d, ]*)\], size: (\d+) \}"
    answer = re.sub(lu, lambda found: listed(found[1])[: int(found[2])].decode(), answer)
    return re.sub(r"\[([\d, ]*)\]", lambda found: hexadecimal(listed(found[1])), answer)


def bytes_of(word: str) -> bytes:
    """The bytes that a word stands for."""
    return b"".join(map(word_bytes, word.split("+")))


def row_of(line: Line) -> tuple[str, str]:
    """The command and the answer of a row."""
    command, _, wanted = line.text.partition(" = ")
    if not (command and wanted):
        raise line.bad("needs COMMAND = ANSWER")
    return spelt(line, command), spelt(line, wanted)


def check_row(probe: Probe, line: Line, reads: Reads) -> None:
    command, wanted = row_of(line)
    same(wanted, reads("; ".join(probe.ask(command, line.at))) or NOTHING, line.at)


def rows(path: pathlib.Path, subject: str, reads: Reads = str) -> Iterator[Case]:
    """The cases of a file of rows."""
    probe = functools.cache(lambda: Probe(subject))
    for line in lines_of(path):
        if line.text.strip() and not line.text.startswith("#"):
            yield Case(line.text, line.at, lambda line=line: check_row(probe(), line, reads))


def blocks(path: pathlib.Path, subject: str, reads: Reads = str) -> Iterator[Case]:
    """The cases of a file of blocks."""
    for head, name, lines in blocks_of(path, "case"):
        yield Case(name, head.at, functools.partial(check_block, subject, head, lines, reads))


def check_block(subject: str, head: Line, lines: list[Line], reads: Reads) -> None:
    if not lines:
        raise head.bad("needs rows below it")
    with Probe(subject) as probe:
        for line in lines:
            check_row(probe, line, reads)
