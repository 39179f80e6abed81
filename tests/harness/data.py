"""Reads files of cases."""
import dataclasses
import pathlib
import re
from collections.abc import Iterator

from harness.case import BadCase, Place, relative


@dataclasses.dataclass(frozen=True)
class Line:
    """A line of a file of cases."""

    at: Place
    text: str

    def bad(self, reason: str) -> BadCase:
        """What to raise if the line is no line of its language."""
        return BadCase(f"{reason}: {self.text}", self.at)

    def number(self, word: str, most: int = 2**64 - 1) -> int:
        """A word of the line as a number in decimal."""
        if not (word.isascii() and word.isdigit() and int(word) <= most):
            raise self.bad(f"needs a number up to {most}")
        return int(word)

    def data(self, words: str) -> bytes:
        """The bytes that words of the line spell: pairs of hexadecimal digits, PAIRS*N, "TEXT",
        - for none."""
        try:
            return b"".join(map(word_bytes, words.split()))
        except ValueError as error:
            raise self.bad(str(error)) from None


def word_bytes(word: str) -> bytes:
    """The bytes that a word spells."""
    if word == "-":
        return b""
    if len(word) >= 2 and word[0] == word[-1] == '"':
        return word[1:-1].encode()
    pairs, star, times = word.partition("*")
    if star and not (times.isascii() and times.isdigit()) or len(pairs) % 2 or not all(
        it in "0123456789abcdefABCDEF" for it in pairs
    ):
        raise ValueError(f"{word} spells no bytes")
    return bytes.fromhex(pairs) * int(times or 1)


def in_digits(command: str) -> str:
    """A command of the probe, with its words PAIRS*N and "TEXT" in hexadecimal digits, unless it
    has a text to type."""
    if re.match("(! )?(type|step|list) ", command):
        return command
    return re.sub(
        r'(?<= )(?:"[^" ]*"|(?:[0-9A-Fa-f]{2})+\*\d+)(?= |$)',
        lambda word: word_bytes(word[0]).hex().upper() or "-",
        command,
    )


def lines_of(path: pathlib.Path) -> list[Line]:
    """The lines of a file of cases, with their places. It ends with a newline, and a carriage
    return is part of a line."""
    file = relative(path)
    try:
        text = path.read_bytes().decode()
    except OSError as error:
        raise BadCase(f"can't be read: {error.strerror}", Place(file, 0)) from None
    except UnicodeDecodeError:
        raise BadCase("is no UTF-8", Place(file, 0)) from None
    if text and not text.endswith("\n"):
        raise BadCase("has a last line without a newline", Place(file, text.count("\n") + 1))
    return [Line(Place(file, number), line) for number, line in enumerate(text.split("\n")[:-1], 1)]


def blocks_of(path: pathlib.Path, head: str) -> Iterator[tuple[Line, str, list[Line]]]:
    """The blocks of a file: the line `HEAD NAME`, the name, and the lines up to the next. Empty
    lines and comments (`#`) are left out."""
    found: list[tuple[Line, str, list[Line]]] = []
    for line in lines_of(path):
        if not line.text.strip() or line.text.startswith("#"):
            continue
        word, _, name = line.text.partition(" ")
        if word == head:
            if not name:
                raise line.bad("needs a name")
            found.append((line, name, []))
        elif found:
            found[-1][2].append(line)
        else:
            raise line.bad(f"needs a line `{head} NAME` before it")
    yield from found


def panel_text(lines: list[str]) -> str:
    """The text of the lines `| TEXT`, as a word of bytes."""
    return "".join(f"{line[2:]}\n" for line in lines).encode().hex() or "-"
