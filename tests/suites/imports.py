"""Each name that a file of a crate imports is used there.

In `src`, a `use` imports for the code, and its names may be in clauses, too. A `ghost use` imports
for what is ghost: `requires`, `ensures`, and items, members and fields that begin with `ghost`; in
an `impl` or trait, for that block. In `specs` and `proofs` a `use` imports for the file. An
operator as `◌≡◌` is used by its symbol. A `pub use` is for others, and `Enum::*` is left out.
Comments and strings are no uses, except the names in a string's braces. Nor is a label of a field.

A trait may be imported for its methods, and is then used by one of `METHODS`.

A crate is a case. It fails with the line and the name of each import that isn't used.
"""
import dataclasses
import functools
import re
from collections.abc import Iterable, Iterator
from pathlib import Path

from harness.case import TOP, Case, Difference, Place, of_function, same

# Traits that are imported for their methods.
METHODS = {
    "AsRawFd": ("as_raw_fd",),
    "BufRead": ("fill_buf", "lines"),
    "FileTypeExt": ("is_socket",),
    "IntoRawFd": ("into_raw_fd",),
    "IsTerminal": ("is_terminal",),
    "PermissionsExt": ("from_mode",),
    "Read": ("read",),
    "Write": ("flush", "write_all", "write_char", "write_str"),
}

NAME = r"[^\W\d]\w*"
SKIPPED = re.compile(r'//[^\n]*|b?"(?:\\.|[^"\\])*"|b?\'(?:\\.[^\']*|[^\\])\'', re.DOTALL)
IMPORT = re.compile(r"(?:(ghost|pub(?:\(\w+\))?)\s+)?\buse\s+([^;]*);")
BLOCK = re.compile(r"^(?:pub(?:\(\w+\))? )?(?:impl|trait)\b[^;{]*\{", re.MULTILINE)
GHOST = re.compile(r"\b(?:requires|ensures)\b(?:\s+\w+)?\s*\{|\bghost\s+(?!use\b)\w+")
# A label, as `next:` and `next =`; a word, with a mark if it belongs to something; a symbol.
WORD = re.compile(
    rf"{NAME}:(?!:)|(?<!: ){NAME} =(?![=>])|(?:\.|::)?{NAME}"
    r"|\.\.|[^\w\s(){}\[\],;.]+|\[\]"
)
ANTT_COMMENT = re.compile(r"--[^\n]*")
ANTT_IMPORT = re.compile(
    r"^(pub )?use [\w-]+(?:\.[\w-]+)*(?:\.\{([^}]*)\}| as (\w+))?", re.MULTILINE
)
# A word or a symbol of what is ghost, which letters may be part of, as `≤ℤ`.
ANTT_WORD = re.compile(r"\.?[^\s(){}\[\],;.]+|\[\]")


@dataclasses.dataclass(frozen=True)
class Import:
    """A name that a file imports, at a position of the file."""

    name: str
    at: int
    is_ghost: bool

    @property
    def symbol(self) -> str:
        """What uses it: of an operator its symbol, the first one if it has two."""
        return next(part for part in self.name.split("◌") if part)


def blanked(text: str, ranges: Iterable[tuple[int, int]]) -> str:
    """A text with blanks in place of these ranges."""
    parts, done = [], 0
    for start, end in ranges:
        parts += [text[done:start], re.sub(r"[^\n]", " ", text[start:end])]
        done = end
    return "".join(parts) + text[done:]


def between(ranges: Iterable[tuple[int, int]], length: int) -> Iterator[tuple[int, int]]:
    """The ranges between these."""
    done = 0
    for start, end in ranges:
        yield done, start
        done = end
    yield done, length


def without_comments(text: str) -> str:
    """A text without comments, and with the names in braces alone of its strings."""

    def kept(found: re.Match[str]) -> str:
        names = [] if found[0].startswith("//") else re.finditer(rf"\{{({NAME})", found[0])
        return blanked(found[0], between([it.span(1) for it in names], len(found[0])))

    return SKIPPED.sub(kept, text)


def end_of(text: str, at: int, depth: int = 1, stops: str = "") -> int:
    """The position behind this number of open braces, or from there on of one of the stops."""
    while depth or stops and text[at] not in stops:
        depth += {"{": 1, "}": -1}.get(text[at], 0)
        at += 1
    return at


def ghost_ranges(text: str) -> Iterator[tuple[int, int]]:
    """Where a text has clauses and ghost items, in order."""
    at = 0
    while found := GHOST.search(text, at):
        at = found.end()
        at = end_of(text, at) if found[0].endswith("{") else end_of(text, at, 0, ";,}")
        yield found.start(), at


def names_in(uses: re.Match[str], is_ghost: bool) -> Iterator[Import]:
    """The names that one `use` brings in; a name behind `as`, the last one of a path."""
    for part in re.finditer(r"([^{},]+)(\{)?", uses[2]):
        word = part[1].strip()
        if word and not part[2] and not word.endswith("::*"):
            name = re.split(r"\s+as\s+", word)[-1]
            if name == "self":
                name = re.findall(rf"({NAME})::\{{", uses[2][: part.start()])[-1]
            elif re.match(NAME, name):
                name = re.split(r"::|\.", name)[-1]
            blanks = len(part[1]) - len(part[1].lstrip())
            yield Import(name, uses.start(2) + part.start() + blanks, is_ghost)


def is_used(it: Import, words: set[str], ghost: set[str]) -> bool:
    """Whether an import is among the words that serve it."""
    if it.is_ghost:
        return it.symbol in ghost
    methods = METHODS.get(it.name, ())
    return it.name in words or any(f".{at}" in words or f"::{at}" in words for at in methods)


def unused_in(text: str) -> Iterator[Import]:
    """The imports of a file of `src` that it doesn't use."""
    text = without_comments(text)
    uses = list(IMPORT.finditer(text))
    imports = [
        it
        for found in uses if not (found[1] or "").startswith("pub")
        for it in names_in(found, found[1] == "ghost")
    ]
    rest = blanked(text, [found.span() for found in uses])
    ranges = list(ghost_ranges(rest))
    ghost = blanked(rest, between(ranges, len(rest)))
    blocks = [(found.start(), end_of(text, found.end())) for found in BLOCK.finditer(text)]
    # What the file's own ghost uses serve: what is outside of blocks, and what these don't import.
    served = set(ANTT_WORD.findall(blanked(ghost, blocks)))
    own = set()
    for start, end in blocks:
        inside = [it for it in imports if it.is_ghost and start <= it.at < end]
        words = set(ANTT_WORD.findall(ghost[start:end]))
        yield from (it for it in inside if it.symbol not in words)
        served |= words - {it.symbol for it in inside}
        own |= set(inside)
    # A clause may name what the code imports, unless a ghost use brings in that name.
    words = set(WORD.findall(ghost)) - {it.name for it in imports if it.is_ghost}
    words |= set(WORD.findall(blanked(rest, ranges)))
    yield from (it for it in imports if it not in own and not is_used(it, words, served))


def unused_in_antt(text: str) -> Iterator[Import]:
    """The imports of a file of `specs` or `proofs` that it doesn't use."""
    text = ANTT_COMMENT.sub(lambda found: " " * len(found[0]), text)
    uses = list(ANTT_IMPORT.finditer(text))
    words = set(ANTT_WORD.findall(blanked(text, [found.span() for found in uses])))
    for found in uses:
        for part in re.split(r",\s*", (found[2] or found[3] or "").strip()):
            it = Import(re.split(r"\s+as\s+", part)[-1], found.start(), True)
            if not found[1] and part and it.symbol not in words and it.name not in words:
                yield it


def unused(crate: str) -> Iterator[str]:
    """Each import of a crate that its file doesn't use, with its place."""
    for folder, suffix, find in [
        ("src", "rt", unused_in),
        ("specs", "antt", unused_in_antt),
        ("proofs", "antt", unused_in_antt),
    ]:
        for path in sorted((TOP / "crates" / crate / folder).rglob(f"*.{suffix}")):
            text = path.read_text()
            for it in find(text):
                yield f"{path.relative_to(TOP)}:{1 + text[: it.at].count(chr(10))}: {it.name}"


def check_crate(crate: str) -> None:
    if found := list(unused(crate)):
        raise Difference("no import that isn't used", "\n".join(found))


SAMPLE = """\
//! About Comment.
ghost use Rattle.std.specs.Prelude.{◌≡◌, ◌<◌, ◌<ℤ◌, ◌≤◌, ◌≤ℤ◌, if◌then◌else◌, [], ℕ, length};
ghost use Rattle.std.specs.Prelude.{Known as Told, codes};
ghost use Rattle.sample.specs.declared.phase.Phase.TheVariants as phase;

use crate::{Comment, cell::{self, Cell, Label}, label};
use std::fmt::{self, Write};
use std::io::Read;
pub use crate::shown::Shown;

impl Model for Cell {
    ghost use Rattle.std.specs.Prelude.{ℕ, take};

    ghost Value = { ℕ };
}

/// A Comment.
fn length(at: cell::Cell) -> fmt::Result
    requires { (at < length []) × (low ≤ℤ high) }
    ensures told { result ≡ phase.Label }
{
    at.write_str("{label}: Comment and codes", Row { label: Row::Label })
}
"""


def finds_each_kind_of_import() -> None:
    names = "take ◌<ℤ◌ ◌≤◌ if◌then◌else◌ ℕ Told codes Comment Label Read"
    same(names.split(), [it.name for it in unused_in(SAMPLE)])
    text = "use Rattle.a.{◌+◌, take, drop, f as g}\nuse Rattle.b as b\nx = take (b.f + 1) -- drop\n"
    same(["drop", "g"], [it.name for it in unused_in_antt(text)])


def cases() -> Iterator[Case]:
    yield of_function(finds_each_kind_of_import)
    for line, text in enumerate((TOP / "crates.txt").read_text().splitlines(), 1):
        if found := re.match(r"\w+", text):
            yield Case(
                found[0], Place("crates.txt", line), functools.partial(check_crate, found[0])
            )
