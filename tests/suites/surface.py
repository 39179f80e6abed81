"""What each crate exports is agreed, or listed in tests/surface.added.

tests/surface.agreed lists the agreed items: a line `CRATE: ITEM ..`, and further lines of it begin
with blanks. tests/surface.added lists so the items that a crate has beside them, and DECISIONS.md
in the section "The public surface" which agreed items differ.

An item is a function, struct, enum, trait, constant, static or type that the crate's root exports,
the module of a `pub mod`, and of a type or trait also each public function, constant and variant:
`Addr`, `Addr::new`, `Cell::Char`. An item that surface.added names is there in backquotes. A name
without its type, as `forward` behind `Addr::all`, is a function of the type that was named last, or
of the crate. A type that it names, and that isn't agreed, comes with all that is below it; an
agreed enum whose variants aren't agreed comes with these. An entry that begins with `each:` names
every item, and no type comes with what is below it. The entry `all` stands for all that isn't
agreed. Modules `laws` are left out: the page speaks of them once.

A crate is a case. It fails for each item that is in neither, and for each item that one of the two
names and the crate doesn't have. One more case is that docs/promises prints a table for each crate.
"""
import functools
import re
import subprocess
from collections import defaultdict
from collections.abc import Iterator

from harness.case import TOP, BadCase, Case, Difference, Place, of_function, same

AGREED = TOP / "tests/surface.agreed"
ADDED = TOP / "tests/surface.added"
DECISIONS = TOP / "docs/DECISIONS.md"
SECTION, NEXT = "## The public surface\n", "## Names that stay\n"
# What an entry says of a crate whose other items aren't named, and how one begins that names each.
ALL, EACH = "all", "each:"

ITEM = re.compile(
    r"(?:#\[[^\]]*\]\s*)*pub (?:const fn|fn|struct|enum|trait|const|static|type) (\w+)"
)
INNER = re.compile(r"\s+pub (?:const fn|fn|const) (\w+)")
IMPL = re.compile(r"impl(?:<.*?>)? (?:(?:\w+::)*\w+(?:<.*>)? for )?(\w+)")
VARIANT = re.compile(r"    ([A-Z]\w*)\b")
EXPORT = re.compile(r"^pub use (\w+)::(?:\{([^}]*)\}|(\w+));", re.MULTILINE | re.DOTALL)
MODULE = re.compile(r"^pub mod (\w+);", re.MULTILINE)
SPAN = re.compile(r"`([^`]+)`")
NAME = re.compile(r"(?:(\w+)::)?(\w+)$")


class Source:
    """The items of a file: where each begins, and those below each type."""

    def __init__(self, path):
        self.path = path
        self.items, self.below, self.variants = {}, defaultdict(dict), set()
        of, kind = None, None
        for number, line in enumerate(path.read_text().splitlines(), 1):
            if line and line[0] not in " })]/#":
                of, kind = self.begins(line, number)
            elif of and kind == "enum" and (found := VARIANT.match(line)):
                self.below[of][found[1]] = number
                self.variants.add(f"{of}::{found[1]}")
            elif of and kind == "trait" and (found := re.match(r"    (?:final )?fn (\w+)", line)):
                self.below[of][found[1]] = number
            elif of and kind == "impl" and (found := INNER.match(line)):
                self.below[of][found[1]] = number

    def begins(self, line, number):
        """The type that the lines below belong to, and by what they do."""
        if found := ITEM.match(line):
            self.items[found[1]] = number
            word = re.search(r"\b(enum|trait)\b", line)
            return (found[1], word[1]) if word else (None, None)
        if line.startswith("impl") and (found := IMPL.match(line)):
            return found[1], "impl"
        return None, None


def exported(crate):
    """The items of a crate: a path and a line for each."""
    source = TOP / "crates" / crate / "src"
    root = (source / "lib.rt").read_text()
    found = {}
    files = {path: Source(path) for path in sorted(source.rglob("*.rt"))}

    def add(name, path, number):
        found[name] = (path.relative_to(TOP), number)

    def add_type(name):
        for path, file in files.items():
            for inner, number in file.below[name].items():
                add(f"{name}::{inner}", path, number)

    for module, names, name in EXPORT.findall(root):
        if source / f"{module}.rt" not in files:
            # Of another crate.
            continue
        for it in (names or name).replace("\n", " ").split(","):
            if it := it.strip():
                # The module may take it from one below it.
                path = min(
                    (path for path in files if it in files[path].items),
                    key=lambda path: path.stem != module,
                    default=None,
                )
                if path is None:
                    raise BadCase(f"{crate} has no item {it}, which its root exports")
                add(it, path, files[path].items[it])
                add_type(it)
    for name, number in files[source / "lib.rt"].items.items():
        add(name, source / "lib.rt", number)
        add_type(name)
    for module in MODULE.findall(root):
        if module != "laws":
            add(module, source / "lib.rt", 1 + root[: root.index(f"pub mod {module};")].count("\n"))
    return found, set().union(*(file.variants for file in files.values()))


def entries(path):
    """Each crate of a list, with its entry."""
    found, crate = {}, None
    for line in path.read_text().splitlines():
        if not line or line.startswith("#"):
            continue
        if not line.startswith(" "):
            crate, _, line = line.partition(":")
        found[crate] = f"{found.get(crate, '')} {line.strip()}".strip()
    return found


def agreed():
    """The agreed items of each crate."""
    items = defaultdict(set)
    for crate, entry in entries(AGREED).items():
        for word in entry.split():
            if not NAME.fullmatch(word):
                raise BadCase(f"{word} is no name of an item", Place("tests/surface.agreed", 1))
            items[crate].add(word)
    return items


def named(entry: str, items: dict) -> Iterator[str]:
    """The items that an entry names, of a crate with these items. A name without a type is that of a
    function of the type named last, if it has one, or an item of the crate."""
    of = None
    for span in SPAN.findall(entry):
        found = NAME.fullmatch(span)
        if not found:
            raise BadCase(f"`{span}` is no name of an item", Place("tests/surface.added", 1))
        if found[1] or found[2][0].isupper() and not found[2].isupper():
            of = found[1] or found[2]
            yield span
        else:
            yield f"{of}::{span}" if f"{of}::{span}" in items else span


def differences(crate: str) -> Iterator[str]:
    """Where a crate, the agreed items and the added ones differ."""
    text = DECISIONS.read_text()
    section = text[text.index(SECTION):text.index(NEXT)]
    wanted, entry = agreed()[crate], entries(ADDED).get(crate, "")
    items, variants = exported(crate)
    added = set(named(entry, items))
    known = wanted | added
    for item, (path, number) in sorted(items.items(), key=lambda it: (str(it[1][0]), it[1][1])):
        of = item.partition("::")[0]
        is_new = of in known - wanted
        is_open = item in variants and of in wanted and not variants & {
            it for it in wanted if it.startswith(f"{of}::")
        }
        comes_along = entry == ALL or not entry.startswith(EACH) and (is_new or is_open)
        if item not in known and not comes_along:
            yield f"{path}:{number}: {item} is in neither"
    for item in sorted(wanted - set(items)):
        if item not in set(named_anywhere(section)):
            yield f"{item} is agreed, and not in the sources, and not in {DECISIONS.name}"
    for item in sorted(added - set(items)):
        yield f"{item} is in {ADDED.name}, and not in the sources"


def named_anywhere(section):
    """Each name in backquotes, with or without its parameters."""
    for span in SPAN.findall(section):
        for word in re.findall(r"(?:\w+::)?\w+", span):
            yield word


def check_crate(crate: str) -> None:
    if found := list(differences(crate)):
        raise Difference("the items of surface.agreed and surface.added", "\n".join(found))


def promises(*crates: str) -> subprocess.CompletedProcess:
    return subprocess.run([TOP / "docs/promises", *crates], capture_output=True, text=True)


def docs_promises_prints_a_table_for_each_crate() -> None:
    crates = re.findall(r"^\w+", (TOP / "crates.txt").read_text(), re.MULTILINE)
    same(crates, re.findall(r"^## (\w+)$", promises().stdout, re.MULTILINE))
    clauses, sentence = "value, in_range", "The next address on a screen of this size that has this cell"
    row = f"| `Addr::next` | {clauses} | {sentence}; 0 after the last. |"
    same([row], [it for it in promises("codes3270").stdout.splitlines() if "`Addr::next`" in it])
    unknown = promises("codes")
    same((2, "docs/promises: crates.txt has no crate codes\n"), (unknown.returncode, unknown.stderr))


def cases() -> Iterator[Case]:
    yield of_function(docs_promises_prints_a_table_for_each_crate)
    for root in sorted(TOP.glob("crates/*/src/lib.rt")):
        crate = root.parent.parent.name
        yield Case(
            crate, Place(f"crates/{crate}/src/lib.rt", 1), functools.partial(check_crate, crate)
        )
