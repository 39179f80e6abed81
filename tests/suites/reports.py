"""The reports of `check` on panel texts with random changes: tests/cases/panel-texts.reports.

Its texts have blank lines between them; a block that begins with `#` is a comment. Each text is
checked as it is, and then with random changes: lines are left out, repeated or replaced by others,
and keys and values are replaced. A report has a fault exactly if the readers refuse the text, and
has words for each fault: one without words has the name of its cause. A case is a text, or ten
texts that it becomes by changes; its name has the seed.
"""
import functools
import random
import re
from collections.abc import Iterator

from harness.case import CASES, Case, Difference, Place
from harness.data import lines_of
from harness.probe import Probe

TEXTS = CASES / "panel-texts.reports"
# The line of a fault for which there are no words.
NAMELESS = re.compile(r"text:\d+: (.*: )?(Tree|Lus)\(\w+")
# How many changed texts are made of each text: the seeds of its cases, and the changed texts of a
# case.
SEEDS, ROUNDS = 15, 10
MOST_CHANGES, MOST_PAIRS = 3, 5
CHANGES = ("leave out", "repeat", "replace", "insert", "key", "key", "value", "value")
KEYS = (
    "row col length name model otherwise text show fill start lus panel cursor keys field bright"
    " numeric hidden required marked repeat label value enter pf1 pf99 x colour"
).split()
VALUES = (
    *"1 0 -1 2 3 5 6 31 132 22 23 24 80 81 1840 9999999 true 1.5".split(),
    *(
        '"A"',
        '"B"',
        '"f"',
        '"x"',
        '"L1"',
        '""',
        '"\\u0001"',
        '"…"',
        "[]",
        "[1]",
        '["A"]',
        "[{}]",
        "{}",
        "{a = 1}",
        '"A',
    ),
)


@functools.cache
def probe() -> Probe:
    return Probe("lines")


def check_text(text: str, at: Place) -> None:
    """Raises a Difference if the report on a text and the readers differ."""
    first, *page, readers = probe().ask(f"check {text.encode().hex() or '-'}", at)
    refused = readers.partition("readers refuse ")[2]
    if (int(first) > 0) != bool(refused) or any(NAMELESS.match(line) for line in page):
        wanted = (
            f"a report that has words for the fault {refused}"
            if refused
            else "a report without a fault"
        )
        raise Difference(f"{wanted}, on\n{text}", "\n".join([first, *page]), at)


def changed_pair(chance: random.Random, change: str, pair: str) -> str:
    """A key with its value, of which one is replaced. The brackets of an inline table stay."""
    key, _, value = pair.partition("=")
    if change == "key":
        return f"{'{' if key.lstrip().startswith('{') else ''}{chance.choice(KEYS)} ={value}"
    return f"{key}= {chance.choice(VALUES)}{'}' if value.rstrip().endswith('}') else ''}"


def changed_lines(chance: random.Random, line: str, lines: list[str]) -> list[str]:
    """What a line becomes by a change."""
    match change := chance.choice(CHANGES):
        case "leave out":
            return []
        case "repeat":
            return [line, line]
        case "replace":
            return [chance.choice(lines)]
        case "insert":
            return [f"{chance.choice(KEYS)} = {chance.choice(VALUES)}", line]
    pairs = line.split(",")
    place = chance.randrange(chance.randint(1, MOST_PAIRS))
    if place < len(pairs):
        pairs[place] = changed_pair(chance, change, pairs[place])
    return [",".join(pairs)]


def changed(chance: random.Random, text: str) -> str:
    """A text with one to three changes."""
    lines = text.splitlines()
    for _ in range(chance.randint(1, MOST_CHANGES)):
        at = chance.randrange(len(lines) or 1)
        lines[at : at + 1] = changed_lines(chance, lines[at] if lines else "", lines or [""])
    return "".join(f"{line}\n" for line in lines)


def check_changed(text: str, at: Place, seed: str) -> None:
    chance = random.Random(seed)
    for _ in range(ROUNDS):
        check_text(changed(chance, text), at)


def texts() -> Iterator[tuple[Place, str]]:
    """The texts of the file, each with the place of its first line."""
    block = []
    for line in [*lines_of(TEXTS), None]:
        if line and line.text:
            block.append(line)
        elif block:
            if not block[0].text.startswith("#"):
                yield block[0].at, "\n".join(it.text for it in block)
            block = []


def cases() -> Iterator[Case]:
    for number, (at, text) in enumerate(texts(), 1):
        yield Case(f"text {number}", at, functools.partial(check_text, text, at))
        for seed in (f"{number}.{it}" for it in range(1, SEEDS + 1)):
            yield Case(
                f"text {number}, changed with seed {seed}",
                at,
                functools.partial(check_changed, text, at, seed),
            )
