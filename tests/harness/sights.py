"""What the probe prints of screens, terminals and hosts, and whether a screen is as a belief
says."""
import dataclasses
import functools
import re

from harness.tables import named

CELL = re.compile(r"1D..|..")
ENTER_AND_PF = {
    "7D",
    *(f"F{it}" for it in range(1, 10)),
    *(f"C{it}" for it in range(1, 10)),
    "7A",
    "7B",
    "7C",
    "4A",
    "4B",
    "4C",
}

REFUSALS = {"Locked": 1, "Protected": 2, "NotNumeric": 3, "NoRoom": 4, "NoCode": 5}
BY_DEBUG = {"phase", "model", "turn", "pending", "inserting", "took-write", "erased"}


def spelt(data: bytes) -> str:
    """Bytes as the probe prints them."""
    return data.hex().upper() or "-"


def plain(text: str) -> str:
    """What the probe prints by Debug, as the cases say it."""
    if found := re.fullmatch(r"Fed { taken: (\d+), stop: (.*) }", text):
        return f"{found[1]} {plain(found[2])}"
    if found := re.fullmatch(r"Ran { whole: (\d+), part: (\d+) }", text):
        return f"{found[1]} {found[2]}"
    if found := re.fullmatch(r"(Closed|Refused|Part|Go)\((.*)\)", text):
        return f"{found[1].lower()} {REFUSALS.get(found[2], found[2])}"
    if found := re.fullmatch(r"Some\(M?(\d+)\)", text):
        return found[1]
    if text.startswith("Bound("):
        return f"bound {named(text)[6:-1]}"
    return {"true": "yes", "false": "no"}.get(text, text.lower() if text.isalpha() else text)


def parts_of(answer: list[str]) -> dict[str, str]:
    """The lines of an answer by their first words. A belief's fields have the word and the
    address."""
    found = {}
    for line in answer:
        word, _, rest = line.partition(" ")
        if word == "field":
            at, _, rest = rest.partition(" ")
            word = f"field {at}"
        found[word] = plain(rest) if word in BY_DEBUG else rest
    return found


def cells_of(text: str) -> list[str]:
    """The cells of a screen, or those that are known: two digits of a character, 1D and an
    attribute's code, or ??."""
    return CELL.findall(text)


@dataclasses.dataclass(frozen=True)
class Belief:
    """What a host believes of a screen: each cell that is known, and of each field a fact and a
    text."""

    known: list[str]
    fields: dict[int, tuple[str, list[str]]]

    @staticmethod
    def of(parts: dict[str, str]) -> "Belief":
        fields = {}
        for name, value in parts.items():
            if name.startswith("field "):
                fact, _, text = value.partition(" ")
                fields[int(name[6:])] = (fact, cells_of(text))
        return Belief(cells_of(parts["belief"]), fields)


def is_attribute(cell: str) -> bool:
    return len(cell) == 4


def unmarked(cell: str) -> str:
    """A cell without its modified data tag, as bits."""
    return f"1D{int(cell[2:], 16) & 0x3E:02X}" if is_attribute(cell) else cell


def is_there(known: str, cell: str) -> bool:
    """Whether what is known of a cell, if something is, is there. MDT may differ."""
    return known == "??" or unmarked(known) == unmarked(cell)


def attributes_of(cells: list[str]) -> list[int]:
    return [place for place, cell in enumerate(cells) if is_attribute(cell)]


def fields_of(cells: list[str]) -> dict[int, list[int]]:
    """The places of each field's characters, in order, by the place of its attribute. Behind the
    last cell comes the first."""
    starts = attributes_of(cells)
    found = {}
    for start, end in zip(starts, [*starts[1:], *starts[:1]]):
        found[start] = [*range(start + 1, end)] if end > start else [
            *range(start + 1, len(cells)), *range(end)
        ]
    return found


def has_text(belief: Belief, cells: list[str], at: int, places: list[int]) -> bool:
    """Whether the field whose attribute is at a place has the text that is believed."""
    fact, text = belief.fields[at]
    there = [cells[place] for place in places]
    known = [belief.known[place] for place in places]
    told = [cell for cell in there if cell != "00"]
    match fact:
        case "Exact":
            return there == known and len(text) == len(there)
        case "ExactOrNulls":
            return there == text or not told
        case "Text":
            return told == text
        case "TextOrNulls":
            return told == text or not told
        case _:
            return all(map(is_there, known, there))


def what_differs(belief: Belief, cells: list[str]) -> str:
    """How the screen isn't as the host believes it to be, if it isn't: its size; just the fields
    that the host believes in, each with the attribute and the text that it believes; or no fields,
    and what is known of each cell."""
    if belief.known and len(belief.known) != len(cells):
        return f"{len(belief.known)} cells are believed, {len(cells)} are there"
    fields = fields_of(cells)
    if set(fields) != set(belief.fields):
        return f"fields are believed at {sorted(belief.fields)}, and are at {sorted(fields)}"
    for at, places in fields.items():
        if not is_there(belief.known[at], cells[at]) or not has_text(belief, cells, at, places):
            came = [cells[place] for place in places]
            return f"the field at {at} isn't as believed: {belief.fields[at]}, {came}"
    if not fields and not all(map(is_there, belief.known, cells)):
        return "a cell of a screen without fields isn't as known"
    return ""


def what_was_lost(aid: str, cells: list[str], left: list[str], erased: bool) -> str:
    """After Enter or a PF key, an unmodified input field in which isn't what the host's last write
    with restore left there, or nulls if Erase Input was done since, if there is one."""
    if aid not in ENTER_AND_PF:
        return ""
    for at, places in fields_of(cells).items():
        bits = int(cells[at][2:], 16)
        if not bits & 0x21:
            wanted = [
                "00" if erased else left[place] if place < len(left) else "" for place in places
            ]
            if [cells[place] for place in places] != wanted:
                return f"the unmodified field at {at} isn't as it was left"
    return ""


@functools.lru_cache(maxsize=64)
def headline_fault(host: tuple[str, ...], terminal: tuple[str, ...], left: tuple[str, ...]) -> str:
    """Why the headline doesn't hold of a connection whose host decides: answers of the probe to
    host, terminal and left."""
    screen, behind = parts_of(list(terminal)), parts_of(list(left))
    cells = cells_of(screen["cells"])
    return what_differs(Belief.of(parts_of(list(host))), cells) or what_was_lost(
        screen["aid"], cells, cells_of(behind["cells"]), behind["erased"] == "yes"
    )
