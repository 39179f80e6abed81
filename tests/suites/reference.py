"""The screen of presentation and the belief of shadow beside those of harness/lists.py and
harness/belief_list.py, which are lists: tests/cases/reference.cases.

A case is a name and the lines below it, up to a blank line; a line that begins with `#` is a
comment. A line has a word, and bytes if the word takes some:

    write BYTES              a command: both screens execute it; if it is a plain write, both
                             beliefs take it
    modified BYTES           an answer to Read Modified: both beliefs hear it; likewise `all` and
                             `buffer`
    answer-modified          both beliefs hear the screen's own answer; likewise `answer-all` and
                             `answer-buffer`
    type ADDRESS BYTES       characters are stored on both screens from an address of two bytes on,
                             and their field is modified
    press BYTE               the AID of both screens
    clear; erase-input       the keys

After each line that can change them both screens say the same of each cell, of the fields and of
each read, and both beliefs the same of each cell and each fact, whether six wanted screens fit
them, and which bytes paint these.
"""
import functools
import itertools
from collections.abc import Iterator

from harness.belief_list import KEEP, Belief, Denied, Wanted
from harness.case import CASES, Case, Difference, Place
from harness.cells import DISPLAYS, GRAPHIC
from harness.data import Line, lines_of
from harness.lists import (
    BITS, CELLS, CLEAR, ENTER, NO_AID, NULL, PA_KEYS, PF_KEYS, Cell, Fault, Screen, address_of,
    attribute_of, fields_in, is_attribute, is_input,
)
from harness.probe import Probe

PARTS = 4
FORMS = ("modified", "all", "buffer")
# What changes the cells of a screen.
CHANGES = ("write", "type", "clear", "erase-input")
# The cells, by distance, in which another character is wanted, and that character.
CHANGED_EVERY, CHANGED = 7, 0xC2

# A command of the probe, and the answer that is wanted.
Question = tuple[str, list[str]]


def said(value: bool) -> str:
    return str(value).lower()


def aid_said(aid: int) -> str:
    """An AID by Debug."""
    if aid in PF_KEYS:
        return f"Pf(PfNo {{ number: {PF_KEYS.index(aid) + 1} }})"
    if aid in PA_KEYS:
        return f"Pa(PaNo {{ number: {PA_KEYS.index(aid) + 1} }})"
    return {NO_AID: "NoAid", ENTER: "Enter", CLEAR: "Clear"}[aid]


@functools.cache
def attribute_said(cell: int) -> str:
    """An attribute by Debug."""
    protected, numeric, mdt = (said(bool(cell & bit)) for bit in (0x20, 0x10, 0x01))
    display = DISPLAYS[cell >> 2 & 3]
    return (
        f"Attr {{ protected: {protected}, numeric: {numeric}, display: {display}, mdt: {mdt} }}"
    )


def cell_spelt(cell: Cell) -> str:
    """A cell in the commands and answers of the probe."""
    if cell is None:
        return "??"
    return f"1D{GRAPHIC[cell & BITS]:02X}" if is_attribute(cell) else f"{cell:02X}"


def looks(screen: Screen) -> list[str]:
    """Each cell by Debug, its field, the attribute that governs it, and the code point of what it
    displays."""
    over = ["None, None"] * CELLS
    for place, places in fields_in(screen.cells):
        attribute = attribute_said(screen.cells[place])
        field = f"Field {{ attr: Addr {{ position: {place} }}, length: {len(places)} }}"
        for it in (place, *places):
            over[it] = f"Some({field}), Some({attribute})"
    return [
        f"({f'Attr({attribute_said(cell)})' if is_attribute(cell) else f'Char({cell})'}, {field}, "
        f"{ord(glyph)})" for cell, field, glyph in zip(screen.cells, over, screen.glyphs())
    ]


def about_screen(screen: Screen, word: str) -> Iterator[Question]:
    """What a screen says after a line with this word."""
    cursor, home = (f"Addr {{ position: {it} }}" for it in (screen.cursor, screen.home()))
    yield "show", [f"(Size {{ model: M2 }}, {cursor}, {home}, {aid_said(screen.aid)})"]
    if word in CHANGES:
        yield "look", looks(screen)
    for form in FORMS:
        yield from appended(f"read {form}", screen.read(form))


def appended(command: str, data: bytes | None) -> Iterator[Question]:
    """A command that appends these bytes, or says nothing."""
    yield "vector 0 -", []
    yield command, [] if data is None else ["done"]
    yield "appended", [f"appended {(data or b'').hex().upper() or '-'}"]


def shown(belief: Belief) -> list[str]:
    """What a belief knows of each cell, and the fact of each field."""
    is_known = belief.fields or belief.characters is not None
    cells = "".join(map(cell_spelt, belief.cells()[0])) if is_known else ""
    return [f"belief {cells}"] + [
        f"field {it.place} {it.fact.value} {''.join(map(cell_spelt, it.told()))}"
        for it in belief.fields
    ]


def wants(cells: list[Cell], is_changed: bool, keeps: bool) -> list[Cell]:
    """What is known, nulls elsewhere; with other characters here and there, or with the characters
    of unprotected fields kept."""
    found = [NULL if it is None else it for it in cells]
    if is_changed:
        for place in range(0, CELLS, CHANGED_EVERY):
            found[place] = found[place] if is_attribute(found[place]) else CHANGED
    if keeps:
        for place, places in fields_in(cells):
            for it in places if is_input(cells[place]) else ():
                found[it] = KEEP
    return found


def about_belief(belief: Belief) -> Iterator[Question]:
    """What a belief knows, and how it paints six screens: what is known, changed, and kept; nulls,
    attributes and Keep alone."""
    yield "show", shown(belief)
    cells, _ = belief.cells()
    for is_changed, keeps in ((False, False), (True, False), (False, True)):
        wanted = Wanted(wants(cells, is_changed, keeps), CHANGED_EVERY, is_changed)
        spelt = " ".join("keep" if it is KEEP else cell_spelt(it) for it in wanted.cells)
        yield "want 2 00", []
        yield f"put 0 {spelt}", []
        yield f"aim {CHANGED_EVERY} {said(is_changed)}", []
        yield from about_paint(belief, wanted)
    for want, cell in (("00", NULL), ("1DE8", attribute_of(0xE8)), ("keep", KEEP)):
        yield f"want 2 {want}", []
        yield from about_paint(belief, Wanted([cell] * CELLS))


def about_paint(belief: Belief, wanted: Wanted) -> Iterator[Question]:
    yield "fits", [said(belief.fits(wanted))]
    yield from appended("paint", belief.paint(wanted))


class Held:
    """A case: a screen and a belief, each of the probe and as a list."""

    def __init__(self) -> None:
        self.screens, self.beliefs = Probe("screen"), Probe("belief")
        self.screen, self.belief = Screen(), Belief()
        self.screens.ask("new 2")

    def ask(self, probe: Probe, questions: list[Question], line: Line) -> None:
        """The probe's answers must be those that are wanted."""
        answers = probe.ask_each([command for command, _ in questions], line.at)
        for (command, wanted), came in zip(questions, answers):
            for one, other in itertools.zip_longest(wanted, came):
                if one != other:
                    raise Difference(f"{command[:60]}: {one}", f"{command[:60]}: {other}", line.at)

    def hear(self, form: str, data: bytes, line: Line) -> None:
        try:
            self.belief.hear(form, data)
            wanted = "Ok(None)"
        except Denied as denied:
            wanted = f"Ok(Some({denied}))"
        except Fault as fault:
            wanted = f"Err({fault})"
        self.ask(self.beliefs, [(f"hear {form} {data.hex() or '-'}", [wanted])], line)

    def write(self, data: bytes, line: Line) -> None:
        try:
            restores, alarms = self.screen.apply(data)
        except Fault as fault:
            return self.ask(self.screens, [(f"apply {data.hex() or '-'}", [f"Err({fault})"])], line)
        applied = f"Ok(Applied {{ restore: {said(restores)}, alarm: {said(alarms)} }})"
        self.ask(self.screens, [(f"apply {data.hex()}", [applied])], line)
        is_plain = said(self.belief.take(data))
        self.ask(self.beliefs, [(f"take 2 {data.hex()}", [f"Ok({is_plain})"])], line)

    def type_at(self, place: int, text: bytes, line: Line) -> None:
        self.screen.store(place, text)
        self.screen.cursor = (place + len(text)) % CELLS
        commands = [f"store {place} {text.hex() or '-'}", f"cursor {self.screen.cursor}"]
        self.ask(self.screens, [(it, []) for it in commands], line)

    def take(self, word: str, data: bytes, line: Line) -> None:
        if word == "write":
            self.write(data, line)
        elif word in FORMS:
            self.hear(word, data, line)
        elif word.startswith("answer-") and word[7:] in FORMS:
            self.hear(word[7:], self.screen.read(word[7:]), line)
        elif word == "type":
            self.type_at(address_of(data[:2]), data[2:], line)
        elif word == "press":
            self.screen.aid = data[0]
            self.ask(self.screens, [(f"aid {data.hex()}", [])], line)
        elif word in ("clear", "erase-input"):
            self.screen.clear() if word == "clear" else self.screen.erase_input()
            self.ask(self.screens, [(word, [])], line)
        else:
            raise line.bad("needs a word of these cases")

    def compare(self, word: str, line: Line) -> None:
        """Compares what the line can have changed."""
        if word in (*CHANGES, "press"):
            self.ask(self.screens, [*about_screen(self.screen, word)], line)
        if word == "write" or word not in (*CHANGES, "press"):
            self.ask(self.beliefs, [*about_belief(self.belief)], line)


def held(lines: list[Line]) -> None:
    case = Held()
    with case.screens, case.beliefs:
        for line in lines:
            word, _, rest = line.text.partition(" ")
            case.take(word, line.data(rest), line)
            case.compare(word, line)


def blocks(lines: list[Line]) -> Iterator[list[Line]]:
    """The lines between blank lines."""
    block: list[Line] = []
    for line in [*lines, Line(Place("", 0), "")]:
        if line.text.strip():
            block.append(line)
        elif block:
            yield block
            block = []


def cases() -> Iterator[Case]:
    for head, *lines in blocks(lines_of(CASES / "reference.cases")):
        if not head.text.startswith("#"):
            steps = [it for it in lines if not it.text.startswith("#")]
            yield Case(head.text, head.at, functools.partial(held, steps))
