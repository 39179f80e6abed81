"""Screens and keyboards: tests/cases/screen.cases and newline.screens.

The steps of a case, for a screen with a keyboard that waits at first:

    on MODELS STATES         only as the first: the case is run for each model, blank or full of
                             characters in the alternate size
    apply BYTES              a command; it is one here
    times N BYTES            the same N times
    asks WHAT BYTES          the same, and it asks for nothing, the alarm, or to restore
    beyond BYTES             bytes that are no command here, since the screen lacks a cell
    store ADDR BYTES         characters are stored from an address on, and the first one's field is
                             modified
    erase-input; clear       as the keys do
    moves KEY ADDR           a key does what it does, and leaves the cursor there; char:A is the key
                             of a character
    refuses KEY REASON       a key is refused
    sends KEY                a key sends
    size ROWS COLUMNS; cursor ADDR; fields ADDR+LENGTH ..; field ADDR ADDR+LENGTH
    text ADDR BYTES          the characters from an address on, round the end
    attr ADDR CODE           the attribute there
    count CODE N             so many cells have this character
    reads FORM BYTES         a read is answered so, appended to vectors without room and with it
    buffer-length N          Read Buffer is answered by so many bytes
    copied                   a copy is the same
    searched                 each cell's field, attribute and displayed character are what a search
                             finds
"""
import dataclasses
import functools
import re
from collections.abc import Iterator

from harness.case import CASES, Case, Difference, same
from harness.cells import appended, plainly, steps_of, take_step
from harness.data import Line, blocks_of, lines_of
from harness.probe import Probe

FILL = "apply 7EC33C40405C"
DUP, FIELD_MARK = 0x1C, 0x1E
SHOWN = re.compile(r"\((?P<size>\d+ \d+), (?P<cursor>\d+), (?P<home>\d+), .*\)")
LOOK = re.compile(r"\((\w+), (\S+), (\w+), (\d+)\)")


@dataclasses.dataclass(frozen=True)
class Cell:
    """What the probe says of a cell."""

    token: str
    field: str
    over: str
    glyphs: tuple[int, int]

    @property
    def attribute(self) -> int | None:
        return int(self.token[2:], 16) if len(self.token) == 4 else None


class Display:
    """A screen and its keyboard, which the probe has."""

    def __init__(self, model: int = 2) -> None:
        self.probe = Probe("screen")
        self.probe.ask(f"new {model}")

    def ask(self, command: str, line: Line) -> str:
        return "\n".join(plainly(self.probe.ask(command, line.at)))

    def show(self, line: Line) -> dict[str, str]:
        shown = SHOWN.fullmatch(self.ask("show", line)).groupdict()
        fields = self.ask("fields", line).removeprefix("fields").strip()
        return {**shown, "fields": fields}

    def look(self, line: Line) -> list[Cell]:
        rows = [LOOK.fullmatch(it).groups() for it in self.ask("look", line).split("\n")]
        glyphs = self.ask("glyphs", line).split()[1:]
        same(len(rows), len(glyphs), line.at)
        return [
            Cell(
                token,
                field.replace("none", "-"),
                "-" if over == "none" else f"1D{over}",
                (int(glyph), int(walked)),
            )
            for (token, field, over, glyph), walked in zip(rows, glyphs)
        ]

    def press(self, key: str, line: Line) -> str:
        kind, colon, letter = key.partition(":")
        return self.ask(f"char {ord(letter)}" if colon else f"press {kind}", line)

    def do_apply(self, line: Line, words: list[str]) -> None:
        same("Ok", self.ask(f"apply {' '.join(words)}", line)[:2], line.at)

    def do_times(self, line: Line, words: list[str]) -> None:
        for _ in range(int(words[0])):
            self.do_apply(line, words[1:])

    def do_asks(self, line: Line, words: list[str]) -> None:
        asked = {"nothing": (False, False), "alarm": (False, True), "restore": (True, False)}
        restore, alarm = (str(it).lower() for it in asked[words[0]])
        wanted = f"Ok(Applied {{ restore: {restore}, alarm: {alarm} }})"
        same(wanted, self.ask(f"apply {' '.join(words[1:])}", line), line.at)

    def do_beyond(self, line: Line, words: list[str]) -> None:
        same("Err(BadAddress)", self.ask(f"apply {' '.join(words)}", line), line.at)

    def change(self, line: Line, words: list[str]) -> None:
        self.ask(line.text, line)

    do_store = do_erase_input = do_clear = change

    def do_moves(self, line: Line, words: list[str]) -> None:
        same("Done", self.press(words[0], line), line.at)
        same(words[1], self.show(line)["cursor"], line.at)

    def do_refuses(self, line: Line, words: list[str]) -> None:
        same(f"Refused({words[1].title().replace('-', '')})", self.press(words[0], line), line.at)

    def do_sends(self, line: Line, words: list[str]) -> None:
        same("Send", self.press(words[0], line).split("(")[0], line.at)

    def shown(self, line: Line, words: list[str]) -> None:
        word = line.text.split()[0]
        same(" ".join(words), self.show(line)[word], line.at)

    do_size = do_cursor = do_fields = shown

    def do_field(self, line: Line, words: list[str]) -> None:
        same(words[1], self.look(line)[int(words[0])].field, line.at)

    def do_text(self, line: Line, words: list[str]) -> None:
        cells, wanted = self.look(line), line.data(" ".join(words[1:]))
        came = [cells[(int(words[0]) + step) % len(cells)].token for step in range(len(wanted))]
        same(wanted.hex(" ").upper(), " ".join(came), line.at)

    def do_attr(self, line: Line, words: list[str]) -> None:
        """Two attributes are the same if their bits are, whatever the two highest bits of their
        codes."""
        attribute = self.look(line)[int(words[0])].attribute
        same(int(words[1], 16) & 0x3F, attribute and attribute & 0x3F, line.at)

    def do_count(self, line: Line, words: list[str]) -> None:
        same(int(words[1]), [cell.token for cell in self.look(line)].count(words[0]), line.at)

    def do_reads(self, line: Line, words: list[str]) -> None:
        wanted = line.data(" ".join(words[1:]))
        for before, room in ((b"", 0), (b"\7\7", 2), (b"\7\7", 2 + len(wanted))):
            self.ask(f"vector {room} {before.hex() or '-'}", line)
            came = appended(self.probe, f"read {words[0]}", line)
            same((before + wanted).hex().upper(), came.hex().upper(), line.at)

    def do_buffer_length(self, line: Line, words: list[str]) -> None:
        self.ask("vector 0 -", line)
        same(int(words[0]), len(appended(self.probe, "read buffer", line)), line.at)

    def do_copied(self, line: Line, words: list[str]) -> None:
        before = self.show(line), self.look(line)
        self.ask("copy", line)
        same(before, (self.show(line), self.look(line)), line.at)

    def do_searched(self, line: Line, words: list[str]) -> None:
        cells = self.look(line)
        places = [place for place, cell in enumerate(cells) if cell.attribute is not None]
        attr = places[-1] if places else None
        fields = fields_of(places, len(cells))
        for place, cell in enumerate(cells):
            attr = place if cell.attribute is not None else attr
            check_cell(
                place, cell, None if attr is None else cells[attr], fields.get(attr, "-"), line
            )
        same(" ".join(fields.values()), self.show(line)["fields"], line.at)


def fields_of(places: list[int], size: int) -> dict[int | None, str]:
    """The field of each attribute: its address, and how many cells follow up to the next one, round
    the end."""
    ends = [*places[1:], *(it + size for it in places[:1])]
    return {attr: f"{attr}+{end - attr - 1}" for attr, end in zip(places, ends)}


def glyph(token: str, over: int | None) -> int:
    """What is displayed: GA23-0059-07 on displayable characters, in code page 037. Bits 4 and 5 of
    an attribute, both on, hide its field."""
    code = int(token, 16) if len(token) == 2 else 0
    if over is not None and over & 0x0C == 0x0C:
        code = 0
    named = {DUP: "*", FIELD_MARK: ";"}
    return ord(named.get(code) or (bytes([code]).decode("cp037") if 0x40 <= code < 0xFF else " "))


def check_cell(place: int, cell: Cell, over: Cell | None, field: str, line: Line) -> None:
    """Compares a cell with what a search finds: the nearest attribute before it or at it, round the
    end, governs it."""
    shown = glyph(cell.token, over and over.attribute)
    wanted = Cell(cell.token, field, over.token if over else "-", (shown, shown))
    if wanted != cell:
        raise Difference(f"{place}: {wanted}", f"{place}: {cell}", line.at)


def held(model: int, state: str, lines: list[Line], head: Line) -> None:
    display = Display(model)
    try:
        if state == "full":
            display.do_apply(head, FILL.split()[1:])
        for line in lines:
            take_step(steps_of(Display), display, line)
    finally:
        display.probe.close()


def of_block(head: Line, name: str, lines: list[Line]) -> Iterator[Case]:
    """A case for each model and state."""
    if not lines:
        raise head.bad("needs steps")
    models, states = ["2"], ["blank"]
    if lines[0].text.startswith("on "):
        words, lines = lines[0].text.split()[1:], lines[1:]
        models, states = [it for it in words if it.isdigit()], [
            it for it in words if it in ("blank", "full")
        ]
    for model in models:
        for state in states:
            yield Case(
                f"{name}, on model {model}, {state}",
                head.at,
                functools.partial(held, int(model), state, lines, head),
            )


def may_be_typed_into(cell: Cell) -> bool:
    return cell.attribute is None and (cell.over == "-" or not int(cell.over[2:], 16) & 0x20)


def new_line_goes(line: Line) -> None:
    """New Line goes from the first and the last cell of each row to the first cell from the next
    row on that may be typed into, round the end; to 0 if there is none."""
    model, *command = line.text.split()
    display = Display(int(model))
    display.do_apply(line, command)
    cells = display.look(line)
    rows, columns = (int(it) for it in display.show(line)["size"].split())
    for row in range(rows):
        order = [(it + (row + 1) * columns) % len(cells) for it in range(len(cells))]
        wanted = next((it for it in order if may_be_typed_into(cells[it])), 0)
        for place in (row * columns, (row + 1) * columns - 1):
            display.ask(f"cursor {place}", line)
            same(f"from {place}: Done", f"from {place}: {display.press('newline', line)}", line.at)
            came = display.show(line)["cursor"]
            same(f"from {place}: {wanted}", f"from {place}: {came}", line.at)
    display.probe.close()


def cases() -> Iterator[Case]:
    for head, name, lines in blocks_of(CASES / "screen.cases", "case"):
        yield from of_block(head, name, lines)
    for line in lines_of(CASES / "newline.screens"):
        if not line.text.startswith("#"):
            yield Case(
                f"New Line goes as searched: {line.text}",
                line.at,
                functools.partial(new_line_goes, line),
            )
