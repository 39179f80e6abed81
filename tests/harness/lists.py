"""A screen of 24 by 80 as a list of its cells: the commands of GA23-0059-07 as they are defined
there, read from their bytes. The suite `reference` compares it with the screen of presentation;
harness/belief_list.py has the belief.

A cell is a number: the code of its character, or ATTRIBUTE and the bits of its attribute. None is
a cell that isn't known.
"""
import dataclasses
from collections.abc import Iterable, Sequence
from typing import NamedTuple

from harness.cells import GRAPHIC

CELLS = 24 * 80
NULL = 0x00
# The bits of an attribute, and all of them: the others have no meaning.
ATTRIBUTE, PROTECTED, HIDDEN, MDT = 0x100, 0x20, 0x0C, 0x01
BITS = 0x3D
# The bits of a write control character.
ALARM, RESTORE, RESET = 0x04, 0x02, 0x01
# The characters that a cell can hold.
STORABLE = {*range(0x40, 0xFF), NULL, 0x0C, 0x0D, 0x15, 0x19, 0x1C, 0x1E, 0x3F, 0xFF}
# The codes of the orders. DATA is a character's, which has none.
DATA, SF, SBA, IC, PT, RA, EUA = -1, 0x1D, 0x11, 0x13, 0x05, 0x3C, 0x12
# The second codes of the commands.
WRITE, ERASE_WRITE, ERASE_WRITE_ALTERNATE, ERASE_ALL_UNPROTECTED = 0xF1, 0xF5, 0x7E, 0x6F
READS = {0x02: 0xF2, 0x06: 0xF6, 0x0E: 0x6E}
COMMANDS = {
    **{0x01: WRITE, 0x05: ERASE_WRITE, 0x0D: ERASE_WRITE_ALTERNATE, 0x0F: ERASE_ALL_UNPROTECTED},
    **READS,
}
NO_AID, ENTER, CLEAR = 0x60, 0x7D, 0x6D
PA_KEYS = (0x6C, 0x6E, 0x6B)
PF_KEYS = (*range(0xF1, 0xFA), *range(0x7A, 0x7D), *range(0xC1, 0xCA), *range(0x4A, 0x4D))
AIDS = (NO_AID, ENTER, CLEAR, *PA_KEYS, *PF_KEYS)
# The keys that send their AID alone.
SHORT = (CLEAR, *PA_KEYS)

Cell = int | None


class Fault(Exception):
    """Bytes are no command, or no inbound data: the name of the first fault in them."""


class Bytes:
    """Bytes that are read from left to right."""

    def __init__(self, data: bytes) -> None:
        self.rest = data

    def take(self, count: int, fault: str) -> bytes:
        """The next bytes. Has this fault if there are fewer."""
        if len(self.rest) < count:
            raise Fault(fault)
        taken, self.rest = self.rest[:count], self.rest[count:]
        return taken

    def byte(self, fault: str) -> int:
        return self.take(1, fault)[0]

    def character(self, cut: str, bad: str) -> int:
        """The next byte, which a cell can hold."""
        code = self.byte(cut)
        if code not in STORABLE:
            raise Fault(bad)
        return code

    def address(self, cut: str) -> int:
        """The buffer address in the next two bytes."""
        address = address_of(self.take(2, cut))
        if address >= CELLS:
            raise Fault("BadAddress")
        return address


def address_of(data: bytes) -> int:
    """A buffer address of two bytes: of 14 bits if the first two are 00, else of twice six bits
    (GA23-0059-07 on buffer addressing)."""
    high, low = data
    return high << 8 | low if high < 0x40 else (high & 0x3F) << 6 | low & 0x3F


def address_bytes(address: int) -> bytes:
    """A buffer address as it is sent: twice six bits."""
    return bytes([GRAPHIC[address >> 6], GRAPHIC[address & 0x3F]])


def attribute_of(code: int) -> int:
    """The cell that an SF with this byte stores."""
    return ATTRIBUTE | code & BITS


def is_attribute(cell: Cell) -> bool:
    return cell is not None and cell >= ATTRIBUTE


def is_input(cell: Cell) -> bool:
    """Whether a cell is the attribute of an unprotected field."""
    return is_attribute(cell) and not cell & PROTECTED


def cell_bytes(cell: int) -> bytes:
    """A cell as Read Buffer returns it, and as a write stores it."""
    return bytes([SF, GRAPHIC[cell & BITS]]) if is_attribute(cell) else bytes([cell])


def glyph_of(cell: int) -> str:
    """What a cell displays (code page 037): of the control codes DUP and FM aren't blank."""
    if cell in range(0x40, 0xFF):
        return bytes([cell]).decode("cp037")
    return {0x1C: "*", 0x1E: ";"}.get(cell, " ")


def without_nulls(text: Iterable[int]) -> list[int]:
    return [it for it in text if it != NULL]


def without_mdt(cells: Iterable[Cell]) -> list[Cell]:
    """The cells with MDT off in all attributes."""
    return [it & ~MDT if is_attribute(it) else it for it in cells]


class Field(NamedTuple):
    """A field: the address of its attribute, and those of its characters, round the end."""

    place: int
    places: list[int]


def fields_in(cells: Sequence[Cell]) -> list[Field]:
    """The fields, in the order of their attributes: each reaches to the next attribute."""
    starts = [place for place, cell in enumerate(cells) if is_attribute(cell)]
    ends = [*starts[1:], *(CELLS + first for first in starts[:1])]
    return [
        Field(start, [place % CELLS for place in range(start + 1, end)])
        for start, end in zip(starts, ends)
    ]


class Order(NamedTuple):
    """An order of a write: its code, and the address and the cell that it has, if it has them."""

    code: int
    address: int = 0
    cell: int = NULL


class Command(NamedTuple):
    """A command: its code, and a write's WCC and orders."""

    code: int
    wcc: int | None = None
    orders: Sequence[Order] = ()


def order_in(data: Bytes) -> Order:
    """The next order."""
    code = data.byte("Truncated")
    if code in STORABLE:
        return Order(DATA, cell=code)
    if code == SF:
        return Order(SF, cell=attribute_of(data.byte("Truncated")))
    if code in (SBA, EUA):
        return Order(code, data.address("Truncated"))
    if code == RA:
        return Order(RA, data.address("Truncated"), data.character("Truncated", "BadOrder"))
    if code in (IC, PT):
        return Order(code)
    raise Fault("BadOrder")


def command_of(data: bytes) -> Command:
    """The command that the bytes are. What follows the code of one that is no write is ignored."""
    reader = Bytes(data)
    first = reader.byte("Truncated")
    code = COMMANDS.get(first, first)
    if code not in COMMANDS.values():
        raise Fault("BadCommand")
    if code not in (WRITE, ERASE_WRITE, ERASE_WRITE_ALTERNATE):
        return Command(code)
    wcc, orders = reader.byte("Truncated"), []
    while reader.rest:
        orders.append(order_in(reader))
    return Command(code, wcc, orders)


@dataclasses.dataclass
class Screen:
    """A terminal's screen: its cells, the address of the cursor, and the AID."""

    cells: list[int] = dataclasses.field(default_factory=lambda: [NULL] * CELLS)
    cursor: int = 0
    aid: int = NO_AID

    def apply(self, data: bytes) -> tuple[bool, bool]:
        """Executes a command. Whether it restores the keyboard, and whether it sounds the alarm."""
        command = command_of(data)
        if command.code == ERASE_ALL_UNPROTECTED:
            self.erase_input()
            self.aid = NO_AID
            return True, False
        if command.wcc is None:
            return False, False
        if command.code != WRITE:
            self.clear()
        if command.wcc & RESET:
            self.cells = without_mdt(self.cells)
        self.execute(command.orders)
        if command.wcc & RESTORE:
            self.aid = NO_AID
        return bool(command.wcc & RESTORE), bool(command.wcc & ALARM)

    def execute(self, orders: Sequence[Order]) -> None:
        """Executes the orders of a write from the cursor on. A PT directly behind data stores
        nulls."""
        at, is_behind_data = self.cursor, False
        for code, address, cell in orders:
            if code == PT:
                at, is_behind_data = self.tab(at, is_behind_data)
                continue
            if code in (DATA, SF):
                self.cells[at] = cell
                at = (at + 1) % CELLS
            elif code == IC:
                self.cursor = at
            else:
                end = address if address > at else address + CELLS
                span = [place % CELLS for place in range(at, end)]
                if code == RA:
                    self.fill(span, cell)
                elif code == EUA:
                    self.erase_unprotected(span)
                at = address
            is_behind_data = code == DATA

    def tab(self, at: int, is_behind_data: bool) -> tuple[int, bool]:
        """Executes a PT: the cell behind the next attribute of an unprotected field, or the first
        cell, and whether it stored nulls to the last cell. These go up to the next attribute."""
        ahead = range(at, CELLS)
        stop = next((place + 1 for place in ahead if is_input(self.cells[place])), 0) % CELLS
        end = next((place for place in ahead if is_attribute(self.cells[place])), CELLS)
        if is_behind_data:
            self.fill(range(at, end), NULL)
        return stop, is_behind_data and end == CELLS

    def fill(self, places: Iterable[int], cell: int) -> None:
        for place in places:
            self.cells[place] = cell

    def erase_unprotected(self, places: Iterable[int]) -> None:
        """Stores nulls in the characters there that are in unprotected fields, or in none."""
        fields = fields_in(self.cells)
        kept = {it.place for it in fields}
        for field in fields:
            if self.cells[field.place] & PROTECTED:
                kept.update(field.places)
        self.fill(set(places) - kept, NULL)

    def home(self) -> int:
        """The first address of a character directly behind the attribute of an unprotected field,
        or 0."""
        fields = fields_in(self.cells)
        starts = [it.places[0] for it in fields if it.places and is_input(self.cells[it.place])]
        return min(starts, default=0)

    def store(self, first: int, text: bytes) -> None:
        """Types characters from an address on, but over no attribute, and marks their field as
        modified."""
        for place, code in enumerate(text, first):
            if code in STORABLE and not is_attribute(self.cells[place % CELLS]):
                self.cells[place % CELLS] = code
        for field in fields_in(self.cells):
            if first in (field.place, *field.places):
                self.cells[field.place] |= MDT

    def glyphs(self) -> list[str]:
        """What each cell displays: in a hidden field a blank."""
        found = [glyph_of(it) for it in self.cells]
        for place, places in fields_in(self.cells):
            if self.cells[place] & HIDDEN == HIDDEN:
                for it in places:
                    found[it] = " "
        return found

    def clear(self) -> None:
        """The Clear key, and what an erase begins with."""
        self.cells, self.cursor = [NULL] * CELLS, 0

    def erase_input(self) -> None:
        """The Erase Input key: unprotected fields have nulls and no MDT, and the cursor is home."""
        self.cursor = self.home()
        self.erase_unprotected(range(CELLS))
        self.cells = [it & ~MDT if is_input(it) else it for it in self.cells]

    def read(self, form: str) -> bytes:
        """What the terminal sends when it is read: `modified`, `all` or `buffer`."""
        if form == "modified" and self.aid in SHORT:
            return bytes([self.aid])
        head = bytes([self.aid]) + address_bytes(self.cursor)
        if form == "buffer":
            return head + b"".join(map(cell_bytes, self.cells))
        fields = fields_in(self.cells)
        if not fields:
            return head + bytes(without_nulls(self.cells))
        return head + b"".join(
            self.returned(it) for it in fields if self.cells[it.place] & MDT
        )

    def returned(self, field: Field) -> bytes:
        """What is sent of a modified field: SBA, the address of its first cell, and its text."""
        text = without_nulls(self.cells[place] for place in field.places)
        return bytes([SBA, *address_bytes((field.place + 1) % CELLS), *text])
