"""What a host believes of a screen of 24 by 80, as a list of fields: our profile as shadow defines
it, read from the bytes of commands and inbound data. The suite `reference` compares it with the
belief of shadow."""
import dataclasses
import enum
from collections.abc import Sequence
from typing import NamedTuple

from harness.lists import (
    AIDS, CELLS, CLEAR, DATA, ERASE_WRITE, GRAPHIC, IC, MDT, NULL, PROTECTED, RESET,
    RESTORE, SBA, SF, SHORT, STORABLE, WRITE, Bytes, Cell, Fault, Field, Order, address_bytes,
    attribute_of, cell_bytes, command_of, fields_in, without_mdt, without_nulls,
)

# What is wanted of a cell whose character the operator keeps.
KEEP = None


class Denied(Exception):
    """No screen that is so believed can have sent the inbound data: the name of the fault."""


class Fact(enum.Enum):
    """What is known of a field's characters: they are a text; that or all nulls; a text once nulls
    are left out; that or all nulls; or each character by itself, None if it isn't known."""

    EXACT = "Exact"
    EXACT_OR_NULLS = "ExactOrNulls"
    TEXT = "Text"
    TEXT_OR_NULLS = "TextOrNulls"
    ANY = "Any"


@dataclasses.dataclass(frozen=True)
class Believed:
    """A field: the address of its attribute, this without MDT, MDT or None if it isn't known, the
    number of its characters, and what is known of them."""

    place: int
    attribute: int
    mdt: bool | None
    length: int
    fact: Fact
    text: Sequence[Cell]

    @property
    def first(self) -> int:
        """The address of the first cell, which inbound data has."""
        return (self.place + 1) % CELLS

    @property
    def is_protected(self) -> bool:
        return bool(self.attribute & PROTECTED)

    def characters(self) -> Sequence[Cell]:
        """Each character, None if it isn't known."""
        return self.text if self.fact in (Fact.EXACT, Fact.ANY) else [None] * self.length

    def told(self) -> Sequence[Cell]:
        """The text that the fact has, if it has one."""
        return () if self.fact == Fact.ANY else self.text

    def knowing(self, mdt: bool | None, text: Sequence[Cell]) -> "Believed":
        """The field with these characters."""
        fact = Fact.ANY if None in text else Fact.EXACT
        return dataclasses.replace(self, mdt=mdt, length=len(text), fact=fact, text=text)

    def denies(self, text: list[int] | None) -> bool:
        """Whether this text can't be returned for the field or, if it is None, nothing. An
        unprotected field may have changed in any way."""
        if text is None:
            return self.is_protected and self.mdt is True
        is_another = self.fact == Fact.EXACT and without_nulls(self.text) != text
        return len(text) > self.length or self.is_protected and (self.mdt is False or is_another)

    def denies_read(self, other: "Believed") -> bool:
        """Whether the field can't be the one that was read."""
        pairs = zip(self.characters(), other.text)
        is_another = self.length != other.length or any(
            known is not None and known != read for known, read in pairs
        )
        return (self.place, self.attribute) != (other.place, other.attribute) or (
            self.is_protected and is_another
        )

    def heard(self, text: list[int] | None, is_erased: bool) -> "Believed":
        """The field after inbound data that returns this text for it, or nothing. If input was
        erased, a field that isn't returned has nulls."""
        mdt = text is not None
        if self.is_protected:
            return dataclasses.replace(self, mdt=mdt)
        if text:
            return dataclasses.replace(self, mdt=mdt, fact=Fact.TEXT, text=text)
        if text is not None or is_erased:
            return self.knowing(mdt, [NULL] * self.length)
        if self.fact == Fact.ANY:
            return self.knowing(mdt, [None] * self.length)
        fact = self.fact
        if any(self.text):
            fact = {Fact.EXACT: Fact.EXACT_OR_NULLS, Fact.TEXT: Fact.TEXT_OR_NULLS}.get(fact, fact)
        return dataclasses.replace(self, mdt=mdt, fact=fact)


class Inbound(NamedTuple):
    """Inbound data: the AID, the text before the first address, the address and the text of each
    returned field, and the cells of Read Buffer."""

    aid: int
    leading: list[int]
    returned: list[tuple[int, list[int]]]
    cells: list[int]


def inbound_of(form: str, data: bytes) -> Inbound:
    """The inbound data of a form that the bytes are."""
    reader = Bytes(data)
    aid = reader.byte("Short")
    if aid not in AIDS:
        raise Fault("BadAid")
    found = Inbound(aid, [], [], [])
    if form == "modified" and aid in SHORT:
        end(reader)
        return found
    reader.address("Short")
    if form == "buffer":
        found.cells.extend(cell_in(reader) for _ in range(CELLS))
        end(reader)
        return found
    text = found.leading
    while reader.rest:
        code = reader.byte("BadForm")
        if code == SBA:
            text = []
            found.returned.append((reader.address("BadForm"), text))
        elif code in STORABLE and code != NULL:
            text.append(code)
        else:
            raise Fault("BadForm")
    return found


def cell_in(reader: Bytes) -> int:
    """The next cell of Read Buffer."""
    if reader.rest[:1] == bytes([SF]):
        return attribute_of(reader.take(2, "Short")[1])
    return reader.character("Short", "BadForm")


def end(reader: Bytes) -> None:
    if reader.rest:
        raise Fault("BadForm")


@dataclasses.dataclass(frozen=True)
class Wanted:
    """A screen that a host wants: each cell or KEEP, the address of the cursor, and whether MDT is
    reset first."""

    cells: Sequence[Cell]
    cursor: int = 0
    is_reset: bool = False

    def kept_fields(self) -> list[Field]:
        """The fields in which a cell is kept."""
        return [
            it for it in fields_in(self.cells)
            if any(self.cells[place] is KEEP for place in it.places)
        ]


class Belief:
    """What a host believes of a screen: its fields; or the characters of one without fields, each
    None if it isn't known; or nothing, if there are neither."""

    def __init__(self) -> None:
        self.fields: list[Believed] = []
        self.characters: list[Cell] | None = None

    def cells(self) -> tuple[list[Cell], set[int]]:
        """Each cell as far as it is known, and the attributes whose MDT isn't known: they are given
        without it."""
        cells = [*(self.characters or [])] or [None] * CELLS
        for it in self.fields:
            for step, cell in enumerate([it.attribute | bool(it.mdt), *it.characters()]):
                cells[(it.place + step) % CELLS] = cell
        return cells, {it.place for it in self.fields if it.mdt is None}

    def know(
        self, cells: list[Cell], unsure: set[int], kept: list[Believed], stored: set[int]
    ) -> None:
        """Believes these cells. A field of `kept` that has its attribute's address and length, and
        in which nothing is stored, keeps what is known of its characters."""
        before = {(it.place, it.length): it for it in kept}
        self.fields = []
        for place, places in fields_in(cells):
            mdt = None if place in unsure else bool(cells[place] & MDT)
            field = Believed(place, cells[place] & ~MDT, mdt, 0, Fact.EXACT, [])
            field = field.knowing(mdt, [cells[it] for it in places])
            old = before.get((place, len(places)))
            if old and stored.isdisjoint(places):
                field = dataclasses.replace(field, fact=old.fact, text=old.text)
            self.fields.append(field)
        self.characters = None if self.fields else cells

    def forget(self) -> None:
        self.fields, self.characters = [], None

    def take(self, data: bytes) -> bool:
        """Takes a write that a terminal carried out. Whether it is plain: it has SBA, SF, IC and
        characters alone."""
        command = command_of(data)
        if command.wcc is None or any(
            it.code not in (DATA, SF, SBA, IC) for it in command.orders
        ):
            return False
        if command.code != WRITE:
            self.fields, self.characters = [], [NULL] * CELLS
            self.store(command.orders, 0, False)
        elif self.fields or self.characters is not None:
            self.store(command.orders, None, bool(command.wcc & RESET))
        return True

    def store(self, orders: Sequence[Order], at: int | None, is_reset: bool) -> None:
        """Stores what the orders store from an address on. If they store a cell where that isn't
        known, nothing is known any more."""
        cells, unsure = self.cells()
        if is_reset:
            cells, unsure = without_mdt(cells), set()
        stored = set()
        for code, address, cell in orders:
            if code == SBA:
                at = address
            elif code != IC:
                if at is None:
                    return self.forget()
                cells[at] = cell
                stored.add(at)
                at = (at + 1) % CELLS
        self.know(cells, unsure - stored, self.fields, stored)

    def hear(self, form: str, data: bytes) -> None:
        """Hears inbound data of a form: `modified`, `all` or `buffer`. It may be denied."""
        inbound = inbound_of(form, data)
        if form == "buffer":
            self.hear_buffer(inbound.cells)
        elif form == "modified" and inbound.aid in SHORT:
            self.hear_key(inbound.aid)
        elif self.fields:
            self.hear_fields(inbound)
        elif inbound.returned:
            raise Denied("NoSuchField")
        elif self.characters is not None and len(inbound.leading) > CELLS:
            raise Denied("Contradiction")
        else:
            self.forget()

    def hear_key(self, aid: int) -> None:
        """After Clear the screen has nulls. After a PA key input may be anything."""
        if aid == CLEAR:
            self.fields, self.characters = [], [NULL] * CELLS
        else:
            self.characters = None
            self.fields = [
                it if it.is_protected else it.knowing(None, [None] * it.length)
                for it in self.fields
            ]

    def hear_fields(self, inbound: Inbound) -> None:
        """Each field has MDT if it was returned, in the fields' order. If one with MDT wasn't, the
        operator has pressed Erase Input."""
        if not {first for first, _ in inbound.returned} <= {it.first for it in self.fields}:
            raise Denied("NoSuchField")
        rest = inbound.returned[::-1]
        answers = [
            (it, rest.pop()[1] if rest and rest[-1][0] == it.first else None) for it in self.fields
        ]
        if rest or inbound.leading or any(field.denies(text) for field, text in answers):
            raise Denied("Contradiction")
        is_erased = any(
            it.mdt and not it.is_protected and text is None for it, text in answers
        )
        self.fields = [field.heard(text, is_erased) for field, text in answers]

    def hear_buffer(self, cells: list[int]) -> None:
        """All cells are known, if the fields are those that were believed."""
        read = Belief()
        read.know(cells, set(), [], set())
        is_known = bool(self.fields) or self.characters is not None
        if is_known and (
            len(self.fields) != len(read.fields)
            or any(one.denies_read(other) for one, other in zip(self.fields, read.fields))
        ):
            raise Denied("Contradiction")
        self.fields, self.characters = read.fields, read.characters

    def fits(self, wanted: Wanted) -> bool:
        """Whether cells are kept only in unprotected fields that are believed to be there."""
        there = {(it.place, it.attribute, it.length) for it in self.fields if not it.is_protected}
        fields = wanted.kept_fields()
        return (bool(fields) or KEEP not in wanted.cells) and all(
            (it.place, wanted.cells[it.place] & ~MDT, len(it.places)) in there for it in fields
        )

    def paint(self, wanted: Wanted) -> bytes | None:
        """The write that makes the wanted screen, if what is to be kept is there: the cells that
        aren't known to be right, but no attribute of a field in which cells are kept."""
        if KEEP in wanted.cells and not self.fits(wanted):
            return None
        there, unsure = self.cells() if self.fields else ([NULL] * CELLS, set())
        if wanted.is_reset:
            there, unsure = without_mdt(there), set()
        kept = {it.place for it in wanted.kept_fields()}
        wcc = RESTORE | RESET if wanted.is_reset else RESTORE
        out, at = bytearray([WRITE if self.fields else ERASE_WRITE, GRAPHIC[wcc]]), None
        for place, cell in enumerate(wanted.cells):
            is_right = cell == there[place] and place not in unsure
            if cell is KEEP or place in kept or is_right:
                continue
            if at != place:
                out += bytes([SBA]) + address_bytes(place)
            out += cell_bytes(cell)
            at = (place + 1) % CELLS
        return bytes(out + bytes([SBA]) + address_bytes(wanted.cursor) + bytes([IC]))
