"""A terminal of 24 by 80 over the screen of harness/lists.py, by docs/PROTOCOL.md: "Keys", "Inbound
data", "Headers and responses". Keys and the host's records go in; what is sent comes out."""
import dataclasses
import itertools
from collections.abc import Iterable, Iterator

from harness.lists import (
    CELLS, CLEAR, ENTER, HIDDEN, MDT, NULL, PA_KEYS, PF_KEYS, PROTECTED, READS, Screen, fields_in,
    is_attribute, is_input,
)

ROWS, COLUMNS = 24, 80
NUMERIC, BRIGHT = 0x10, 0x08
# What a lock is by.
WAIT, ERROR = "wait", "error"
# Why a key is refused, in the words of the status row.
IS_PROTECTED, NOT_NUMERIC, NO_ROOM, NO_CODE = "PROTECTED", "NUMERIC", "NO ROOM", "NO CODE"
PASTE_CUT = "PASTE CUT"
# The keys that send, by their AIDs.
AIDS = {
    "enter": ENTER,
    "clear": CLEAR,
    **{f"pf{number}": aid for number, aid in enumerate(PF_KEYS, 1)},
    **{f"pa{number}": aid for number, aid in enumerate(PA_KEYS, 1)},
}
IAC, EOR, SB, SE, NOP = 0xFF, 0xEF, 0xFA, 0xF0, 0xF1
DATA, RESPONSE, ALWAYS = 0, 2, 2
DEVICE_TYPE_IS = bytes.fromhex("28 02 04")


class Refused(Exception):
    """A key that can't act."""


# ---- the wire


@dataclasses.dataclass(frozen=True)
class Talk:
    """The payload of a subnegotiation."""

    payload: bytes


@dataclasses.dataclass(frozen=True)
class Record:
    """A record: the header of five bytes, and the data."""

    data: bytes

    @property
    def number(self) -> bytes:
        return self.data[3:5]


class Wire:
    """Reads one way of a connection: its subnegotiations and records, without other commands."""

    def __init__(self) -> None:
        self.rest, self.record = b"", b""

    def takes(self, data: bytes) -> Iterator[Talk | Record]:
        self.rest += data
        while self.rest:
            if self.rest[0] != IAC:
                plain, found, behind = self.rest.partition(bytes([IAC]))
                self.record, self.rest = self.record + plain, found + behind
                continue
            size = 3 if self.rest[1:2] and 0xFB <= self.rest[1] <= 0xFE else 2
            if self.rest[1:2] == bytes([SB]):
                end = self.rest.find(bytes([IAC, SE]))
                size = end + 2 if end > 0 else len(self.rest) + 1
            if len(self.rest) < size:
                return
            command, self.rest = self.rest[:size], self.rest[size:]
            if command[1] == IAC:
                self.record += command[1:]
            elif command[1] == EOR:
                yield Record(self.record)
                self.record = b""
            elif command[1] == SB:
                yield Talk(command[2:-2])


# ---- the keyboard


def field_at(cells: list[int], at: int) -> int | None:
    """The address of the attribute that governs a cell, its own or the nearest before it."""
    around = ((at - step) % CELLS for step in range(CELLS))
    return next((place for place in around if is_attribute(cells[place])), None)


def places_from(cells: list[int], at: int) -> list[int]:
    """The addresses from one to the end of its field; to the last cell if there are no fields."""
    is_formatted = any(map(is_attribute, cells))
    around = [(at + step) % CELLS for step in range(CELLS if is_formatted else CELLS - at)]
    return [*itertools.takewhile(lambda place: not is_attribute(cells[place]), around)]


def is_start(cells: list[int], at: int) -> bool:
    return not is_attribute(cells[at]) and is_input(cells[at - 1])


def is_free(cells: list[int], at: int) -> bool:
    """Whether a cell is unprotected, and no attribute."""
    field = field_at(cells, at)
    return not is_attribute(cells[at]) and (field is None or is_input(cells[field]))


def onward(at: int) -> Iterator[int]:
    return ((at + step) % CELLS for step in range(1, CELLS + 1))


def backward(at: int) -> Iterator[int]:
    return ((at - step) % CELLS for step in range(1, CELLS + 1))


class Keyboard:
    """A screen and its keyboard. A key is a name of docs/USING.md, or a character."""

    def __init__(self) -> None:
        self.screen, self.lock, self.is_inserting = Screen(), WAIT, False
        # Why the last key was refused, as the status row shows it; whether one ever was, or a write
        # asked for the alarm.
        self.refusal: str | None = None
        self.has_rung = False

    def press(self, key: str) -> bytes | None:
        """Presses a key, and answers what it sends. Of a locked keyboard every key but Reset is
        refused, and changes nothing."""
        if key == "reset":
            self.lock = None if self.lock == ERROR else self.lock
            self.is_inserting, self.refusal = False, None
        elif not self.lock:
            self.refusal = None
            if key in AIDS:
                return self.send(AIDS[key])
            try:
                self.act(key)
            except Refused as refused:
                self.refusal, self.has_rung = str(refused), True
                self.lock = None if self.refusal == NO_CODE else ERROR
        else:
            self.has_rung = True
        return None

    def send(self, aid: int) -> bytes:
        if aid == CLEAR:
            self.screen.clear()
        self.screen.aid, self.is_inserting, self.lock = aid, False, WAIT
        return self.screen.read("modified")

    def act(self, key: str) -> None:
        if len(key) == 1:
            self.character(key)
        else:
            getattr(self, f"do_{key}")()

    def change(self, places: Iterable[int], codes: Iterable[int]) -> None:
        """Stores characters, and sets MDT of the cursor's field."""
        cells = self.screen.cells
        for place, code in zip(places, codes):
            cells[place] = code
        if (field := field_at(cells, self.screen.cursor)) is not None:
            cells[field] |= MDT

    def editable(self) -> list[int]:
        """The addresses from the cursor to the end of its field, which is unprotected."""
        if not is_free(self.screen.cells, self.screen.cursor):
            raise Refused(IS_PROTECTED)
        return places_from(self.screen.cells, self.screen.cursor)

    def character(self, letter: str) -> None:
        try:
            [code] = letter.encode("cp037")
        except UnicodeEncodeError:
            raise Refused(NO_CODE) from None
        places, cells = self.editable(), self.screen.cells
        field = field_at(cells, self.screen.cursor)
        if field is not None and cells[field] & NUMERIC and letter not in "0123456789.-":
            raise Refused(NOT_NUMERIC)
        moved: list[int] = []
        if self.is_inserting:
            text = [cells[place] for place in places]
            if NULL not in text:
                raise Refused(NO_ROOM)
            moved = text[: text.index(NULL)]
        self.change(places, [code, *moved])
        self.advance()

    def advance(self) -> None:
        """Moves the cursor on after a character, over an attribute, and over a field that is
        skipped."""
        cells, at = self.screen.cells, (self.screen.cursor + 1) % CELLS
        if is_attribute(cells[at]):
            is_skipped = cells[at] & PROTECTED and cells[at] & NUMERIC
            at = self.next_start(at) if is_skipped else (at + 1) % CELLS
        self.screen.cursor = at

    def next_start(self, at: int) -> int:
        return next((it for it in onward(at) if is_start(self.screen.cells, it)), 0)

    def do_delete(self) -> None:
        places, cells = self.editable(), self.screen.cells
        row = self.screen.cursor // COLUMNS
        places = [*itertools.takewhile(lambda it: it // COLUMNS == row, places)]
        self.change(places, [*(cells[it] for it in places[1:]), NULL])

    def do_erase(self) -> None:
        """Cursor Left and Delete; nothing at the first character of a field (c3270's `Erase`)."""
        self.editable()
        if not is_start(self.screen.cells, self.screen.cursor):
            self.do_left()
            self.do_delete()

    def do_eraseeof(self) -> None:
        places = self.editable()
        self.change(places, [NULL] * len(places))

    def do_eraseinput(self) -> None:
        self.screen.erase_input()

    def do_insert(self) -> None:
        self.is_inserting = True

    def do_tab(self) -> None:
        self.screen.cursor = self.next_start(self.screen.cursor)

    def do_backtab(self) -> None:
        around = backward(self.screen.cursor)
        self.screen.cursor = next((it for it in around if is_start(self.screen.cells, it)), 0)

    def do_newline(self) -> None:
        end = self.screen.cursor // COLUMNS * COLUMNS + COLUMNS - 1
        self.screen.cursor = next((it for it in onward(end) if is_free(self.screen.cells, it)), 0)

    def do_home(self) -> None:
        self.screen.cursor = self.screen.home()

    def move(self, step: int) -> None:
        self.screen.cursor = (self.screen.cursor + step) % CELLS

    def do_up(self) -> None:
        self.move(-COLUMNS)

    def do_down(self) -> None:
        self.move(COLUMNS)

    def do_left(self) -> None:
        self.move(-1)

    def do_right(self) -> None:
        self.move(1)

    do_backspace = do_left


# ---- the terminal


class Terminal:
    """A terminal that keeps the keys which are typed while it waits for the host, up to 256. `sent`
    has the records that it sends on the connection."""

    def __init__(self) -> None:
        self.is_connected, self.ahead = False, []
        self.begin()

    def begin(self) -> None:
        """A blank screen, whose keyboard waits."""
        self.keyboard, self.lu = Keyboard(), ""
        self.sent: list[bytes] = []
        self.numbered = 0

    @property
    def screen(self) -> Screen:
        return self.keyboard.screen

    def connect(self) -> None:
        self.begin()
        self.is_connected = True

    def lose(self) -> None:
        """The screen stays, and the keyboard waits. What was typed ahead is lost."""
        self.is_connected, self.ahead, self.lu = False, [], ""
        self.keyboard.lock, self.keyboard.refusal, self.keyboard.is_inserting = WAIT, None, False

    def waits(self) -> bool:
        """Whether only the host's next record can let it go on."""
        return self.is_connected and self.keyboard.lock == WAIT

    def send(self, data: bytes) -> None:
        self.sent.append(bytes([DATA, 0, 0]) + self.numbered.to_bytes(2, "big") + data)
        self.numbered += 1

    def type(self, keys: Iterable[str]) -> None:
        """Types keys: those in the wait are kept. Reset must not be typed there: which keys it
        drops depends on when the host answers."""
        for key in keys:
            if self.waits():
                assert key != "reset" and len(self.ahead) < 256
                self.ahead.append(key)
            elif (data := self.keyboard.press(key)) is not None:
                self.send(data)

    def paste(self, keys: Iterable[str]) -> bool:
        """Types a pasted text, up to the key that locks the keyboard, or the one behind which the
        cursor is back at the first field. Whether all was typed."""
        last = 0
        for key in keys:
            if self.keyboard.lock or self.screen.cursor < last:
                return False
            last = self.screen.cursor
            self.type([key])
        return True

    def hear(self, item: Talk | Record) -> None:
        """Takes what the host sent, and then what was typed ahead."""
        if isinstance(item, Talk):
            if item.payload.startswith(DEVICE_TYPE_IS):
                self.lu = item.payload.rpartition(b"\x01")[2].decode()
            return
        header, command = item.data[:5], item.data[5:]
        if command[0] in READS.values() or command[0] in READS:
            self.send(self.read(command[0]))
        else:
            restores, alarms = self.screen.apply(command)
            self.keyboard.has_rung |= alarms
            if restores:
                self.keyboard.lock = self.keyboard.refusal = None
        if header[2] == ALWAYS:
            self.sent.append(bytes([RESPONSE, 0, 0]) + item.number + b"\x00")
        ahead, self.ahead = self.ahead, []
        self.type(ahead)

    def read(self, code: int) -> bytes:
        code = READS.get(code, code)
        return self.screen.read({0xF2: "buffer", 0xF6: "modified", 0x6E: "all"}[code])

    def rows(self) -> list[str]:
        """What each row displays."""
        glyphs = "".join(self.screen.glyphs())
        return [glyphs[at : at + COLUMNS] for at in range(0, CELLS, COLUMNS)]

    def looks(self) -> list[list[str]]:
        """How each cell is drawn without colours (SGR of ECMA-48): bright is bold, input is
        underlined; attributes and cells of no field are neither."""
        cells = self.screen.cells
        found = ["0"] * CELLS
        for field in fields_in(cells):
            bits = cells[field.place]
            bold, underlined = (bits & HIDDEN) == BRIGHT, not bits & PROTECTED
            for place in field.places:
                found[place] = "0" + ";1" * bold + ";4" * underlined
        return [found[at : at + COLUMNS] for at in range(0, CELLS, COLUMNS)]

    def cursor(self) -> tuple[int, int]:
        return divmod(self.screen.cursor, COLUMNS)

    def reason(self) -> str:
        """Why keys are refused, or the last one was, as the status row has it."""
        if self.keyboard.lock == WAIT:
            return "X SYSTEM"
        return f"X {self.keyboard.refusal}" if self.keyboard.refusal else ""
