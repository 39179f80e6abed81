"""Telnet's wire: items read and written, streams in any pieces, and random streams.

The data are tests/cases/wire.*. What is wanted of random streams is computed here from the rules of
RFC 854, 855 and 885.
"""
import dataclasses
import functools
import random
import re
from collections.abc import Iterator

from harness.case import CASES, Case, Place, same
from harness.data import Line, blocks_of, lines_of
from harness.probe import Probe
from harness.tables import blocks, bytes_of, check_row, hexadecimal, named, row_of, spelt

# The data bytes that a record may have, and those of a subnegotiation.
LIMIT, SUB_LIMIT = 16_384, 256
TOO_LONG, BAD_SUB = "record or subnegotiation too long", "command inside a subnegotiation"
FAILED = "stream refused earlier"
VERBS = {251: "Will", 252: "Wont", 253: "Do", 254: "Dont"}
RANDOM_STREAMS = 40


@dataclasses.dataclass(frozen=True)
class Stream:
    """Bytes, and what they complete: lines `PLACE ITEM`, with the places in all bytes."""

    data: bytes
    wanted: list[str]

    def places(self) -> list[int]:
        """Where it is cut: everywhere, or, since a long stream takes long, near its begin, its
        middle and its end."""
        length = len(self.data)
        if length < 1000:
            return list(range(length + 1))
        return [1, 4, length // 2, length // 2 + 1, *range(length - 4, length)]


def in_words(answer: str) -> str:
    """Items that are printed by Debug, as the cases say them."""
    answer = re.sub(
        r"Opt { verb: (\w+), code: (\d+) }", lambda it: f"option {it[1]} {int(it[2]):02X}", answer
    )
    answer = re.sub(r"Other\((\d+)\)", lambda it: f"other {int(it[1]):02X}", answer)
    return re.sub(r"(Record|Sub)\((.*?)\)", lambda it: f"{it[1].lower()} {it[2]}", named(answer))


def asked(probe: Probe, command: str) -> list[str]:
    return [in_words(line) for line in probe.ask(command)]


def moved(lines: list[str], by: int) -> list[str]:
    return [f"{int(place) + by} {text}" for place, text in (line.split(" ", 1) for line in lines)]


def given(probe: Probe, call: str, pieces: list[bytes]) -> list[str]:
    """What a new decoder answers to pieces."""
    probe.ask(f"new {LIMIT}")
    came, start = [], 0
    for piece in pieces:
        came += moved(asked(probe, f"{call} {hexadecimal(piece)}"), start)
        start += len(piece)
    return came


def check_whole(stream: Stream) -> None:
    with Probe("wire") as probe:
        for call in ("push", "feed"):
            same("\n".join(stream.wanted), "\n".join(given(probe, call, [stream.data])))


def check_cuts(stream: Stream) -> None:
    """In two pieces, cut at each place, and in pieces of a byte."""
    with Probe("wire") as probe:
        for call in ("push", "feed"):
            for place in stream.places():
                came = given(probe, call, [stream.data[:place], stream.data[place:]])
                same(f"{call}, cut at {place}: {stream.wanted}", f"{call}, cut at {place}: {came}")
            if len(stream.data) < 1000:
                same(stream.wanted, given(probe, call, [bytes([byte]) for byte in stream.data]))


def check_resets(stream: Stream) -> None:
    """A reset at each place forgets what was before."""
    with Probe("wire") as probe:
        for place in stream.places():
            given(probe, "push", [stream.data[:place]])
            probe.ask("reset")
            same(
                f"reset at {place}: ['3 record 07']",
                f"reset at {place}: {asked(probe, 'push 07FFEF')}",
            )


def stream_cases(stream: Stream, name: str, at: Place) -> Iterator[Case]:
    yield Case(f"{name}: whole", at, lambda: check_whole(stream))
    yield Case(f"{name}: in pieces", at, lambda: check_cuts(stream))
    yield Case(f"{name}: reset", at, lambda: check_resets(stream))


def stream_of(head: Line, lines: list[Line]) -> Stream:
    data, wanted = b"", []
    start = 0
    for line in lines:
        if line.text.startswith("> "):
            start = len(data)
            data += line.data(line.text[2:])
        else:
            place, _, item = line.text.partition(" ")
            wanted.append(f"{start + line.number(place)} {spelt(line, item)}")
    if not (data and wanted):
        raise head.bad("needs bytes and an item")
    return Stream(data, wanted)


def streams() -> Iterator[Case]:
    for head, name, lines in blocks_of(CASES / "wire.streams", "stream"):
        yield from stream_cases(stream_of(head, lines), name, head.at)


def check_written(line: Line) -> None:
    """Behind nothing, in a full vector behind other bytes, and in one with room for it, where no
    memory is taken."""
    command, spelling = row_of(line)
    with Probe("wire") as probe:
        for old in ("-", "0707"):
            probe.ask(f"vector {len(old) // 2} {old}")
            same(["done"], probe.ask(command, line.at))
            same([f"appended {old.strip('-')}{spelling}"], probe.ask("appended"))
        probe.ask(f"vector {len(spelling) // 2} -")
        room = probe.ask("capacity")
        probe.ask(command, line.at)
        same(room, probe.ask("capacity"))


def item_of(line: Line) -> str:
    """The item of a row as it is read: parts are one subnegotiation."""
    kind, _, words = row_of(line)[0].partition(" ")
    if kind == "option":
        return f"option {words}"
    return f"{'sub' if kind == 'parts' else kind} {hexadecimal(line.data(words))}"


def items() -> Iterator[Case]:
    for line in lines_of(CASES / "wire.items"):
        if line.text.strip() and not line.text.startswith("#"):
            data = bytes.fromhex(row_of(line)[1])
            yield Case(f"{line.text}: written", line.at, lambda line=line: check_written(line))
            yield from stream_cases(
                Stream(data, [f"{len(data)} {item_of(line)}"]), line.text, line.at
            )


class Reading:
    """What the standards say of a stream, byte by byte."""

    def __init__(self, limit: int) -> None:
        self.limit, self.state, self.record, self.sub, self.verb = limit, "data", b"", b"", 0

    def room(self) -> int:
        """How many bytes of data may be next."""
        return self.limit - len(self.record) if self.state == "data" else 0

    def fails(self, fault: str) -> str:
        self.state = "failed"
        return fault

    def take(self, byte: int) -> str | None:
        """The item that the byte completes, or why it is refused."""
        return getattr(self, f"take_{self.state}")(byte)

    def take_data(self, byte: int) -> str | None:
        if byte == 255:
            self.state = "iac"
            return None
        return self.take_one(byte)

    def take_one(self, byte: int) -> str | None:
        if not self.limit - len(self.record):
            return self.fails(TOO_LONG)
        self.record, self.state = self.record + bytes([byte]), "data"
        return None

    def take_iac(self, byte: int) -> str | None:
        if byte == 255:
            return self.take_one(byte)
        if byte in VERBS:
            self.state, self.verb = "verb", byte
            return None
        if byte == 250:
            self.state, self.sub = "sub", b""
            return None
        self.state = "data"
        if byte != 239:
            return f"other {byte:02X}"
        record, self.record = self.record, b""
        return f"record {hexadecimal(record)}"

    def take_verb(self, byte: int) -> str:
        self.state = "data"
        return f"option {VERBS[self.verb]} {byte:02X}"

    def take_sub(self, byte: int) -> str | None:
        if byte == 255:
            self.state = "sub_iac"
            return None
        return self.take_sub_one(byte)

    def take_sub_one(self, byte: int) -> str | None:
        if len(self.sub) == SUB_LIMIT:
            return self.fails(TOO_LONG)
        self.sub, self.state = self.sub + bytes([byte]), "sub"
        return None

    def take_sub_iac(self, byte: int) -> str | None:
        if byte == 255:
            return self.take_sub_one(byte)
        if byte != 240:
            return self.fails(BAD_SUB)
        self.state = "data"
        return f"sub {hexadecimal(self.sub)}"

    def take_failed(self, byte: int) -> str:
        return FAILED

    def answers(self, data: bytes) -> list[str]:
        taken = ((place, self.take(byte)) for place, byte in enumerate(data, 1))
        return [f"{place} {text}" for place, text in taken if text]

    def data(self, data: bytes) -> int:
        """How many bytes of data are taken at once."""
        count = min(self.room(), (data + b"\xff").index(255))
        self.answers(data[:count])
        return count


def random_piece(chance: random.Random) -> bytes:
    """Bytes among which IAC and what has a meaning behind it are frequent."""
    special = [255, 255, 255, 239, 240, 250, 251, 252, 253, 254]
    length = chance.choice((0, 1, 3, 8, 30, 300))
    return bytes(
        chance.choice(special) if chance.random() < 0.4 else chance.randrange(256)
        for _ in range(length)
    )


def check_random(seed: int) -> None:
    chance = random.Random(seed)
    with Probe("wire") as probe:
        for _ in range(40):
            limit = chance.choice((0, 1, 5, 100))
            reading = Reading(limit)
            probe.ask(f"new {limit}")
            for _ in range(chance.randrange(8)):
                call, piece = chance.choice(("push", "feed", "data")), random_piece(chance)
                wanted = [str(reading.data(piece))] if call == "data" else reading.answers(piece)
                said = f"limit {limit}: {call} {hexadecimal(piece)} = "
                same(f"{said}{wanted}", f"{said}{asked(probe, f'{call} {hexadecimal(piece)}')}")


def cases() -> Iterator[Case]:
    yield from items()
    yield from streams()
    yield from blocks(CASES / "wire.blocks", "wire", in_words)
    at = Place("tests/suites/wire.py", check_random.__code__.co_firstlineno)
    for seed in range(RANDOM_STREAMS):
        yield Case(f"random streams of seed {seed}", at, functools.partial(check_random, seed))
