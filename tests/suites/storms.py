"""Storms of hostile bytes: tests/cases/*.storm.

In each round the bytes of one dialogue are changed, as random numbers from the seed and the round's
number decide: bits are turned, spans left out, repeated, replaced or put in, halves swapped, the
end cut off, or all replaced. A host gets them on connection 0 beside two that are bound, and acts
after each record, or writes a note; or a terminal gets them, and keys are pressed. The terminal's
model is drawn: if the dialogue has a model 2's type, the bytes have the type of that model. That is
done three times: whole, in random pieces, and byte by byte. The results must be the same: how many
bytes are taken and why no more, and all that is to be seen of the connection or the terminal. The
two other connections must be as at a host with no third client, and the LU of the connection that
got the bytes must be granted again, at once if the host closed it. A file has these lines:

    # A comment; blank lines are ignored.
    | TEXT           a line of the text of the host's panels
    seed N           the seed of all random numbers
    count N          how many rounds there are
    client N BYTES   what the client on connection 1 or 2 sends, before the storm
    heir LU BYTES    what a client sends to be bound to this LU, once connection 0 has ended
    host NAME BYTES  a dialogue whose bytes are changed: what a host gets on connection 0
    term NAME BYTES  such a dialogue with a terminal: what it gets
"""
import dataclasses
import functools
import random
from collections.abc import Callable, Iterator

from harness.case import CASES, Case, same
from harness.data import Line, lines_of, panel_text
from harness.probe import Probe
from harness.sights import parts_of, plain, spelt

PARTS = 4
LONG = True
# Bytes that mean something to Telnet, to TN3270E, or in a data stream.
MEANING = bytes.fromhex("FFF0EFFAFBFCFDFE2800010203071113 1D407DF5")
TYPE = b"IBM-3278-2"
NOTE = spelt("NOTE".encode("cp037"))
MOST_CHANGES = 3
SPAN_LIMIT = 24
PIECE_LIMIT = 12
KEYS = [
    "type A",
    "type A",
    "key tab",
    "key enter",
    "key enter",
    "key eraseeof",
    "key reset",
    "key clear",
    "",
    "",
]


@dataclasses.dataclass
class Script:
    """A storm."""

    seed: int = 0
    count: int = 0
    panels: list[str] = dataclasses.field(default_factory=list)
    clients: dict[str, bytes] = dataclasses.field(default_factory=dict)
    heir: tuple[str, bytes] = ("", b"")
    # The dialogues: their lines, their subjects, their names and their bytes.
    dialogues: list[tuple[Line, str, str, bytes]] = dataclasses.field(default_factory=list)

    def take(self, line: Line) -> None:
        """Takes a line."""
        word, _, words = line.text.partition(" ")
        name, _, rest = words.partition(" ")
        match word:
            case "|":
                self.panels.append(line.text)
            case "seed" | "count":
                setattr(self, word, line.number(words))
            case "client" if name in ("1", "2"):
                self.clients[name] = line.data(rest)
            case "heir":
                self.heir = (name, line.data(rest))
            case "host" | "term":
                self.dialogues.append((line, word, name, line.data(rest)))
            case _:
                raise line.bad("needs a command")


def drawn(chance: random.Random, count: int) -> bytes:
    """Any bytes, and as often as not such that mean something."""
    return bytes(
        chance.choice(MEANING) if chance.randrange(2) else chance.randrange(256)
        for _ in range(count)
    )


def of_span(chance: random.Random, change: str, span: bytes) -> bytes:
    """What becomes of a span."""
    match change:
        case "flip":
            return bytes(byte ^ 1 << chance.randrange(8) for byte in span)
        case "replace":
            return drawn(chance, len(span))
        case "insert":
            return drawn(chance, chance.randrange(SPAN_LIMIT)) + span
        case "repeat":
            return span + span
        case _:
            return b""


def changed(chance: random.Random, data: bytes) -> bytes:
    """Bytes after a change at a place, and there of a span of them."""
    change = chance.choice(
        ["flip", "replace", "insert", "leave out", "repeat", "cut", "swap", "noise"]
    )
    place = chance.randrange(len(data) + 1)
    front, rest = data[:place], data[place:]
    match change:
        case "cut":
            return front
        case "swap":
            return rest + front
        case "noise":
            return drawn(chance, len(data))
        case _:
            size = min(chance.randrange(SPAN_LIMIT), len(rest))
            return front + of_span(chance, change, rest[:size]) + rest[size:]


def sections(data: bytes) -> list[bytes]:
    """Bytes up to each two that end a record or a subnegotiation. However they are cut, the end
    does something behind these."""
    found, start = [], 0
    for place in range(1, len(data)):
        if data[place - 1 : place + 1] in (b"\xff\xef", b"\xff\xf0") and place > start:
            found.append(data[start : place + 1])
            start = place + 1
    return [*found, data[start:]] if data[start:] else found


def pieces_of(cutting: str, chance: random.Random, section: bytes) -> list[bytes]:
    """The pieces in which an end gets a section."""
    if cutting == "byte by byte":
        return [section[place : place + 1] for place in range(len(section))]
    if cutting == "whole":
        return [section]
    found = []
    while section:
        size = 1 + chance.randrange(PIECE_LIMIT)
        found.append(section[:size])
        section = section[size:]
    return found


@dataclasses.dataclass
class End:
    """An end that gets bytes: how the probe is told to feed it, and what it does by a drawn number,
    if anything."""

    probe: Probe
    feed: str
    stirs: Callable[[int], str]

    def take(self, data: bytes, cutting: str, seed: str) -> str:
        """The end gets bytes, up to one at which it stops. How many it took, and what stopped
        it."""
        cuts, stirs = random.Random(f"cuts {seed}"), random.Random(f"stirs {seed}")
        taken = 0
        for section in sections(data):
            answers = self.probe.ask_all(
                [f"{self.feed} {spelt(piece)}" for piece in pieces_of(cutting, cuts, section)]
            )
            for (answer,) in answers:
                count, _, stop = plain(answer).partition(" ")
                taken += int(count)
                if stop != "going":
                    return f"{taken} {stop}"
            stir = self.stirs(stirs.randrange(2**32))
            if stir:
                self.probe.ask(stir)
        return f"{taken} going"


def host_stir(word: int) -> str:
    """A host acts, in some cases not, or writes a note."""
    return {0: f"note 0 {NOTE}", 1: ""}.get(word % 16, "act 0")


def feed_plainly(probe: Probe, conn: int, data: bytes) -> None:
    """A client's bytes, unchanged, on a connection that begins."""
    same(["done"], probe.ask(f"open {conn}"))
    End(probe, f"feed {conn}", lambda _: f"act {conn}").take(data, "whole", "")


def begin(probe: Probe, script: Script) -> None:
    """The host restarts, with two clients that are bound."""
    probe.ask("restart")
    for conn in (1, 2):
        feed_plainly(probe, conn, script.clients[str(conn)])
        same("bound", phase(probe, conn).partition(" ")[0])


def phase(probe: Probe, conn: int) -> str:
    return parts_of(probe.ask(f"state {conn}"))["phase"]


def beside(probe: Probe) -> list[str]:
    """What is to be seen of the two other connections."""
    return [line for conn in (1, 2) for line in probe.ask(f"see {conn}")]


class Hosts:
    """A host that gets hostile bytes."""

    def __init__(self, script: Script) -> None:
        self.script, self.probe = script, Probe("host")
        same(["done"], self.probe.ask(f"new waiting {panel_text(script.panels)}"))
        begin(self.probe, script)
        self.calm = beside(self.probe)

    def came(self, data: bytes, cutting: str, seed: str) -> list[str]:
        """What comes of bytes that are cut so."""
        begin(self.probe, self.script)
        self.probe.ask("open 0")
        fed = End(self.probe, "feed 0", host_stir).take(data, cutting, seed)
        same([cutting, *self.calm], [cutting, *beside(self.probe)])
        return [fed, *self.probe.ask("see 0")]

    def inherit(self) -> None:
        """The LU of the connection is granted again: at once if the host closed it, else once it is
        lost."""
        if not phase(self.probe, 0).startswith("closed"):
            self.probe.ask("closed 0")
        name, data = self.script.heir
        feed_plainly(self.probe, 3, data)
        same(f"bound {name}", phase(self.probe, 3))
        same(self.calm, beside(self.probe))

    def run(self, data: bytes, model: int, seed: str) -> None:
        wanted = self.came(data, "whole", seed)
        self.inherit()
        for cutting in ("in random pieces", "byte by byte"):
            same([cutting, *wanted], [cutting, *self.came(data, cutting, seed)])


class Terminals:
    """A terminal that gets hostile bytes."""

    def __init__(self, script: Script) -> None:
        self.probe = Probe("terminal")

    def came(self, data: bytes, model: int, cutting: str, seed: str) -> list[str]:
        """What comes of bytes that are cut so."""
        self.probe.ask_each([f"new {model}", "connected PNL01"])
        fed = End(self.probe, "feed", lambda word: KEYS[word % len(KEYS)]).take(data, cutting, seed)
        return [fed, *self.probe.ask("see")]

    def run(self, data: bytes, model: int, seed: str) -> None:
        wanted = self.came(data, model, "whole", seed)
        for cutting in ("in random pieces", "byte by byte"):
            same([cutting, *wanted], [cutting, *self.came(data, model, cutting, seed)])


def strike(ends: Callable[[str], Hosts | Terminals], subject: str, data: bytes, seed: str) -> None:
    """A round: the bytes of a dialogue are changed, and an end endures them."""
    chance = random.Random(seed)
    model = chance.randrange(2, 6)
    data = data.replace(TYPE, TYPE[:-1] + str(model).encode())
    for _ in range(chance.randrange(MOST_CHANGES + 1)):
        data = changed(chance, data)
    ends(subject).run(data, model, seed)


def cases() -> Iterator[Case]:
    for path in sorted(CASES.glob("*.storm")):
        script = Script()
        for line in lines_of(path):
            if line.text.strip() and not line.text.startswith("#"):
                script.take(line)
        ends = functools.cache(
            lambda subject, script=script: (Hosts if subject == "host" else Terminals)(script)
        )
        for number in range(1, script.count + 1):
            seed = f"seed {script.seed} round {number}"
            line, subject, name, data = random.Random(f"dialogue {seed}").choice(script.dialogues)
            yield Case(
                f"{name}, {seed}", line.at, functools.partial(strike, ends, subject, data, seed)
            )
