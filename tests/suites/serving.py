"""A host that serves two clients in memory, a turn at a time: tests/cases/*.story.

Each client has a story, an exchange byte for byte. Both stories run to their ends at several paces.
In other cases one connection ends or fails, at each read, at each write, and after each number of
its client's bytes: then only that connection is lost, the other is in the same state as if it were
served alone, and both stories run to their ends once another client takes that connection, and is
granted the same LU. A file has these lines:

    panels FILE                                   the panel text, a file of tests/cases
    host BYTES, client BYTES                      the story, line by line; the second client's LU is
                                                  PNL02 in place of PNL01
    pace NAME: READS WRITES PAUSES N N N             a case: how bytes cross, and the first client's
                                                     reads, writes and bytes then
    trouble PLACE WAY                             cases: a connection ends or fails at each read,
                                                  write, or byte
"""
import dataclasses
import functools
from collections.abc import Callable, Iterator

from harness.case import CASES, BadCase, Case, Difference, Place, same
from harness.data import Line, lines_of
from harness.probe import Probe
from harness.sights import parts_of, plain, spelt

PARTS = 4
LUS = ["PNL01", "PNL02"]
# More turns than a story takes at any pace.
MOST_TURNS = 1500


@dataclasses.dataclass
class Script:
    """A file."""

    panels: bytes = b""
    story: list[tuple[str, bytes]] = dataclasses.field(default_factory=list)
    paces: list[tuple[Line, str, list[str]]] = dataclasses.field(default_factory=list)
    troubles: list[tuple[Line, str, str]] = dataclasses.field(default_factory=list)

    def take(self, line: Line) -> None:
        """Takes a line."""
        word, _, words = line.text.partition(" ")
        match word:
            case "panels" if (CASES / words).is_file():
                self.panels = (CASES / words).read_bytes()
            case "host" | "client":
                self.story.append((word, line.data(words)))
            case "pace" if len(words.partition(": ")[2].split()) == 6:
                name, _, numbers = words.partition(": ")
                self.paces.append((line, name, numbers.split()))
            case "trouble" if words in (
                "read ends", "read fails", "write fails", "byte ends", "byte fails"
            ):
                self.troubles.append((line, *words.split()))
            case _:
                raise line.bad("needs a command")

    def story_of(self, conn: int) -> list[tuple[str, bytes]]:
        return [
            (who, data.replace(LUS[0].encode(), LUS[conn].encode())) for who, data in self.story
        ]


class Client:
    """A client, how far its story has run, and where its connection ends or fails: the place, the
    number there, and `ends` or `fails`."""

    def __init__(self, script: Script, conn: int, pace: list[str]) -> None:
        self.story, self.conn, self.pace = script.story_of(conn), conn, pace
        self.trouble = ("", 0, "")
        # Of the story: the lines that were told, the bytes of the next one that were said or heard.
        self.told, self.said, self.heard = 0, 0, b""
        self.reads = self.writes = self.bytes = self.lost = 0

    def gives(self) -> str:
        """What the next read gives, as the probe reads it."""
        place, number, way = self.trouble
        if (place, number) in (("read", self.reads + 1), ("byte", self.bytes)):
            return way
        if self.pace[2] == "true" and self.reads % 2 or self.is_done():
            return "-"
        who, data = self.story[self.told]
        most = min(int(self.pace[0]), number - self.bytes if place == "byte" else len(data))
        return "-" if who == "host" else spelt(data[self.said : self.said + most])

    def takes(self) -> str:
        """What the next write takes."""
        place, number, way = self.trouble
        if (place, number) == ("write", self.writes + 1):
            return way
        return "-" if self.pace[2] == "true" and self.writes % 2 else self.pace[1]

    def turn(self, probe: Probe) -> str:
        """Its connection is served a turn. It hears only what its story has."""
        takes, gives = self.takes(), self.gives()
        came, counts, heard = probe.ask(f"turn {self.conn} {takes} {gives}")
        reads, writes = map(int, counts.split())
        self.reads, self.writes = self.reads + reads, self.writes + writes
        if reads and gives in ("ends", "fails") or writes and takes == "fails":
            self.lost += 1
        elif reads:
            self.say(len(gives.strip("-")) // 2)
        self.hear(bytes.fromhex(heard.removeprefix("heard ").strip("-")))
        return plain(came)

    def say(self, count: int) -> None:
        """So many bytes of it were read."""
        self.said, self.bytes = self.said + count, self.bytes + count
        if count and self.said == len(self.story[self.told][1]):
            self.told, self.said = self.told + 1, 0

    def hear(self, heard: bytes) -> None:
        """It must be what the story has next."""
        self.heard += heard
        while self.heard:
            who, data = self.story[self.told] if not self.is_done() else ("", b"")
            if who != "host" or not data.startswith(self.heard[: len(data)]):
                raise Difference(f"{who} {spelt(data)}", f"host {spelt(self.heard)}")
            if len(self.heard) < len(data):
                return
            self.told, self.heard = self.told + 1, self.heard[len(data) :]

    def is_done(self) -> bool:
        return self.told == len(self.story)


class Fixture:
    """A host and its clients."""

    def __init__(self, script: Script) -> None:
        self.script, self.probe = script, Probe("host")
        same(["done"], self.probe.ask(f"new waiting {spelt(script.panels)}"))

    def begin(self, pace: list[str]) -> None:
        """The host restarts, and the connections of two new clients begin."""
        self.probe.ask_each(["restart", "open 0", "open 1"])
        self.clients = [Client(self.script, conn, pace) for conn in (0, 1)]

    def serve(self, conn: int) -> str:
        """Serves a connection a turn."""
        return self.clients[conn].turn(self.probe)

    def serve_on(self, conn: int) -> None:
        """Serves a connection a turn, in which it isn't lost."""
        same(f"{conn} going", f"{conn} {self.serve(conn)}")

    def is_content(self, conn: int) -> bool:
        """Whether the client told its whole story, and is bound to its LU."""
        return self.clients[conn].is_done() and self.phase(conn) == f"bound {LUS[conn]}"

    def phase(self, conn: int) -> str:
        return parts_of(self.probe.ask(f"state {conn}"))["phase"]

    def tell_both(self) -> None:
        """Serves both, turn by turn, until both stories are at their ends. No connection is
        lost."""
        for _ in range(MOST_TURNS):
            if self.is_content(0) and self.is_content(1):
                return
            self.serve_on(0)
            self.serve_on(1)
        raise Difference(
            "both stories to be told", f"{self.clients[0].told} and {self.clients[1].told} lines"
        )

    def counts(self, conn: int) -> list[int]:
        """Its reads, its writes, its bytes that were read, and how often it was lost."""
        client = self.clients[conn]
        return [client.reads, client.writes, client.bytes, client.lost]

    def lose(self, struck: int) -> int:
        """Serves both until the one is lost. How many turns the other was served."""
        for turns in range(MOST_TURNS):
            match self.serve(struck):
                case "lost":
                    return turns
                case came:
                    same("going", came)
            self.serve_on(1 - struck)
        raise Difference("the connection to be lost", "it isn't")

    def begin_again(self, conn: int) -> None:
        """Gives a connection up, and begins it for another client."""
        self.probe.ask(f"closed {conn}")
        same(["done"], self.probe.ask(f"open {conn}"))
        self.clients[conn] = Client(self.script, conn, self.clients[conn].pace)


class Alone:
    """A host that has the same two connections, and serves one of them alone."""

    def __init__(self, script: Script, conn: int, pace: list[str]) -> None:
        self.fixture, self.conn = Fixture(script), conn
        self.fixture.begin(pace)
        self.views = [self.view()]

    def view(self) -> list[str]:
        return self.fixture.probe.ask(f"see {self.conn}")

    def after(self, turns: int) -> list[str]:
        """What is to be seen of the connection after some turns."""
        while len(self.views) <= turns:
            self.fixture.serve_on(self.conn)
            self.views.append(self.view())
        return self.views[turns]


class Suite:
    """The hosts of a file's cases."""

    def __init__(self, script: Script) -> None:
        self.script = script
        self.pace = script.paces[0][2][:3]
        self.alone = functools.cache(lambda conn: Alone(script, conn, self.pace))

    @functools.cached_property
    def fixture(self) -> Fixture:
        return Fixture(self.script)

    def tell(self, numbers: list[str]) -> None:
        """Both stories without trouble."""
        self.fixture.begin(numbers[:3])
        self.fixture.tell_both()
        same([*map(int, numbers[3:]), 0], self.fixture.counts(0))
        same(0, self.fixture.counts(1)[3])

    def break_off(self, struck: int, trouble: tuple[str, int, str]) -> None:
        """Loses a connection by trouble, and it alone."""
        self.fixture.begin(self.pace)
        self.fixture.clients[struck].trouble = trouble
        turns = self.fixture.lose(struck)
        same(1, self.fixture.counts(struck)[3])
        same(0, self.fixture.counts(1 - struck)[3])
        same(self.alone(1 - struck).after(turns), self.fixture.probe.ask(f"see {1 - struck}"))
        self.fixture.begin_again(struck)
        self.fixture.tell_both()


def cases_of(suite: Suite) -> Iterator[Case]:
    """The cases of a file."""
    script = suite.script
    for line, name, numbers in script.paces:
        yield Case(f"told {name}", line.at, functools.partial(suite.tell, numbers))
    counts = dict(zip(("read", "write", "byte"), map(int, script.paces[0][2][3:])))
    for conn in (0, 1):
        for line, place, way in script.troubles:
            for number in range(1, counts[place] + 1):
                yield Case(
                    f"client {conn}: {place} {number} {way}",
                    line.at,
                    functools.partial(suite.break_off, conn, (place, number, way)),
                )


def cases() -> Iterator[Case]:
    for path in sorted(CASES.glob("*.story")):
        script = Script()
        for line in lines_of(path):
            if line.text and not line.text.startswith("#"):
                script.take(line)
        if not script.paces or not script.story:
            raise BadCase("needs a story and a pace")
        yield from cases_of(Suite(script))
