"""Worlds, a host and terminals 0 to 3 of the models 2 to 5: tests/cases/*.worlds.

A file has headings and lines below them; empty lines and comments (`#`) are ignored:

    panels PANELS         begins a panel text with this name
    | TEXT                a line of it
    world PANELS NAME     begins a case in a world whose host serves those panels, which are in any
                          of the files

`World` says which lines a case has. A case runs three times side by side: event by event; by lists
of events, one up to each question; and event by event with each delivery byte by byte. Each must
print the lines that the case wants, and all three worlds must be the same at the end. After each
event of the first run the headline must hold: if the host holds the turn with its last command
answered, its belief allows the screen, and after Enter or a PF key unmodified input is as it was
left; and no two sessions have one LU."""
import dataclasses
import functools
import random
from collections.abc import Iterator

from harness.case import CASES, BadCase, Case, Difference, same
from harness.data import Line, lines_of, panel_text
from harness.probe import Probe
from harness.sights import cells_of, headline_fault, parts_of, plain

PARTS = 4
LONG = True
TERMINALS = 4
CONNECTIONS = 64
# More rounds than it takes until nothing is under way.
MOST_ROUNDS = 64
AT_TERMINAL = {"connect", "key", "restartterm", "termsees"}
ON_CONNECTION = {"up", "down", "act", "note", "keepalive", "lose", "hostsees"}

# What random events do.
KEYS = ["enter", "enter", "tab", "reset", "pf1", "pf3", "pa1", "eraseinput", "clear"]
NOTE = (
    "THE HOST STOPS AT FIVE: FINISH WHAT YOU ARE DOING, SIGN OFF, AND DO NOT SIGN ON "
    "BEFORE SIX IN THE EVENING"
)
EVENTS_FOR_A_LOSS = 500
ALL = 2**32


@dataclasses.dataclass
class State:
    """How far each terminal is, and the host on each number that isn't free."""

    terminals: list[str]
    conns: dict[int, dict[str, str]]

    @staticmethod
    def of(answer: list[str]) -> "State":
        state = State([], {})
        for line in answer:
            word, _, rest = line.partition(" ")
            if word == "terminal":
                state.terminals.append(rest)
            elif word == "conn":
                state.conns[int(rest)] = found = {}
            else:
                found[word] = plain(rest)
        return state

    def decides(self, conn: int) -> bool:
        """Whether the host is there, holds the turn, and has its last command answered."""
        return (
            conn in self.conns
            and self.conns[conn]["turn"] == "host"
            and self.conns[conn]["pending"] == "none"
        )


class Watch:
    """Who is at which connection, and whether the headline holds of what is seen there."""

    def __init__(self) -> None:
        self.state = State(["idle"] * TERMINALS, {})
        # Each terminal's connection, and whether that wasn't lost since.
        self.places: list[tuple[int, bool] | None] = [None] * TERMINALS

    def free_number(self) -> int:
        """The least number that neither end of a connection holds."""
        held = {*self.state.conns, *(place[0] for place in self.places if place)}
        return min({*range(CONNECTIONS)} - held)

    def follow(self, command: str, state: State) -> None:
        """Something happened. Who isn't at a connection any more is nowhere."""
        word, number, *_ = [*command.split(), ""]
        if word == "connect":
            self.places[int(number)] = (self.free_number(), True)
        if word == "lose":
            self.places = [
                place and (place[0], place[1] and place[0] != int(number)) for place in self.places
            ]
        self.places = [
            None if phase == "idle" else place for phase, place in zip(state.terminals, self.places)
        ]
        self.state = state

    def decided(self) -> Iterator[tuple[int, int]]:
        """The terminals whose hosts decide now, with their connections."""
        return (
            (it, place[0])
            for it, place in enumerate(self.places) if place and self.state.decides(place[0])
        )

    def sessions(self) -> list[str]:
        """The phase of each terminal that is bound, on a connection that isn't lost, at whose other
        end the host is."""
        return [
            phase
            for phase, place in zip(self.state.terminals, self.places)
            if phase.startswith("bound") and place and place[1] and place[0] in self.state.conns
        ]


class Run:
    """A world, and the lines that were printed of it."""

    def __init__(self, probe: Probe, panels: list[Line]) -> None:
        self.probe = probe
        self.page: list[str] = []
        text = panel_text([line.text for line in panels])
        same(["done"], probe.ask(f"new waiting {text}", panels[0].at))

    def put_outcome(self, stepped: str) -> None:
        """An event that didn't just happen is printed."""
        if stepped != "done":
            self.page.append(stepped)

    def put_answer(self, question: str, number: int) -> None:
        """The answer to a question is printed."""
        if question in ("show", "status", "erased", "left") and number >= TERMINALS:
            self.page.append("no terminal")
        elif question == "show":
            self.page += [line[1:] for line in self.probe.ask(f"text {number}")]
        elif question in ("erased", "left"):
            self.page += self.left(question, number)
        elif question == "status":
            self.page.append(State.of(self.probe.ask("states")).terminals[number])
        else:
            data = parts_of(self.probe.ask(f"queued {number}"))[question[:-1]].strip("-")
            self.page.append(" ".join(data[place : place + 2] for place in range(0, len(data), 2)))

    def left(self, question: str, number: int) -> list[str]:
        """Whether input was erased since a terminal's last write with restore, or the rows that
        this left, without blank ones at the end."""
        parts = parts_of(self.probe.ask(f"left {number}"))
        if question == "erased":
            return [parts["erased"]]
        cells = "".join(
            " " if len(it) == 4 or it == "00" else bytes.fromhex(it).decode("cp037")
            for it in cells_of(parts["cells"])
        )
        columns = 132 if len(cells) == 3564 else 80
        rows = [cells[at : at + columns].rstrip() for at in range(0, len(cells), columns)]
        return "\n".join(rows).rstrip("\n").split("\n")

    def look(self) -> list[str]:
        """All that is to be seen of a world."""
        commands = [f"{word} {it}" for it in range(TERMINALS) for word in ("terminal", "left")]
        commands += [f"{word} {it}" for it in range(CONNECTIONS) for word in ("host", "queued")]
        return [f"{command}: {line}" for command in commands for line in self.probe.ask(command)]


class Later:
    """Commands that are written together, and what is done with their answers."""

    def __init__(self, probe: Probe) -> None:
        self.probe = probe
        # Each event's commands, and whether what it came to is printed.
        self.events: list[tuple[list[str], bool]] = []

    def add(self, commands: list[str], prints: bool) -> None:
        self.events.append((commands, prints))

    def answers(self) -> Iterator[tuple[str, bool]]:
        """What each event came to, and whether that is printed."""
        events, self.events = self.events, []
        commands = [command for group, _ in events for command in group]
        answers = iter(self.probe.ask_all([f"step {command}" for command in commands]))
        for group, prints in events:
            came = [plain(next(answers)[0]) for _ in group]
            # Of a delivery byte by byte, what the last came to that wasn't skipped.
            yield ([it for it in came if it != "skipped"] or came)[-1], prints


class World:
    """A case that runs three times. T is a terminal's number, C a connection's; events of other
    numbers are skipped.

    connect T [LU]    the terminal connects, and wants this LU, if one is named
    key T NAME        a key is pressed
    type T TEXT       the keys of these characters are, up to the first that is refused
    up C N            N of the bytes under way are delivered up to the host, or all if there are
                      fewer
    down C N          N of them are delivered down to the terminal, likewise
    act C             the host acts
    note C TEXT       the host sends this note
    keepalive C       the host sends NOP
    lose C            the connection is lost
    hostsees C        the host sees that
    termsees T        the terminal sees that
    restartterm T     the terminal restarts
    restarthost       the host restarts
    random SEED N     N events happen that random numbers from this seed decide, at any terminal and
                      on any connection
    settle            rounds: on each connection all is delivered up, the host acts, and all is
                      delivered down; up to a round without an event
    show T            what the terminal prints of its screen
    status T          how far it is with its host: idle, talking, bound LU, refused REASON, or
                      closed CAUSE
    left T            the rows that the last write with restore left there on this connection,
                      without blank ones at the end
    erased T          whether Erase Input was done since: yes or no
    up? C             the bytes under way to the host
    down? C           the bytes under way to the terminal
    > TEXT            the next line that is printed
    blank N           N empty lines that are printed next
    """

    def __init__(self, probes: list[Probe], panels: list[Line]) -> None:
        self.by_event, self.by_list, self.by_byte = [Run(probe, panels) for probe in probes]
        self.listed: list[str] = []
        self.in_bytes = Later(probes[2])
        self.watch = Watch()
        self.met = 0
        self.came = ""
        self.line: Line

    def do(self, line: Line) -> None:
        """Does what a line says."""
        self.line = line
        word, _, words = line.text.partition(" ")
        number, _, rest = words.partition(" ")
        if word == ">":
            self.expect_line(words)
        elif word == "blank":
            for _ in range(line.number(words)):
                self.expect_line("")
        elif word == "restarthost":
            self.happen(word)
        elif word == "settle":
            self.settle()
        elif word == "random":
            self.do_random(line.number(number), line.number(rest))
        elif word == "type":
            self.type(line.number(number), rest)
        elif word in ("show", "status", "erased", "left", "up?", "down?"):
            self.ask(word, line.number(words))
        elif word in AT_TERMINAL | ON_CONNECTION:
            self.happen(f"{word} {line.number(number)} {rest}".rstrip(" "))
        else:
            raise line.bad("needs a command")

    def step(self, command: str, prints: bool = False) -> str:
        """An event happens in each run, in the first now. Answers what it came to there."""
        queued = self.queued(command)
        came, states = self.by_event.probe.ask_each([f"step {command}", "states"], self.line.at)
        self.came = plain(came[0])
        self.listed.append(command)
        self.in_bytes.add(in_bytes(command, queued), prints)
        if self.came != "skipped":
            self.watch.follow(command, State.of(states))
            self.expect_headline(command)
        return self.came

    def queued(self, command: str) -> int:
        """How many bytes are under way, of which a command delivers some."""
        word, _, rest = command.partition(" ")
        conn = rest.partition(" ")[0]
        if word not in ("up", "down") or int(conn) >= CONNECTIONS:
            return 0
        return len(parts_of(self.by_event.probe.ask(f"queued {conn}"))[word].strip("-")) // 2

    def expect_headline(self, command: str) -> None:
        """The headline holds of what is seen now."""
        for terminal, conn in self.watch.decided():
            seen = self.by_event.probe.ask_each(
                [f"host {conn}", f"terminal {terminal}", f"left {terminal}"], self.line.at
            )
            fault = headline_fault(*map(tuple, seen))
            if fault:
                raise Difference(
                    "the host's belief allows the screen",
                    f"after {command}, terminal {terminal}: {fault}",
                    self.line.at,
                )
        sessions = self.watch.sessions()
        same(sorted(set(sessions)), sorted(sessions), self.line.at)

    def happen(self, command: str) -> None:
        """An event happens in each run, and each prints what it came to."""
        came = self.step(command, prints=True)
        self.by_event.put_outcome(came)
        self.by_list.put_outcome(came)

    def type(self, terminal: int, text: str) -> None:
        """Keys of a text are pressed, up to the first that doesn't act."""
        for letter in text:
            self.happen(f"type {terminal} {letter}")
            if self.came != "done":
                return

    def settle(self) -> None:
        """Rounds, up to one in which nothing happened."""
        for _ in range(MOST_ROUNDS):
            if not self.go_round():
                return

    def go_round(self) -> bool:
        """All that is under way is delivered, and the host acts, on each connection. Whether
        something happened."""
        happened = False
        for conn in range(CONNECTIONS):
            if self.is_busy(conn):
                for command in (f"up {conn} {ALL}", f"act {conn}", f"down {conn} {ALL}"):
                    happened = self.step(command) != "skipped" or happened
        return happened

    def is_busy(self, conn: int) -> bool:
        """Whether bytes may come on a connection, or the host act there."""
        if conn in self.watch.state.conns:
            return True
        held = any(place and place[0] == conn for place in self.watch.places)
        return held and parts_of(self.by_event.probe.ask(f"queued {conn}"))["down"] != "-"

    def do_random(self, seed: int, count: int) -> None:
        """Events happen that random numbers decide."""
        chance = random.Random(seed)
        for place in range(count):
            command = random_event(chance)
            try:
                self.step(command)
            except Difference as found:
                raise Difference(
                    found.wanted, f"event {place} of seed {seed}, {command}: {found.came}", found.at
                ) from None

    def catch_up(self) -> None:
        """What happened in the first run happens in the others."""
        listed, self.listed = self.listed, []
        self.by_list.probe.ask_all([f"list {command}" for command in listed])
        same(f"{len(listed)} 0", plain(self.by_list.probe.ask("run")[0]), self.line.at)
        for came, prints in self.in_bytes.answers():
            if prints:
                self.by_byte.put_outcome(came)

    def ask(self, question: str, number: int) -> None:
        """A question is asked in each run, and each prints the answer."""
        self.catch_up()
        for run in (self.by_event, self.by_list, self.by_byte):
            run.put_answer(question, number)
        self.expect_alike()

    def expect_alike(self) -> None:
        """All runs printed the same."""
        for way, run in (("by lists of events", self.by_list), ("byte by byte", self.by_byte)):
            same([way, *self.by_event.page], [way, *run.page], self.line.at)

    def expect_line(self, wanted: str) -> None:
        """This is the next line that was printed, of those that no line of the case wanted yet."""
        page = self.by_event.page
        same(wanted, page[self.met] if self.met < len(page) else "no line", self.line.at)
        self.met += 1

    def finish(self) -> None:
        """No line is left, and all runs came to the same."""
        self.catch_up()
        same([], self.by_event.page[self.met :], self.line.at)
        self.expect_alike()
        world = self.by_event.look()
        for run in (self.by_list, self.by_byte):
            for wanted, came in zip(world, run.look(), strict=True):
                same(wanted, came, self.line.at)


def in_bytes(command: str, queued: int) -> list[str]:
    """The events of a delivery byte by byte. One of no bytes is as it is."""
    word, conn, *count = command.split()[:3] if " " in command else (command, "")
    if word not in ("up", "down") or not min(queued, int(count[0])):
        return [command]
    return [f"{word} {conn} 1"] * min(queued, int(count[0]))


def random_loss(chance: random.Random) -> str:
    """A connection is lost, or an end restarts."""
    match chance.randrange(8):
        case 0:
            return "restarthost"
        case 1:
            return f"restartterm {chance.randrange(TERMINALS)}"
        case _:
            return f"lose {chance.randrange(5)}"


def random_at_terminal(chance: random.Random) -> str:
    """Something happens at a terminal."""
    terminal = chance.randrange(TERMINALS)
    return chance.choice(
        [
            f"connect {terminal}",
            f"termsees {terminal}",
            *[f"type {terminal} A"] * 2,
            *[f"key {terminal} {chance.choice(KEYS)}"] * 2,
        ]
    )


def random_on_connection(chance: random.Random) -> str:
    """Something happens on a connection. Numbers from 5 on are seldom in use, since a connection
    has the least free one."""
    conn = chance.randrange(5)
    count = ALL if chance.randrange(2) else chance.randrange(40)
    return chance.choice(
        [
            f"hostsees {conn}",
            f"note {conn} {NOTE}",
            f"keepalive {conn}",
            *[f"act {conn}"] * 2,
            *[f"up {conn} {count}"] * 3,
            *[f"down {conn} {count}"] * 4,
        ]
    )


def random_event(chance: random.Random) -> str:
    """An event, mostly one of a session."""
    if not chance.randrange(EVENTS_FOR_A_LOSS):
        return random_loss(chance)
    return random_on_connection(chance) if chance.randrange(3) else random_at_terminal(chance)


@dataclasses.dataclass(frozen=True)
class Script:
    """A case: its heading, the name of its panels, its own, and its lines."""

    head: Line
    panels: str
    name: str
    body: list[Line]


def scripts() -> tuple[dict[str, list[Line]], list[Script]]:
    """The panel texts and the cases of all files."""
    panels: dict[str, list[Line]] = {}
    found: list[Script] = []
    for path in sorted(CASES.glob("*.worlds")):
        body: list[Line] | None = None
        for line in lines_of(path):
            word, _, words = line.text.partition(" ")
            if word == "panels":
                if not words or words in panels:
                    raise line.bad("needs a name of its own")
                body = panels[words] = []
            elif word == "world":
                name, _, title = words.partition(" ")
                found.append(Script(line, name, title, body := []))
            elif line.text and not line.text.startswith("#"):
                if body is None:
                    raise line.bad("needs a heading above it")
                body.append(line)
    return panels, found


def run(probes, panels: dict[str, list[Line]], script: Script) -> None:
    """Runs a case."""
    if not panels.get(script.panels) or not script.body or not script.name:
        raise BadCase("needs panels, a name, and lines", script.head.at)
    world = World(probes(), panels[script.panels])
    for line in script.body:
        world.do(line)
    world.finish()


def cases() -> Iterator[Case]:
    probes = functools.cache(lambda: [Probe("world") for _ in range(3)])
    panels, found = scripts()
    for script in found:
        yield Case(script.name, script.head.at, functools.partial(run, probes, panels, script))
