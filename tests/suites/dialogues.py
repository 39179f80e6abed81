"""Dialogues, byte for byte, with a terminal or with a host: tests/cases/*.dialogues.

A file has headings and lines below them; blank lines, comments (`#`) and blanks around a line are
ignored:

    terminal-passage NAME    begins a passage, lines for a terminal that `play` repeats
    host-passage NAME        begins such lines for a host
    terminal-dialogue NAME   begins a dialogue with a new terminal
    host-dialogue NAME       begins a dialogue with a new host
    play NAME                is replaced by the lines of a passage for the same subject, in any of
                             the files

`Terminal` and `Host` say which lines a dialogue has. A line fails if what it expects isn't so.
"""
import dataclasses
import functools
import re
from collections.abc import Callable, Iterator

from harness.case import CASES, BadCase, Case, Difference, same
from harness.cells import plainly
from harness.data import Line, lines_of, panel_text
from harness.probe import Probe
from harness.sights import cells_of, parts_of, plain, spelt
from harness.tables import named

PARTS = 3
# Why a key is refused, in the order of the numbers of our profile, from 1 on.
REFUSALS = ["locked", "protected", "not-numeric", "no-room", "no-code"]
# Why a device is rejected, by the reason codes of RFC 1647.
REASONS = (
    "CONN-PARTNER DEVICE-IN-USE INV-ASSOCIATE INV-NAME INV-DEVICE-TYPE TYPE-NAME-ERROR"
    " UNKNOWN-ERROR UNSUPPORTED-REQ"
).split()
HEADINGS = {
    f"{subject}-{kind}": (subject, kind)
    for subject in ("terminal", "host")
    for kind in ("passage", "dialogue")
}


def happened(event: str) -> str:
    """An event as the probe prints it, as the cases say it."""
    if found := re.fullmatch(r'\("Rejected", (?:None|Some\((.+)\)), Reason\((\d+)\)\)', event):
        return " ".join(filter(None, ["rejected", found[1], REASONS[int(found[2])]]))
    if found := re.fullmatch(r'\("Bound", (.+)\)', event):
        return f"bound {found[1]}"
    if found := re.fullmatch(r'\("KeyDropped", (\d+)\)', event):
        return f"dropped {int(found[1]):02X}"
    if found := re.fullmatch(r'\("RuleBroken", RuleBreak { rule: (\w+), cell: (\d+).* }\)', event):
        return f"broken {found[1]} {found[2]}"
    if found := re.fullmatch(r'\("ScreenRestored", (\w+)\)', event):
        return f"restored {found[1]}"
    if event == '"CharacterReplaced"':
        return "replaced characters"
    if found := re.fullmatch(r'\("Closed", (\w+)\)', event):
        return f"closed {found[1]}"
    return event.strip('"').lower()


class Subject:
    """What the lines of a dialogue are for. A line `WORD WORDS` is done by the method of that word,
    `-` being `_`."""

    def __init__(self, probe: Probe) -> None:
        self.probe = probe
        self.line: Line

    def do(self, line: Line) -> None:
        """Does what a line says, or looks whether it is so."""
        self.line = line
        word, _, words = line.text.partition(" ")
        call = getattr(self, f"do_{word.replace('-', '_')}", None) if word != "|" else self.panel
        if not call:
            raise line.bad("needs a command")
        call(words)

    def ask(self, command: str) -> list[str]:
        return self.probe.ask(command, self.line.at)

    def expect(self, wanted: object, came: object) -> None:
        same(wanted, came, self.line.at)

    def panel(self, text: str) -> None:
        raise self.line.bad("needs a host")

    def none(self, words: str) -> None:
        if words:
            raise self.line.bad("has words too many")


class Terminal(Subject):
    """A terminal and its host.

    model M              the terminal is a new one of this model, 2 to 5; it is of model 2 if no
                         line says so
    connect [LU]         a connection begins, on which the terminal asks for this LU, if one
    host BYTES           the host sends these; the terminal takes all of them and goes on
    cut BYTES            the host sends the front of these; the dialogue is held once for each place
                         to cut them at
    rest                 it sends the bytes after the cut
    offer BYTES          the host sends these; `taken` and `stops` say how far the terminal takes
                         them
    taken N              the terminal took N of them
    stops WHY            going, or closed CAUSE
    says BYTES           the terminal's output is these; they are sent
    silent               the terminal has no output
    waiting              what output there is isn't sent, and waits
    answers BYTES        the output behind what waits is these; they wait, too
    key NAME [OUTCOME]   the key is pressed: done (said of none), sends AID, or refused REFUSAL; one
                         character is its key
    type TEXT            the key of each character is pressed, and is done
    lost [BYTES]         the connection is lost before these were sent
    restart              the terminal restarts
    phase PHASE          idle, talking, bound LU, refused REASON, or closed CAUSE
    lock LOCK            free, wait or error
    took-write YES       whether the last byte completed a write: yes or no
    cursor N             where the cursor is
    aid XX               the attention identifier
    size ROWS COLUMNS    how many rows and columns the screen has
    cell N XX            what a cell has: a character's code, or 1D and an attribute's
    line N TEXT          what a row shows, the first being 1
    screen [|TEXT]..     what the rows show from the first on; further ones are blank
    status TEXT          the line below the printed screen
    """

    def __init__(self, probe: Probe, holding: int) -> None:
        super().__init__(probe)
        self.cut, self.cuts, self.behind, self.fed = holding, 1, b"", "0 going"
        self.waits = "out -"
        probe.ask("new 2")

    def hear(self, data: bytes) -> None:
        self.fed = plain(self.ask(f"feed {spelt(data)}")[0])

    def hear_whole(self, data: bytes) -> None:
        self.hear(data)
        self.expect(f"{len(data)} going", self.fed)

    def seen(self, name: str) -> str:
        return parts_of(self.ask("state"))[name]

    def do_model(self, words: str) -> None:
        self.expect(["done"], self.ask(f"new {words}"))

    def do_connect(self, words: str) -> None:
        self.ask(f"connected {words}")

    def do_host(self, words: str) -> None:
        self.hear_whole(self.line.data(words))

    def do_cut(self, words: str) -> None:
        data = self.line.data(words)
        self.cuts = max(self.cuts, len(data) - 1)
        self.behind = data[self.cut :]
        self.hear_whole(data[: self.cut])

    def do_rest(self, words: str) -> None:
        self.none(words)
        self.hear_whole(self.behind)
        self.behind = b""

    def do_offer(self, words: str) -> None:
        self.hear(self.line.data(words))

    def do_taken(self, words: str) -> None:
        self.expect(words, self.fed.partition(" ")[0])

    def do_stops(self, words: str) -> None:
        self.expect(words, self.fed.partition(" ")[2])

    def do_says(self, words: str) -> None:
        data = self.line.data(words)
        self.expect([f"out {spelt(data)}"], self.ask("out"))
        self.ask(f"sent {len(data)}")

    def do_silent(self, words: str) -> None:
        self.none(words)
        self.do_says("")

    def do_waiting(self, words: str) -> None:
        self.none(words)
        (self.waits,) = self.ask("out")

    def do_answers(self, words: str) -> None:
        self.waits = f"{self.waits.removesuffix('-')}{spelt(self.line.data(words))}"
        self.expect([self.waits], self.ask("out"))

    def do_key(self, words: str) -> None:
        name, _, outcome = words.partition(" ")
        if refusal := outcome.partition("refused ")[2]:
            outcome = f"refused {1 + REFUSALS.index(refusal)} {refusal}"
        self.expect(
            [outcome or "done"], self.ask(f"type {name}" if len(name) == 1 else f"key {name}")
        )

    def do_type(self, words: str) -> None:
        self.expect(["done"] * len(words), self.ask(f"type {words}"))

    def do_lost(self, words: str) -> None:
        self.expect([f"unsent {spelt(self.line.data(words))}"], self.ask("lost"))

    def do_restart(self, words: str) -> None:
        self.none(words)
        self.ask("restart")

    def do_phase(self, words: str) -> None:
        self.expect(words, self.seen("phase"))

    def do_lock(self, words: str) -> None:
        self.expect(words, self.seen("lock"))

    def do_took_write(self, words: str) -> None:
        self.expect(words, self.seen("took-write"))

    def do_cursor(self, words: str) -> None:
        self.expect(words, self.seen("cursor"))

    def do_aid(self, words: str) -> None:
        self.expect(words, self.seen("aid"))

    def do_size(self, words: str) -> None:
        self.expect([words], plainly([self.seen("size")]))

    def do_cell(self, words: str) -> None:
        place, _, cell = words.partition(" ")
        cells = cells_of(parts_of(self.ask("see"))["cells"])
        at = self.line.number(place, 3564)
        self.expect(cell, cells[at].replace("1D", "1D ") if at < len(cells) else "no cell")

    def do_line(self, words: str) -> None:
        number, _, text = words.partition(" ")
        rows = dict(enumerate(self.ask("lines"), 1))
        self.expect(text, rows.get(self.line.number(number), "|no row")[1:])

    def do_screen(self, words: str) -> None:
        self.expect(words, "".join(self.ask("lines")).rstrip("|"))

    def do_status(self, words: str) -> None:
        self.expect("yes" if " insert " in words else "no", self.seen("inserting"))
        self.expect([*self.ask("lines"), f"|{words}"], self.ask("text"))


class Host(Subject):
    """A host and its clients. C is a connection's number, 0 to 63.

    | TEXT                a line of the panel text
    serve [WHICH]         a new host begins to show the panels of that text, to terminals that wait; to
                          `any`; or to any, `verified`
    open C                a connection begins
    client C BYTES        its client sends these; the host takes all of them and goes on
    closes C CAUSE BYTES  its client sends these; at the last the host closes the connection, for
                          this cause
    deaf C WHY            the host takes no bytes of this connection: going, or closed CAUSE
    begins C BYTES        the host's output begins with these; they are sent
    says C BYTES          the host's output is these; they are sent
    silent C              the host has no output
    act C WHAT            the host acts: sent, or nothing
    note C WHAT TEXT      a note is written: sent, or nothing
    lost C [BYTES]        the connection is lost before these were sent
    restart               the host restarts
    event C WHAT          what the host hands out next that happened: rejected [LU] REASON, bound LU,
                          dropped AID, broken RULE CELL, replaced characters, restored WHY, shown, or
                          closed CAUSE; or none, if there is no more
    rejected C WHAT       the same of rejections alone; others are left: [LU] REASON, or none
    dropped C AID         of dropped keys
    broken C WHAT         of the rule that the terminal broke, and the cell
    replaced C WHAT       that `characters` were replaced in data, or none
    restored C WHY        of data that can't be believed: Unreadable, NoKey or Contradicts; or none
    phase C PHASE         free, talking, bound LU, or closed CAUSE
    model C M             the client's model, 2 to 5, or none before it asked for its type
    turn C WHOSE          host or terminal
    pending C N           the number of the command that waits for its answer, or none
    belief C WHAT         nothing; nulls, if each cell is known to be null, without fields; or more
    fact C AT FACT BYTES  what is believed of the field whose attribute is there: Exact,
                          ExactOrNulls, Text, TextOrNulls or Any, and the characters; or none, if no
                          field is believed to be there
    keep C                remembers all of this, each known cell and field, and what there is to
                          send
    stays C               all of it is as it was then

    Each dialogue is held twice: with the bytes of each line in one piece, and byte by byte.
    """

    def __init__(self, probe: Probe, holding: int) -> None:
        super().__init__(probe)
        self.is_by_byte, self.cuts = holding == 2, 2
        self.panels: list[str] = []
        self.kept: list[str] | None = None
        self.unsaid: dict[str, list[str]] = {}

    def split(self, words: str) -> tuple[str, str]:
        """A connection's number, and the rest."""
        conn, _, rest = words.partition(" ")
        return str(self.line.number(conn, 63)), rest

    def expect_state(self, name: str, words: str) -> None:
        conn, wanted = self.split(words)
        self.expect(wanted, parts_of(self.ask(f"state {conn}"))[name])

    def feed(self, conn: str, data: bytes) -> str:
        """Feeds bytes as this holding does. One that comes behind the close isn't taken."""
        size = 1 if self.is_by_byte else len(data) or 1
        commands = [
            f"feed {conn} {spelt(data[place : place + size])}"
            for place in range(0, len(data) or 1, size)
        ]
        answers = [plain(answer) for (answer,) in self.probe.ask_all(commands, self.line.at)]
        taken = sum(int(answer.partition(" ")[0]) for answer in answers)
        return f"{taken} {answers[-1].partition(' ')[2]}"

    def hear(self, conn: str, words: str, stop: str) -> None:
        data = self.line.data(words)
        self.expect(f"{len(data)} {stop}", self.feed(conn, data))

    def panel(self, text: str) -> None:
        self.panels.append(f"| {text}")

    def do_serve(self, words: str) -> None:
        made = self.ask(f"new {words or 'waiting'} {panel_text(self.panels)}")
        self.expect(["done"], made)

    def do_open(self, words: str) -> None:
        self.unsaid[words] = []
        self.expect(["done"], self.ask(f"open {words}"))

    def do_client(self, words: str) -> None:
        self.hear(*self.split(words), "going")

    def do_closes(self, words: str) -> None:
        conn, rest = self.split(words)
        cause, _, data = rest.partition(" ")
        self.hear(conn, data, f"closed {cause}")

    def do_deaf(self, words: str) -> None:
        conn, why = self.split(words)
        self.expect(f"0 {why}", plain(self.ask(f"feed {conn} FFF1")[0]))

    def do_begins(self, words: str) -> None:
        conn, rest = self.split(words)
        data = self.line.data(rest)
        self.expect(spelt(data), self.ask(f"out {conn}")[0].removeprefix("out ")[: 2 * len(data)])
        self.ask(f"sent {conn} {len(data)}")

    def do_says(self, words: str) -> None:
        conn, rest = self.split(words)
        data = self.line.data(rest)
        self.expect([f"out {spelt(data)}"], self.ask(f"out {conn}"))
        self.ask(f"sent {conn} {len(data)}")

    def do_silent(self, words: str) -> None:
        self.do_says(self.split(words)[0])

    def do_act(self, words: str) -> None:
        conn, wanted = self.split(words)
        self.expect(wanted, plain(self.ask(f"act {conn}")[0]))

    def do_note(self, words: str) -> None:
        conn, rest = self.split(words)
        wanted, _, text = rest.partition(" ")
        self.expect(wanted, plain(self.ask(f"note {conn} {spelt(text.encode('cp037'))}")[0]))

    def do_lost(self, words: str) -> None:
        conn, rest = self.split(words)
        self.expect([f"unsent {spelt(self.line.data(rest))}"], self.ask(f"closed {conn}"))

    def do_restart(self, words: str) -> None:
        self.none(words)
        self.unsaid.clear()
        self.ask("restart")

    def expect_event(self, words: str, kind: str) -> None:
        conn, wanted = self.split(words)
        events = self.unsaid.setdefault(conn, [])
        while (event := named(self.ask(f"event {conn}")[0])) != "None":
            events.append(happened(event))
        came = next((it for it in events if it.startswith(kind)), None)
        if came:
            events.remove(came)
        self.expect(wanted, came.removeprefix(kind) if came else "none")

    def do_event(self, words: str) -> None:
        self.expect_event(words, "")

    def do_rejected(self, words: str) -> None:
        self.expect_event(words, "rejected ")

    def do_dropped(self, words: str) -> None:
        self.expect_event(words, "dropped ")

    def do_replaced(self, words: str) -> None:
        self.expect_event(words, "replaced ")

    def do_restored(self, words: str) -> None:
        self.expect_event(words, "restored ")

    def do_broken(self, words: str) -> None:
        self.expect_event(words, "broken ")

    def do_phase(self, words: str) -> None:
        self.expect_state("phase", words)

    def do_model(self, words: str) -> None:
        self.expect_state("model", words)

    def do_turn(self, words: str) -> None:
        self.expect_state("turn", words)

    def do_pending(self, words: str) -> None:
        self.expect_state("pending", words)

    def do_belief(self, words: str) -> None:
        conn, wanted = self.split(words)
        parts = parts_of(self.ask(f"see {conn}"))
        cells = set(cells_of(parts["belief"]))
        if any(name.startswith("field ") for name in parts):
            came = "more"
        elif cells <= {"??"}:
            came = "nothing"
        else:
            came = "nulls" if cells == {"00"} else "more"
        self.expect(wanted, came)

    def do_fact(self, words: str) -> None:
        conn, rest = self.split(words)
        place, _, rest = rest.partition(" ")
        fact, _, text = rest.partition(" ")
        self.line.number(place, 3563)
        wanted = (
            "none"
            if fact == "none" and not text
            else f"{fact} {self.line.data(text).hex().upper()}"
        )
        self.expect(wanted, parts_of(self.ask(f"see {conn}")).get(f"field {place}", "none"))

    def do_keep(self, words: str) -> None:
        self.kept = self.ask(f"see {words}")

    def do_stays(self, words: str) -> None:
        if self.kept is None:
            raise self.line.bad("needs keep above it")
        self.expect("\n".join(self.kept), "\n".join(self.ask(f"see {words}")))


@dataclasses.dataclass(frozen=True)
class Dialogue:
    """A dialogue or a passage: its heading, its subject, its name, and its lines."""

    head: Line
    subject: str
    name: str
    body: list[Line]


class Reader:
    """Reads files."""

    def __init__(self) -> None:
        self.passages: dict[tuple[str, str], Dialogue] = {}
        self.dialogues: list[Dialogue] = []
        self.last: Dialogue | None = None

    def read(self, line: Line) -> None:
        """Takes a line: a heading, or one that belongs to the heading before it."""
        word, _, name = line.text.partition(" ")
        if word in HEADINGS:
            subject, kind = HEADINGS[word]
            self.last = Dialogue(line, subject, name, [])
            self.keep(self.last, kind == "passage")
        elif self.last is None:
            raise line.bad("needs a heading above it")
        else:
            self.last.body.append(line)

    def keep(self, begun: Dialogue, is_passage: bool) -> None:
        if not begun.name or is_passage and (begun.subject, begun.name) in self.passages:
            raise begun.head.bad("needs a name of its own")
        if is_passage:
            self.passages[begun.subject, begun.name] = begun
        else:
            self.dialogues.append(begun)

    def whole(self, block: Dialogue, within: tuple[str, ...] = ()) -> Iterator[Line]:
        """The lines of a block, with those of the passages that it plays."""
        for line in block.body:
            word, _, name = line.text.partition(" ")
            if word != "play":
                yield line
            elif (block.subject, name) not in self.passages or name in within:
                raise line.bad("needs a passage for the same subject")
            else:
                yield from self.whole(self.passages[block.subject, name], (*within, name))


def dialogues() -> Iterator[Dialogue]:
    """The dialogues of all files, with the lines of the passages that they play."""
    reader = Reader()
    for path in sorted(CASES.glob("*.dialogues")):
        reader.last = None
        for line in lines_of(path):
            text = line.text.strip()
            if text and not text.startswith("#"):
                reader.read(Line(line.at, text))
    return (dataclasses.replace(it, body=list(reader.whole(it))) for it in reader.dialogues)


def hold_once(probe: Probe, dialogue: Dialogue, holding: int) -> int:
    """Holds a dialogue with this cut or delivery. How often it is to be held."""
    subject = {"terminal": Terminal, "host": Host}[dialogue.subject](probe, holding)
    for line in dialogue.body:
        subject.do(line)
    return subject.cuts


def hold(probe: Callable[[str], Probe], dialogue: Dialogue) -> None:
    """Holds a dialogue as often as its subject wants: once for each cut, or delivery."""
    if not dialogue.body:
        raise BadCase("has no lines", dialogue.head.at)
    holding, holdings = 1, 1
    while holding <= holdings:
        try:
            holdings = hold_once(probe(dialogue.subject), dialogue, holding)
        except Difference as found:
            raise Difference(
                found.wanted,
                f"{found.came} (holding {holding})" if holding > 1 else found.came,
                found.at,
            ) from None
        holding += 1


def cases() -> Iterator[Case]:
    probe = functools.cache(Probe)
    for dialogue in dialogues():
        yield Case(dialogue.name, dialogue.head.at, functools.partial(hold, probe, dialogue))
