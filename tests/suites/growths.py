"""Calls whose growths of memory are refused, one a run: the first, the second, and so on until a
run meets no refusal: tests/cases/*.growths. Only the proved programs take memory from the C
library.

tests/harness/refuse.c, which is preloaded, refuses the growth. If the call then answers want of
memory, what is to be seen must be as before the call, or as after the bytes or events that it took;
once it is made again, and all goes on, as if nothing was refused. A call may get over a refusal and
be done. A file has these blocks, without blank lines and comments:

    steps NAME         begins commands that `play NAME` repeats
    call NAME          begins a case
    on SUBJECT         the subject of the probe
    COMMAND            a command before the call
    ! COMMAND          the call; in commands PANELS is the panel text of the lines `| TEXT` above
    again COMMAND      makes the call once more, if it isn't as the call
    = LINE             the first line that it answers; - if there is none
    meets none         the call meets no growth
    taken COMMAND      if memory is refused to the call, it stands as after this command, and not as
                       before
    + COMMAND          what goes on after the call
    look COMMAND       shows what is to be seen; with ` = LINE` behind it, this line first once the
                       call is done, whose bytes may be spelt as in a file of rows
    whole SUITE NAME   a case of the suite, in which each growth of memory in its calls is refused
                       in a run of its own, and each call that was refused memory is repeated: it
                       must pass. A dialogue with a terminal is a case for each cut; from the
                       refused call on a twin, which is refused nothing, must look the same
"""
import dataclasses
import functools
import os
import pathlib
import re
from collections.abc import Callable, Iterator

from harness import tables
from harness.case import CASES, BadCase, Case, Difference, same
from harness.data import Line, lines_of, panel_text
from harness.growths import library
from harness.probe import Probe
from harness.sights import plain, spelt
from suites import dialogues, worlds

PARTS = 4
LONG = True
# What has no call that could be refused memory, or grows but the probe's own memory.
UNMARKED = {
    "list",
    "see",
    "state",
    "states",
    "host",
    "terminal",
    "left",
    "queued",
    "out",
    "sent",
    "lines",
    "text",
}
FEED = re.compile(r"(feed)((?: \d+)?) (.+)")
NO_MEMORY = "the probe no memory"


def first(answer: list[str]) -> str:
    """The first line of an answer."""
    return answer[0] if answer else "-"


def seen(probe: Probe, command: str) -> list[str]:
    """What a command shows. Before something is made that is nothing."""
    try:
        return probe.ask(command)
    except BadCase as error:
        return [error.reason]


def first_plain(answer: list[str]) -> list[str]:
    """An answer, whose first line may be printed by Debug."""
    return [plain(answer[0]), *answer[1:]] if answer else answer


class NotCalled(Exception):
    """The probe itself was refused memory, for what it reads or prints: the library wasn't
    called."""


class Refusing(Probe):
    """A probe to which one growth of memory is refused, of those in commands that are marked."""

    def __init__(self, subject: str, growth: int) -> None:
        super().__init__(
            subject, {**os.environ, "LD_PRELOAD": str(library()), "GROWTH": str(growth)}
        )

    def call(self, command: str, line: Line | None = None) -> list[str]:
        """Makes a marked call."""
        try:
            return first_plain(super().ask(f"! {command}", line.at if line else None))
        except BadCase as error:
            if error.reason.startswith(NO_MEMORY):
                raise NotCalled from None
            raise

    def met(self) -> int:
        """How many growths the marked calls met. The probe ends."""
        _, said = self.process.communicate()
        return int(["0", *re.findall(r"^growths (\d+)$", said.decode(), re.M)][-1])


class Repeating(Refusing):
    """One whose calls are repeated if they are refused memory."""

    def __init__(self, subject: str, growth: int) -> None:
        super().__init__(subject, growth)
        self.listed: list[str] = []

    def ask(self, command: str, at=None) -> list[str]:
        word, _, rest = command.partition(" ")
        if word == "list":
            self.listed.append(rest)
        if word in UNMARKED:
            return super().ask(command, at)
        answer = self.call(command)
        if word == "run":
            return [f"{self.go_on(answer[0])} 0"]
        for _ in range(3):
            if not re.fullmatch(r"memory|part \d+|\d+ memory", first(answer)):
                return answer
            answer = self.again(command, int("".join(re.findall(r"\d+", first(answer))) or 0))
        return answer

    def ask_each(self, commands: list[str], at=None) -> list[list[str]]:
        if len(commands) == 1:
            return super().ask_each(commands, at)
        return [self.ask(command, at) for command in commands]

    def again(self, command: str, taken: int) -> list[str]:
        """Makes a call again, with what it didn't take."""
        answer = self.call(less(command, taken))
        if not FEED.fullmatch(command) or first(answer) == "memory":
            return answer
        count, _, stop = answer[0].partition(" ")
        return [f"{taken + int(count)} {stop}"]

    def go_on(self, ran: str) -> int:
        """The rest of a list happens, if memory was refused in it."""
        whole, part = map(int, ran.split())
        events, self.listed = self.listed, []
        if whole < len(events):
            for event in [less(events[whole], part), *events[whole + 1 :]]:
                super().ask(f"list {event}")
            same(f"{len(events) - whole} 0", plain(super().ask("run")[0]))
        return len(events)


class Twinned(Repeating):
    """A terminal whose calls are repeated. A twin, which is refused nothing, takes the same from
    the call on that was refused memory; they must look the same at the refusal and after each
    call."""

    def __init__(self, subject: str, growth: int) -> None:
        super().__init__(subject, growth)
        self.subject = subject
        self.asked: list[str] = []
        self.twin: Probe | None = None

    def ask(self, command: str, at=None) -> list[str]:
        twin = self.twin
        answer = super().ask(command, at)
        self.asked.append(command)
        if twin:
            same(first_plain(twin.ask(command)), first_plain(answer))
            if command.partition(" ")[0] not in UNMARKED:
                self.looks_like(twin)
        return answer

    def again(self, command: str, taken: int) -> list[str]:
        twin = self.twin = Probe(self.subject)
        twin.ask_all(self.asked)
        if taken:
            twin.ask(front(command, taken))
        # A terminal that isn't made takes the place of the one before it.
        if not command.startswith("new "):
            self.looks_like(twin)
        answer = super().again(command, taken)
        twin.ask(less(command, taken))
        self.looks_like(twin)
        return answer

    def looks_like(self, twin: Probe) -> None:
        """Compares phase, lock, output, cursor and cells."""
        same("\n".join(seen(twin, "see")), "\n".join(seen(self, "see")))

    def close(self) -> None:
        if self.twin:
            self.twin.close()
        super().close()


def less(command: str, taken: int) -> str:
    """A command, without what was taken of its bytes or its delivery."""
    if fed := FEED.fullmatch(command):
        return f"{fed[1]}{fed[2]} {spelt(bytes.fromhex(fed[3].strip('-'))[taken:])}"
    start, _, count = command.rpartition(" ")
    return f"{start} {int(count) - taken}" if taken else command


def front(command: str, taken: int) -> str:
    """What was taken of a command's bytes."""
    fed = FEED.fullmatch(command)
    if not fed:
        raise BadCase(f"no part of it can be taken: {command}")
    return f"{fed[1]}{fed[2]} {spelt(bytes.fromhex(fed[3])[:taken])}"


@dataclasses.dataclass
class Call:
    """A case."""

    head: Line
    name: str
    subject: str = ""
    before: list[Line] = dataclasses.field(default_factory=list)
    call: str = ""
    wanted: str = ""
    meets_none: bool = False
    taken: str = ""
    again: str = ""
    panels: list[str] = dataclasses.field(default_factory=list)
    after: list[str] = dataclasses.field(default_factory=list)
    looks: list[str] = dataclasses.field(default_factory=list)
    # The first lines that some of these show once the call is done.
    shown: dict[str, str] = dataclasses.field(default_factory=dict)

    def take(self, line: Line) -> None:
        line = Line(line.at, line.text.replace("PANELS", panel_text(self.panels)))
        word, _, rest = line.text.partition(" ")
        match word:
            case "|":
                self.panels.append(line.text)
            case "on":
                self.subject = rest
            case "!":
                self.call = rest
            case "=":
                self.wanted = rest
            case "meets" if rest == "none":
                self.meets_none = True
            case "taken":
                self.taken = rest
            case "again":
                self.again = rest
            case "+":
                self.after.append(rest)
            case "look":
                command, equals, shown = rest.partition(" = ")
                self.looks.append(command)
                if equals:
                    self.shown[command] = tables.spelt(line, shown)
            case _:
                self.before.append(line)

    def begin(self, growth: int) -> Refusing:
        """A probe on which all was done that is before the call."""
        probe = Refusing(self.subject, growth)
        for line in self.before:
            probe.ask(line.text, line.at)
        return probe

    def look(self, probe: Probe) -> list[str]:
        """What is to be seen."""
        return [line for command in self.looks for line in seen(probe, command)]

    def finish(self, probe: Probe) -> list[str]:
        """What is to be seen once all went on."""
        for command in self.after:
            probe.ask(command)
        return self.look(probe)

    def partly(self, answer: str) -> list[str]:
        """What is to be seen after the bytes or events that a call took, which was refused memory
        then."""
        with self.begin(0) as probe:
            if self.taken:
                probe.ask(self.taken)
            elif answer.partition(" ")[2] == "memory":
                fed = FEED.fullmatch(self.call)
                data = self.head.data(fed[3])[: int(answer.split()[0])]
                probe.ask(f"{fed[1]}{fed[2]} {spelt(data)}")
            elif self.call == "run":
                return self.after_events(*map(int, answer.split()))
            return self.look(probe)

    def events(self) -> list[str]:
        return [
            line.text.removeprefix("list ") for line in self.before if line.text.startswith("list ")
        ]

    def after_events(self, whole: int, part: int) -> list[str]:
        """What is to be seen after so many whole events. No delivery is refused in its midst."""
        same(0, part)
        with Refusing(self.subject, 0) as probe:
            for line in self.before:
                if not line.text.startswith("list "):
                    probe.ask(line.text, line.at)
            for event in self.events()[:whole]:
                probe.ask(f"step {event}")
            return self.look(probe)

    def repeat(self, probe: Refusing, answer: str) -> list[str]:
        """The call is made again, with what it didn't take: what it answers, in all."""
        if self.call == "run":
            whole = int(answer.split()[0])
            for event in self.events()[whole:]:
                probe.ask(f"list {event}")
            count, _, part = plain(probe.ask("run")[0]).partition(" ")
            return [f"{whole + int(count)} {part}"]
        fed = FEED.fullmatch(self.call)
        taken = int(answer.split()[0]) if fed and answer != "memory" else 0
        if not taken:
            return first_plain(probe.ask(self.again or self.call))
        rest = spelt(self.head.data(fed[3])[taken:])
        count, _, stop = plain(probe.ask(f"{fed[1]}{fed[2]} {rest}")[0]).partition(" ")
        return [f"{taken + int(count)} {stop}"]

    def run(self) -> None:
        """Refuses each growth."""
        with self.begin(0) as probe:
            before = self.look(probe)
            wanted = probe.call(self.call)
            same(self.wanted, first(wanted))
            for command, line in self.shown.items():
                same(line, first(probe.ask(command)))
            done = self.look(probe)
            end = self.finish(probe)
            count = probe.met()
        refused = sum(
            self.refuse(growth, before, wanted, done, end) for growth in range(1, count + 1)
        )
        same(self.meets_none, refused == 0)

    def refuse(
        self, growth: int, before: list[str], wanted: list[str], done: list[str], end: list[str]
    ) -> bool:
        """Refuses a growth. Whether it was refused to the call, and not to the probe itself."""
        with self.begin(growth) as probe:
            same([f"growth {growth}", *before], [f"growth {growth}", *self.look(probe)])
            try:
                answer = probe.call(self.call, self.head)
            except NotCalled:
                return False
            if answer != wanted:
                self.stands(probe, growth, first(answer), wanted, before)
            same([f"growth {growth}, done", *done], [f"growth {growth}, done", *self.look(probe)])
            same(
                [f"growth {growth}, at the end", *end],
                [f"growth {growth}, at the end", *self.finish(probe)],
            )
            return True

    def stands(
        self, probe: Refusing, growth: int, answer: str, wanted: list[str], before: list[str]
    ) -> None:
        """A call was refused memory. It stands as it should, and does all when it is made again."""
        if self.call != "run" and not re.search(r"memory|AllocError|Err\(Memory\)", answer):
            raise Difference(wanted, f"growth {growth}: {answer}")
        is_part = self.taken or self.call == "run" or re.fullmatch(r"\d+ memory", answer)
        stand = self.partly(answer) if is_part else before
        same(
            [f"growth {growth}, refused", *stand], [f"growth {growth}, refused", *self.look(probe)]
        )
        same(wanted, self.repeat(probe, answer))


def call_cases(calls: list[Call]) -> Iterator[Case]:
    for call in calls:
        if not (call.subject and call.call and call.wanted):
            raise call.head.bad("needs lines `on`, `!` and `=`")
        yield Case(call.name, call.head.at, call.run, needs_proved=True)


# ---- Whole cases


# A case, which makes its probes by a call.
Run = Callable[[Callable[[str], Probe]], object]


def whole(kind: type[Repeating], run: Run) -> None:
    """Runs a case, and refuses each growth in it in a run of its own."""
    growth, count = 0, 0
    while growth <= count:
        probes: list[Repeating] = []

        def probe(subject: str) -> Probe:
            probes.append(kind(subject, growth))
            return probes[-1]

        try:
            run(probe)
            count = max(count, *(it.met() for it in probes))
        except NotCalled:
            pass
        except Difference as error:
            raise Difference(error.wanted, f"growth {growth}: {error.came}", error.at) from None
        finally:
            for it in probes:
                it.close()
        growth += 1
    same(True, count > 0)


def whole_worlds(name: str) -> Iterator[tuple[str, Run]]:
    panels, found = worlds.scripts()
    for script in found:
        if script.name == name:
            yield name, lambda probe, script=script: worlds.run(
                lambda: [probe("world") for _ in range(3)], panels, script
            )


def held(dialogue: dialogues.Dialogue, cut: int, probe: Callable[[str], Probe]) -> None:
    dialogues.hold_once(probe("terminal"), dialogue, cut)


def whole_dialogues(name: str) -> Iterator[tuple[str, Run]]:
    """A dialogue with a terminal, with each cut."""
    for dialogue in dialogues.dialogues():
        if (dialogue.subject, dialogue.name) == ("terminal", name):
            cuts = [
                len(line.data(line.text[4:])) - 1
                for line in dialogue.body if line.text.startswith("cut ")
            ]
            for cut in range(1, max(cuts, default=1) + 1):
                yield f"{name}, cut {cut}", functools.partial(held, dialogue, cut)


def whole_cases(line: Line, words: str) -> list[Case]:
    suite, _, name = words.partition(" ")
    kinds = {"worlds": (whole_worlds, Repeating), "dialogues": (whole_dialogues, Twinned)}
    if suite not in kinds:
        raise line.bad("needs dialogues or worlds")
    find, kind = kinds[suite]
    made = [
        Case(f"whole: {of}", line.at, functools.partial(whole, kind, run), needs_proved=True)
        for of, run in find(name)
    ]
    if not made:
        raise line.bad("needs a case of that suite")
    return made


def cases() -> Iterator[Case]:
    for path in sorted(CASES.glob("*.growths")):
        yield from cases_of(path)


def cases_of(path: pathlib.Path) -> Iterator[Case]:
    """The cases of a file."""
    steps: dict[str, list[Line]] = {}
    calls: list[Call] = []
    wholes: list[Case] = []
    take: Callable[[Line], object] | None = None
    for line in lines_of(path):
        word, _, rest = line.text.partition(" ")
        if not line.text or line.text.startswith("#"):
            continue
        if word == "steps":
            take = steps.setdefault(rest, []).append
        elif word == "call":
            calls.append(Call(line, rest))
            take = calls[-1].take
        elif word == "whole":
            wholes += whole_cases(line, rest)
        elif take is None or word == "play" and rest not in steps:
            raise line.bad("needs steps, or a case, above it")
        else:
            for each in steps[rest] if word == "play" else [line]:
                take(each)
    yield from call_cases(calls)
    yield from wholes
