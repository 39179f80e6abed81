"""A host under load for as long as asked: `tests/run soak --minutes N`.

Operators at s3270, of each model, press random keys and Reset in the wait, leave and come again; an
application answers each question, and fails in each way; hostile clients say random bytes, half a
record, or nothing. An operator's texts begin with the name of their LU: so the screen shows whether
an operator sees what is another's. Every second the host reads its panels again. No connection but
a hostile one is closed by the host, no end of a session is told twice, and the host doesn't grow."""
import collections
import contextlib
import json
import os
import random
import re
import socket
import tempfile
import threading
import time

from harness import hosts
from harness.applications import Application, reply
from harness.case import Case, Difference, expect, of_function
from harness.s3270 import S3270, is_wanted

MINUTES = float(os.environ.get("TESTS_MINUTES", "1"))
SECONDS = 60 * MINUTES + 300
OPERATORS, HOSTILE = 56, 8
RELOADED = f"ok reloaded: panels=3 lus={OPERATORS + HOSTILE}"
TOO_MANY = "error sessions of 8 earlier panel texts go on; wait until those of one end"
NOTED = "ok shown, or as soon as the operator may type"
ANSWERS = {
    "reload": (RELOADED, TOO_MANY),
    "note": (NOTED, "error there is no session", "error no session has this LU"),
}
# What the host's memory may grow by between the first and the last third, in KiB.
MOST_GROWTH = 512

PANEL = """
[[panel]]
name = "{name}"
asks = ["enter", "pf1", "pa1"]
text = [
    {{row = 1, col = 2, text = "PANEL {name}"}},
    {{row = 5, col = 2, show = "seen", length = 40}},
]
field = [
    {{name = "word_{own}", row = 3, col = 8, length = 40}},
    {{name = "secret_{own}", row = 4, col = 8, length = 8, hidden = true}},
]
keys = {{pf3 = "{next}"}}
"""
SHOWN = """
[[panel]]
name = "SHOWN"
field = [{name = "seen", row = 1, col = 2, length = 40}]
"""
# The row of `seen`, and that of messages, from 0 on.
SEEN_ROW, TEXT = 4, re.compile(r"OP\d\d-\w+")
FAILURES = {"APPLICATION NOT AVAILABLE", "APPLICATION ERROR"}
KEYS = ("Enter", "Enter", "Enter", "PF(1)", "PA(1)", "PF(3)", "PF(9)", "PA(2)")


def lu_of(number: int) -> str:
    return f"OP{number:02}"


def panel_text(is_turned: bool = False) -> bytes:
    """The panels; their LUs from the last to the first, if the text is turned."""
    lus = [lu_of(it) for it in range(OPERATORS)] + [f"HOST{it}" for it in range(HOSTILE)]
    lus = lus[::-1] if is_turned else lus
    panels = PANEL.format(name="ONE", own="one", next="TWO") + PANEL.format(name="TWO", own="two", next="ONE") + SHOWN
    return f'start = "ONE"\nlus = {json.dumps(lus)}\n{panels}'.encode()


# ---- the application

# What is sent in place of a reply, and the connection then closed; None: nothing for too long.
FAULTS = [
    None,
    b"",
    b"HTTP/1.1 200 OK\r\nContent-Length: 9\r\n\r\n{",
    b"HTTP/1.1 200 OK\r\nTransfer-Encoding: chunked\r\n\r\nx\r\n",
    b"220 mail.example\r\n",
    reply(b"[" * 60_000),
    reply(b"[]"),
    reply({"panel": "NONE"}),
    reply({"nothing": ""}),
    reply({"fields": {"none": ""}}),
    reply({"cursor": "none"}),
    reply({"message": 5}),
    reply({}, "500 Internal Server Error"),
    b"HTTP/1.1 200 OK\r\n\r\n" + b"{" + b" " * 70_000,
    b"HTTP/1.1 200 OK\r\n" + b"A: b\r\n" * 65 + b"\r\n{}",
]


class Desk:
    """An application that repeats what an operator typed, or fails. It counts what it was told."""

    def __init__(self, over: threading.Event) -> None:
        self.application, self.over = Application(), over
        self.ended: collections.Counter[str] = collections.Counter()
        self.done: collections.Counter[str] = collections.Counter()
        self.ending: set[str] = set()

    def serves(self) -> None:
        while not self.over.is_set():
            with contextlib.suppress(TimeoutError):
                connection, _ = self.application.listener.accept()
                threading.Thread(target=self.answers, args=(connection,), daemon=True).start()

    def answers(self, connection: socket.socket) -> None:
        with connection, contextlib.suppress(OSError, ValueError):
            connection.settimeout(hosts.PATIENCE)
            came = b""
            while not (head := re.match(rb"(?s).*?Content-Length: (\d+).*?\r\n\r\n", came)) or len(
                came
            ) < len(head[0]) + int(head[1]):
                came += connection.recv(1 << 16) or b"\xff"
            asked = json.loads(came[len(head[0]) :])
            if asked.get("event") == "ended":
                self.ended[asked["session"]] += 1
            elif random.random() < 0.2:
                self.done["failures"] += 1
                fault = random.choice(FAULTS)
                if fault is None:
                    time.sleep(2)
                connection.sendall(fault or b"")
            else:
                self.done["replies"] += 1
                time.sleep(random.choice((0, 0, 0, 0.1, 0.5)))
                connection.sendall(reply(self.reply_to(asked)))

    def reply_to(self, asked: dict) -> dict:
        seen = asked["fields"][f"word_{asked['panel'].lower()}"]
        answer = {"fields": {"seen": seen}, "message": f"TURN {asked['turn']}"}
        if random.random() < 0.3:
            answer["panel"] = random.choice(("ONE", "TWO"))
        if random.random() < 0.01:
            answer["end"] = True
            self.ending.add(asked["lu"])
        return answer


# ---- operators


class Person:
    """An operator, who notes what is wrong."""

    def __init__(self, number: int, port: int, desk: Desk, over: threading.Event) -> None:
        self.lu, self.port, self.desk, self.over = lu_of(number), port, desk, over
        self.random, self.turns, self.wrong = random.Random(number), 0, ""
        # Of each model; every other four press Reset in the wait.
        self.model, self.is_hasty = 2 + number % 4, number % 8 < 4

    def works(self) -> None:
        while not (self.over.is_set() or self.wrong):
            with S3270(self.model) as terminal:
                try:
                    self.comes(terminal)
                    while not self.over.is_set() and self.random.random() > 0.005:
                        if not self.does_something(terminal):
                            break
                except Exception as error:
                    self.wrong = f"{self.lu}: {error}"

    def comes(self, terminal: S3270) -> None:
        """Connects; until the host knows that the last session is over, the LU is in use."""
        end = time.monotonic() + hosts.PATIENCE
        while not (terminal.is_connected() and "PANEL ONE" in terminal.shows()[0]):
            if time.monotonic() > end:
                raise Difference("a first panel", str(terminal.shows()))
            with contextlib.suppress(Difference):
                terminal.does(f"Connect({self.lu}@{hosts.LOCALHOST}:{self.port})", "Wait(5,InputField)")
            time.sleep(0.1)

    def does_in_the_wait(self, terminal: S3270, text: str) -> None:
        """Presses a key, presses Reset at once, and then types and perhaps presses another. What the
        host writes meanwhile may cancel an action. After Clear in the wait a host may have to close."""
        for action in ("Reset", "Home", f'String("{text}")', self.random.choice(KEYS)):
            with contextlib.suppress(Difference):
                terminal.does(action)
        if self.random.random() < 0.8:
            with contextlib.suppress(Difference):
                terminal.does("Wait(3,Unlock)")

    def does_something(self, terminal: S3270) -> bool:
        """Types, presses a key, and looks. Whether the session goes on."""
        text, self.turns = f"{self.lu}-{self.random.randrange(10**6)}", self.turns + 1
        if self.is_hasty:
            self.does_in_the_wait(terminal, text)
        else:
            key = self.random.choice([*KEYS, "Clear"])
            try:
                wait = f"Wait({hosts.PATIENCE},Unlock)"
                terminal.does("Home", "EraseEOF", f'String("{text}")', key, wait)
            except Difference:
                if terminal.is_connected():
                    raise
        rows = terminal.shows()
        if not terminal.is_connected():
            expect(f"{self.lu} is connected, or was signed off", self.lu in self.desk.ending, True)
            self.desk.ending.discard(self.lu)
            return False
        others = [it for it in TEXT.findall("\n".join(rows)) if not it.startswith(self.lu)]
        expect(f"texts of others that {self.lu} sees", others, [])
        self.random.random() < 0.5 and time.sleep(self.random.random() / 4)
        return True


def is_hostile(port: int, over: threading.Event, seed: int) -> None:
    """A client that says random bytes, half a record, or nothing, and leaves."""
    chance = random.Random(seed)
    while not over.is_set():
        with contextlib.suppress(OSError, Difference):
            client = hosts.Client(port)
            match chance.randrange(4):
                case 0:
                    client.says(chance.randbytes(chance.randrange(1, 5000)))
                case 1:
                    client.signs_on(None) if chance.random() < 0.5 else client.is_asked()
                    client.says(bytes(5) + b"\x7d", chance.randbytes(40))
                case 2:
                    client.is_asked()
                    client.says(hosts.device_type(7, f"HOST{seed}"), chance.randbytes(9))
            over.wait(chance.random() * 2)
            chance.choice((client.leaves, client.resets))()


# ---- the host


class Commands:
    """Commands a host each second: it reads its panels again, another text; and it notes something
    to all, or to one operator."""

    def __init__(self, folder: str, over: threading.Event) -> None:
        self.file, self.control = f"{folder}/panels.toml", f"{folder}/control"
        self.over, self.done, self.wrong = over, collections.Counter[str](), ""
        self.writes(False)

    def writes(self, is_turned: bool) -> None:
        with open(self.file, "wb") as it:
            it.write(panel_text(is_turned))

    def tells(self, *words: str) -> None:
        answer = hosts.run(["tell", self.control, *words], b"")[1].rstrip("\n")
        self.done[answer] += 1
        if answer not in ANSWERS[words[0]]:
            self.wrong = f"tell {' '.join(words)}: {answer}"

    def goes_on(self) -> None:
        turn = 0
        while not self.over.wait(1):
            self.writes(turn % 2 == 0)
            self.tells("reload")
            self.tells("note", "*" if turn % 2 else lu_of(turn % OPERATORS), f"NOTE {turn}")
            turn += 1


def memory_of(process) -> int:
    """The memory of a process in KiB (proc(5))."""
    with open(f"/proc/{process.pid}/statm", encoding="ascii") as it:
        return int(it.read().split()[1]) * os.sysconf("SC_PAGE_SIZE") // 1024


def closed_by_host(log: str) -> list[str]:
    """The lines of the log on connections that the host closed and that had an operator's LU."""
    lus = dict(re.findall(r"session=(\S+) peer=\S+ event=bound lu=(OP\d\d)\b", log))
    return [
        line for line in log.splitlines()
        if re.search(r"event=closed", line) and re.findall(r"session=(\S+)", line)[0] in lus
    ]


def soak() -> str:
    over, sizes = threading.Event(), []
    desk = Desk(over)
    with tempfile.TemporaryDirectory() as folder, tempfile.TemporaryFile() as log:
        commands = Commands(folder, over)
        words = ["--application", desk.application.url, "--application-timeout", "1"]
        words += ["--panels", commands.file, "--control", commands.control]
        with hosts.Server("serve", *words, log=log) as host:
            people = [Person(it, host.port, desk, over) for it in range(OPERATORS)]
            threads = [threading.Thread(target=it.works, daemon=True) for it in people]
            threads += [
                threading.Thread(target=is_hostile, args=(host.port, over, it), daemon=True)
                for it in range(HOSTILE)
            ]
            threads.append(threading.Thread(target=desk.serves, daemon=True))
            threads.append(threading.Thread(target=commands.goes_on, daemon=True))
            for it in threads:
                it.start()
            try:
                end = time.monotonic() + 60 * MINUTES
                while time.monotonic() < end and not any(it.wrong for it in people):
                    time.sleep(1)
                    expect("the host runs", host.process.poll(), None)
                    sizes.append(memory_of(host.process))
            finally:
                over.set()
            for it in threads:
                it.join()
            log.seek(0)
            text = log.read().decode(errors="replace")
    wrong = [it.wrong for it in [*people, commands] if it.wrong] + closed_by_host(text)
    expect("what is wrong, and operators' connections that the host closed", wrong, [])
    expect("ends that are told twice", [it for it, times in desk.ended.items() if times > 1], [])
    # Buffers reach their largest size in the first half: no operator's session ends any more.
    quarter = len(sizes) // 4 or 1
    growth = max(sizes[-quarter:]) - max(sizes[-2 * quarter : -quarter])
    expect(f"growth of at most {MOST_GROWTH} KiB", growth <= MOST_GROWTH or growth, True)
    return (
        f"{sum(it.turns for it in people)} turns of {OPERATORS} operators, "
        f"{desk.done['replies']} replies, {desk.done['failures']} failures, {len(desk.ended)} ends, "
        f"{text.count('event=connected')} connections, {commands.done[RELOADED]} reloads, "
        f"{commands.done[NOTED]} notes; "
        f"{max(sizes)} KiB, grown by {growth} KiB"
    )


def cases() -> list[Case]:
    is_wanted("s3270")
    return [of_function(soak, f"{MINUTES:g} minutes with {OPERATORS} operators")]
