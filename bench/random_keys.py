#!/usr/bin/env python3
"""Plays random keys on s3270 against `serve`, and prints how the sessions ended.

    bench/random_keys.py [--keys N] [--seconds N] [--seed S] [--jobs N] [--any] [--clear]
                         [--light-pen] [--characters] [--all] PROGRAM [EXAMPLE ..]

Serves each panel text of examples/, with its application if it has one, to s3270 of each model,
through a proxy that delays what passes. Half of the waits after a key that sends are ended by
Reset, at a random time of the host's turn, and keys go on at once. When the host closes, s3270
connects again.

The host verifies the terminals (`--verify`), unless it is `--any`. Clear is rare; with --clear it is
pressed as often as Enter, and Attn and SysReq are among the keys. With --light-pen CursorSelect is,
with --characters some that the code page lacks; --all is all three.

A line for each example and model has the keys pressed, the turns of the host, the bytes and the
Read Buffers a turn, the Resets in the wait, the keys that the host dropped, the rules that were
broken, the screens that were restored, and how the connections ended: `lost`, if s3270 ended them,
`ended-by-application`, or the host's cause, and after it which key of the last records it was: a
light pen's, a character that the code page lacks, Clear or another. A last line sums these up. Of
each close by another key than the first two kinds it prints the rule or the cause, the last keys,
and the last records up to what the host had received when it closed.
The seed makes the keys; what falls into a wait depends on the machine.
"""
import argparse
import collections
import concurrent.futures
import contextlib
import dataclasses
import os
import pathlib
import queue
import random
import re
import socket
import subprocess
import sys
import tempfile
import threading
import time

TOP = pathlib.Path(__file__).resolve().parent.parent
sys.dont_write_bytecode = True
sys.path.append(str(TOP / "tests"))

from harness import bank, hosts  # noqa: E402
from harness.case import Difference  # noqa: E402
from suites.s3270_waits import SIZES, Operator, Proxy  # noqa: E402

DELAY = 0.008  # seconds from an end to the other
TURN = 5 * DELAY  # a key's record, Read Buffer, its answer, a write; and a bit more
CLEAR, READ, EOR, SE = b"\x6d", b"\xf2", b"\xff\xef", b"\xff\xf0"
PEN, ESCAPE = b"\x7e", b"\x08"  # the AID of CursorSelect; Graphic Escape
LAST = 16  # how many records are printed
SENDS = ["Enter"] * 8 + [f"PF({it})" for it in range(1, 25)] + [f"PA({it})" for it in (1, 2, 3)] * 2
MOVES = ["Tab", "BackTab", "Home", "Up", "Down", "Left", "Right", "Newline", "Left2", "Right2"]
EDITS = ["EraseEOF", "EraseInput", "Delete", "Insert", "BackSpace", "Erase", "Dup", "FieldMark"]
LETTERS = [f"Key({it})" for it in "ABCXYZabcxyz0123456789"] + ["Key(period)"]
# Characters that code page 037 lacks, of which s3270 sends some by Graphic Escape.
LACKING = [f"Key(U+{it})" for it in ("20AC", "2022", "2264", "2500")]
# What brings an operator to the panels behind the first.
WORDS = {
    "bank-asks": [
        ["Home", "EraseInput", 'String("4711")', "Tab", 'String("SECRET")', "Enter"],
        *(["Home", f"Key({it})", "Enter"] for it in (1, 2, 3)),
        ["Home", 'String("1000200030")', 'String("1000200044")', 'String("1.50")', "Enter"],
    ],
    "bank": [
        ["Home", 'String("123456")', 'String("SECRET")', "Tab", "Enter"],
        ["Home", 'String("1000200030")', 'String("1000200044")', 'String("1.50")', "Enter"],
    ],
    "desk": [
        ["Home", "EraseInput", 'String("ANN")', "Tab", 'String("SECRET")', "Enter"],
        ["Home", 'String("1")', "Enter"],
        ["PF(5)"],
        ["Home", 'String("PRINTER")', "Enter"],
    ],
    "airline": [["Home", 'String("7700ZRHLIS051226")', "Enter"], ["Home", "Key(X)", "Enter"]],
}


@dataclasses.dataclass
class Play:
    """What happened on an example at a model."""

    keys: int = 0
    reads: int = 0
    resets: int = 0
    seen: int = 0
    counted: dict = dataclasses.field(default_factory=dict)
    ends: collections.Counter = dataclasses.field(default_factory=collections.Counter)
    breaks: list = dataclasses.field(default_factory=list)


class Tap:
    """Keeps the records that pass one way, each with the number of bytes that had passed by its
    end."""

    def __init__(self, way, records):
        self.way, self.records, self.rest, self.count = way, records, b"", 0

    def passes(self, piece):
        *whole, self.rest = (self.rest + piece).split(EOR)
        for it in whole:
            self.count += len(it + EOR)
            # What is behind the negotiation.
            record = it.rpartition(SE)[2].replace(hosts.NOP, b"")
            self.records.append((self.way, self.count, record))


class Recorder(Proxy):
    """A proxy that hands on what passes after a delay, and keeps the records that passed, with their
    headers, in the order in which the host was sent them and sent them."""

    def __init__(self, port):
        self.records = []
        super().__init__(port)

    def heard(self, received):
        """The way and the bytes of the last records, those up to so many bytes that the host
        received."""
        return [
            (way, it) for way, count, it in self.records if way == "down" or count <= received
        ][-LAST:]

    def hands_on(self, way, one, other):
        """Takes what one end sends, which another thread hands on."""
        pieces, tap, piece = queue.Queue(), Tap(way, self.records), b"-"
        hands_on = threading.Thread(
            target=self.delays, args=(way, pieces, other, tap), daemon=True
        )
        hands_on.start()
        while piece:
            piece = b""
            with contextlib.suppress(OSError):
                piece = one.recv(1 << 16)
            with self.change:
                self.came[way] += len(piece)
            if way == "down":
                tap.passes(piece)
            pieces.put((time.monotonic() + DELAY, piece))

    def delays(self, way, pieces, other, tap):
        piece = b"-"
        with contextlib.suppress(OSError):
            while piece:
                due, piece = pieces.get()
                time.sleep(max(0.0, due - time.monotonic()))
                if way == "up":
                    tap.passes(piece)
                other.sendall(piece) if piece else other.shutdown(socket.SHUT_WR)
                with self.change:
                    self.went[way] += len(piece)


def last_key(heard):
    """Which key's record a host closed at: it is among the last that it received. Any record with
    one of the first two kinds closes."""
    ups = [it[5:] for way, it in heard if way == "up" and it[:1] == bytes(1)]
    if any(ESCAPE in it for it in ups):
        return "beyond-the-code-page"
    if any(it[:1] == PEN for it in ups):
        return "light-pen"
    return "Clear" if CLEAR in ups[-1:] else "another"


class Player(Operator):
    """An s3270 that plays random keys."""

    def __init__(self, model, host, play, chance, name, given):
        self.host, self.play, self.chance, self.pressed = host, play, chance, []
        self.words = WORDS.get(name, [])
        self.edits = [*EDITS, *(["CursorSelect"] * 2 if given.light_pen or given.all else [])]
        self.edits += LACKING if given.characters or given.all else []
        clear = given.clear or given.all
        self.sends = [*SENDS, *(["Clear"] * 8 + ["Attn", "SysReq"] if clear else [])]
        self.ends_at = time.monotonic() + given.seconds
        super().__init__(model, Recorder(host.port))

    def tries(self, action):
        """The state of the keyboard: U, L while the host is awaited, or E; and whether s3270 is
        connected."""
        self.process.stdin.write(action + "\n")
        self.process.stdin.flush()
        lines = [self.process.stdout.readline()]
        while lines[-1] not in ("ok\n", "error\n", ""):
            lines.append(self.process.stdout.readline())
        if not lines[-1]:
            raise Difference("s3270 goes on", f"it ended after {self.pressed[-10:]}")
        words = lines[-2].split()
        return words[0], words[3] != "N"

    def presses(self, key):
        """Presses a key; if the connection is over, connects again."""
        self.pressed.append(key)
        self.play.keys += 1
        state, is_connected = self.tries(key)
        if not is_connected:
            self.was_closed()
        return state

    def was_closed(self):
        """Counts why, and connects again."""
        self.play.reads += sum(it[5:] == READ for _, _, it in self.proxy.records)
        hosts.until("the log has the end", self.reads_the_log)
        self.proxy, self.pressed = Recorder(self.host.port), []
        self.does(f"Connect(127.0.0.1:{self.proxy.port})", "Wait(10,InputField)")

    def reads_the_log(self):
        """Whether there is a new line of a connection's end."""
        log = os.pread(self.host.log.fileno(), 1 << 24, self.play.seen)
        new = log[: log.rfind(b"\n") + 1].decode()
        end = re.search(
            r"event=(?:closed cause=(\w+)|(lost|ended-by-application)).*received=(\d+)", new
        )
        if end:
            self.play.seen += len(new)
            broken = re.search(r"event=rule-broken (rule=\w+ cell=\d+)", new)
            heard = self.proxy.heard(int(end[3]))
            self.ended(end[1] or end[2], end[1], broken and broken[1], heard)
        return bool(end)

    def ended(self, cause, is_closed, broken, heard):
        """Counts an end, and keeps what led to it, if the host closed for another than the keys that
        are known to have it close."""
        if not is_closed:
            self.play.ends[cause] += 1
            return
        key = last_key(heard)
        self.play.ends[f"{cause}/{key}"] += 1
        if key not in ("light-pen", "beyond-the-code-page"):
            self.play.breaks.append((broken or cause, self.pressed[-40:], heard))

    def waits(self):
        """Ends the wait after a key that sends: by Reset, or as the host does."""
        if self.chance.random() < 0.5:
            time.sleep(self.chance.random() * TURN)
            state, _ = self.tries("Query(LuName)")
            self.play.resets += state == "L"
            self.presses("Reset")
        elif not self.tries("Wait(5,Unlock)")[1]:
            self.was_closed()

    def next_keys(self):
        number = self.chance.random()
        if number < 0.15:
            return [self.chance.choice(self.sends)]
        if number < 0.18 and self.words:
            return self.chance.choice(self.words)
        if number < 0.185:
            return ["Clear"]
        kind = LETTERS if number < 0.55 else MOVES if number < 0.8 else self.edits
        return [self.chance.choice(kind)]

    def plays(self, keys):
        while self.play.keys < keys and time.monotonic() < self.ends_at:
            for key in self.next_keys():
                state = self.presses(key)
                # CursorSelect sends on some fields.
                if key in self.sends or key == "Clear" or key == "CursorSelect" and state == "L":
                    self.waits()
                elif state == "E":
                    self.presses("Reset")
            if self.chance.random() < 0.1:
                time.sleep(self.chance.random() * DELAY)
        self.proxy.settles()
        self.tries("Disconnect")
        self.was_closed_last()

    def was_closed_last(self):
        self.play.reads += sum(it[5:] == READ for _, _, it in self.proxy.records)
        hosts.until("the log has the end", self.reads_the_log)


@contextlib.contextmanager
def application_of(name):
    """The words of `serve` for an example's application."""
    if name in ("bank-asks", "desk"):
        program = {"bank-asks": bank.BANK, "desk": TOP / "examples/desk.py"}[name]
        with tempfile.TemporaryDirectory() as folder:
            with bank.Application(f"{folder}/db", program) as it:
                yield ["--application", it.url]
    elif name == "greeting":
        port = hosts.free_port()
        text = (TOP / "examples/greeting.py").read_text().replace("8080", str(port))
        with subprocess.Popen([sys.executable, "-c", text], stderr=subprocess.DEVNULL) as it:
            hosts.until("the application listens", lambda: bank.is_listening(port))
            yield ["--application", f"http://127.0.0.1:{port}/"]
            it.kill()
    else:
        yield []


def played(given, name, model):
    """What happens on an example at a model."""
    play, chance = Play(), random.Random(f"{given.seed} {name} {model}")
    text = (TOP / f"examples/{name}.toml").read_bytes()
    verify = [] if given.any else ["--verify"]
    with application_of(name) as words, hosts.metered(*verify, *words, text=text) as host:
        with Player(model, host, play, chance, name, given) as player:
            player.plays(given.keys)
        page = hosts.scraped(host.metrics, hosts.GET).decode()
        play.counted = dict(re.findall(r"(?m)^panel3270_(\w+) (\d+)$", page))
    return play


def spelt(record):
    """A record in hexadecimal; 00*5 are five nulls."""
    text = record.hex(" ").upper()
    return re.sub(r"00(?: 00){3,}", lambda it: f"00*{len(it[0]) // 3 + 1}", text)


def row(name, model, play):
    """The line of a play."""
    ends = " ".join(f"{it}:{count}" for it, count in sorted(play.ends.items()))
    turns, dropped, breaks, restored, up, down = (
        int(play.counted.get(f"{it}_total", 0))
        for it in (
            "turns",
            "dropped_keys",
            "rule_breaks",
            "restored_screens",
            "received_bytes",
            "sent_bytes",
        )
    )
    a_turn = [it / max(turns, 1) for it in (down, up, play.reads)]
    return (
        f"{name:10} {model:1} {play.keys:6} {turns:6} {a_turn[0]:6.0f} {a_turn[1]:6.0f} "
        f"{a_turn[2]:6.3f} {play.resets:6} {dropped:7} {breaks:6} {restored:8}  {ends}"
    )


def sum_of(plays):
    """All plays as one."""
    whole = Play()
    for it in plays:
        whole.keys, whole.reads = whole.keys + it.keys, whole.reads + it.reads
        whole.resets, whole.ends = whole.resets + it.resets, whole.ends + it.ends
        for name, count in it.counted.items():
            whole.counted[name] = int(whole.counted.get(name, 0)) + int(count)
    return whole


def shown(name, model, play):
    """The line of a play, and a paragraph for each rule that was broken."""
    print(row(name, model, play), flush=True)
    for why, pressed, records in play.breaks:
        print(f"  {why}\n    keys: {' '.join(pressed)}")
        for way, it in records:
            print(f"    {way:4} {spelt(it)}", flush=True)


def arguments():
    words = argparse.ArgumentParser(description="Plays random keys at serve on s3270.")
    words.add_argument("program", help="the path of panel3270")
    words.add_argument("examples", nargs="*", help="panel texts of examples/ [default: all]")
    words.add_argument("--keys", type=int, default=10000, help="for each model [default: 10000]")
    words.add_argument("--seed", type=int, default=1, help="of the random keys [default: 1]")
    words.add_argument("--jobs", type=int, default=4, help="how many run at once [default: 4]")
    words.add_argument("--seconds", type=float, default=1e9, help="at most so long for each model")
    words.add_argument("--any", action="store_true", help="the host doesn't verify the terminals")
    words.add_argument("--light-pen", action="store_true", help="CursorSelect is one of the keys")
    words.add_argument("--clear", action="store_true", help="Clear is pressed as often as Enter")
    words.add_argument("--characters", action="store_true", help="some that the code page lacks are")
    words.add_argument("--all", action="store_true", help="--clear, --light-pen and --characters")
    return words.parse_args()


def main():
    given = arguments()
    os.environ["PANEL3270"] = given.program
    names = given.examples or sorted(it.stem for it in (TOP / "examples").glob("*.toml"))
    plays = [(name, model) for name in names for model in SIZES]
    print(f"seed {given.seed}")
    print(
        "example    M   keys  turns   down     up  reads resets dropped breaks restored  ends", flush=True
    )
    with concurrent.futures.ThreadPoolExecutor(given.jobs) as pool:
        running = [pool.submit(played, given, *it) for it in plays]
        for it, (name, model) in zip(running, plays):
            shown(name, model, it.result())
    print(row("all", "", sum_of(it.result() for it in running)))


if __name__ == "__main__":
    main()
