#!/usr/bin/env python3
"""Loads `panel3270 serve` and prints figures: 64 sessions at once, one too many, and clients that
misbehave.

usage: load.py PROGRAM [PORT]. It starts the program, talks to it as terminals do, and ends it.
Linux, for /proc. The run ends with a message and status 1 where a session is lost, one too many is
served, the host grows, or others wait for good.
"""
import os, random, socket, subprocess, sys, threading, time

SESSIONS, ENTERS, SILENCE, FLOOD = 64, 100, 60, 16 * 1024 * 1024
PORT = int(sys.argv[2]) if len(sys.argv) > 2 else 3270
PANELS = """start = "WORD"
lus = [{}]
panel = [{{name = "WORD", field = [
    {{name = "word", row = 3, col = 8, length = 8}},
], keys = {{enter = "WORD"}}}}]
""".format(", ".join(f'"LOAD{number:02}"' for number in range(SESSIONS)))
# IAC EOR, IAC SE, and the field's first cell, 167.
END, SE, FIELD = b"\xff\xef", b"\xff\xf0", b"\xc2\xe7"
TALK = [
    (b"\xff\xfd\x28", b"\xff\xfb\x28"),
    (SE, b"\xff\xfa\x28\x02\x07IBM-3278-2\xff\xf0"),
    (SE, b"\xff\xfa\x28\x03\x07\x02\xff\xf0"),
]

class Terminal:  # does what this panel needs, and no more
    def __init__(self):
        self.socket, self.came, self.number = socket.create_connection(
            ("127.0.0.1", PORT), timeout=60
        ), b"", 0
        self.socket.setsockopt(socket.IPPROTO_TCP, socket.TCP_NODELAY, 1)

    def read_until(self, end):
        while end not in self.came:
            self.came += self.socket.recv(65536) or sys.exit("the host ended a connection")
            self.came = self.came.replace(b"\xff\xf1", b"")  # IAC NOP
        front, _, self.came = self.came.partition(end)
        return front

    def sign_on(self):
        for end, answer in TALK:
            self.read_until(end)
            self.socket.sendall(answer)
        self.read_until(SE)
        self.take_write()
        return self

    def take_write(self):  # with ALWAYS-RESPONSE; answers that it was done
        record = self.read_until(END).replace(b"\xff\xff", b"\xff")
        self.socket.sendall(
            (b"\x02\x00\x00" + record[3:5] + b"\x00").replace(b"\xff", b"\xff\xff") + END
        )

    def enter(self, word):
        """Types a word, presses Enter, and waits for the next write. Answers how many milliseconds
        that took."""
        start = time.monotonic()
        self.socket.sendall(
            bytes(3)
            + self.number.to_bytes(2, "big")
            + b"\x7d"
            + FIELD
            + b"\x11"
            + FIELD
            + word.encode("cp037")
            + END
        )
        self.take_write()
        self.number += 1
        return (time.monotonic() - start) * 1000

def figures(host):
    """Seconds of processor time that a process took, and its KiB in memory (proc(5))."""
    with open(f"/proc/{host.pid}/stat") as it:
        stat = it.read().rsplit(")", 1)[1].split()
    return (int(stat[11]) + int(stat[12])) / os.sysconf("SC_CLK_TCK"), int(stat[21]) * os.sysconf(
        "SC_PAGE_SIZE"
    ) // 1024

def idle(host, what):
    before = figures(host)[0]
    time.sleep(10)
    print(
        f"{what}: {(figures(host)[0] - before) / 10:.1%} of a processor, "
        f"{figures(host)[1]} KiB in memory"
    )

def is_served():  # how many milliseconds another terminal takes for an Enter
    return Terminal().sign_on().enter("OTHER")

def sessions(host):
    terminals = [Terminal().sign_on() for _ in range(SESSIONS)]
    if socket.create_connection(("127.0.0.1", PORT), timeout=60).recv(1):
        sys.exit("one too many was not turned away")
    idle(host, f"{SESSIONS} sessions that wait, and one more turned away")
    times, start, used = [], time.monotonic(), figures(host)[0]
    run = lambda place, terminal: times.extend(
        [terminal.enter(f"{place:02}{number:04}") for number in range(ENTERS)]
    )
    threads = [threading.Thread(target=run, args=it) for it in enumerate(terminals)]
    for step in (threading.Thread.start, threading.Thread.join):
        [step(it) for it in threads]
    took, times = time.monotonic() - start, sorted(times)
    if len(times) != SESSIONS * ENTERS:
        sys.exit("a session was lost")
    each = (figures(host)[0] - used) * 1e6 / len(times)
    print(
        f"{SESSIONS} sessions at once, {ENTERS} Enters each, none lost: "
        f"{len(times) / took:.0f} a second, median {times[len(times) // 2]:.1f} ms, "
        f"longest {times[-1]:.1f} ms, {each:.0f} microseconds of the host's processor each"
    )

def flood(host):  # one asks without end and never reads
    time.sleep(2)  # until the host has seen that the sessions are over
    asking, sent = socket.socket(), 0
    asking.setsockopt(socket.SOL_SOCKET, socket.SO_RCVBUF, 4096)
    asking.settimeout(5)
    asking.connect(("127.0.0.1", PORT))
    asking.recv(3)
    before = most = figures(host)[1]
    try:
        while sent < FLOOD:
            sent, most = sent + asking.send(b"\xff\xfd\x18" * 16384), max(most, figures(host)[1])
    except socket.timeout:
        most = max(most, figures(host)[1])
    print(
        f"one that asks and reads no answer: {sent} bytes could be sent, the host grew by "
        f"{most - before} KiB, another was served in {is_served():.0f} ms"
    )
    if most - before >= 1024:
        sys.exit("the host grew by 1 MiB or more")

def trouble():  # garbage, half a record, and silence; meanwhile others are served
    for seed in range(20):
        loud = socket.create_connection(("127.0.0.1", PORT))
        loud.sendall(random.Random(seed).randbytes(4096))
    half, silent, slowest, end = Terminal().sign_on(), Terminal(), 0, time.monotonic() + SILENCE
    half.socket.sendall(bytes(5) + b"\x7d" + FIELD[:1])
    while time.monotonic() < end:
        slowest = max(slowest, is_served())
        time.sleep(1)
    half.socket.sendall(FIELD[1:] + END)
    half.take_write()
    silent.sign_on()
    print(
        f"20 that send garbage, one amid a record and one silent for {SILENCE} s: "
        f"others were served in {slowest:.0f} ms at most, both went on"
    )

host = subprocess.Popen(
    [sys.argv[1], "serve", "--port", str(PORT), "--negotiate", "0"],
    stdin=subprocess.PIPE,
    stderr=subprocess.DEVNULL,
)
try:
    host.stdin.write(PANELS.encode())
    host.stdin.close()
    time.sleep(1)
    idle(host, "no session")
    sessions(host)
    flood(host)
    trouble()
finally:
    host.terminate()
