"""The turns of a host: when one waits, when one doesn't, and when a client isn't read from."""
import pathlib
import re
import select
import signal
import socket
import time

from harness.case import Checks, expect
from harness.hosts import (
    Client,
    DO_OTHER,
    NOP,
    RELYING_WRITE,
    Server,
    WONT_OTHER,
    event,
    free_port,
    panels,
    run,
    until,
)

check = Checks()
cases = check.cases

# ---- turns


def state(process):
    """What proc(5) says of a process, from its state on."""
    return pathlib.Path(f"/proc/{process.pid}/stat").read_text().rsplit(")", 1)[1].split()


def waits(process):
    """How often a process waited so far: what proc(5) calls voluntary context switches."""
    status = pathlib.Path(f"/proc/{process.pid}/status").read_text()
    return int(re.search(r"^voluntary_ctxt_switches:\s*(\d+)$", status, re.MULTILINE)[1])


def idles(process):
    """Whether a host has nothing to do: it waits at each of some turns."""
    before = waits(process)
    time.sleep(0.05)
    return waits(process) - before >= 3


@check
def it_waits_where_nothing_is_done():
    """A turn waits for 10 milliseconds if nothing was done before it and nothing comes: 100 such
    turns take a second."""
    begun = time.monotonic()
    came = run(["host", "--port", free_port(), "--turns", 100], panels("PNL01"))
    took = time.monotonic() - begun
    expect("host", came, (5, "", "turns over\n"))
    expect("100 turns take a second", took >= 1, True)
    with Server("serve") as host:
        until("serve waits", lambda: idles(host.process))


def waits_until_answered(host, client):
    """How often a host waits that finds 12 reads' bytes at once, until it answers the last of
    them."""
    host.process.send_signal(signal.SIGSTOP)
    until("a host stops", lambda: state(host.process)[0] == "T")
    before = waits(host.process)
    client.says(NOP * (12 * 4096 // len(NOP)), DO_OTHER)
    host.process.send_signal(signal.SIGCONT)
    client.hears(WONT_OTHER)
    return waits(host.process) - before


@check
def it_goes_on_at_once_where_something_was_done():
    """A turn in which bytes came isn't followed by one that waits: no event tells of the bytes that
    it left."""
    for words in (["serve"], ["host", "--turns", "1000000"]):
        with Server(*words) as host:
            client = host.client()
            if words[0] == "host":
                client.first_write = RELYING_WRITE
            client.signs_on("PNL01")
            # It waits on behind the answer, until this program has the processor again; so the
            # least of some counts.
            counts = (waits_until_answered(host, client) for _ in range(20))
            expect(f"{words[0]} waits at each of 12 reads", all(it >= 10 for it in counts), False)


def unread(host, client):
    """How many bytes of a client wait at the host's end of its connection, by proc(5)."""
    ends = [f"0100007F:{port:04X}" for port in (host.port, client.socket.getsockname()[1])]
    lines = map(str.split, pathlib.Path("/proc/net/tcp").read_text().splitlines())
    return next(int(it[4].split(":")[1], 16) for it in lines if it[1:3] == ends)


@check
def it_does_not_read_what_it_can_not_answer():
    """A client that reads no answers isn't read from, while others are served; once it reads, all
    of its answers come, and it goes on."""
    # What the host's socket takes to send (tcp(7)), and some more.
    most = int(pathlib.Path("/proc/sys/net/ipv4/tcp_wmem").read_text().split()[2]) + (1 << 20)
    with Server("serve") as host:
        # To a client that takes small segments a system makes less room to send, so that fewer
        # answers fill it.
        client, other, asked = Client(host.port, 536).signs_on("PNL01"), host.client().signs_on(
            "PNL02"
        ), 0
        while not unread(host, client):
            expect("more is read than can be answered", asked > most, False)
            for _ in range(2):
                if select.select([], [client.socket], [], 0.01)[1]:
                    asked += client.socket.send(
                        (DO_OTHER * 16384)[asked % 3 :], socket.MSG_DONTWAIT
                    )
            until("a host has nothing to do", lambda: idles(host.process))
        other.enters()
        for first in range(0, asked // 3, 65536):
            client.hears(WONT_OTHER * min(65536, asked // 3 - first))
        client.says(DO_OTHER[asked % 3 :])
        client.hears(WONT_OTHER)
        client.enters()
