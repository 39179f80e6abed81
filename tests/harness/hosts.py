"""Runs of the program, and the ends of connections that a suite has itself. What they say and hear
is spelt by RFC 1647 and GA23-0059."""
import contextlib
import itertools
import os
import pathlib
import random
import re
import resource
import select
import socket
import struct
import subprocess
import tempfile
import time
from collections.abc import Callable, Sequence

from harness import programs
from harness.case import Difference, expect

LOCALHOST = "127.0.0.1"
# The longest time that a check waits for what has to happen, in seconds.
PATIENCE = 20
MOST_CONNECTIONS = 64
# The ports of this process, which no other process that `tests/run` starts uses. They are below
# those that the system gives to connections which go out.
FIRST_PORT, PORTS = 16384 + 1000 * (int(os.environ.get("TESTS_SLOT", 0)) % 16), 1000
TAKEN = itertools.count(random.randrange(PORTS))

# ---- what a terminal says and hears

DO, WILL, WONT = (bytes.fromhex(f"FF {it} 28") for it in ("FD", "FB", "FC"))
SEND_TYPE = bytes.fromhex("FF FA 28 08 02 FF F0")
FUNCTIONS_REQUEST, FUNCTIONS_IS = (
    bytes.fromhex(f"FF FA 28 03 {it} 02 FF F0") for it in ("07", "04")
)
DEVICE_IN_USE, INV_DEVICE_TYPE = (
    bytes.fromhex(f"FF FA 28 02 06 05 {it} FF F0") for it in ("01", "04")
)
# DO TERMINAL-TYPE, which a host answers by WON'T; and NOP, which it doesn't answer.
DO_OTHER, WONT_OTHER, NOP = bytes.fromhex("FF FD 18"), bytes.fromhex("FF FC 18"), bytes.fromhex(
    "FF F1"
)


def device_type(word, lu, name="IBM-3278-2"):
    """A DEVICE-TYPE message: 07 is REQUEST, 04 IS; with CONNECT and an LU, unless that is None."""
    connect = b"" if lu is None else b"\x01" + lu.encode()
    return b"\xff\xfa\x28\x02" + bytes([word]) + name.encode() + connect + b"\xff\xf0"


def panels(*lus):
    """A panel of one field, eight cells from 167 on, which Enter shows again."""
    field = "{name = 'word', row = 3, col = 8, length = 8}"
    panel = f"{{name = 'WORD', field = [{field}], keys = {{enter = 'WORD'}}}}"
    return f"start = 'WORD'\nlus = {list(lus)}\npanel = [{panel}]\n".encode()


# Erase/Write, number 0: attributes at 166, 175 and 1840, the cursor at 167. C1 is that of an input
# field with MDT on: `serve` marks all fields.
FIRST_WRITE = bytes.fromhex(
    "00 00 02 00 00 F5 C3 11 C2 E6 1D C1 11 C2 6F 1D F0 11 5C F0 1D F8 11 C2 E7 13 FF EF"
)
# The same of a host that relies on the terminal's wait, as the job `host`.
RELYING_WRITE = FIRST_WRITE.replace(b"\x1d\xc1", b"\x1d\x40")
# Write, behind its number, that resets MDT: the field's attribute, which turns that on again, and
# its eight cells, of which the returned text is known and no place, become null.
NEXT_WRITE = bytes.fromhex("F1 C3 11 C2 E6 1D C1 00 00 00 00 00 00 00 00 11 C2 E7 13 FF EF")
# Enter, behind its number: an A in the field, the cursor behind it.
ENTER = bytes.fromhex("7D C2 E8 11 C2 E7 C1 FF EF")


def until(what, holds):
    """Waits until something holds."""
    end = time.monotonic() + PATIENCE
    while not holds():
        if time.monotonic() > end:
            raise Difference(what, f"not in {PATIENCE} seconds")
        time.sleep(0.005)


class Client:
    """The terminal's end of a connection. It reads over IAC NOP, as terminals do."""

    # What shows the first panel.
    first_write = FIRST_WRITE

    def __init__(self, port, segment=None, host=LOCALHOST):
        self.socket = socket.socket(socket.AF_INET6 if ":" in host else socket.AF_INET)
        if segment:
            self.socket.setsockopt(socket.IPPROTO_TCP, socket.TCP_MAXSEG, segment)
        # So much room at this end, however much the system would make of it.
        for option in (socket.SO_SNDBUF, socket.SO_RCVBUF):
            self.socket.setsockopt(socket.SOL_SOCKET, option, 1 << 16)
        self.socket.setsockopt(socket.IPPROTO_TCP, socket.TCP_NODELAY, 1)
        self.socket.settimeout(PATIENCE)
        self.socket.connect((host, port))
        name, number, *_ = self.socket.getsockname()
        # As the host's log names it.
        self.peer = f"[{name}]:{number}" if ":" in name else f"{name}:{number}"
        self.writes, self.kept, self.sent, self.received = 0, b"", 0, 0

    def says(self, *spelt):
        self.socket.sendall(b"".join(spelt))
        self.sent += len(b"".join(spelt))

    def more(self):
        """Bytes that came: none if the connection ended."""
        with contextlib.suppress(ConnectionError):
            more = self.socket.recv(1 << 16)
            self.received += len(more)
            return more
        return b""

    def came(self, count):
        """The next bytes but for IAC NOP, fewer if the connection ends."""
        while len(self.kept) - self.kept.endswith(NOP[:1]) < count and (more := self.more()):
            self.kept = (self.kept + more).replace(NOP, b"")
        came, self.kept = self.kept[:count], self.kept[count:]
        return came

    def hears_nop(self):
        """Hears IAC NOP and nothing else."""
        came = b""
        while len(came) < len(NOP) and (more := self.more()):
            came += more
        expect("a client hears", came.hex(" "), NOP.hex(" "))

    def hears(self, *spelt):
        wanted = b"".join(spelt)
        expect("a client hears", self.came(len(wanted)).hex(" "), wanted.hex(" "))

    def hears_the_end(self):
        expect("a client hears, where its connection has to end", self.came(1).hex(), "")

    def is_asked(self):
        """Up to the question for its device type."""
        self.hears(DO)
        self.says(WILL)
        self.hears(SEND_TYPE)

    def asks_for(self, lu):
        self.says(device_type(7, lu))

    def is_bound(self, lu):
        """Is granted an LU, and shown the panel."""
        self.hears(device_type(4, lu))
        self.says(FUNCTIONS_REQUEST)
        self.hears(FUNCTIONS_IS, self.first_write)
        self.takes_write()

    def takes_write(self):
        self.says(b"\x02\x00\x00", self.writes.to_bytes(2, "big"), b"\x00\xff\xef")
        self.writes += 1

    def signs_on(self, lu):
        """Asks for no LU, and is bound to this one."""
        self.is_asked()
        self.asks_for(None)
        self.is_bound(lu)
        return self

    def ends(self):
        """Ends its side of the connection, and hears the host end it."""
        self.socket.shutdown(socket.SHUT_WR)
        self.hears_the_end()

    def enters(self):
        """Presses Enter, and is shown the panel again."""
        self.says(b"\x00\x00\x00\x00\x00", ENTER)
        self.hears(b"\x00\x00\x02", self.writes.to_bytes(2, "big"), NEXT_WRITE)
        self.takes_write()

    def leaves(self):
        self.socket.close()

    def resets(self):
        """Ends its connection as one that failed."""
        self.socket.setsockopt(socket.SOL_SOCKET, socket.SO_LINGER, struct.pack("ii", 1, 0))
        self.socket.close()


class TerminalHeard(Client):
    """The host's end of a connection, for a terminal that connects."""

    def __init__(self, listener):
        listener.settimeout(PATIENCE)
        self.socket, _ = listener.accept()
        self.socket.settimeout(PATIENCE)
        self.kept, self.sent, self.received = b"", 0, 0

    def binds(self, name):
        """Hears which type the terminal asks for, and grants it with an LU."""
        self.says(DO)
        self.hears(WILL)
        self.says(SEND_TYPE)
        self.hears(device_type(7, None, name))
        self.says(device_type(4, "PNL01", name))
        self.hears(FUNCTIONS_REQUEST)
        self.says(FUNCTIONS_IS)

    def writes_with(self, command, status):
        """Sends a command, and hears its response: 0 for one that was taken, 1 and a reason for one
        that was refused."""
        self.says(b"\x00\x00\x02\x00\x00", command, b"\xff\xef")
        self.hears(b"\x02\x00", bytes([status[0]]), b"\x00\x00", bytes([status[1]]), b"\xff\xef")


# ---- runs of the program


def free_port() -> int:
    """A port that is free, and that this process hasn't had yet. It is bound, and not listened at: a
    program that another thread starts meanwhile has the socket, too, for some milliseconds."""
    while True:
        port = FIRST_PORT + next(TAKEN) % PORTS
        with contextlib.suppress(OSError), socket.socket() as it:
            it.setsockopt(socket.SOL_SOCKET, socket.SO_REUSEADDR, 1)
            it.bind((LOCALHOST, port))
            return port


def run(words, given, limit=None, seconds=PATIENCE, **how):
    """The status of a run, and what it printed on its two outputs."""
    how = {"stdout": subprocess.PIPE, "stderr": subprocess.PIPE, **how}
    if limit:
        how["preexec_fn"] = lambda: resource.setrlimit(resource.RLIMIT_NOFILE, (limit, limit))
    done = subprocess.run(
        [programs.panel3270(), *map(str, words)], input=given, timeout=seconds, check=False, **how
    )
    return done.returncode, *(
        (it or b"").decode(errors="replace") for it in (done.stdout, done.stderr)
    )


# What the log says of a session that depends on the time and on how often IAC NOP was sent.
FIGURES = re.compile(r" duration=\d+ turns=(\d+) sent=\d+ received=\d+$")
TIME = re.compile(r"time=(\d{4}-\d\d-\d\dT\d\d:\d\d:\d\dZ) ")
# The name of a session: what the host drew when it started, and the number of the session.
SESSION_NAME = re.compile(r"\bsession=([0-9a-f]{16})-(\d+) ")


def plain(line):
    """A line of the log without its time, its session's name, and the figures of a session but for
    the turns."""
    return FIGURES.sub(
        r" turns=\1", SESSION_NAME.sub("session=BOOT-N ", TIME.sub("", line, count=1), count=1)
    )


def listens(port):
    """Whether the system has a listener at this port: in proc(5), its addresses in hexadecimal, and the
    state 0A."""
    lines = [
        line
        for table in ("tcp", "tcp6")
        for line in pathlib.Path(f"/proc/net/{table}").read_text().splitlines()[1:]
    ]
    return any(it.split()[1].endswith(f":{port:04X}") and it.split()[3] == "0A" for it in lines)


class Server:
    """A host at a port that is free, until the check is over."""

    def __init__(self, *words, lus=("PNL01", "PNL02"), text=None, log=None, port=None, **how):
        self.log, self.port = log or tempfile.TemporaryFile(), port or free_port()
        words = [programs.panel3270(), words[0], "--port", str(self.port), *words[1:]]
        self.process = subprocess.Popen(words, stdin=subprocess.PIPE, stderr=self.log, **how)
        self.process.stdin.write(text or panels(*lus))
        self.process.stdin.close()
        until("a host listens", lambda: listens(self.port) or self.process.poll() is not None)

    def __enter__(self):
        return self

    def __exit__(self, *_):
        self.process.kill()
        self.process.wait()

    def client(self):
        return Client(self.port)

    def logged(self):
        return os.pread(self.log.fileno(), 1 << 17, 0).decode(errors="replace")

    def events(self):
        """The whole lines of its log, plain."""
        return [plain(it) for it in self.logged().rpartition("\n")[0].splitlines()]

    def has_logged(self, *events):
        """Waits until its log has these lines behind the one that it listens, and no other."""
        wanted = [f"listening on {LOCALHOST}:{self.port}", *events]

        def is_whole_or_wrong():
            came = self.events()
            return came == wanted or came != wanted[: len(came)]

        with contextlib.suppress(Difference):
            until("its log", is_whole_or_wrong)
        expect("its log", self.events(), wanted)

    def ends(self):
        """Its exit status, once it ended."""
        until("a host ends", lambda: self.process.poll() is not None)
        return self.process.returncode


def event(conn, client, what):
    """A line of the log, plain."""
    return f"conn={conn} session=BOOT-N peer={client.peer} event={what}"


def in_seconds(least, most, what, does):
    """What does something takes so long."""
    begun = time.monotonic()
    does()
    took = time.monotonic() - begun
    expect(f"{what} after {took:.2f} seconds", least <= took <= most, True)


# ---- metrics


def scraped(port, *sent, pause=0.0):
    """What the metrics port answers to what is sent, up to the end of the connection."""
    with socket.create_connection((LOCALHOST, port), PATIENCE) as it:
        for part in sent:
            it.sendall(part)
            time.sleep(pause)
        answer = b""
        with contextlib.suppress(ConnectionError):
            while more := it.recv(1 << 16):
                answer += more
    return answer


GET = b"GET /metrics HTTP/1.1\r\nHost: localhost\r\n\r\n"
def metered(*words, **how):
    """A server with a metrics port."""
    port = free_port()
    host = Server("serve", "--metrics", str(port), *words, **how)
    host.metrics = port
    return host
