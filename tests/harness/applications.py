"""An application that answers as a check says, a host whose panels ask it, and two operators."""
import contextlib
import json
import re
import select
import socket
import time

from harness import hosts
from harness.case import Difference, expect

PANELS = b"""
start = "WORD"
lus = ["PNL01", "PNL02"]

[[panel]]
name = "WORD"
asks = ["enter", "pf1", "pa1"]
[[panel.text]]
row = 1
col = 2
text = "FIRST PANEL"
[[panel.field]]
name = "word"
row = 3
col = 8
length = 8
[[panel.field]]
name = "secret"
row = 5
col = 8
length = 8
hidden = true
[panel.keys]
pf3 = "MENU"

[[panel]]
name = "MENU"
[[panel.text]]
row = 1
col = 2
text = "SECOND PANEL"
[[panel.field]]
name = "choice"
row = 7
col = 8
length = 4
[[panel.text]]
row = 9
col = 8
show = "seat"
length = 8
[[panel.value]]
name = "total"
row = 11
col = 8
length = 4
[[panel.value]]
name = "line"
row = 13
col = 8
length = 6
repeat = 2
[panel.keys]
pf3 = "WORD"

[[panel]]
name = "WIDE"
model = 5
otherwise = "MENU"
[[panel.field]]
name = "seat"
row = 25
col = 100
length = 4
"""
WORD, SECRET = bytes.fromhex("C2 E7"), bytes.fromhex("C5 C7")
KEYS = {"enter": b"\x7d", "pf1": b"\xf1", "pf3": b"\xf3"}
# The time limit of most checks, in seconds.
LIMIT = 1
# With this a host knows what is in a field that it kept and that isn't returned; else it reads the
# screen (`any-terminal`).
OWN = "--own-terminals"


class Operator(hosts.Client):
    """An operator, who sees the text of what the host writes."""

    def record(self):
        """The next record of the host."""
        while b"\xff\xef" not in self.kept:
            more = self.more()
            if not more:
                raise Difference("a record of the host", "the connection ended")
            self.kept = (self.kept + more).replace(hosts.NOP, b"")
        record, _, self.kept = self.kept.partition(b"\xff\xef")
        return record

    def sees(self, *texts):
        """Is written a screen with these texts, and takes it."""
        shown = self.record().decode("cp037")
        self.takes_write()
        for text in texts:
            expect(f"a screen with {text!r}", text in shown, True)
        return shown

    def binds(self, lu, device="IBM-3278-2"):
        self.is_asked()
        self.says(hosts.device_type(7, None, device))
        self.hears(hosts.device_type(4, lu, device))
        self.says(hosts.FUNCTIONS_REQUEST)
        self.hears(hosts.FUNCTIONS_IS)
        return self

    def signs_on(self, lu, device="IBM-3278-2"):
        self.binds(lu, device).sees("FIRST PANEL")
        return self

    def presses(self, key, word="", secret=""):
        """Presses a key, with what is in the fields."""
        fields = b"".join(
            b"\x11" + at + text.encode("cp037")
            for at, text in ((WORD, word), (SECRET, secret)) if text
        )
        self.says(b"\x00\x00\x00\x00\x00", KEYS[key], bytes.fromhex("C2 E8"), fields, b"\xff\xef")

    def works(self):
        """Goes to the other panel and back, without an application, in less than the application's
        time."""
        begun = time.monotonic()
        self.presses("pf3")
        self.sees("SECOND PANEL")
        self.presses("pf3")
        self.sees("FIRST PANEL")
        expect("the second operator is served", time.monotonic() - begun < 0.5 * LIMIT, True)


class Application:
    """An application at a port of this machine."""

    def __init__(self):
        self.listener = socket.create_server((hosts.LOCALHOST, 0))
        self.listener.settimeout(hosts.PATIENCE)
        self.port = self.listener.getsockname()[1]
        self.url = f"http://{hosts.LOCALHOST}:{self.port}/bank?branch=7"

    def takes(self):
        """The next exchange."""
        return Exchange(self.listener.accept()[0])

    def hears_end(self, session, lu, reason):
        """The next request is a notification of this end."""
        exchange = self.takes()
        told = {"event": "ended", "lu": lu, "reason": reason, "session": session}
        expect("a notification", exchange.body.decode(), json.dumps(told, separators=(",", ":")))
        return exchange

    def has_no_other(self):
        """Nobody else connects for a while."""
        expect("another exchange", select.select([self.listener], [], [], 0.2)[0], [])


class Exchange:
    """A request that came, and its connection."""

    def __init__(self, connection):
        self.connection = connection
        self.connection.settimeout(hosts.PATIENCE)
        came = b""
        while b"\r\n\r\n" not in came:
            came += self.more()
        self.head, _, body = came.partition(b"\r\n\r\n")
        length = int(re.search(rb"Content-Length: (\d+)", self.head)[1])
        while len(body) < length:
            body += self.more()
        self.body, self.asked = body, json.loads(body)

    def more(self):
        more = self.connection.recv(1 << 16)
        if not more:
            raise Difference("a whole request of the host", "it closed before")
        return more

    def sends(self, content, status="200 OK"):
        """Sends a reply, and closes."""
        with contextlib.suppress(OSError):
            self.connection.sendall(reply(content, status))
            self.connection.shutdown(socket.SHUT_WR)

    def keeps(self, content, seconds=5):
        """Sends a reply that promises to keep the connection for so many seconds."""
        self.connection.sendall(reply(content, fields=f"Keep-Alive: timeout={seconds}\r\n"))

    def is_closed(self):
        """Hears the host close the connection."""
        with contextlib.suppress(OSError):
            expect("the end of an exchange", self.connection.recv(1), b"")


def reply(content, status="200 OK", fields=""):
    """A reply with its length, and with these fields."""
    if not isinstance(content, bytes):
        content = json.dumps(content).encode()
    head = f"HTTP/1.1 {status}\r\n{fields}Content-Length: {len(content)}\r\n\r\n"
    return head.encode() + content


class Host(hosts.Server):
    """A host with an application and two operators."""

    def __init__(self, url, *words, seconds=LIMIT, text=PANELS, **how):
        super().__init__(
            "serve",
            "--application",
            url,
            "--application-timeout",
            str(seconds),
            *words,
            text=text,
            **how,
        )

    def operators(self):
        self.first, self.second = (Operator(self.port).signs_on(lu) for lu in ("PNL01", "PNL02"))
        return self.first, self.second

    def has_said(self, event, conn=0):
        """Its log has a line of this event of a connection."""
        wanted = hosts.event(conn, (self.first, self.second)[conn], event)
        hosts.until(f"its log has {wanted!r}", lambda: wanted in self.events())

    def session(self, conn):
        """The name of the session that a connection has, by the log's last line on it."""
        return re.findall(rf" conn={conn} session=(\S+) ", self.logged())[-1]


@contextlib.contextmanager
def a_host(*words):
    """A host with these words, its application and its two operators."""
    application = Application()
    with Host(application.url, *words) as host:
        yield host, application, *host.operators()
