"""`web`: what it answers a browser, and what a hostile client gains: nothing, and nobody else notices.

The requests are spelt by RFC 9112, the frames by RFC 6455; the limits are requirements: a head of
8,192 bytes and 64 fields, 16 clients without a session for 5 seconds each, messages of 4,096 bytes,
a ping every 5 seconds, and a minute of silence.
"""
import contextlib
import re
import signal
import socket
import subprocess
import tempfile
import threading
import time

from harness import programs
from harness.browser import BINARY, CLOSE, PING, PONG, TEXT, Page, get, handshake, requested
from harness.case import Checks, Difference, expect
from harness.hosts import LOCALHOST, Server, free_port, run, until
from harness.tty import BANK, Screen

THREADS = 8
LONG = True
check = Checks()
cases = check.cases
ORIGIN = "https://terminals.bank.example"
SIGN_ON = b"4711\tsecret\r"
REDRAW, QUIT = b"\x0c", b"\x1d"


class Web:
    """A `web` beside a host, which has these options."""

    def __init__(self, *words, text=None, host=()):
        self.host = Server("serve", *host, text=text or BANK.read_bytes())
        self.port, self.log = free_port(), tempfile.TemporaryFile()
        words = ["web", "--port", str(self.port), "--connect", str(self.host.port), *words]
        self.process = subprocess.Popen(
            [programs.panel3270(), *words], stdin=subprocess.DEVNULL, stderr=self.log
        )
        until("web answers", self.answers)

    def answers(self):
        with contextlib.suppress(OSError):
            return requested(self.port, get(self.port))[0] == 200
        return False

    def __enter__(self):
        return self

    def __exit__(self, *_):
        self.process.kill()
        self.process.wait()
        self.host.__exit__()

    def page(self, words="open 2", **fields):
        page = Page(self.port, **fields)
        page.send(TEXT, words.encode())
        return page

    def logged(self):
        self.log.seek(0)
        return self.log.read().decode()

    def logs(self, words):
        """Waits for a line of the log that ends with these words."""
        until(f"a line {words}", lambda: any(it.endswith(words) for it in self.logged().splitlines()))


def screen_of(page, shows, rows=25, columns=80):
    """The tty of a page once it shows this text."""
    screen, rest = Screen(rows, columns), b""
    for opcode, payload in page.messages():
        if opcode == TEXT and payload.startswith(b"size "):
            screen = Screen(*map(int, payload.split()[1:]))
        if opcode == BINARY:
            rest += payload
            rest = rest[screen.takes(rest) :]
        if shows in screen.text():
            return screen
    raise Difference(f"a screen with {shows}", "the end")


# ---- heads

def heads(port):
    """Requests, and the status of each; None is the handshake's 101."""
    host = f"{LOCALHOST}:{port}"
    own = f"http://{host}"
    return {
        "the page": (get(port), 200),
        "the page at localhost": (get(port, Host=f"localhost:{port}"), 200),
        "no host": (get(port, Host=None), 400),
        "two hosts": (get(port, Host=[host, host]), 400),
        "another host": (get(port, Host="attacker.example"), 403),
        "the host without its port": (get(port, Host=LOCALHOST), 403),
        "a longer host": (get(port, Host=f"{host}0"), 403),
        "another target": (get(port, "/index.html"), 404),
        "POST": (get(port, method="POST"), 405),
        "HEAD": (get(port, method="HEAD"), 405),
        "no request": (b"GET / FTP/1.1\r\n\r\n", 400),
        "64 fields": (get(port, **{f"X{n}": "1" for n in range(63)}), 200),
        "65 fields": (get(port, **{f"X{n}": "1" for n in range(64)}), 431),
        "8,192 bytes without an end": (get(port, "/" + "a" * 8300)[:8192], 431),
        "no origin": (handshake(port, Origin=None), 403),
        "two origins": (handshake(port, Origin=[own, own]), 403),
        "another origin": (handshake(port, Origin="http://attacker.example"), 403),
        "an origin that begins like ours": (handshake(port, Origin=own + ".attacker.example"), 403),
        "the origin null": (handshake(port, Origin="null"), 403),
        "the other name's origin": (handshake(port, Origin=f"http://localhost:{port}"), 101),
        "another version": (handshake(port, Sec_WebSocket_Version="8"), 426),
        "no key": (handshake(port, Sec_WebSocket_Key=None), 400),
        "a short key": (handshake(port, Sec_WebSocket_Key="c2hvcnQ="), 400),
        "no upgrade": (handshake(port, Upgrade=None), 400),
        "a handshake with bytes after it": (handshake(port) + b"\x89\x80abcd", 400),
        # Absolute-form (RFC 9112, section 3.2.2): its host counts, not that of the field.
        "an absolute target": (get(port, f"{own}/"), 200),
        "an absolute target without a path": (get(port, own), 200),
        "an absolute target, for another Host": (get(port, f"{own}/", Host="attacker.example"), 200),
        "an absolute target at another host": (get(port, "http://attacker.example/"), 403),
        "an absolute target at another port": (get(port, f"{own}0/"), 403),
        "an absolute target without a Host": (get(port, f"{own}/", Host=None), 400),
        "another absolute target": (get(port, f"{own}/index.html"), 404),
        "a handshake with an absolute target": (handshake(port).replace(b"GET /", f"GET {own}/".encode()), 101),
        "a relative target": (get(port, "index.html"), 404),
    }


@check
def heads_are_answered() -> None:
    """Each head has its status."""
    with Web() as web:
        for name, (head, status) in heads(web.port).items():
            if status != 101:
                expect(name, requested(web.port, head)[0], status)


@check
def the_page_has_a_policy() -> None:
    """The page's fields keep it from loading anything, from being framed and from being stored."""
    with Web() as web:
        _, fields, body = requested(web.port, get(web.port))
    policy = fields["content-security-policy"]
    expect("default", policy.startswith("default-src 'none'; "), True)
    expect("frames", "frame-ancestors 'none'" in policy, True)
    expect("unsafe", "unsafe" in policy, False)
    expect("nosniff", fields["x-content-type-options"], "nosniff")
    expect("store", fields["cache-control"], "no-store")
    expect("length", int(fields["content-length"]), len(body))


@check
def another_origin_is_allowed() -> None:
    """--origin allows the host and the origin of a proxy."""
    with Web("--origin", ORIGIN) as web:
        host = ORIGIN.partition("://")[2]
        expect("its host", requested(web.port, get(web.port, Host=host))[0], 200)
        web.page(Host=host, Origin=ORIGIN).close()


@check
def an_origin_is_served() -> None:
    """The page is served at the origin of a proxy, and at no other."""
    with Web("--origin", ORIGIN) as web:
        fields = {"Host": "terminals.bank.example", "Origin": ORIGIN}
        expect("the page", requested(web.port, get(web.port, Host=fields["Host"]))[0], 200)
        screen_of(web.page(**fields), "TELLER")
        other = handshake(web.port, **{**fields, "Origin": "https://bank.example"})
        expect("another origin", requested(web.port, other)[0], 403)


@check
def an_origin_has_its_port() -> None:
    """The port of --origin is a part of it, but for the scheme's default one (RFC 6454, section
    6.2)."""
    host = ORIGIN.partition("://")[2]
    with Web("--origin", f"{ORIGIN}:8443") as web:
        fields = {"Host": f"{host}:8443", "Origin": f"{ORIGIN}:8443"}
        expect("its host", requested(web.port, get(web.port, Host=fields["Host"]))[0], 200)
        web.page(**fields).close()
        expect("the host alone", requested(web.port, get(web.port, Host=host))[0], 403)
        for origin in (ORIGIN, f"{ORIGIN}:443", f"{ORIGIN}:8444"):
            other = handshake(web.port, **{**fields, "Origin": origin})
            expect(origin, requested(web.port, other)[0], 403)
    with Web("--origin", f"{ORIGIN}:443") as web:
        expect("the default port", requested(web.port, get(web.port, Host=host))[0], 200)
        web.page(Host=host, Origin=ORIGIN).close()


@check
def its_own_address_is_served() -> None:
    """Browsers may use the address where it listens, also one of IPv6 (RFC 3986, section 3.2.2)."""
    for listen, host in (("::1", "[::1]"), ("127.0.0.2", "127.0.0.2")):
        port = free_port()
        with Server("serve", text=BANK.read_bytes()) as server:
            words = ["web", "--listen", listen, "--port", str(port), "--connect", str(server.port)]
            ran = subprocess.Popen([programs.panel3270(), *words], stderr=subprocess.DEVNULL)
            try:
                own = f"{host}:{port}"
                def status(head):
                    with socket.create_connection((listen, port), 10) as it:
                        it.sendall(head)
                        return int(it.recv(65536).split()[1])
                def answers():
                    with contextlib.suppress(OSError):
                        return status(get(port, Host=own)) == 200
                until(f"web answers at {listen}", answers)
                expect("a handshake", status(handshake(port, Host=own, Origin=f"http://{own}")), 101)
                expect("another host", status(get(port, Host=f"[::2]:{port}")), 403)
            finally:
                ran.kill()
                ran.wait()


@check
def wrong_words_are_refused() -> None:
    """Words that name no host, origin or number of sessions end with status 2."""
    for words, line in {
        ("--connect", "3270", "--origin", "ftp://bank.example"): "--origin: the URL doesn't begin with",
        ("--connect", "3270", "--origin", "bank.example"): "--origin: not a URL",
        ("--connect", "3270", "--origin", "https://bank.example/x"): "--origin: the URL has more than",
        ("--connect", "bank:3270"): "error: invalid value 'bank:3270' for '--connect'",
        ("--connect", "127.0.0.1:"): "error: invalid value '127.0.0.1:' for '--connect'",
        ("--connect", "3270", "--sessions", "65"): "error: invalid value '65' for '--sessions'",
        ("--connect", "3270", "--sessions", "0"): "error: invalid value '0' for '--sessions'",
    }.items():
        status, _, faults = run(["web", "--port", str(free_port()), *words], b"")
        expect("status", status, 2)
        expect("line", faults.startswith(line), True)


# ---- sessions

@check
def an_operator_signs_on() -> None:
    """A page shows the host's panels, and a hidden field's characters are never sent to it."""
    with Web() as web:
        page = web.page()
        screen_of(page, "TELLER")
        came = []
        receive = page.receive
        page.receive = lambda: came.append(receive()) or came[-1]
        page.keys(SIGN_ON)
        screen_of(page, "TRANSFER OF FUNDS")
        expect("hidden", any(b"s" in it or b"ecret" in it for op, it in came[:3]), False)
        web.logs("event=bound lu=BANK01")
        expect("log", [it for it in ("4711", "secret", "TELLER") if it in web.logged()], [])


@check
def keys_are_cut_anywhere() -> None:
    """Keys in single bytes, and in fragments with pings between them, are the same keys."""
    with Web() as web:
        page = web.page()
        screen_of(page, "TELLER")
        for byte in b"47":
            page.keys(bytes([byte]))
        page.send(BINARY, b"1", final=False)
        page.send(PING, b"now")
        page.send(0, b"1\tsecret\r")
        screen_of(page, "TRANSFER OF FUNDS")


@check
def models_have_their_sizes() -> None:
    """A page is told the alternate size of its model and one row more; it asks for its LU."""
    with Web() as web:
        for model, size in {2: "25 80", 3: "33 80", 4: "44 80", 5: "28 132"}.items():
            page = web.page(f"open {model} BANK0{model - 1}")
            expect(f"model {model}", page.told("size"), size)
            rows, columns = map(int, size.split())
            screen_of(page, f"BANK0{model - 1}", rows, columns)


# Frames after the first message, and the code of the close that answers them (section 7.4.1).
FRAMES = {
    "a frame without a mask": (dict(opcode=BINARY, payload=b"a", mask=b""), 1002),
    "a reserved opcode": (dict(opcode=3), 1002),
    "a continuation of nothing": (dict(opcode=0), 1002),
    "a ping in fragments": (dict(opcode=PING, final=False), 1002),
    "a ping of 126 bytes": (dict(opcode=PING, payload=bytes(126)), 1002),
    "a message of 4,097 bytes": (dict(opcode=BINARY, payload=bytes(4097)), 1009),
    "a text": (dict(opcode=TEXT, payload=b"open 2"), 1003),
    "a text that isn't UTF-8": (dict(opcode=TEXT, payload=b"\xff"), 1007),
    "a close": (dict(opcode=CLOSE, payload=b"\x03\xe8"), 1000),
}


@check
def broken_rules_close() -> None:
    """A frame that breaks a rule closes its WebSocket with its code, and no other."""
    with Web("--keep", "0") as web:
        other = web.page()
        screen_of(other, "TELLER")
        for name, (how, code) in FRAMES.items():
            page = web.page()
            screen_of(page, "TELLER")
            page.send(**how)
            expect(name, page.closing(), code)
        other.keys(b"4")
        screen_of(other, "4")


@check
def first_messages_are_checked() -> None:
    """A first message that opens nothing closes with 1008."""
    with Web() as web:
        for words in ("", "open", "open 6", "open 2 9LU", "open 2  BANK01", "hello", "resume x"):
            expect(repr(words), web.page(words).closing(), 1008)
        page = Page(web.port)
        page.keys(b"\r")
        expect("keys", page.closing(), 1008)


def clients(
    web: Web, stack: contextlib.ExitStack, count: int, said=b"", source=LOCALHOST, pause=0.2
) -> list[socket.socket]:
    """Clients that send no more than this, from an address of this machine."""
    made = []
    for _ in range(count):
        it = stack.enter_context(socket.create_connection((LOCALHOST, web.port), 20, (source, 0)))
        it.sendall(said)
        made.append(it)
    time.sleep(pause)
    return made


def has_ended(client: socket.socket, wait=0.3) -> bool:
    """Whether the server has closed the connection, also with bytes unread (RFC 9293, 3.10.4)."""
    client.settimeout(wait)
    try:
        return client.recv(4096) == b""
    except ConnectionResetError:
        return True
    except TimeoutError:
        return False


@check
def silent_clients_make_room() -> None:
    """Of 16 clients without a session the oldest that has sent nothing makes room for a new one: neither
    a new page nor one that resumes waits for them, however many come. A session doesn't notice."""
    with Web() as web, contextlib.ExitStack() as stack:
        page = web.page()
        token = page.told("token")
        screen_of(page, "TELLER")
        begins = clients(web, stack, 1, b"GET / HTTP/1.1\r\n")
        silent = clients(web, stack, 15)
        expect("the page", web.answers(), True)
        expect("the oldest", has_ended(silent[0]), True)
        expect("one that sent something", has_ended(begins[0]), False)
        for _ in range(3):
            clients(web, stack, 16)
            expect("the page again", web.answers(), True)
        clients(web, stack, 16)
        screen_of(web.page("resume " + token), "TELLER")
        clients(web, stack, 16)
        screen_of(web.page("open 2 BANK04"), "BANK04")


@check
def the_oldest_client_makes_room() -> None:
    """If all 16 have sent something, the oldest makes room once it has been there for a second; before
    that a new one is turned away."""
    with Web() as web, contextlib.ExitStack() as stack:
        clients_ = clients(web, stack, 16, b"GET / HTTP/1.1\r\n")
        [late] = clients(web, stack, 1)
        expect("the 17th", has_ended(late), True)
        expect("the first", has_ended(clients_[0]), False)
        time.sleep(1)
        expect("the page", web.answers(), True)
        expect("the first, then", has_ended(clients_[0]), True)
        expect("the last", has_ended(clients_[15]), False)


@check
def silent_clients_are_dropped() -> None:
    """A client without a session is dropped after 5 seconds. That is logged only if it has sent
    something: browsers connect ahead of requests that may not come."""
    with Web() as web, contextlib.ExitStack() as stack:
        begin = time.monotonic()
        [silent] = clients(web, stack, 1)
        [begun] = clients(web, stack, 1, b"GET / HTTP/1.1\r\n")
        expect("the end", silent.recv(4096), b"")
        expect("the other end", begun.recv(4096), b"")
        expect("in time", 4 < time.monotonic() - begin < 8, True)
        web.logs("event=refused reason=late")
        expect("the silent one", web.logged().count("reason=late"), 1)


@check
def sessions_are_counted() -> None:
    """The page after the last session is told so, and another's end makes room."""
    with Web("--sessions", "1", "--keep", "0") as web:
        page = web.page()
        screen_of(page, "TELLER")
        expect("the second", web.page().ending(), ("busy", 1000))
        page.close()
        web.logs("event=ended reason=not-resumed")
        screen_of(web.page(), "TELLER")


@check
def a_lost_session_makes_room() -> None:
    """If all sessions are in use, one that a page at the same address has left ends for a new one."""
    with Web("--sessions", "2", "--keep", "300") as web:
        there, lost = web.page("open 2 BANK01"), web.page("open 2 BANK02")
        screen_of(there, "BANK01")
        screen_of(lost, "BANK02")
        lost.close()
        web.logs("event=page-lost reason=lost")
        newer = web.page("open 2 BANK03")
        screen_of(newer, "BANK03")
        web.logs("event=ended reason=made-room")
        expect("the next", web.page().ending(), ("busy", 1000))
        there.keys(b"4")
        screen_of(there, "4")


@check
def an_address_has_its_share() -> None:
    """With --per-address a page is refused, is told why, and is logged, if its address has so many sessions;
    another address isn't. A session that a page at the address has left makes room."""
    with Web("--per-address", "2", "--keep", "300") as web:
        there, left = web.page("open 2 BANK01"), web.page("open 2 BANK02")
        screen_of(there, "BANK01")
        screen_of(left, "BANK02")
        refusal = "ended your address has as many sessions as one address may have"
        expect("the third", web.page().ending(), (refusal, 1000))
        web.logs("event=refused reason=address-full")
        screen_of(web.page("open 2 BANK03", source="127.0.0.2"), "BANK03")
        left.close()
        web.logs("event=page-lost reason=lost")
        screen_of(web.page("open 2 BANK04"), "BANK04")
        web.logs("event=ended reason=made-room")
        there.keys(b"4")
        screen_of(there, "4")


@check
def one_address_crowds_nobody_out() -> None:
    """Of 16 clients that have sent something, those of an address that has more than 8 of the places make
    room at once for one of another address, the oldest first; others make room only after a second."""
    with Web() as web, contextlib.ExitStack() as stack:
        begun = {"said": b"GET / HTTP/1.1\r\n", "pause": 0.15}
        crowd = clients(web, stack, 9, **begun)
        others = clients(web, stack, 7, source="127.0.0.2", **begun)
        [first] = clients(web, stack, 1, source="127.0.0.3", **begun)
        [second] = clients(web, stack, 1, source="127.0.0.3", **begun)
        expect("one that finds 8", has_ended(second), True)
        expect("one that finds 9", has_ended(first), False)
        expect("the crowd", [has_ended(it, 0.1) for it in crowd], [True] + [False] * 8)
        expect("others", [has_ended(it, 0.1) for it in others], [False] * 7)


@check
def a_keymap_is_sent() -> None:
    """A page is told what the file of --keymap says, before it has a screen, by the names of the table of
    keys. A file that is no keymap is refused, with its line."""
    with tempfile.NamedTemporaryFile("w") as file:
        file.write("# Keys of a 3278.\nbackspace = backspace()\n f12 = pa(1)\nAlt-= = Clear\nCtrl-a=Home\n")
        file.flush()
        with Web("--keymap", file.name) as web:
            page = web.page()
            expect("the keymap", page.told("keymap"), "Backspace=BackSpace F12=PA(1) Ctrl-A=Home Alt-==Clear")
            screen_of(page, "TELLER")
        file.write("F13 = Enter\n")
        file.flush()
        words = ["web", "--port", str(free_port()), "--connect", "3270", "--keymap"]
        expect("status and line", run([*words, file.name], b"")[::2], (1, f"{file.name}:6: unknown key 'F13'\n"))
        expect("no file", run([*words, "/no/keys"], b"")[::2], (1, "/no/keys: no such file\n"))


@check
def an_lu_in_use_is_told() -> None:
    """A page whose LU is in use is told so, and may try again."""
    with Web() as web:
        first = web.page("open 2 BANK01")
        screen_of(first, "BANK01")
        expect("the second", web.page("open 2 BANK01").ending(), ("busy", 1000))


@check
def a_slow_page_waits_alone() -> None:
    """A page that takes nothing has one drawing that waits; another goes on; and once it reads, it
    shows what is there."""
    with Web() as web:
        slow, other = web.page(), web.page()
        screen_of(slow, "TELLER")
        slow.socket.settimeout(0.2)
        sent = 0
        with contextlib.suppress(TimeoutError):
            for _ in range(20_000):
                slow.keys(REDRAW * 4000)
                sent += 1
        expect("its keys wait", sent < 20_000, True)
        screen_of(other, "TELLER")
        other.keys(SIGN_ON)
        screen_of(other, "TRANSFER OF FUNDS")
        size = int(re.search(r"VmRSS:\s+(\d+)", open(f"/proc/{web.process.pid}/status").read())[1])
        expect("memory below 64 MB", size < 65_536, True)
        slow.socket.settimeout(60)
        screen_of(slow, "TELLER")


# ---- a reload, and a lost network

@check
def a_reload_resumes() -> None:
    """The token of a session resumes it, with what was typed."""
    with Web("--keep", "30") as web:
        page = web.page()
        token = page.told("token")
        screen_of(page, "TELLER")
        page.keys(b"4711")
        screen_of(page, "4711")
        page.close()
        web.logs("event=page-lost reason=lost")
        again = web.page("resume " + token)
        screen_of(again, "4711")
        stranger = web.page("resume " + "0" * 32)
        expect("no session", stranger.ending(), ("ended it isn't kept any more", 1000))
        again.keys(b"\tsecret\r")
        screen_of(again, "TRANSFER OF FUNDS")


@check
def the_newer_page_wins() -> None:
    """Of two pages with one token the newer has the session."""
    with Web() as web:
        older = web.page()
        token = older.told("token")
        screen_of(older, "TELLER")
        newer = web.page("resume " + token)
        screen_of(newer, "TELLER")
        expect("the older", older.ending(), ("ended another page has resumed it", 1000))
        newer.keys(b"4711")
        screen_of(newer, "4711")


@check
def a_session_is_kept_for_its_time() -> None:
    """After its time a session without a page has ended, and its LU is free."""
    with Web("--keep", "2") as web:
        page = web.page("open 2 BANK01")
        token = page.told("token")
        screen_of(page, "BANK01")
        page.send(CLOSE, b"\x03\xe9")
        web.logs("event=page-lost reason=closed")
        begin = time.monotonic()
        web.logs("event=ended reason=not-resumed")
        expect("in time", 1 < time.monotonic() - begin < 4, True)
        expect("gone", web.page("resume " + token).ending()[0], "ended it isn't kept any more")
        screen_of(web.page("open 2 BANK01"), "BANK01")


@check
def a_page_that_closes_ends_soon() -> None:
    """A session whose page closed its WebSocket is kept for 5 seconds, one whose network was lost for
    the time of --keep."""
    with Web("--keep", "300") as web:
        left, lost = web.page("open 2 BANK01"), web.page("open 2 BANK02")
        token = lost.told("token")
        screen_of(left, "BANK01")
        lost.close()
        left.send(CLOSE, b"\x03\xe9")
        web.logs("event=page-lost reason=closed")
        begin = time.monotonic()
        web.logs("event=ended reason=not-resumed")
        expect("in time", 4 < time.monotonic() - begin < 8, True)
        screen_of(web.page("resume " + token), "BANK02")


@check
def keys_are_counted() -> None:
    """A page is told how many bytes of keys the session has from its pages: when it comes, and every 5
    seconds."""
    with Web() as web:
        page = web.page()
        token = page.told("token")
        expect("at first", page.told("heard"), "0")
        page.keys(b"4711")
        page.keys("é".encode())
        begin = time.monotonic()
        expect("then", page.told("heard"), "6")
        expect("in time", 2 < time.monotonic() - begin < 12, True)
        page.close()
        expect("another page", web.page("resume " + token).told("heard"), "6")


@check
def a_stopped_program_drops_nobody() -> None:
    """After a stop of more than a minute no page counts as silent: a turn counts for a second at most."""
    with Web() as web:
        page = web.page()
        screen_of(page, "TELLER")
        web.process.send_signal(signal.SIGSTOP)
        time.sleep(62)
        web.process.send_signal(signal.SIGCONT)
        time.sleep(1)
        page.keys(b"4")
        screen_of(page, "4")
        expect("the log", "page-lost" in web.logged(), False)


@check
def pages_are_pinged() -> None:
    """A page gets a ping every 5 seconds, and one that answers none is dropped after a minute."""
    with Web() as web:
        deaf, there = web.page(), web.page()
        begin = time.monotonic()
        there.socket.settimeout(40)
        for count in (1, 2):
            while there.receive()[0] != PING:
                pass
            passed = time.monotonic() - begin
            expect(f"ping {count} in time", 5 * count - 1 < passed < 5 * count + 7, True)
            there.send(PONG)
        answers = threading.Thread(target=lambda: [there.send(PONG) or time.sleep(4) for _ in range(16)])
        answers.start()
        until_silent = begin + 70
        while "reason=silent" not in web.logged():
            if time.monotonic() > until_silent:
                raise Difference("a page that is dropped", web.logged())
            time.sleep(0.2)
        expect("the end in time", 58 < time.monotonic() - begin, True)
        expect("only one", web.logged().count("event=page-lost"), 1)
        deaf.close()
        answers.join()
        there.keys(b"4")
        screen_of(there, "4")


# ---- tokens

def token_of(web: Web) -> int:
    """The token of a new session."""
    page = web.page()
    for opcode, payload in page.messages():
        if opcode == TEXT and payload.startswith(b"token "):
            page.close()
            return int(payload.removeprefix(b"token "), 16)
    raise Difference("a token", "the end")


@check
def tokens_are_random() -> None:
    """Of 1,000 tokens no two are equal, and each of their 128 bits is set in 400 to 600 of them: the
    chance that a bit of random ones isn't is below 10^-9. The host isn't there, so that each session
    ends at once."""
    with Web() as web:
        web.host.__exit__()
        tokens = [token_of(web) for _ in range(1000)]
    expect("different tokens", len(set(tokens)), 1000)
    for bit in range(128):
        ones = sum(it >> bit & 1 for it in tokens)
        if not 400 <= ones <= 600:
            raise Difference(f"400 to 600 tokens with bit {bit}", ones)


# ---- ends

@check
def ends_are_told() -> None:
    """A page is told why its session has ended: its operator's key, an LU, and the host's end."""
    with Web() as web:
        page = web.page()
        screen_of(page, "TELLER")
        page.keys(QUIT)
        expect("a key", page.ending(), ("ended it was ended by a key", 1000))
        refused = web.page("open 2 OTHER01").ending()
        expect("an LU", refused[0].startswith("ended the host refused an LU: "), True)
        page = web.page()
        screen_of(page, "TELLER")
        web.host.__exit__()
        expect("the host", page.ending(), ("ended the host ended the connection", 1000))
        last = web.page().ending()[0]
        address = f"{LOCALHOST}:{web.host.port}"
        expect("no host", last, f"ended cannot connect to {address}: connection refused")
        for word in ("operator", "lu-refused", "host-ended", "cannot-connect"):
            web.logs(f"reason={word}")
