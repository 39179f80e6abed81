"""`serve --proxy-protocol`: whose address the log has, and which connections are closed.

The heads are spelt by "The PROXY protocol, Versions 1 & 2", sections 2.1 and 2.2. HAProxy and stunnel
send theirs, if they are installed."""
import base64
import contextlib
import http.server
import pathlib
import shutil
import socket
import ssl
import struct
import subprocess
import tempfile
import threading
import time
from collections.abc import Iterator

from harness.case import TOP, Case, Checks, expect, of_function
from harness.hosts import (
    Client,
    DO,
    LOCALHOST,
    MOST_CONNECTIONS,
    PATIENCE,
    SEND_TYPE,
    Server,
    WILL,
    event,
    free_port,
    in_seconds,
    listens,
    until,
)

THREADS = 8
SIGNATURE = bytes.fromhex("0D 0A 0D 0A 00 0D 0A 51 55 49 54 0A")
V4, V6 = "192.0.2.1:56324", "[2001:db8::1]:56324"


def block(version, family, *parts):
    """A head of version 2."""
    return SIGNATURE + bytes([version, family]) + struct.pack(">H", len(b"".join(parts))) + b"".join(
        parts
    )


PORTS = struct.pack(">HH", 56324, 3270)
INET = bytes([192, 0, 2, 1, 192, 0, 2, 2]) + PORTS
INET6 = b"".join(socket.inet_pton(socket.AF_INET6, it) for it in ("2001:db8::1", "::1")) + PORTS
# Heads, and the address that each names; None is the connection's own.
HEADS = {
    "a line of TCP4": (b"PROXY TCP4 192.0.2.1 192.0.2.2 56324 3270\r\n", V4),
    "a line of TCP6": (b"PROXY TCP6 2001:db8::1 ::1 56324 3270\r\n", V6),
    "the shortest line": (b"PROXY UNKNOWN\r\n", None),
    "a line of an unknown client": (b"PROXY UNKNOWN ffff::1 ffff::2 65535 65535\r\n", None),
    "a block of IPv4": (block(0x21, 0x11, INET), V4),
    "a block of IPv6": (block(0x21, 0x21, INET6), V6),
    "a block with TLVs": (block(0x21, 0x11, INET, b"\x04\x00\x05" + bytes(5)), V4),
    "the shortest block": (block(0x20, 0x00), None),
    "a block of a health check": (block(0x20, 0x11, INET), None),
}
WRONG = {
    "no-header": [WILL, b"GET / HTTP/1.1\r\n", b"PROXy UNKNOWN\r\n", SIGNATURE[:-1] + b"\r"],
    "bad-line": [
        b"PROXY TCP4 192.0.2.1 192.0.2.2 56324 03270\r\n",
        b"PROXY TCP4 2001:db8::1 ::1 56324 3270\r\n",
        b"PROXY TCP5 192.0.2.1 192.0.2.2 56324 3270\r\n",
    ],
    "long-line": [b"PROXY UNKNOWN ".ljust(107, b"x")],
    "version": [block(0x11, 0x11, INET)],
    "command": [block(0x22, 0x11, INET)],
    "family": [block(0x21, 0x41, INET)],
    "short-block": [block(0x21, 0x11, INET[:-1])],
    "long-block": [block(0x21, 0x11, INET, bytes(509))],
}

check = Checks()


def bad_header(client, reason):
    return f"peer={client.peer} event=bad-proxy-header reason={reason}"


def is_heard_behind(head, cut, address):
    """A head in two pieces, the second one with what the terminal says behind it."""
    with Server("serve", "--proxy-protocol") as host:
        client = host.client()
        client.peer = address or client.peer
        client.says(head[:cut])
        time.sleep(0.02)
        client.says(head[cut:], WILL)
        client.hears(DO, SEND_TYPE)
        client.asks_for(None)
        client.is_bound("PNL01")
        client.ends()
        host.has_logged(*(event(0, client, it) for it in ("connected", "bound lu=PNL01", "lost turns=0")))


def heads() -> Iterator[Case]:
    """Each head cut in the middle, and two of them anywhere."""
    for name, (head, address) in HEADS.items():
        cuts = range(len(head) + 1) if "TCP4" in name or "IPv4" in name else [len(head) // 2]
        for cut in cuts:
            yield of_function(
                lambda head=head, cut=cut, address=address: is_heard_behind(head, cut, address),
                f"{name} cut at {cut}",
            )


@check
def a_head_may_come_byte_by_byte():
    """A head may come byte by byte, and a second client is served meanwhile."""
    with Server("serve", "--proxy-protocol") as host:
        head, _ = HEADS["a line of TCP6"]
        slow, quick = host.client(), host.client()
        for place, byte in enumerate(head):
            slow.says(bytes([byte]))
            if place == 20:
                quick.says(HEADS["a block of IPv4"][0])
                quick.signs_on("PNL01")
        slow.signs_on("PNL02")
        slow.peer, quick.peer = V6, V4
        host.has_logged(
            *(
                event(conn, client, it)
                for conn, client, lu in ((0, quick, "PNL01"), (1, slow, "PNL02"))
                for it in ("connected", f"bound lu={lu}")
            )
        )


@check
def a_wrong_head_closes():
    """A wrong head closes its connection, and is logged once, with the connection's own address."""
    with Server("serve", "--proxy-protocol") as host:
        log = []
        for reason, wrong in WRONG.items():
            for head in wrong:
                client = host.client()
                client.says(head)
                client.hears_the_end()
                log += [bad_header(client, reason)]
        host.has_logged(*log)


@check
def a_head_that_is_not_expected_closes():
    """Without the option a connection ends that begins with a head, or else not with IAC."""
    for head in (HEADS["a line of TCP4"][0], HEADS["a block of IPv4"][0], b"GET / HTTP/1.1\r\n"):
        with Server("serve") as host:
            client = host.client()
            client.says(head)
            # The end may overtake the host's first bytes.
            expect("all that comes", client.came(len(DO) + 1) in (b"", DO), True)
            host.has_logged(event(0, client, "connected"), event(0, client, "lost"))


@check
def a_connection_that_leaves_before_its_head_is_logged():
    """A connection that ends or fails before its head is complete is logged."""
    with Server("serve", "--proxy-protocol") as host:
        first, second = host.client(), host.client()
        first.says(b"PROXY TCP4 ")
        first.ends()
        host.has_logged(bad_header(first, "cut-short"))
        second.resets()
        host.has_logged(bad_header(first, "cut-short"), bad_header(second, "cut-short"))


@check
def a_late_head_closes():
    """A head that isn't complete five seconds after the connection began closes it."""
    with Server("serve", "--proxy-protocol") as host:
        client = host.client()
        client.says(b"PROXY TCP4 ")
        in_seconds(4, 7, "a late head", client.hears_the_end)
        host.has_logged(bad_header(client, "late"))


@check
def only_so_many_connections_are_held():
    """While 64 connections have no head, others wait; they are served when those are closed."""
    with Server("serve", "--proxy-protocol") as host:
        silent = [host.client() for _ in range(MOST_CONNECTIONS)]
        time.sleep(2)
        client = host.client()
        client.says(HEADS["a block of IPv4"][0])
        time.sleep(0.5)
        expect("its log", len(host.events()), 1)
        silent[0].leaves()
        client.signs_on("PNL01")


# ---- proxies


@contextlib.contextmanager
def proxy(program, text, port):
    """A proxy with this configuration, once it listens."""
    with tempfile.TemporaryDirectory() as folder:
        config = pathlib.Path(folder) / "proxy.cfg"
        config.write_text(text)
        command = [program, "-f", str(config)] if program == "haproxy" else [program, str(config)]
        with subprocess.Popen(command, stderr=subprocess.DEVNULL, stdout=subprocess.DEVNULL) as it:
            try:
                until(f"{program} listens", lambda: listens(port))
                yield
            finally:
                it.terminate()


def is_known_through(host, client):
    """The log has the address with which the client connected to the proxy."""
    client.signs_on("PNL01")
    client.enters()
    client.leaves()
    host.has_logged(*(event(0, client, it) for it in ("connected", "bound lu=PNL01", "lost turns=1")))


def haproxy_names_its_client(option):
    with Server("serve", "--proxy-protocol") as host:
        port = free_port()
        text = f"""
defaults
    mode tcp
    timeout connect 2s
    timeout client 1m
    timeout server 1m
listen tn3270
    bind {LOCALHOST}:{port}
    server one {LOCALHOST}:{host.port} {option}
"""
        with proxy("haproxy", text, port):
            is_known_through(host, Client(port))


# ---- HAProxy before `web`

WEB = TOP / "examples/web-haproxy.cfg"
# In the example Ada's password is `lovelace`.
RIGHT, WRONG_PASSWORD = (
    f"Authorization: Basic {base64.b64encode(it).decode()}" for it in (b"ada:lovelace", b"ada:byron")
)


def certificate(folder):
    """The files of a certificate for localhost, and of that and its private key."""
    pem, cert = pathlib.Path(folder) / "host.pem", pathlib.Path(folder) / "cert.pem"
    subprocess.run(
        ["openssl", "req", "-x509", "-newkey", "rsa:2048", "-nodes", "-subj", "/CN=localhost"]
        + ["-days", "2", "-keyout", pem, "-out", cert],
        check=True,
        capture_output=True,
    )
    pem.write_text(pem.read_text() + cert.read_text())
    return cert, pem


def haproxy_takes_the_example():
    """`haproxy -c` has no fault and no warning of the example for `web`."""
    with tempfile.TemporaryDirectory() as folder:
        config = pathlib.Path(folder) / "web.cfg"
        _, pem = certificate(folder)
        config.write_text(WEB.read_text().replace("/etc/haproxy/host.pem", str(pem)))
        words = ["haproxy", "-c", "-f", config]
        said = subprocess.run(words, capture_output=True, text=True, check=False)
        text = said.stdout + said.stderr
        expect("haproxy -c", (said.returncode, "WARNING" in text, "ALERT" in text), (0, False, False))


@contextlib.contextmanager
def example():
    """The port of the example without TLS, before a server that answers each request."""

    class Answer(http.server.BaseHTTPRequestHandler):
        def do_GET(self):
            self.send_response(200)
            self.send_header("Content-Length", "0")
            self.end_headers()

        def log_message(self, *_):
            pass

    port, text = free_port(), WEB.read_text()
    with http.server.ThreadingHTTPServer((LOCALHOST, 0), Answer) as server:
        threading.Thread(target=server.serve_forever, daemon=True).start()
        for old, new in (
            ("bind :443 ssl crt /etc/haproxy/host.pem", f"bind {LOCALHOST}:{port}"),
            ("127.0.0.1:8080", f"{LOCALHOST}:{server.server_address[1]}"),
        ):
            expect(f"{old} is in the example", text.count(old), 1)
            text = text.replace(old, new)
        with proxy("haproxy", text, port):
            yield port
        server.shutdown()


def status_with(port, *fields):
    """The status of an answer to a request with these fields."""
    request = "\r\n".join(("GET / HTTP/1.1", "Host: terminals.example", *fields, "", "")).encode()
    with socket.create_connection((LOCALHOST, port), PATIENCE) as it:
        it.sendall(request)
        return int(it.recv(1 << 12).split()[1])


def the_example_limits_passwords():
    """Nobody is served without a password; and from an address that sent ten wrong ones, nobody is by
    the right one, either. Requests without a password, which browsers send first, aren't counted."""
    with example() as port:
        expect("without a password", [status_with(port) for _ in range(20)], [401] * 20)
        expect("with the right one", status_with(port, RIGHT), 200)
        wrong = [status_with(port, WRONG_PASSWORD) for _ in range(12)]
        expect("with wrong ones", wrong, [401] * 10 + [429] * 2)
        expect("with the right one", status_with(port, RIGHT), 429)


def the_example_limits_heads():
    """A request whose head isn't complete after ten seconds ends, however slowly it goes on."""
    with example() as port, socket.create_connection((LOCALHOST, port), PATIENCE) as it:
        it.sendall(b"GET / HTTP/1.1\r\n")

        def ends():
            it.settimeout(1)
            while True:
                with contextlib.suppress(TimeoutError):
                    return expect("the status", it.recv(1 << 12).split()[1:2], [b"408"])
                it.sendall(b"X: y\r\n")

        in_seconds(9, 14, "a slow head", ends)


def stunnel_names_its_client():
    """stunnel with `protocol = proxy`."""
    with Server("serve", "--proxy-protocol") as host, tempfile.TemporaryDirectory() as folder:
        port, (_, pem) = free_port(), certificate(folder)
        text = f"""
foreground = yes
pid =
[tn3270]
accept = {LOCALHOST}:{port}
connect = {LOCALHOST}:{host.port}
cert = {pem}
protocol = proxy
"""
        with proxy("stunnel", text, port):
            client = Client(port)
            context = ssl.SSLContext(ssl.PROTOCOL_TLS_CLIENT)
            context.check_hostname, context.verify_mode = False, ssl.CERT_NONE
            client.socket = context.wrap_socket(client.socket)
            is_known_through(host, client)


def cases() -> Iterator[Case]:
    yield from heads()
    yield from check.cases()
    if shutil.which("haproxy"):
        for option in ("send-proxy", "send-proxy-v2"):
            yield of_function(
                lambda option=option: haproxy_names_its_client(option), f"haproxy with {option}"
            )
        yield of_function(the_example_limits_passwords)
        yield of_function(the_example_limits_heads)
        if shutil.which("openssl"):
            yield of_function(haproxy_takes_the_example)
    else:
        print("proxy: haproxy isn't installed (apt-get install haproxy)")
    if shutil.which("stunnel") and shutil.which("openssl"):
        yield of_function(stunnel_names_its_client)
    else:
        print("proxy: stunnel or openssl isn't installed (apt-get install stunnel4 openssl)")
