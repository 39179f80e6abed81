#!/usr/bin/env python3
"""Prints the time from a key to its cell: bin/operate beside c3270, and the page of `web` beside a
page that only echoes.

    bench/latency.py [--keys N] [--only tty|browser] [PROGRAM]

Without PROGRAM it runs the one that PANEL3270 names, or else the one that bin/quick would run; the
first line of output says which. A panel with a field of 50 cells is served on this machine. Letters
are typed into it, one at a time, each 30 to 50 milliseconds after the last one was drawn. The
tables have the median, the 90th and the 99th percentile of N keys (200) in milliseconds, and how
many times theirs each is.

- tty: each terminal runs on a pty of 25 rows of 80, at the same `serve`. The time is from the write
  of the letter to the pty to the read of the bytes by which a model of the tty has it in its cell.
- browser: a headless Chromium shows each page. The time is from the `keydown` event, in the page,
  to the change of the document by which the cell has the letter. The echo page sends each letter as
  a binary message over a WebSocket to a server in this file, and puts what it gets in its cell.
"""
import argparse
import base64
import contextlib
import fcntl
import hashlib
import json
import os
import pathlib
import pty
import random
import re
import select
import shutil
import signal
import socket
import struct
import subprocess
import sys
import termios
import threading
import time

TOP = pathlib.Path(__file__).resolve().parent.parent
sys.dont_write_bytecode = True
sys.path.append(str(TOP / "tests"))

from harness.browser import GUID  # noqa: E402
from harness.case import Difference  # noqa: E402
from harness.chromium import Chromium, installed  # noqa: E402
from harness.hosts import LOCALHOST, Server  # noqa: E402
from harness.tty import Screen  # noqa: E402
from suites.web import Web  # noqa: E402
from web import chosen  # noqa: E402

ROW, COLUMN, ROOM = 2, 9, 50  # the first cell of the field, from 0, and its cells
PANEL = f"""
start = "WORD"
lus = ["PNL01", "PNL02"]

[[panel]]
name = "WORD"
text = [{{row = 1, col = 2, text = "TYPE A WORD"}}]
field = [{{name = "word", row = {ROW + 1}, col = {COLUMN + 1}, length = {ROOM}}}]
""".encode()
LETTERS = "ABCDEFGHIJKLMNOPQRSTUVWXYZ"
PAUSE = (0.03, 0.05)  # seconds between two keys
PATIENCE = 20
ROWS, COLUMNS = 25, 80
PERCENTILES = (50, 90, 99)


def keys(count):
    """The letters, and the column of each. Those that are typed over another one differ from it."""
    for number in range(count):
        yield LETTERS[number % len(LETTERS)], COLUMN + number % ROOM


# ---- at a tty

# A sequence of ESC that is complete: CSI, a character set, OSC, or one character.
SEQUENCE = re.compile(rb"\x1b(?:\[[0-9;?>!]*[ -/]*[@-~]|[()*+][0-9A-Z]|\][^\x07]*\x07|[=>78cDEHM])")


class Tty(Screen):
    """A tty with the control functions that c3270 uses by the description of xterm, too."""

    def takes(self, data):
        at = 0
        while at < len(data):
            if data[at] == 0x1B:
                if not (found := SEQUENCE.match(data, at)):
                    break
                self.does(found.group().decode())
                at = found.end()
            else:
                self.puts(chr(data[at]))
                at += 1
        return at

    def puts(self, letter):
        if letter == "\r":
            self.column = 0
        elif letter == "\n":
            self.row = min(self.row + 1, self.rows - 1)
        elif letter == "\b":
            self.column = max(self.column - 1, 0)
        elif letter >= " ":
            if self.column < self.columns:
                self.cells[self.row][self.column] = letter
            self.column += 1

    def does(self, sequence):
        final, given = sequence[-1], sequence[2:-1]
        if sequence[1] != "[" or given[:1] in ("?", ">", "!"):
            return
        numbers = [int(it or 0) for it in given.split(";")]
        count = max(numbers[0], 1)
        line = self.cells[self.row]
        match final:
            case "H":
                row, column = (*numbers, 1)[:2]
                self.row, self.column = max(row, 1) - 1, max(column, 1) - 1
            case "d":
                self.row = count - 1
            case "G":
                self.column = count - 1
            case "A":
                self.row -= count
            case "B":
                self.row += count
            case "C":
                self.column += count
            case "D":
                self.column -= count
            case "J" | "K":
                cells = self.cells if final == "J" and numbers[0] == 2 else self.cells[self.row :]
                line[self.column :] = " " * (self.columns - self.column)
                for it in cells[1:] if final == "J" else ():
                    it[:] = " " * self.columns
            case "X":
                line[self.column : self.column + count] = " " * count
            case "b":
                line[self.column : self.column + count] = line[self.column - 1] * count
                self.column += count
            case "m" | "r" | "h" | "l" | "t":
                pass
            case _:
                raise Difference("a control sequence that is known", repr(sequence))


class AtTty:
    """A program on a tty of its own."""

    def __init__(self, *words):
        self.screen, self.rest = Tty(ROWS, COLUMNS), b""
        self.master, slave = pty.openpty()
        fcntl.ioctl(slave, termios.TIOCSWINSZ, struct.pack("HHHH", ROWS, COLUMNS, 0, 0))

        def begin():
            os.setsid()
            fcntl.ioctl(0, termios.TIOCSCTTY, 0)

        self.process = subprocess.Popen(
            [str(it) for it in words], stdin=slave, stdout=slave, stderr=slave, preexec_fn=begin,
            env={**os.environ, "TERM": "xterm"},
        )
        os.close(slave)

    def __enter__(self):
        self.until(lambda it: "TYPE A WORD" in it.text())
        self.quiet(0.5)
        return self

    def __exit__(self, *_):
        with contextlib.suppress(ProcessLookupError):
            os.killpg(self.process.pid, signal.SIGKILL)
        self.process.wait()
        os.close(self.master)

    def reads(self, seconds):
        """Takes what is written within this time. When it was read; None if nothing was."""
        if not select.select([self.master], [], [], seconds)[0]:
            return None
        self.rest += os.read(self.master, 1 << 16)
        read = time.perf_counter()
        self.rest = self.rest[self.screen.takes(self.rest) :]
        return read

    def until(self, holds):
        """When the bytes were read by which this holds of the screen."""
        end, read = time.monotonic() + PATIENCE, None
        while not holds(self.screen):
            if time.monotonic() > end:
                raise Difference("a screen", self.screen.text())
            read = self.reads(0.1) or read
        return read

    def quiet(self, seconds):
        while self.reads(seconds):
            pass

    def delay(self, letter, column):
        """The seconds from a letter to its cell. Tab goes to the field's first cell."""
        if column == COLUMN:
            os.write(self.master, b"\t")
            self.quiet(0.2)
        begun = time.perf_counter()
        os.write(self.master, letter.encode())
        drawn = self.until(lambda it: it.cells[ROW][column] == letter) - begun
        self.quiet(random.uniform(*PAUSE))
        return drawn


def at_ttys(count):
    """The delays of `operate`, and of c3270."""
    with Server("serve", "--quiet", text=PANEL) as host:
        for words in (
            [TOP / "bin/operate", host.port],
            ["c3270", "-codepage", "cp037", "-model", "3278-2", f"{LOCALHOST}:{host.port}"],
        ):
            with AtTty(*words) as tty:
                yield [tty.delay(*it) for it in keys(count)]


# ---- in a browser

ECHO_PAGE = f"""<!DOCTYPE html>
<html lang=en><meta charset=utf-8><title>echo</title>
<pre id=screen></pre><textarea id=typed></textarea>
<script>
const screen = document.getElementById('screen'), typed = document.getElementById('typed');
for (let row = 0; row < {ROWS}; row++) {{
  const line = document.createElement('div');
  for (let column = 0; column < {COLUMNS}; column++) {{
    const cell = document.createElement('span');
    cell.textContent = ' ';
    line.append(cell);
  }}
  screen.append(line);
}}
const socket = new WebSocket('ws://' + location.host + '/echo');
socket.binaryType = 'arraybuffer';
let count = 0;
socket.onopen = () => typed.focus();
socket.onmessage = message => {{
  const cell = screen.children[{ROW}].children[{COLUMN} + count % {ROOM}];
  cell.textContent = new TextDecoder().decode(message.data);
  count += 1;
}};
typed.addEventListener('input', () => {{
  socket.send(new TextEncoder().encode(typed.value));
  typed.value = '';
}});
</script>
""".encode()


class Echo:
    """A server of the echo page, and of its WebSocket (RFC 6455), whose messages it sends back."""

    def __init__(self):
        self.listener = socket.create_server((LOCALHOST, 0))
        self.port = self.listener.getsockname()[1]
        threading.Thread(target=self.serves, daemon=True).start()

    def serves(self):
        while True:
            client, _ = self.listener.accept()
            client.setsockopt(socket.IPPROTO_TCP, socket.TCP_NODELAY, 1)
            threading.Thread(target=self.answers, args=(client,), daemon=True).start()

    def answers(self, client):
        head = b""
        while b"\r\n\r\n" not in head:
            if not (more := client.recv(65536)):
                return
            head += more
        if key := re.search(rb"(?i)sec-websocket-key: *(\S+)", head):
            accept = base64.b64encode(hashlib.sha1(key[1] + GUID).digest())
            client.sendall(
                b"HTTP/1.1 101 Switching Protocols\r\nUpgrade: websocket\r\n"
                b"Connection: Upgrade\r\nSec-WebSocket-Accept: " + accept + b"\r\n\r\n"
            )
            self.echoes(client)
        else:
            size = b"Content-Length: %d\r\n" % len(ECHO_PAGE)
            kind = b"Content-Type: text/html\r\nConnection: close\r\n"
            client.sendall(b"HTTP/1.1 200 OK\r\n" + kind + size + b"\r\n" + ECHO_PAGE)
            client.close()

    def echoes(self, client):
        """Sends back each message: a frame of a client is masked, and those here are short."""
        rest = b""
        while more := client.recv(65536):
            rest += more
            while len(rest) >= 6 and len(rest) >= (size := 6 + (rest[1] & 0x7F)):
                mask, payload, rest_of = rest[2:6], rest[6:size], rest[size:]
                plain = bytes(it ^ mask[place % 4] for place, it in enumerate(payload))
                if rest[0] & 15 == 8:
                    return
                client.sendall(bytes([0x82, len(plain)]) + plain)
                rest = rest_of


# Notes when a key is pressed, and when the cell that is awaited has its letter.
WATCH = f"""(() => {{
  window.watched = {{}};
  const cell = () => document.querySelectorAll('#screen div')[{ROW}].textContent[watched.column];
  document.addEventListener('keydown', () => watched.pressed ??= performance.now(), true);
  new MutationObserver(() => {{
    if (watched.letter && cell() === watched.letter) watched.drawn ??= performance.now();
  }}).observe(document.getElementById('screen'),
    {{ childList: true, characterData: true, subtree: true }});
}})()"""


def watched(page, count, home):
    """The delays of letters on a page. `home` moves to the field's first cell."""
    page.value(WATCH)
    for letter, column in keys(count):
        if column == COLUMN:
            home(page)
            time.sleep(0.2)
        page.value(f"window.watched = {json.dumps({'letter': letter, 'column': column})}; 0")
        page.types(letter)
        page.until(f"{letter} is drawn", lambda: page.value("watched.drawn !== undefined"))
        yield page.value("watched.drawn - watched.pressed") / 1000
        time.sleep(random.uniform(*PAUSE))


def in_browsers(count):
    """The delays of the page of `web`, and of the echo page."""
    with Web(text=PANEL) as web, Chromium(f"http://{LOCALHOST}:{web.port}/") as page:
        page.shows("TYPE A WORD")
        yield [*watched(page, count, lambda it: it.key("Home"))]
    echo = Echo()
    with Chromium(f"http://{LOCALHOST}:{echo.port}/") as page:
        page.until("the echo page", lambda: page.value("socket.readyState === 1"))
        yield [*watched(page, count, lambda _: None)]


# ---- figures


def percentile(delays, share):
    """The least delay that so many per cent of the delays don't exceed."""
    return sorted(delays)[max(0, -(-len(delays) * share // 100) - 1)]


def shows(names, both):
    """A table of the percentiles."""
    print(f"{'':18}" + "".join(f"{it:>14}" for it in (*names, "times theirs")))
    for share in PERCENTILES:
        ours, theirs = (percentile(it, share) * 1000 for it in both)
        name = "median" if share == 50 else f"{share}th percentile"
        print(f"{name:18}{ours:>11.2f} ms{theirs:>11.2f} ms{ours / theirs:>14.2f}", flush=True)


def arguments():
    words = argparse.ArgumentParser(
        description="Prints the time from a key to its cell; the head of this file says how."
    )
    words.add_argument("program", nargs="?", help="the path of panel3270")
    words.add_argument("--keys", type=int, default=200, help="how many keys [default: 200]")
    words.add_argument("--only", choices=("tty", "browser"), help="only one of the tables")
    return words.parse_args()


def main():
    given = arguments()
    os.environ["PANEL3270"], what = chosen(given.program)
    print(f"{os.environ['PANEL3270']}: {what}", flush=True)
    if given.only != "browser":
        if shutil.which("c3270"):
            shows(("operate", "c3270"), [*at_ttys(given.keys)])
        else:
            print("c3270 isn't installed: apt-get install c3270")
    if given.only != "tty":
        installed()
        shows(("the page", "echo page"), [*in_browsers(given.keys)])


if __name__ == "__main__":
    main()
