#!/usr/bin/env python3
"""Prints what operators in browsers cost: bytes and milliseconds of a key and of Enter, and the
processor time and memory of `panel3270 web`.

    bench/web.py [--times N] [--seconds S] [PROGRAM]

Starts a host with the bank's panels, and `web` before it, and works as up to 64 pages. Without
PROGRAM it runs the one that PANEL3270 names, or else the one that bin/quick would run; the first
line of output says which. Linux, for /proc. It takes about four minutes.

The table has a column for terminals of model 2, and one for model 5, whose panels have the same
texts and fields on 27 rows of 132 cells:

- "a key" is a digit typed into the sign-on panel, "Enter" the key that shows the transfer panel
  after it; each is pressed N times (300), with one session. Bytes are those of the WebSocket
  frames, in the median; TCP's headers are not included. Milliseconds are from sending the key to
  the arrival of the frame that draws the digit, or the panel with the keyboard unlocked: they
  include the host's time, but neither a network nor a browser that draws. If other programs keep
  the machine busy, only the least time says much.
- "idle" is the part of one processor that `web` takes while no key is pressed for S seconds (30),
  and the pages answer pings.
- "memory" is the resident set of `web`, after each session has signed on. "A session" is the
  difference between 64 sessions and 1, divided by 63.
"""
import argparse
import os
import pathlib
import re
import select
import statistics
import sys
import time

TOP = pathlib.Path(__file__).resolve().parent.parent
sys.dont_write_bytecode = True
sys.path.append(str(TOP / "tests"))

from harness import programs  # noqa: E402
from harness.browser import BINARY, PING, PONG, TEXT, Page, frame  # noqa: E402
from harness.case import Difference  # noqa: E402
from harness.tty import BANK, ENTER, ERASE_EOF, HOME, PF3, TAB, Screen  # noqa: E402
from suites.web import Web  # noqa: E402
from turns import processor_time  # noqa: E402

SESSIONS = 64
MODELS = (2, 5)
QUIET = 0.03  # seconds without a frame that end a drawing
PATIENCE = 60  # seconds for a drawing
TELLER = (4, 29)  # the first cell of the field, from 0
ROOM = 6  # its cells
SIGN_ON = HOME + ERASE_EOF + b"4711" + TAB + ERASE_EOF + b"SECRET"


def panels(model):
    """The bank's panels, on the larger screen of this model, with an LU for each session."""
    lus = ", ".join(f'"BANK{number:02}"' for number in range(1, SESSIONS + 1))
    text = re.sub(r"(?m)^lus = .*$", f"lus = [{lus}]", BANK.read_text())
    if model != 2:
        larger = rf'\g<0>\nmodel = {model}\notherwise = "SMALL"'
        text = re.sub(r'(?m)^\[\[panel\]\]\nname = ".*"$', larger, text)
        text += '\n[[panel]]\nname = "SMALL"\n'
    return text.encode()


class Operator(Page):
    """A page, and the tty that it shows."""

    def __init__(self, port, model):
        super().__init__(port)
        self.send(TEXT, f"open {model}".encode())
        self.screen, self.rest_of_drawing = Screen(*map(int, self.told("size").split())), b""
        self.presses(b"", shows("TELLER NUMBER"))

    def frames(self, quiet=QUIET):
        """The frames until none arrives for this time, each with the time of its arrival. Pings
        are answered."""
        while self.rest or select.select([self.socket], [], [], quiet)[0]:
            opcode, payload = self.receive()
            if opcode == PING:
                self.send(PONG, payload)
            else:
                yield time.perf_counter(), opcode, payload

    def draws(self, payload):
        drawing = self.rest_of_drawing + payload
        self.rest_of_drawing = drawing[self.screen.takes(drawing) :]

    def presses(self, keys, holds):
        """Presses keys. Returns the bytes from and to the page, and the seconds until this holds
        of its screen."""
        size, shown, begin = 0, None, time.perf_counter()
        if keys:
            self.keys(keys)
        while shown is None:
            # All frames are read before one is drawn, so that drawing here delays no arrival.
            for arrived, opcode, payload in list(self.frames()):
                size += len(frame(opcode, payload, mask=b""))
                if opcode == BINARY:
                    self.draws(payload)
                if shown is None and holds(self.screen):
                    shown = arrived
            if time.perf_counter() - begin > PATIENCE:
                raise Difference(f"a screen after {keys}", self.screen.text())
        return len(frame(BINARY, keys)), size, shown - begin

    def fills_in(self):
        """Fills in the sign-on. The password is hidden: that it is typed is seen by the cursor."""
        self.presses(SIGN_ON, lambda it: "4711" in it.text() and (it.row, it.column) == (6, 35))

    def signs_on(self):
        self.fills_in()
        return self.presses(ENTER, shows("TRANSFER OF FUNDS"))


def shows(text):
    """A condition of a screen: it has this text, and the keyboard is unlocked."""
    return lambda screen: text in screen.text() and "X SYSTEM" not in screen.line(-1)


def typed(page, times):
    """What digits cost that fill the first field again and again: yields bytes and seconds."""
    row, first = TELLER
    for number in range(times):
        column, digit = first + number % ROOM, str(number % 10)
        if number and column == first:
            page.presses(HOME + ERASE_EOF, lambda it: not it.line(row)[first:].strip())
        yield page.presses(digit.encode(), lambda it: it.cells[row][column] == digit)


def entered(page, times):
    """What Enter costs on the sign-on panel: yields bytes and seconds."""
    for _ in range(times):
        yield page.signs_on()
        page.presses(PF3, shows("TELLER NUMBER"))


def medians(name, costs):
    """The figures of a kind of key, by their names."""
    sent, received, seconds = zip(*costs)
    return {
        f"{name}: bytes from the page": f"{statistics.median(sent):.0f}",
        f"{name}: bytes to the page": f"{statistics.median(received):.0f}",
        f"{name}: milliseconds at least": f"{min(seconds) * 1000:.2f}",
        f"{name}: milliseconds in the median": f"{statistics.median(seconds) * 1000:.2f}",
    }


def attend(pages, seconds):
    """Answers the pings that come to pages within this time."""
    of, end = {page.socket: page for page in pages}, time.monotonic() + seconds
    while ready := select.select(of, [], [], max(end - time.monotonic(), 0))[0]:
        for it in ready:
            list(of[it].frames(0))


def idle(process, pages, seconds):
    """The part of a processor that a process takes while these pages only answer pings."""
    before, begin = processor_time(process), time.monotonic()
    attend(pages, seconds)
    return f"{(processor_time(process) - before) / (time.monotonic() - begin):.2%}"


def memory(process):
    """The KiB of a process that are resident (proc(5))."""
    return int(re.search(r"VmRSS:\s+(\d+)", pathlib.Path(f"/proc/{process}/status").read_text())[1])


def measure(model, given):
    """The figures of a model, by their names."""
    with Web("--sessions", str(SESSIONS), text=panels(model)) as web:
        process = web.process.pid
        figures = {"idle, no session": idle(process, [], given.seconds)}
        pages = [Operator(web.port, model)]
        figures |= medians("a key", typed(pages[0], given.times))
        figures |= medians("Enter", entered(pages[0], given.times))
        pages[0].signs_on()
        one = memory(process)
        for _ in range(SESSIONS - 1):
            pages.append(Operator(web.port, model))
            pages[-1].signs_on()
            attend(pages, 0)
        many = memory(process)
        figures[f"idle, {SESSIONS} sessions"] = idle(process, pages, given.seconds)
        figures["memory, 1 session"] = f"{one:,} KiB"
        figures[f"memory, {SESSIONS} sessions"] = f"{many:,} KiB"
        figures["memory, a session"] = f"{(many - one) / (SESSIONS - 1):.0f} KiB"
        for page in pages:
            page.close()
        return figures


def arguments():
    words = argparse.ArgumentParser(
        description="Prints what operators in browsers cost; the head of this file says how."
    )
    words.add_argument("program", nargs="?", help="the path of panel3270")
    words.add_argument(
        "--times", type=int, default=300, help="how often each key is pressed [default: 300]"
    )
    words.add_argument(
        "--seconds", type=float, default=30, help="how long each idle time lasts [default: 30]"
    )
    return words.parse_args()


def chosen(program):
    """The path of the program, and which one it is."""
    if named := program or os.environ.get("PANEL3270"):
        return named, "the program that was named"
    path, what = programs.quick().found(programs.quick().PANEL3270)
    return str(path), what


def print_row(name, cells):
    print(f"{name:36}" + "".join(f"{it:>14}" for it in cells))


def main():
    given = arguments()
    os.environ["PANEL3270"], what = chosen(given.program)
    print(f"{os.environ['PANEL3270']}: {what}", flush=True)
    found = [measure(model, given) for model in MODELS]
    print_row("", (f"model {model}" for model in MODELS))
    for name in found[0]:
        print_row(name, (it[name] for it in found))


if __name__ == "__main__":
    main()
