"""Operators on ttys of their own: bin/operate, and a small model of what a tty makes of the bytes
that come."""
import contextlib
import fcntl
import os
import pathlib
import pty
import re
import select
import signal
import socket
import struct
import subprocess
import termios
import time

from harness import programs
from harness.case import TOP, Difference, expect
from harness.hosts import (
    DO,
    FUNCTIONS_IS,
    FUNCTIONS_REQUEST,
    LOCALHOST,
    PATIENCE,
    SEND_TYPE,
    Server,
    WILL,
    device_type,
)

SCRIPT = TOP / "bin/operate"
BANK = TOP / "examples/bank.toml"

# ---- what an operator types

ENTER, TAB, HOME, LEFT = b"\r", b"\t", b"\x1b[H", b"\x1b[D"
RESET, ERASE_EOF, REDRAW, QUIT = b"\x12", b"\x05", b"\x0c", b"\x1d"
STATUS, KEYS, SAVE = b"\x14", b"\x1b?", b"\x10"
BACK_TAB, INSERT, PF3, CLEAR = b"\x1b[Z", b"\x1b[2~", b"\x1bOR", b"\x03"
BACKSPACE, PASTE, PASTED = b"\x7f", b"\x1b[200~", b"\x1b[201~"

# ---- what a host says: RFC 1647, and GA23-0059 for the commands

# Erase/Write, number 0, which restores the keyboard: `HI` protected from 0 on, an unprotected field
# from 4 on, which ends at 10, a numeric one from 11 on, which ends at 15, and the cursor at 4.
FORM = bytes.fromhex(
    "00 00 02 00 00 F5 C3 11 40 40 1D F0 C8 C9 1D 40 13 11 40 4A 1D 50 11 40 4F 1D F0 FF EF"
)
RESPONSE = bytes.fromhex("02 00 00 00 00 00 FF EF")


# ---- a tty

# A control sequence (ECMA-48), or one character.
TOKEN = re.compile(
    rb"\x1b\[(\?)?([0-9;]*)([A-Za-z])|[\xc2-\xdf].|[\xe0-\xef]..|[\xf0-\xf4]...|.", re.DOTALL
)


class Screen:
    """What a tty shows, by the control functions that the program and the script use."""

    def __init__(self, rows, columns):
        self.rows, self.columns = rows, columns
        self.alternate, self.bells, self.written, self.reports = False, 0, 0, b""
        # The tty has another size, and may still be sent what was drawn for the old one.
        self.is_resized = False
        # It is resized again before all is drawn for the last size.
        self.is_dragged = False
        self.erase()

    def erase(self):
        self.cells = [[" "] * self.columns for _ in range(self.rows)]
        self.looks = [[""] * self.columns for _ in range(self.rows)]
        self.row = self.column = 0
        self.look = ""

    def takes(self, data):
        """Takes bytes, and answers how many: the rest is the front of a sequence."""
        at = 0
        for found in TOKEN.finditer(data):
            if found.start() != at:
                break
            token = found.group()
            # The front of a sequence or of a character: the rest will come.
            if token == b"\x1b" or (token[0] >= 0xC2 and len(token) == 1):
                break
            self.acts(token, found)
            at = found.end()
        self.written += at
        return at

    def acts(self, token, found):
        if found.group(3):
            self.controls(bool(found.group(1)), found.group(2).decode(), found.group(3))
        elif token == b"\x07":
            self.bells += 1
        elif token == b"\r":
            self.column = 0
        elif token == b"\n":
            self.row += 1
            if self.row == self.rows:
                self.row -= 1
                self.cells = self.cells[1:] + [[" "] * self.columns]
        else:
            if not (self.row < self.rows and self.column < self.columns):
                if self.is_resized:
                    return
                raise Difference(
                    "a character on the tty", f"row {self.row} and column {self.column}"
                )
            self.cells[self.row][self.column] = token.decode()
            self.looks[self.row][self.column] = self.look
            self.column += 1

    def controls(self, private, numbers, final):
        if private:
            if numbers == "1049":
                self.alternate = final == b"h"
            return
        if final == b"H":
            row, column = (int(it or 1) for it in (numbers or ";").split(";"))
            # The way to the last corner: elsewhere a place off the tty is a mistake.
            if (row, column) == (999, 999):
                row, column = self.rows, self.columns
            self.row, self.column = row - 1, column - 1
        elif final == b"m":
            self.look = numbers
        elif final == b"n" and numbers == "6":
            self.reports += b"\x1b[%d;%dR" % (self.row + 1, self.column + 1)
        elif final == b"J":
            row, column = self.row, self.column
            self.erase()
            self.row, self.column = row, column
            self.is_resized &= self.is_dragged
        else:
            raise Difference("a control sequence that is known", repr(final))

    def line(self, row):
        return "".join(self.cells[row]).rstrip()

    def text(self):
        return "\n".join(self.line(row) for row in range(self.rows)).rstrip("\n")


SIGNALS = (signal.SIGTERM, signal.SIGINT, signal.SIGHUP, signal.SIGQUIT)


class Operator:
    """An operator before a tty, on which bin/operate runs with these words."""

    def __init__(self, *words, rows=25, columns=80, command=None):
        self.screen, self.kept, self.written = Screen(rows, columns), b"", b""
        self.master, slave = pty.openpty()
        self.slave = slave
        fcntl.ioctl(slave, termios.TIOCSWINSZ, struct.pack("HHHH", rows, columns, 0, 0))
        self.before = termios.tcgetattr(slave)
        words = [str(it) for it in (command or [SCRIPT]) + list(words)]
        env = {**os.environ, "PANEL3270": str(programs.panel3270())}

        def begin():
            os.setsid()
            fcntl.ioctl(0, termios.TIOCSCTTY, 0)
            # A shell that runs this script in the background has it ignore signals, which an
            # operator's shell doesn't.
            for number in SIGNALS:
                signal.signal(number, signal.SIG_DFL)
            signal.pthread_sigmask(signal.SIG_SETMASK, ())

        self.process = subprocess.Popen(
            words, stdin=slave, stdout=slave, stderr=slave, preexec_fn=begin, env=env
        )

    def __enter__(self):
        return self

    def __exit__(self, *_):
        with contextlib.suppress(ProcessLookupError):
            os.killpg(self.process.pid, signal.SIGKILL)
        self.process.wait()
        for it in (self.master, self.slave):
            with contextlib.suppress(OSError):
                os.close(it)

    def looks(self, seconds=0.0):
        """Takes what is written within this time. Whether something was."""
        ready, _, _ = select.select([self.master], [], [], seconds)
        if not ready:
            return False
        more = os.read(self.master, 1 << 16)
        self.written += more
        data = self.kept + more
        self.kept = data[self.screen.takes(data) :]
        if self.screen.reports:
            os.write(self.master, self.screen.reports)
            self.screen.reports = b""
        return True

    def types(self, *typed):
        """Types each of these, with a moment between."""
        for it in typed:
            os.write(self.master, it if isinstance(it, bytes) else it.encode())
            self.looks(0.03)

    def until(self, what, holds):
        end = time.monotonic() + PATIENCE
        while not holds(self.screen):
            if time.monotonic() > end:
                raise Difference(
                    what, f"not in {PATIENCE} seconds; the screen is\n{self.screen.text()}"
                )
            self.looks(0.01)

    def writes(self, wanted):
        """Just this is written to the tty, and nothing more for a moment."""
        self.until("what the tty is written", lambda _: len(self.written) >= len(wanted))
        while self.looks(0.1):
            pass
        expect("what the tty is written", self.written.decode(), wanted)

    def sees(self, text):
        self.until(f"an operator sees {text!r}", lambda screen: text in screen.text())

    def resizes(self, rows, columns):
        """The window has another size, and its content is lost."""
        self.screen.rows, self.screen.columns = rows, columns
        self.screen.erase()
        self.screen.is_resized = True
        fcntl.ioctl(self.master, termios.TIOCSWINSZ, struct.pack("HHHH", rows, columns, 0, 0))

    def has_status(self, *words, row=None):
        """The status row, the last one or this one, has these words alone, in this order, and which
        key shows the keys."""
        wanted = " ".join((*words[:-1], "ESC ? shows keys", words[-1]))

        def shown(screen):
            line = " ".join(screen.line(row or screen.rows - 1).split())
            # How long a wait takes is up to the machine.
            return re.sub(r"\bX SYSTEM \d+", "X SYSTEM", line)

        self.until(f"a status row has {wanted!r}", lambda screen: shown(screen) == wanted)

    def ends(self, status, *lines):
        """The program has ended with this status, the tty is as before, and these are the lines on
        it."""
        end = time.monotonic() + PATIENCE
        while self.process.poll() is None and time.monotonic() < end:
            self.looks(0.01)
        while self.looks(0.05):
            pass
        expect("the status", self.process.poll(), status)
        expect("the settings of the tty", termios.tcgetattr(self.slave), self.before)
        expect("the alternate screen", self.screen.alternate, False)
        expect("the lines on the tty", self.screen.text(), "\n".join(lines))

    def program(self):
        """The process of the program, a child of the script's."""
        process = self.process.pid
        children = pathlib.Path(f"/proc/{process}/task/{process}/children").read_text().split()
        for child in children:
            if "operate" in pathlib.Path(f"/proc/{child}/cmdline").read_bytes().decode().split(
                "\0"
            ):
                return int(child)
        raise Difference("the script runs the program", "it has no such child")


# ---- hosts


def serve_bank(port=None):
    """`serve --quiet` with the bank's panels, as a host of harness/hosts."""
    return Server("serve", "--quiet", text=BANK.read_bytes(), port=port)


class Host:
    """A host that says what the check has it say."""

    def __init__(self, address=LOCALHOST):
        family = socket.AF_INET6 if ":" in address else socket.AF_INET
        self.listener = socket.create_server((address, 0), family=family)
        self.listener.settimeout(PATIENCE)
        self.port = self.listener.getsockname()[1]

    def __enter__(self):
        return self

    def __exit__(self, *_):
        self.listener.close()
        with contextlib.suppress(AttributeError):
            self.socket.close()

    def accepts(self):
        self.socket, _ = self.listener.accept()
        self.socket.settimeout(PATIENCE)

    def says(self, *spelt):
        self.socket.sendall(b"".join(spelt))

    def hears(self, *spelt):
        wanted, came = b"".join(spelt), b""
        while len(came) < len(wanted) and (more := self.socket.recv(len(wanted) - len(came))):
            came += more
        expect("a host hears", came.hex(" "), wanted.hex(" "))

    def hears_nothing(self, seconds):
        ready, _, _ = select.select([self.socket], [], [], seconds)
        expect("a host hears", self.socket.recv(1 << 12).hex(" ") if ready else "", "")

    def binds(self, first=FORM):
        """Grants a terminal PNL01, and shows it the form, or another first screen."""
        self.accepts()
        self.says(DO)
        self.hears(WILL)
        self.says(SEND_TYPE)
        self.hears(device_type(7, None))
        self.says(device_type(4, "PNL01"))
        self.hears(FUNCTIONS_REQUEST)
        self.says(FUNCTIONS_IS, first)
        self.hears(RESPONSE)


@contextlib.contextmanager
def bound(first=FORM, options=()):
    """An operator, by these options, at the form of a host, or at another first screen."""
    with Host() as host, Operator(*options, host.port) as operator:
        host.binds(first)
        if first == FORM:
            operator.has_status("connected", "PNL01", "001/005")
        yield operator, host
