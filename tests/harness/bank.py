"""The bank of examples/bank.py, or the desk of desk.py, behind a host, and the screens of the bank.

The application has a database of its own, and the operator is `panel3270 term`. The expected
screens are what examples/bank-asks.toml has at its rows and columns."""
import contextlib
import json
import os
import select
import socket
import sqlite3
import subprocess
import sys
import tempfile
import urllib.request

from harness import hosts
from harness.case import TOP, Difference, expect

BANK = TOP / "examples/bank.py"
PANELS = (TOP / "examples/bank-asks.toml").read_bytes()
# What an operator does beside typing: a command of `term`, and after a key that sends a wait for
# the host.
DOES = {
    it: f"key {it.lower()}\nwait" for it in ("ENTER", "PF3", "PF5", "PF7", "PF8", "PF9", "CLEAR")
}
DOES |= {it: f"key {it.lower()}" for it in ("TAB", "HOME", "ERASEEOF")}
DOES["SHOW"] = "show"
# What a host drew when it started.
BOOT = "5d8c01f3a7be9042"
ANN, JOHN = ("4711", "TAB", "SECRET", "ENTER"), ("4712", "TAB", "HIDDEN", "ENTER")


# ---- the processes


class Application:
    """The bank's application, or this program, with a database, until the check is over."""

    def __init__(self, database, program=BANK, port=0):
        words = [sys.executable, program, "--database", database, "--port", str(port)]
        self.process = subprocess.Popen(
            words, stdout=subprocess.PIPE, stderr=subprocess.PIPE, text=True
        )
        ready, _, _ = select.select([self.process.stdout], [], [], hosts.PATIENCE)
        line = self.process.stdout.readline() if ready else ""
        if not line.startswith("listening on http://127.0.0.1:"):
            self.__exit__()
            raise Difference("the application says where it listens", repr(line))
        self.url = line.split()[-1]

    def __enter__(self):
        return self

    def __exit__(self, *_):
        self.process.kill()
        self.said = self.process.communicate()[1]

    def replies(self, question):
        """The reply to a question that the check asks in the host's place."""
        with urllib.request.urlopen(self.url, json.dumps(question).encode(), hosts.PATIENCE) as it:
            return json.load(it)


@contextlib.contextmanager
def a_bank(panels=PANELS):
    """A new database's name, its application, and a host with these panels."""
    with tempfile.TemporaryDirectory() as folder:
        database = os.path.join(folder, "bank.db")
        with Application(database) as application:
            with hosts.Server("serve", "--application", application.url, text=panels) as host:
                yield database, application, host
                expect(
                    "faults of the application in the host's log",
                    "event=application" in host.logged(),
                    False,
                )


def works(host, *does):
    """What a terminal prints whose operator does this: keys, SHOW, and texts to type."""
    script = "\n".join(["wait", *(DOES.get(it, f"type {it}") for it in does), ""])
    status, printed, faults = hosts.run(["term", "--port", host.port], script.encode())
    expect("how a terminal ends", (status, faults), (0, ""))
    return printed


def sees(printed, *screens):
    """The screens that a terminal printed are these."""
    lines = printed.splitlines()
    came = ["\n".join(lines[at : at + 25]) for at in range(0, len(lines), 25)]
    expect("the number of screens", len(came), len(screens))
    for number, (it, wanted) in enumerate(zip(came, screens), 1):
        if it != wanted:
            raise Difference(f"screen {number}:\n{wanted}", it)


def rows_of(database, query):
    with contextlib.closing(sqlite3.connect(database)) as it:
        return it.execute(query).fetchall()


def does_to(database, *commands):
    with contextlib.closing(sqlite3.connect(database)) as it, it:
        for command in commands:
            it.execute(command)


def balances(database):
    return rows_of(database, "SELECT number, cents FROM account ORDER BY number")


FIRST_BALANCES = [("1000200030", 125000), ("1000200044", 9900), ("1000200058", 0)]


# ---- the screens


def screen(cursor, *texts):
    """What `show` prints of a screen of texts, each with its row and column, and of the cursor's
    row and column."""
    rows = [""] * 24
    for row, column, text in texts:
        rows[row - 1] = (rows[row - 1].ljust(column - 1) + text).rstrip()
    return "\n".join([*rows, f"cursor {cursor[0] * 80 + cursor[1] - 81} lock free aid 60"])


def sign_on(message="", teller="", cursor=(5, 30)):
    rows = [
        (1, 30, "FIRST NATIONAL BANK"),
        (5, 10, "TELLER NUMBER"),
        (5, 30, teller),
        (7, 10, "PASSWORD"),
    ]
    return screen(cursor, *rows, (23, 2, "ENTER SIGN ON   CLEAR START OVER"), (24, 2, message))


def menu(message="", name="ANN MILLER", choice=""):
    rows = [(1, 30, "MENU"), (2, 50, "TELLER"), (2, 58, name), (9, 10, "CHOICE"), (9, 30, choice)]
    rows += [
        (5, 10, "1  BALANCE OF AN ACCOUNT"),
        (6, 10, "2  TRANSFER OF FUNDS"),
        (7, 10, "3  YOUR LAST BOOKINGS"),
    ]
    return screen((9, 30), *rows, (23, 2, "ENTER CHOOSE   PF3 SIGN OFF"), (24, 2, message))


def balance(account="", holder="", amount="", message=""):
    rows = [(1, 30, "BALANCE OF AN ACCOUNT"), (5, 10, "ACCOUNT"), (5, 30, account)]
    rows += [(7, 10, "HOLDER"), (7, 30, holder), (9, 10, "BALANCE"), (9, 30, amount)]
    return screen((5, 30), *rows, (23, 2, "ENTER LOOK UP   PF3 MENU"), (24, 2, message))


def transfer(debit="", credit="", amount="", reference="", message="", cursor=(5, 30)):
    rows = [(1, 30, "TRANSFER OF FUNDS"), (5, 10, "FROM ACCOUNT"), (5, 30, debit)]
    rows += [
        (7, 10, "TO ACCOUNT"),
        (7, 30, credit),
        (9, 10, "AMOUNT"),
        (9, 30, amount),
        (11, 10, "REFERENCE"),
        (11, 30, reference),
    ]
    return screen(cursor, *rows, (23, 2, "ENTER TRANSFER   PF3 MENU"), (24, 2, message))


def bookings(*lines, message=""):
    rows = [(1, 30, "YOUR LAST BOOKINGS")]
    rows += [(4, 2, "   NO  DATE        FROM        TO                AMOUNT  REFERENCE")]
    rows += [(row, 2, line) for row, line in enumerate(lines, 5)]
    return screen((1, 1), *rows, (23, 2, "ENTER LOOK AGAIN   PF3 MENU"), (24, 2, message))


def is_listening(port):
    with contextlib.closing(socket.socket()) as it:
        return it.connect_ex(("127.0.0.1", port)) == 0
