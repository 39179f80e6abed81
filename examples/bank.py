#!/usr/bin/env python3
"""A bank, as an application for the panels of bank-asks.toml (docs/APPLICATIONS.md, "A bank with a database").

Tellers sign on, look up balances, transfer money, and list their bookings. All data is in an SQLite file. It is created with the tellers
and accounts below if it doesn't exist. Amounts are integers of cents.
"""
import argparse, collections, contextlib, dataclasses, hashlib, hmac, http.server, json, os, re, sqlite3, sys, uuid

TELLERS = [("4711", "ANN MILLER", "SECRET"), ("4712", "JOHN SMITH", "HIDDEN")]
ACCOUNTS = [("1000200030", "J. BAKER", 125000), ("1000200044", "M. CARTER", 9900), ("1000200058", "TOWN LIBRARY", 0)]
TABLES = [
    "CREATE TABLE teller (number TEXT PRIMARY KEY, name TEXT NOT NULL, salt BLOB NOT NULL, hash BLOB NOT NULL)",
    "CREATE TABLE account (number TEXT PRIMARY KEY, holder TEXT NOT NULL, cents INTEGER NOT NULL CHECK (cents >= 0))",
    """CREATE TABLE booking (number INTEGER PRIMARY KEY, form TEXT NOT NULL UNIQUE, day TEXT NOT NULL, teller TEXT NOT NULL,
    debit TEXT NOT NULL, credit TEXT NOT NULL, cents INTEGER NOT NULL CHECK (cents > 0), reference TEXT NOT NULL)""",
]
LAST_BOOKINGS = """SELECT number, day, debit, credit, cents, reference FROM booking WHERE teller = ?
    ORDER BY number DESC LIMIT 10"""


class Refused(Exception):
    """A message for the operator, who stays on the panel. A balance that was shown disappears. `cursor` names a field."""

    def __init__(self, message, cursor=None, **fields):
        super().__init__(message)
        self.reply = {"message": message, "fields": {"holder": "", "balance": "", **fields}}
        if cursor:
            self.reply["cursor"] = cursor


# ---- the database


@contextlib.contextmanager
def transaction(path):
    """A connection with a transaction that is committed at the end, and undone if an exception is raised. Each thread opens its own."""
    # It waits at most 10 seconds for the transactions of others: the host gives a reply 30.
    with contextlib.closing(sqlite3.connect(path, timeout=10, isolation_level=None)) as database:
        database.execute("BEGIN IMMEDIATE")
        with database:
            yield database


def create(path):
    """Makes the tables and their examples, unless they exist."""
    with transaction(path) as database:
        if database.execute("SELECT count(*) FROM sqlite_master").fetchone()[0]:
            return
        for table in TABLES:
            database.execute(table)
        for number, name, password in TELLERS:
            salt = os.urandom(16)
            database.execute("INSERT INTO teller VALUES (?, ?, ?, ?)", (number, name, salt, hash_of(password, salt)))
        database.executemany("INSERT INTO account VALUES (?, ?, ?)", ACCOUNTS)


def hash_of(password, salt):
    return hashlib.scrypt(password.encode(), salt=salt, n=1 << 14, r=8, p=1)


def account_of(database, number, field):
    """The holder and the cents of the account whose number was typed into a field."""
    if not re.fullmatch("[0-9]{10}", number):
        raise Refused("AN ACCOUNT NUMBER HAS TEN DIGITS", field)
    account = database.execute("SELECT holder, cents FROM account WHERE number = ?", (number,)).fetchone()
    if not account:
        raise Refused("NO SUCH ACCOUNT", field)
    return account


def cents_of(text):
    """The amount that was typed: one to seven digits, a point, and two digits."""
    amount = re.fullmatch(r"([0-9]{1,7})\.([0-9]{2})", text)
    if not amount:
        raise Refused("TYPE THE AMOUNT AS 150.00", "amount")
    cents = int(amount[1]) * 100 + int(amount[2])
    if not cents:
        raise Refused("AN AMOUNT IS AT LEAST 0.01", "amount")
    return cents


def amount_text(cents):
    return f"{cents // 100:,}.{cents % 100:02}"


# ---- what the keys do


# How many sessions are remembered. A host has at most 64 at once, so this is enough for 15 hosts. Who is forgotten signs on again.
MOST_SESSIONS = 1000


@dataclasses.dataclass
class Session:
    """The teller who is signed on at a session, and the name of the transfer form that was shown there last."""
    teller: str
    name: str
    form: str = ""


class Bank:
    """Replies to the host's questions.

    Who is signed on is remembered by `session`, a name that the host uses once and never again, not even after it was started again. An LU
    would be wrong as the key: when the host starts again, the next operator has the LU of the one before. A session that ended is forgotten.
    No end is told if the host is stopped, so of many sessions those are forgotten that were used least recently.

    Each reply that leads to MENU has the teller's name: values that no reply has are empty on a panel that is shown again.
    """

    def __init__(self, path):
        self.path, self.sessions = path, collections.OrderedDict()
        self.keys = {
            ("SIGNON", "enter"): self.sign_on,
            ("MENU", "enter"): self.choose,
            ("MENU", "clear"): self.menu,
            ("MENU", "pf3"): self.sign_off,
            ("BALANCE", "enter"): self.balance,
            ("BALANCE", "pf3"): self.menu,
            ("TRANSFER", "enter"): self.transfer,
            ("TRANSFER", "pf3"): self.menu,
            ("BOOKINGS", "enter"): self.bookings,
            ("BOOKINGS", "pf3"): self.menu,
        }

    def reply(self, question):
        """The reply to a question, where every fault is a message, or to the notification that a session ended, which has none."""
        if "event" in question:
            self.sessions.pop(question["session"], None)
            return {}
        panel, key = question["panel"], question["key"]
        session = self.sessions.pop(question["session"], None)
        if panel != "SIGNON":
            if session is None:
                return {"panel": "SIGNON", "message": "SIGN ON FIRST"}
            self.remember(question, session)
        try:
            if (panel, key) not in self.keys:
                raise Refused(f"KEY NOT KNOWN: {key.upper()}")
            return self.keys[panel, key](question, session)
        except Refused as refused:
            return refused.reply
        except sqlite3.Error as fault:
            print(f"bank.py: {fault}", file=sys.stderr, flush=True)
            return {"message": "DATABASE NOT AVAILABLE"}

    def remember(self, question, session):
        """Keeps a session, as the one that was used last."""
        self.sessions[question["session"]] = session
        if len(self.sessions) > MOST_SESSIONS:
            self.sessions.popitem(last=False)

    def sign_on(self, question, _):
        number, password = question["fields"]["teller"], question["fields"]["password"]
        with transaction(self.path) as database:
            teller = database.execute("SELECT name, salt, hash FROM teller WHERE number = ?", (number,)).fetchone()
        # An unknown number takes as long as a wrong password.
        name, salt, wanted = teller or ("", bytes(16), b"")
        if not hmac.compare_digest(hash_of(password, salt), wanted):
            raise Refused("TELLER NUMBER OR PASSWORD IS WRONG", "password", password="")
        session = Session(number, name)
        self.remember(question, session)
        return self.menu(question, session, f"WELCOME, {name}")

    def sign_off(self, question, _):
        self.sessions.pop(question["session"], None)
        return {"panel": "SIGNON", "message": "SIGNED OFF"}

    def menu(self, _, session, message=""):
        return {"panel": "MENU", "fields": {"name": session.name}, "message": message}

    def choose(self, question, session):
        choice = question["fields"]["choice"]
        if choice == "1":
            return {"panel": "BALANCE"}
        if choice == "2":
            session.form = uuid.uuid4().hex
            return {"panel": "TRANSFER"}
        if choice == "3":
            return self.bookings(question, session)
        raise Refused("CHOOSE 1, 2 OR 3", "choice", choice="")

    def balance(self, question, _):
        with transaction(self.path) as database:
            holder, cents = account_of(database, question["fields"]["account"], "account")
        return {"fields": {"holder": holder, "balance": amount_text(cents)}}

    def transfer(self, question, session):
        fields = question["fields"]
        debit, credit, cents, reference = fields["from_account"], fields["to_account"], cents_of(fields["amount"]), fields["reference"]
        if "\ufffd" in reference:
            raise Refused("THE REFERENCE HAS AN UNKNOWN CHARACTER", "reference")
        with transaction(self.path) as database:
            # If a reply was lost the operator presses Enter again. What a form asks for is done once.
            if booked := database.execute("SELECT number FROM booking WHERE form = ?", (session.form,)).fetchone():
                return self.menu(question, session, f"BOOKING {booked[0]} WAS DONE BEFORE")
            _, available = account_of(database, debit, "from_account")
            account_of(database, credit, "to_account")
            if debit == credit:
                raise Refused("THE ACCOUNTS ARE THE SAME", "to_account")
            if available < cents:
                raise Refused("NOT ENOUGH MONEY IN THE ACCOUNT", "amount")
            database.execute("UPDATE account SET cents = cents - ? WHERE number = ?", (cents, debit))
            database.execute("UPDATE account SET cents = cents + ? WHERE number = ?", (cents, credit))
            row = (session.form, session.teller, debit, credit, cents, reference)
            booking = database.execute("INSERT INTO booking VALUES (NULL, ?, date('now', 'localtime'), ?, ?, ?, ?, ?)", row).lastrowid
        return self.menu(question, session, f"BOOKING {booking} DONE")

    def bookings(self, _, session):
        with transaction(self.path) as database:
            rows = database.execute(LAST_BOOKINGS, (session.teller,)).fetchall()
        lines = [f"{no:5}  {day}  {debit}  {credit}  {amount_text(cents):>12}  {text}" for no, day, debit, credit, cents, text in rows]
        return {"panel": "BOOKINGS", "fields": {"line": lines}, "message": "" if rows else "NO BOOKINGS"}


# ---- the server


class Handler(http.server.BaseHTTPRequestHandler):
    """A session's questions, in a thread of their own."""

    # An idle connection is closed after 5 seconds; a reply is sent in one piece.
    protocol_version, timeout, wbufsize = "HTTP/1.1", 5, -1

    def do_POST(self):
        question = json.loads(self.rfile.read(int(self.headers["Content-Length"])))
        content = json.dumps(self.server.bank.reply(question)).encode()
        self.send_response(200)
        self.send_header("Content-Length", str(len(content)))
        self.send_header("Keep-Alive", f"timeout={self.timeout}")
        self.end_headers()
        self.wfile.write(content)

    def log_message(self, *_):
        """Prints no line for each question."""


class Server(http.server.ThreadingHTTPServer):
    # As many operators may ask at once.
    request_queue_size = 64


def main():
    words = argparse.ArgumentParser(description="The application of a bank, for the panels of bank-asks.toml.")
    words.add_argument("--database", default="bank.db", metavar="FILE", help="the SQLite file, created if needed [default: bank.db]")
    words.add_argument("--port", type=int, default=8080, help="the port of 127.0.0.1; 0 takes a free one [default: 8080]")
    given = words.parse_args()
    create(given.database)
    with Server(("127.0.0.1", given.port), Handler) as server:
        server.bank = Bank(given.database)
        print(f"listening on http://127.0.0.1:{server.server_port}/bank", flush=True)
        with contextlib.suppress(KeyboardInterrupt):
            server.serve_forever()


if __name__ == "__main__":
    main()
