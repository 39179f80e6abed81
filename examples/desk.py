#!/usr/bin/env python3
"""A ticket desk, an application for the panels of desk.toml (docs/APPLICATIONS.md). All data is in an SQLite file."""
import argparse, contextlib, hashlib, hmac, json, os, socketserver, sqlite3
from wsgiref.simple_server import WSGIServer, make_server

TABLES = """CREATE TABLE IF NOT EXISTS agent (name TEXT PRIMARY KEY, hash BLOB);
    CREATE TABLE IF NOT EXISTS ticket (number INTEGER PRIMARY KEY, form TEXT UNIQUE, agent TEXT, title TEXT, lines TEXT,
        day TEXT DEFAULT (date('now', 'localtime')), is_done INTEGER DEFAULT 0);
    CREATE TABLE IF NOT EXISTS session (name TEXT PRIMARY KEY, agent TEXT, page INTEGER, form TEXT, ticket INTEGER);"""
PAGE = "SELECT CAST(number AS TEXT), day, title FROM ticket WHERE NOT is_done ORDER BY number LIMIT 10 OFFSET ?"
# If a reply is lost the operator presses Enter again: a form makes one ticket.
SAVE = """INSERT INTO ticket (form, agent, title, lines) VALUES (?, ?, ?, ?)
    ON CONFLICT (form) DO UPDATE SET form = excluded.form RETURNING number"""


def hash_of(password, salt):
    return salt + hashlib.scrypt(password.encode(), salt=salt, n=1 << 14, r=8, p=1)


class Desk:
    """The answers to a question. A session is a row of the database, which a desk that is started again still has."""

    def __init__(self, database, question):
        self.database, self.session, self.fields = database, question["session"], question.get("fields")
        known = self.rows("SELECT agent, page, form, ticket FROM session WHERE name = ?", self.session)
        [(self.agent, self.page, self.form, self.ticket)] = known or [(None, 0, None, None)]

    def rows(self, statement, *values):
        return self.database.execute(statement, values).fetchall()

    def keep(self, column, value):
        self.rows(f"UPDATE session SET {column} = ? WHERE name = ?", value, self.session)

    def reply(self, panel=None, key=None, turn=0, event=None, **_):
        if event or (panel, key) == ("LIST", "pf3"):
            self.rows("DELETE FROM session WHERE name = ?", self.session)
            return {} if event else {**self.first_screen("SIGNED OUT"), "end": True}
        if panel == "SIGNON":
            return self.sign_on() if key == "enter" else self.first_screen()
        if not self.agent:
            return self.first_screen("SIGN ON FIRST")
        if (panel, key) == ("LIST", "pf5"):
            self.keep("form", f"{self.session} {turn}")
            return {"panel": "NEW"}
        if (panel, key) in self.KEYS:
            return self.KEYS[panel, key](self)
        return self.list(page=max(self.page + {"pf7": -1, "pf8": 1}.get(key, 0), 0))

    def first_screen(self, message=""):
        count = self.rows("SELECT count(*) FROM ticket WHERE NOT is_done")[0][0]
        return {"panel": "SIGNON", "fields": {"news": f"OPEN TICKETS: {count}"}, "message": message}

    def sign_on(self):
        agent = self.fields["agent"]
        [(wanted,)] = self.rows("SELECT hash FROM agent WHERE name = ?", agent) or [(bytes(16),)]
        if not hmac.compare_digest(hash_of(self.fields["password"], wanted[:16]), wanted):
            return {"message": "AGENT OR PASSWORD IS WRONG", "cursor": "password", "fields": {"password": ""}}
        self.rows("INSERT OR REPLACE INTO session (name, agent) VALUES (?, ?)", self.session, agent)
        return self.list(f"WELCOME, {agent}")

    def list(self, message="", page=0):
        rows = self.rows(PAGE, page * 10)
        if page and not rows:
            return self.list("NO MORE TICKETS", page - 1)
        self.keep("page", page)
        return {"panel": "LIST", "message": message, "fields": dict(zip(("number", "day", "title"), zip(*rows)))}

    def open_ticket(self):
        known = self.rows("SELECT number, agent, title, lines FROM ticket WHERE number = ?", self.fields["choice"])
        if not known:
            return {"message": "TYPE THE NUMBER OF A TICKET", "cursor": "choice", "fields": {"choice": ""}}
        number, agent, title, lines = known[0]
        self.keep("ticket", number)
        return {"panel": "TICKET", "fields": {"heading": f"{number} BY {agent}: {title}", "line": json.loads(lines)}}

    def end_ticket(self):
        self.rows("UPDATE ticket SET is_done = 1 WHERE number = ?", self.ticket)
        return self.list(f"TICKET {self.ticket} IS DONE")

    def save_ticket(self):
        [(number,)] = self.rows(SAVE, self.form, self.agent, self.fields["subject"], json.dumps(self.fields["text"]))
        return self.list(f"TICKET {number} IS OPEN")

    KEYS = {("LIST", "enter"): open_ticket, ("TICKET", "enter"): end_ticket, ("NEW", "enter"): save_ticket}


class Server(socketserver.ThreadingMixIn, WSGIServer):
    """Answers each question in a thread of its own."""


if __name__ == "__main__":
    words = argparse.ArgumentParser(description="The application of a ticket desk, for the panels of desk.toml.")
    words.add_argument("--database", default="desk.db", metavar="FILE", help="[default: desk.db]")
    words.add_argument("--port", type=int, default=8080, help="of 127.0.0.1; 0 takes a free one [default: 8080]")
    given = words.parse_args()

    def desk(environ, start_response):
        question = json.loads(environ["wsgi.input"].read(int(environ["CONTENT_LENGTH"])))
        with contextlib.closing(sqlite3.connect(given.database)) as database, database:
            content = json.dumps(Desk(database, question).reply(**question)).encode()
        start_response("200 OK", [("Content-Length", str(len(content)))])
        return [content]

    with contextlib.closing(sqlite3.connect(given.database)) as database, database:
        database.executescript(TABLES)
        for name, password in ("ANN", "SECRET"), ("BOB", "HIDDEN"):
            database.execute("INSERT OR IGNORE INTO agent VALUES (?, ?)", (name, hash_of(password, os.urandom(16))))
    with make_server("127.0.0.1", given.port, desk, Server) as server:
        print(f"listening on http://127.0.0.1:{server.server_port}/desk", flush=True)
        server.serve_forever()
