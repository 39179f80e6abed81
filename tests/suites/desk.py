"""Agents at the ticket desk of examples/desk.py: each screen; desk and bank over restarts."""
import contextlib
import datetime
import os
import tempfile

from harness import bank, hosts
from harness.bank import Application, does_to, rows_of, screen, sees, works
from harness.case import TOP, Checks, expect
from harness.s3270 import S3270, is_wanted

check = Checks()
cases = check.cases

DESK, PANELS = TOP / "examples/desk.py", (TOP / "examples/desk.toml").read_bytes()
ANN = ("ANN", "TAB", "SECRET", "ENTER")


@contextlib.contextmanager
def folder_for(name):
    """The name of a database that doesn't exist yet."""
    with tempfile.TemporaryDirectory() as folder:
        yield os.path.join(folder, name)


@contextlib.contextmanager
def a_desk(database):
    """A desk with a database, and its host."""
    with Application(database, DESK) as application:
        with hosts.Server("serve", "--application", application.url, text=PANELS) as host:
            yield application, host
            logged = host.logged()
            expect("faults in the host's log", "event=application-" in logged, False)


# ---- the screens


def sign_on(count, message="", agent="", cursor=(5, 30)):
    rows = [(1, 35, "TICKET DESK"), (3, 10, f"OPEN TICKETS: {count}"), (5, 10, "AGENT")]
    rows += [(5, 30, agent), (7, 10, "PASSWORD"), (23, 2, "ENTER SIGN ON"), (24, 2, message)]
    return screen(cursor, *rows)


def listed(*tickets, message="", choice=""):
    rows = [(1, 35, "OPEN TICKETS"), (3, 4, "NUMBER  OPENED      TITLE")]
    for row, (number, day, title) in enumerate(tickets, 4):
        rows += [(row, 4, str(number)), (row, 12, day), (row, 24, title)]
    keys = "ENTER OPEN   PF3 SIGN OUT   PF5 NEW   PF7 UP   PF8 DOWN"
    rows += [(16, 4, "TICKET"), (16, 12, choice), (23, 2, keys), (24, 2, message)]
    return screen((16, 12), *rows)


def ticket(heading, *lines):
    rows = [(1, 35, "TICKET"), (3, 10, heading)]
    rows += [(row, 10, line) for row, line in enumerate(lines, 5)]
    return screen((1, 1), *rows, (23, 2, "ENTER DONE   PF3 LIST"))


def new(message=""):
    rows = [(1, 35, "NEW TICKET"), (4, 4, "TITLE"), (6, 4, "TEXT")]
    return screen((4, 12), *rows, (23, 2, "ENTER SAVE   PF3 LIST"), (24, 2, message))


# ---- what agents do


@check
def an_agent_works_at_the_desk():
    """Sees how many tickets are open before anything is typed, signs on at the second attempt,
    writes a ticket, opens it, and ends it."""
    with folder_for("desk.db") as database, a_desk(database) as (_, host):
        days = [datetime.date.today().isoformat()]
        title = "THE PRINTER HAS NO PAPER"
        printed = works(
            host,
            *"SHOW ENTER SHOW ANN TAB WRONG ENTER SHOW SECRET ENTER SHOW PF5 SHOW".split(),
            *("ENTER", "SHOW", title, "TAB", "FLOOR 3", "TAB", "TAB", "ASK BOB", "ENTER", "SHOW"),
            *"1 ENTER SHOW PF3 SHOW 9 ENTER SHOW CLEAR SHOW 1 ENTER ENTER SHOW".split(),
        )
        day = rows_of(database, "SELECT day FROM ticket")[0][0]
        days.append(datetime.date.today().isoformat())
        expect("the day of the ticket", day in days, True)
        row = (1, day, title)
        sees(
            printed,
            sign_on(0),
            sign_on(0, "REQUIRED: AGENT"),
            sign_on(0, "AGENT OR PASSWORD IS WRONG", "ANN", (7, 30)),
            listed(message="WELCOME, ANN"),
            new(),
            new("REQUIRED: TITLE"),
            listed(row, message="TICKET 1 IS OPEN"),
            ticket(f"1 BY ANN: {title}", "FLOOR 3", "", "ASK BOB"),
            listed(row),
            listed(row, message="TYPE THE NUMBER OF A TICKET"),
            listed(row),
            listed(message="TICKET 1 IS DONE"),
        )


@check
def tickets_are_listed_ten_by_ten():
    """The last page has fewer rows, and the others are empty there; the page stays while a ticket
    is open."""
    with folder_for("desk.db") as database, a_desk(database) as (_, host):
        row = (
            "INSERT INTO ticket (form, agent, title, lines, day) "
            "VALUES ({0}, 'BOB', 'NO. {0}', '[]', '2026-01-{0:02}')"
        )
        does_to(database, *(row.format(it) for it in range(1, 24)))
        rows = [(it, f"2026-01-{it:02}", f"NO. {it}") for it in range(1, 24)]
        sees(
            works(host, *ANN, *"SHOW PF8 SHOW PF8 SHOW PF8 SHOW 21 ENTER SHOW PF3 SHOW".split()),
            listed(*rows[:10], message="WELCOME, ANN"),
            listed(*rows[10:20]),
            listed(*rows[20:]),
            listed(*rows[20:], message="NO MORE TICKETS"),
            ticket("21 BY BOB: NO. 21"),
            listed(*rows[20:]),
        )
        sees(
            works(host, *ANN, *"PF8 PF7 SHOW PF7 SHOW".split()),
            listed(*rows[:10]),
            listed(*rows[:10]),
        )


@check
def a_form_makes_one_ticket():
    """A ticket whose reply was lost is asked for again, and isn't made twice; who isn't signed on,
    or signed out, sees nothing."""
    with folder_for("desk.db") as database, a_desk(database) as (application, _):
        question = {"session": f"{bank.BOOT}-90", "turn": 1, "lu": "DESK04", "key": "enter"}
        form = {"subject": "ONE", "text": ["A", "", "", "", ""]}
        first = {"news": "OPEN TICKETS: 0"}
        steps = [
            ("LIST", "enter", {"choice": "1"}, {"panel": "SIGNON", "message": "SIGN ON FIRST"}),
            ("SIGNON", "connect", {}, {"panel": "SIGNON", "fields": first}),
            ("SIGNON", "enter", {"agent": "ANN", "password": "SECRET"}, {"panel": "LIST"}),
            ("LIST", "pf5", {"choice": ""}, {"panel": "NEW"}),
            ("NEW", "enter", form, {"message": "TICKET 1 IS OPEN"}),
            ("NEW", "enter", form, {"message": "TICKET 1 IS OPEN"}),
            ("LIST", "pf3", {"choice": ""}, {"message": "SIGNED OUT", "end": True}),
            ("LIST", "enter", {"choice": "1"}, {"message": "SIGN ON FIRST"}),
        ]
        for panel, key, fields, wanted in steps:
            came = application.replies({**question, "panel": panel, "key": key, "fields": fields})
            expect(f"the reply to {key} on {panel}", {**came, **wanted}, came)
        expect("the tickets", rows_of(database, "SELECT number, title FROM ticket"), [(1, "ONE")])


# ---- s3270, and restarts


def connects(terminal, host, *texts):
    """Connects to a host, whose first screen has these texts."""
    terminal.does(f"Connect(127.0.0.1:{host.port})")
    hosts.until(f"{texts} are shown", lambda: shows(terminal, *texts))


def shows(terminal, *texts):
    return all(it in "\n".join(terminal.shows()) for it in texts)


def acts(terminal, *actions, sees=()):
    """Does these actions, and then sees these texts."""
    terminal.does(*actions)
    hosts.until(f"{sees} are shown after {actions}", lambda: shows(terminal, *sees))


@check
def an_agent_goes_on_after_a_restart_of_the_desk():
    """Of s3270 and of term: the session goes on when the desk alone is started again, and tickets
    are there when the host is, too; a sign-out shows its screen and ends the session."""
    is_wanted("s3270")
    with folder_for("desk.db") as database, S3270(2) as terminal:
        with contextlib.ExitStack() as end:
            desk = end.enter_context(Application(database, DESK))
            host = end.enter_context(
                hosts.Server("serve", "--application", desk.url, text=PANELS)
            )
            connects(terminal, host, "OPEN TICKETS: 0")
            acts(terminal, "String(ANN)", "Tab", "String(SECRET)", "Enter", sees=["WELCOME, ANN"])
            acts(terminal, "PF(5)", sees=["NEW TICKET"])
            desk.__exit__()
            end.enter_context(Application(database, DESK, desk.url.split(":")[-1].split("/")[0]))
            acts(terminal, 'String("NO PAPER")', "Enter", sees=["TICKET 1 IS OPEN", "NO PAPER"])
            sees(works(host, "SHOW"), sign_on(1))
        with a_desk(database) as (_, host):
            connects(terminal, host, "OPEN TICKETS: 1")
            acts(terminal, "String(BOB)", "Tab", "String(HIDDEN)", "Enter", sees=["NO PAPER"])
            day = rows_of(database, "SELECT day FROM ticket")[0][0]
            wanted = listed((1, day, "NO PAPER"), message="WELCOME, ANN")
            sees(works(host, *ANN, "SHOW"), wanted)
            terminal.does("PF(3)")
            hosts.until("the session ends", lambda: "event=ended-by-application" in host.logged())


@check
def a_teller_signs_on_again_after_a_restart_of_the_bank():
    """Of s3270 and of term: what was booked is there when host and application are started again,
    and nobody is signed on."""
    is_wanted("s3270")
    with folder_for("bank.db") as database, S3270(2) as terminal:
        for number in (1, 2):
            with Application(database) as application:
                words = ("serve", "--application", application.url)
                with hosts.Server(*words, text=bank.PANELS) as host:
                    connects(terminal, host, "TELLER NUMBER")
                    signs_on = ("String(4711)", "Tab", "String(SECRET)", "Enter")
                    acts(terminal, *signs_on, sees=["WELCOME, ANN MILLER"])
                    acts(terminal, "String(2)", "Enter", sees=["FROM ACCOUNT"])
                    form = ["String(1000200030)", "String(1000200044)", "String(1.00)", "Enter"]
                    acts(terminal, *form, sees=[f"BOOKING {number} DONE"])
                    shown = works(host, *bank.ANN, "3", "ENTER", "SHOW").splitlines()
                    expect("the bookings", sum("1000200030" in it for it in shown), number)
                    acts(terminal, "String(3)", "Enter", sees=["YOUR LAST BOOKINGS", "1.00"])
        expect("the balance", bank.balances(database)[0], ("1000200030", 124800))
