"""Tellers at the bank of examples/bank.py: each screen, and the database afterwards."""
import datetime
import pathlib
import subprocess
import sys
import threading

from harness import hosts, tty
from harness.bank import (
    ANN,
    Application,
    BOOT,
    FIRST_BALANCES,
    JOHN,
    PANELS,
    a_bank,
    balance,
    balances,
    bookings,
    does_to,
    is_listening,
    menu,
    rows_of,
    screen,
    sees,
    sign_on,
    transfer,
    works,
)
from harness.case import TOP, Checks, expect

check = Checks()
cases = check.cases


@check
def a_teller_works_at_the_bank():
    """Signs on at the second attempt, looks up a balance, transfers money at the second attempt,
    lists the bookings, and signs off."""
    with a_bank() as (database, _, host):
        days = [datetime.date.today().isoformat()]
        printed = works(
            host,
            *"SHOW 4711 TAB WRONG ENTER SHOW ENTER SHOW SECRET ENTER SHOW".split(),
            *"1 ENTER SHOW 1000200030 ENTER SHOW PF3 SHOW".split(),
            *"2 ENTER SHOW 1000200030 1000200044 1250.01 TAB".split(),
            *("RENT, NOVEMBER", "ENTER", "SHOW"),
            *"ERASEEOF 1249.50 ENTER SHOW 3 ENTER SHOW PF3 PF3 SHOW".split(),
        )
        days.append(datetime.date.today().isoformat())
        form = ("1000200030", "1000200044")
        day = rows_of(database, "SELECT max(day) FROM booking")[0][0]
        sees(
            printed,
            sign_on(),
            sign_on("TELLER NUMBER OR PASSWORD IS WRONG", "4711", (7, 30)),
            sign_on("REQUIRED: password", "4711", (7, 30)),
            menu("WELCOME, ANN MILLER"),
            balance(),
            balance("1000200030", "J. BAKER", "1,250.00"),
            menu(),
            transfer(),
            transfer(
                *form, "1250.01", "RENT, NOVEMBER", "NOT ENOUGH MONEY IN THE ACCOUNT", (9, 30)
            ),
            menu("BOOKING 1 DONE"),
            bookings(f"    1  {day}  1000200030  1000200044      1,249.50  RENT, NOVEMBER"),
            sign_on("SIGNED OFF"),
        )
        expect(
            "the balances",
            balances(database),
            [("1000200030", 50), ("1000200044", 134850), ("1000200058", 0)],
        )
        expect("the day of the booking", day in days, True)
        columns = "number, teller, debit, credit, cents, reference"
        booked = [(1, "4711", "1000200030", "1000200044", 124950, "RENT, NOVEMBER")]
        expect("the bookings", rows_of(database, f"SELECT {columns} FROM booking"), booked)
        expect(
            "a password in the database", b"SECRET" in pathlib.Path(database).read_bytes(), False
        )


@check
def all_money_can_be_transferred():
    """The whole balance can be transferred, and then nothing is left."""
    with a_bank() as (database, _, host):
        does = (
            "2",
            "ENTER",
            "1000200044",
            "1000200058",
            "99.00",
            "ENTER",
            "SHOW",
            "1",
            "ENTER",
            "1000200044",
            "ENTER",
            "SHOW",
        )
        sees(
            works(host, *ANN, *does),
            menu("BOOKING 1 DONE"),
            balance("1000200044", "M. CARTER", "0.00"),
        )
        expect(
            "the balances",
            balances(database),
            [("1000200030", 125000), ("1000200044", 0), ("1000200058", 9900)],
        )


@check
def the_last_ten_bookings_are_listed():
    """Of eleven bookings the last ten are listed, the last one first; those of another teller
    aren't."""
    with a_bank() as (database, _, host):
        row = (
            "INSERT INTO booking VALUES ({0}, 'F{0}', '2026-01-{0:02}', '{1}', "
            "'1000200030', '1000200044', {2}, 'NO. {0}')"
        )
        does_to(
            database,
            *(row.format(number, "4711", number * 10000000) for number in range(1, 12)),
            row.format(12, "4712", 1),
        )
        lines = [
            "   11  2026-01-11  1000200030  1000200044  1,100,000.00  NO. 11",
            "   10  2026-01-10  1000200030  1000200044  1,000,000.00  NO. 10",
            "    9  2026-01-09  1000200030  1000200044    900,000.00  NO. 9",
            "    8  2026-01-08  1000200030  1000200044    800,000.00  NO. 8",
            "    7  2026-01-07  1000200030  1000200044    700,000.00  NO. 7",
            "    6  2026-01-06  1000200030  1000200044    600,000.00  NO. 6",
            "    5  2026-01-05  1000200030  1000200044    500,000.00  NO. 5",
            "    4  2026-01-04  1000200030  1000200044    400,000.00  NO. 4",
            "    3  2026-01-03  1000200030  1000200044    300,000.00  NO. 3",
            "    2  2026-01-02  1000200030  1000200044    200,000.00  NO. 2",
        ]
        sees(
            works(host, *ANN, "3", "ENTER", "SHOW", "ENTER", "SHOW"),
            bookings(*lines),
            bookings(*lines),
        )


@check
def the_next_teller_sees_nothing_of_the_last_one():
    """After sign-off the next teller sees no name, account, amount or booking of the one before, on
    the same connection and LU."""
    with a_bank() as (_, _, host):
        ann = (
            "1",
            "ENTER",
            "1000200030",
            "ENTER",
            "PF3",
            "2",
            "ENTER",
            "1000200030",
            "1000200044",
            "10.00",
            "TAB",
            "GIFT",
            "ENTER",
        )
        john = (
            "SHOW", "1", "ENTER", "SHOW", "PF3", "2", "ENTER", "SHOW", "PF3", "3", "ENTER", "SHOW"
        )
        wanted = [
            menu("WELCOME, JOHN SMITH", "JOHN SMITH"),
            balance(),
            transfer(),
            bookings(message="NO BOOKINGS"),
        ]
        sees(
            works(host, *ANN, *ann, "3", "ENTER", "PF3", "PF3", "SHOW", *JOHN, *john),
            sign_on("SIGNED OFF"),
            *wanted,
        )
        sees(works(host, "SHOW", *JOHN, *john), sign_on(), *wanted)


@check
def each_fault_is_a_message():
    """What can't be done is a message on the same panel, with the cursor where it can be corrected,
    and no money moves."""
    # An inactive key that the host asks about all the same.
    asks = b'asks = ["enter", "clear", "pf3"]'
    panels = PANELS.replace(asks, asks.replace(b'"pf3"', b'"pf3", "pf9"'))
    here, there = "1000200030", "1000200044"
    faults = [
        (
            ("100020003", "TAB", there, "1.00"),
            (here[:-1], there, "1.00"),
            "AN ACCOUNT NUMBER HAS TEN DIGITS",
            (5, 30),
        ),
        (("1000200031", there, "1.00"), ("1000200031", there, "1.00"), "NO SUCH ACCOUNT", (5, 30)),
        ((here, "1000200031", "1.00"), (here, "1000200031", "1.00"), "NO SUCH ACCOUNT", (7, 30)),
        ((here, here, "1.00"), (here, here, "1.00"), "THE ACCOUNTS ARE THE SAME", (7, 30)),
        ((here, there, "0.00"), (here, there, "0.00"), "AN AMOUNT IS AT LEAST 0.01", (9, 30)),
    ]
    for amount in ("1", "1.0", ".10", "-1.00", "1.000", "1.1.1"):
        faults.append(
            ((here, there, amount), (here, there, amount), "TYPE THE AMOUNT AS 150.00", (9, 30))
        )
    does, wanted = [*ANN], []
    for typed, form, message, cursor in faults:
        does += ["2", "ENTER", *typed, "ENTER", "SHOW", "PF3"]
        wanted.append(transfer(*form, message=message, cursor=cursor))
    does += [
        "4",
        "ENTER",
        "SHOW",
        "PF9",
        "SHOW",
        "1",
        "ENTER",
        here,
        "ENTER",
        "1000200031",
        "ENTER",
        "SHOW",
    ]
    does += ["CLEAR", "SHOW", "1", "ENTER", "SHOW"]
    wanted += [
        menu("CHOOSE 1, 2 OR 3"),
        menu("KEY NOT KNOWN: PF9"),
        balance("1000200031", message="NO SUCH ACCOUNT"),
    ]
    wanted += [balance(), balance("1", message="AN ACCOUNT NUMBER HAS TEN DIGITS")]
    with a_bank(panels) as (database, _, host):
        sees(works(host, *does), *wanted)
        expect("the balances", balances(database), FIRST_BALANCES)
        expect("the bookings", rows_of(database, "SELECT * FROM booking"), [])


@check
def sign_on_is_refused():
    """An unknown teller, another's password and a password in small letters are refused, all with
    one message."""
    with a_bank() as (_, _, host):
        refused = sign_on("TELLER NUMBER OR PASSWORD IS WRONG", "4711", (7, 30))
        does = (
            "4713",
            "TAB",
            "SECRET",
            "ENTER",
            "SHOW",
            "HOME",
            "4711",
            "TAB",
            "HIDDEN",
            "ENTER",
            "SHOW",
            "secret",
            "ENTER",
            "SHOW",
        )
        sees(
            works(host, *does),
            sign_on("TELLER NUMBER OR PASSWORD IS WRONG", "4713", (7, 30)),
            refused,
            refused,
        )


@check
def who_has_not_signed_on_is_led_to_the_first_panel():
    """A session in which nobody signed on is led from every panel to SIGNON, with a message, also
    after the application was restarted."""
    with a_bank(PANELS.replace(b'start = "SIGNON"', b'start = "MENU"')) as (
        database, application, host
    ):
        printed = works(host, "SHOW", "3", "ENTER", "SHOW", "ENTER", "SHOW")
        sees(printed, menu(name=""), sign_on("SIGN ON FIRST"), sign_on("REQUIRED: teller"))
        question = {
            "session": f"{BOOT}-90",
            "turn": 1,
            "lu": "BANK04",
            "key": "enter",
            "cursor": {"row": 1, "col": 1},
            "fields": {},
        }
        for panel in ("MENU", "BALANCE", "TRANSFER", "BOOKINGS"):
            came = application.replies({**question, "panel": panel})
            expect(
                f"the reply to {panel}",
                (came.get("panel"), came.get("message")),
                ("SIGNON", "SIGN ON FIRST"),
            )
        signs_on = {
            **question, "panel": "SIGNON", "fields": {"teller": "4711", "password": "SECRET"}
        }
        fails = {**question, "panel": "SIGNON", "fields": {"teller": "4711", "password": "WRONG"}}
        lists = {**question, "panel": "MENU", "fields": {"choice": "3"}}
        signs_off = {**lists, "key": "pf3"}
        for what, asked, panel in (
            ("a sign-on", signs_on, "MENU"),
            ("one who signed on", lists, "BOOKINGS"),
            ("another session on the LU", {**lists, "session": f"{BOOT}-91"}, "SIGNON"),
            (
                "that session of another start of the host",
                {**lists, "session": f"{BOOT[::-1]}-90"},
                "SIGNON",
            ),
            ("a sign-off", signs_off, "SIGNON"),
            ("one who signed off", lists, "SIGNON"),
            ("a sign-on", signs_on, "MENU"),
            ("one who fails to sign on", fails, None),
            ("one who failed to sign on", lists, "SIGNON"),
            ("a sign-on", signs_on, "MENU"),
        ):
            expect(f"the reply to {what}", application.replies(asked).get("panel"), panel)
        with Application(database) as again:
            expect("the reply after a start", again.replies(lists).get("panel"), "SIGNON")


@check
def a_host_that_starts_again_has_other_sessions():
    """Who comes first after a restart of the host in the middle of a session gets nothing of it, on
    the same LU and from any panel."""
    menu_first = PANELS.replace(b'start = "SIGNON"', b'start = "MENU"')
    with a_bank() as (_, application, host):
        with tty.Operator(host.port) as ann:
            ann.sees("BANK01")
            ann.types("4711", tty.TAB, "SECRET", tty.ENTER)
            ann.sees("WELCOME, ANN MILLER")
            ann.types("2", tty.ENTER)
            ann.sees("FROM ACCOUNT")
            ann.types("1000200030", "1000200044", "10.00", tty.TAB, "GIFT", tty.ENTER)
            ann.sees("BOOKING 1 DONE")
            host.process.kill()
            ann.sees("not connected")
        for key in ("1", "2", "3"):
            with hosts.Server("serve", "--application", application.url, text=menu_first) as again:
                sees(
                    works(again, "SHOW", key, "ENTER", "SHOW"),
                    menu(name=""),
                    sign_on("SIGN ON FIRST"),
                )
                expect("its LU", "event=bound lu=BANK01" in again.logged(), True)
        with hosts.Server("serve", "--application", application.url, text=PANELS) as again:
            sees(
                works(again, "SHOW", *JOHN, "SHOW", "3", "ENTER", "SHOW"),
                sign_on(),
                menu("WELCOME, JOHN SMITH", "JOHN SMITH"),
                bookings(message="NO BOOKINGS"),
            )


@check
def a_form_is_booked_once():
    """A transfer whose reply was lost is asked for again, and isn't done twice; the next form is
    another transfer."""
    with a_bank() as (database, application, _):
        question = {
            "session": f"{BOOT}-90",
            "turn": 1,
            "lu": "BANK04",
            "key": "enter",
            "cursor": {"row": 1, "col": 1},
        }
        form = {
            "from_account": "1000200030",
            "to_account": "1000200044",
            "amount": "10.00",
            "reference": "",
        }
        steps = [
            ("SIGNON", {"teller": "4711", "password": "SECRET"}, "WELCOME, ANN MILLER"),
            ("MENU", {"choice": "2"}, None),
            ("TRANSFER", form, "BOOKING 1 DONE"),
            ("TRANSFER", form, "BOOKING 1 WAS DONE BEFORE"),
            ("MENU", {"choice": "2"}, None),
            ("TRANSFER", {**form, "reference": "\ufffd"}, "THE REFERENCE HAS AN UNKNOWN CHARACTER"),
            ("TRANSFER", form, "BOOKING 2 DONE"),
        ]
        for panel, fields, message in steps:
            came = application.replies({**question, "panel": panel, "fields": fields})
            expect("a message", came.get("message"), message)
        expect(
            "the balances",
            balances(database),
            [("1000200030", 123000), ("1000200044", 11900), ("1000200058", 0)],
        )


@check
def tellers_work_at_once():
    """Of transfers between the same accounts by eight tellers at once none is lost, and none is
    refused as long as there is money."""
    with a_bank() as (database, application, _):
        accounts = ["1000200030", "1000200044"]
        messages = []

        def transfers(number):
            """Five times 2.00, to the other account by every second teller."""
            asked = {
                "session": f"{BOOT}-{number}",
                "turn": 1,
                "lu": f"LU{number}",
                "key": "enter",
                "cursor": {"row": 1, "col": 1},
            }
            debit, credit = accounts[:: 1 if number % 2 else -1]
            form = {
                "from_account": debit,
                "to_account": credit,
                "amount": "2.00",
                "reference": f"BY {number}",
            }
            application.replies(
                {**asked, "panel": "SIGNON", "fields": {"teller": "4711", "password": "SECRET"}}
            )
            for _ in range(5):
                application.replies({**asked, "panel": "MENU", "fields": {"choice": "2"}})
                messages.append(
                    application.replies({**asked, "panel": "TRANSFER", "fields": form})
                    .get("message")
                )

        # Five from the first account, three to it.
        threads = [
            threading.Thread(target=transfers, args=(number,))
            for number in (1, 2, 3, 4, 5, 6, 7, 9)
        ]
        for step in (threading.Thread.start, threading.Thread.join):
            for it in threads:
                step(it)
        expect(
            "the messages",
            sorted(messages),
            sorted(f"BOOKING {number} DONE" for number in range(1, 41)),
        )
        expect(
            "the balances",
            balances(database),
            [("1000200030", 123000), ("1000200044", 11900), ("1000200058", 0)],
        )
        count = (
            "SELECT reference, count(*), sum(cents) FROM booking "
            "GROUP BY reference ORDER BY reference"
        )
        expect(
            "the bookings",
            rows_of(database, count),
            [(f"BY {number}", 5, 1000) for number in (1, 2, 3, 4, 5, 6, 7, 9)],
        )


@check
def a_database_that_fails_is_a_message():
    """A fault of the database is a message, and nothing of a transfer that fails in its middle is
    done."""
    with a_bank() as (database, application, host):
        does_to(
            database,
            "CREATE TRIGGER fails BEFORE INSERT ON booking "
            "BEGIN SELECT raise(ABORT, 'no room'); END",
        )
        form = ("1000200030", "1000200044", "1.00")
        printed = works(host, *ANN, "2", "ENTER", *form, "ENTER", "SHOW")
        sees(printed, transfer(*form, message="DATABASE NOT AVAILABLE"))
        expect("the balances", balances(database), FIRST_BALANCES)
    # The host that ends doesn't wait for the reply to the session's end, of which the application may
    # complain, too.
    expect("what the application says", application.said.split("-" * 40)[0], "bank.py: no room\n")


@check
def a_database_that_exists_is_kept():
    """The application doesn't create tellers and accounts in a database that has them."""
    with a_bank() as (database, _, host):
        works(host, *ANN, "2", "ENTER", "1000200030", "1000200044", "1.00", "ENTER")
        before = [
            rows_of(database, f"SELECT * FROM {table}")
            for table in ("teller", "account", "booking")
        ]
        with Application(database):
            expect(
                "the tables",
                [
                    rows_of(database, f"SELECT * FROM {table}")
                    for table in ("teller", "account", "booking")
                ],
                before,
            )


@check
def the_first_application_greets():
    """The application in 15 lines greets who types a name, and is the one that README prints."""
    code = (TOP / "examples/greeting.py").read_text()
    printed = "".join(f"    {line}\n" if line else "\n" for line in code.splitlines())
    expect("README prints it", printed in (TOP / "README.md").read_text(), True)
    port = hosts.free_port()
    process = subprocess.Popen(
        [sys.executable, "-c", code.replace("8080", str(port))], stderr=subprocess.DEVNULL
    )
    try:
        hosts.until("the application listens", lambda: is_listening(port))
        panels = (TOP / "examples/greeting.toml").read_bytes()
        with hosts.Server(
            "serve", "--application", f"http://127.0.0.1:{port}/", text=panels
        ) as host:
            wanted = screen(
                (3, 2), (1, 2, "WHO IS THERE?"), (3, 2, "ADA"), (24, 2, "GOOD MORNING, ADA")
            )
            sees(works(host, "ADA", "ENTER", "SHOW"), wanted)
    finally:
        process.kill()
        process.wait()
