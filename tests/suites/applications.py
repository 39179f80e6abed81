"""A host whose panels ask an application: what operators see of its replies and failures.

In each check a second operator works on while the first one waits."""
import contextlib
import json
import pathlib
import re
import select
import socket
import time

from harness import hosts
from harness.applications import (
    Application,
    Exchange,
    Host,
    KEYS,
    LIMIT,
    OWN,
    Operator,
    PANELS,
    a_host,
    reply,
)
from harness.case import Checks, expect

check = Checks()
cases = check.cases

NOT_AVAILABLE, ERROR = "APPLICATION NOT AVAILABLE", "APPLICATION ERROR"
# With three copies of a field below each other in place of two fields.
REPEATED = PANELS.replace(
    b'name = "secret"\nrow = 5\ncol = 8\nlength = 8\nhidden = true\n', b""
).replace(b"length = 8\n[[panel.field]]\n", b"length = 8\nrepeat = 3\n", 1)


@check
def an_application_is_told_what_is_seen_and_decides():
    """The request has each key; the answer's panel, texts, message and cursor are shown; and
    another key leads by itself."""
    with a_host() as (host, application, first, second):
        first.presses("enter", "LOGAN", "KEY")
        second.works()
        exchange = application.takes()
        expect("its first line", exchange.head.split(b"\r\n")[0], b"POST /bank?branch=7 HTTP/1.1")
        asked = {
            "session": host.session(0),
            "turn": 1,
            "lu": "PNL01",
            "panel": "WORD",
            "key": "enter",
            "cursor": {"row": 3, "col": 9},
            "terminal": {"model": 2, "rows": 24, "cols": 80},
            "client": first.peer,
        }
        expect(
            "its request", exchange.asked, {**asked, "fields": {"word": "LOGAN", "secret": "KEY"}}
        )
        exchange.sends(
            {"panel": "MENU", "fields": {"choice": "42"}, "message": "WELCOME", "cursor": "choice"}
        )
        answered = first.sees("SECOND PANEL", "42", "WELCOME")
        exchange.is_closed()
        first.presses("pf3")
        fresh = first.sees("FIRST PANEL")
        # Behind the header: Write, and a WCC that restores; that of a fresh panel resets MDT, too.
        expect(
            "two commands",
            [it.encode("cp037")[5:7].hex(" ") for it in (answered, fresh)],
            ["f1 c2", "f1 c3"],
        )
        second.presses("pf1")
        exchange = application.takes()
        expect(
            "who asks",
            [exchange.asked[it] for it in ("session", "lu", "key", "client")],
            [host.session(1), "PNL02", "pf1", second.peer],
        )
        exchange.sends({})
        second.sees()
        application.has_no_other()


@check
def an_application_decides_what_is_shown_first_and_after_clear():
    """At connect it is asked before anything is painted, once, and at Clear; both times without
    fields, with the cursor at 1, 1. Its reply is shown on the panel that it names, else on the
    question's; so is a failure."""
    both = PANELS.replace(b'asks = ["enter"', b'asks = ["connect", "clear", "enter"')
    parts = ("turn", "lu", "panel", "key", "cursor", "fields")
    corner = {"row": 1, "col": 1}
    application = Application()
    with Host(application.url, OWN, text=both) as host:
        first = Operator(host.port).binds("PNL01")
        exchange = application.takes()
        expect(
            "at connect",
            [exchange.asked[it] for it in parts],
            [0, "PNL01", "WORD", "connect", corner, {}],
        )
        expect("a paint before the reply", select.select([first.socket], [], [], 0.2)[0], [])
        exchange.sends({"panel": "MENU", "fields": {"choice": "42"}, "message": "3 ORDERS"})
        first.sees("SECOND PANEL", "42", "3 ORDERS")
        second = Operator(host.port).binds("PNL02")
        application.takes().sends({}, "500 NO")
        second.sees("FIRST PANEL", ERROR)
        application.has_no_other()
        second.says(b"\x00\x00\x00\x00\x00\x6d\xff\xef")
        exchange = application.takes()
        expect(
            "at Clear",
            [exchange.asked[it] for it in parts],
            [1, "PNL02", "WORD", "clear", corner, {}],
        )
        exchange.sends({"fields": {"word": "ADA"}, "message": "AGAIN"})
        second.sees("FIRST PANEL", "ADA", "AGAIN")
        second.presses("pf3")
        second.sees("SECOND PANEL")
        application.has_no_other()


@check
def a_key_before_the_first_screen_is_dropped():
    """A terminal that doesn't wait sends Enter while the application is asked at connect: the key
    is dropped and logged, and the question stays open."""
    application = Application()
    text = PANELS.replace(b'asks = ["enter"', b'asks = ["connect", "enter"')
    with Host(application.url, text=text) as host:
        host.first, host.second = Operator(host.port).binds("PNL01"), None
        exchange = application.takes()
        host.first.presses("enter", "ADA")
        host.has_said("key-dropped key=enter")
        exchange.sends({"message": "GOOD MORNING"})
        host.first.sees("FIRST PANEL", "GOOD MORNING")
        application.has_no_other()


@check
def an_application_is_told_which_terminal_asks():
    """The terminal has the model that it asked for, with the larger size of that model's screen,
    though the panel is of model 2; the client's address is as in the log, also that of IPv6."""
    application = Application()
    with Host(application.url, "--listen", "::1") as host:
        for model, rows, cols in ((2, 24, 80), (3, 32, 80), (4, 43, 80), (5, 27, 132)):
            operator = Operator(host.port, host="::1").signs_on("PNL01", f"IBM-3278-{model}")
            operator.presses("enter")
            exchange = application.takes()
            expect(
                "who asks",
                (exchange.asked["terminal"], exchange.asked["client"]),
                ({"model": model, "rows": rows, "cols": cols}, operator.peer),
            )
            exchange.sends({})
            operator.sees()
            operator.ends()
            application.hears_end(exchange.asked["session"], "PNL01", "lost").sends({})


def a_failure_is_told_and_the_key_asks_again(content, status, message, event, raw=False):
    """A reply's fault is told to its operator alone, the log says it, and the key asks again."""
    with a_host() as (host, application, first, second):
        first.presses("enter", "LOGAN", "HIDDEN")
        second.works()
        exchange = application.takes()
        if raw:
            with contextlib.suppress(OSError):
                exchange.connection.sendall(content)
                exchange.connection.close()
        else:
            exchange.sends(content, status)
        first.sees(message)
        host.has_said(event)
        second.works()
        expect(
            "a hidden text in its log",
            "HIDDEN" in host.logged() or "SESAME" in host.logged(),
            False,
        )
        first.presses("enter", "LOGAN", "HIDDEN")
        application.takes().sends({"message": "ONCE MORE"})
        first.sees("ONCE MORE")


@check
def each_wrong_reply_is_an_error():
    """Each reply that says nothing that the host can do is APPLICATION ERROR, and the log says what
    was wrong."""
    long = b"HTTP/1.1 200 OK\r\n\r\n" + b" " * (1 << 16)
    for content, status, event in (
        ({}, "500 Oh", "status status=500"),
        ({}, "204 None", "status status=204"),
        (b"{", "200 OK", "not-json"),
        (b"[]", "200 OK", "not-json"),
        ({"panel": "NONE"}, "200 OK", 'unknown-panel key="panel"'),
        ({"cursor": "none"}, "200 OK", 'unknown-field key="cursor"'),
        ({"fields": {"none": "SESAME"}}, "200 OK", 'unknown-field key="none"'),
        ({"cursor": "choice"}, "200 OK", 'unknown-field key="cursor"'),
        ({"panel": "MENU", "cursor": "word"}, "200 OK", 'unknown-field key="cursor"'),
        ({"panel": "WIDE", "cursor": "choice"}, "200 OK", 'unknown-field key="cursor"'),
        ({"fields": {"no\u2019ne": "SESAME"}}, "200 OK", 'unknown-field key="no\u2019ne"'),
        ({"fields": {"word": 1}}, "200 OK", 'field-not-text key="word"'),
        ({"fields": {"word": ["A"]}}, "200 OK", 'field-not-array key="word"'),
        ({"fields": {"word": []}}, "200 OK", 'field-not-array key="word"'),
        ({"fields": {"line": ["A", "B", "SESAME"]}}, "200 OK", 'unknown-field key="line.3"'),
        ({"fields": {"line": ["A", 1]}}, "200 OK", 'field-not-text key="line"'),
        ({"fields": {"line": [["SESAME"]]}}, "200 OK", 'field-not-text key="line"'),
        ({"fields": {"line": "SESAME"}}, "200 OK", 'unknown-field key="line"'),
        ({"fields": {"lines": ["SESAME"]}}, "200 OK", 'unknown-field key="lines"'),
        ({"fields": {"total": ["SESAME"]}}, "200 OK", 'field-not-array key="total"'),
        ({"panel": "MENU", "cursor": "total"}, "200 OK", 'unknown-field key="cursor"'),
        ({"fields": 1}, "200 OK", 'not-object key="fields"'),
        ({"panel": 1}, "200 OK", 'not-text key="panel"'),
        ({"end": 1}, "200 OK", 'not-boolean key="end"'),
        ({"end": "true"}, "200 OK", 'not-boolean key="end"'),
        ({'o"\n': 1}, "200 OK", 'unknown-key key="o??"'),
    ):
        a_failure_is_told_and_the_key_asks_again(
            content, status, ERROR, f"application-error reason={event}"
        )
    for content, event in (
        (b"SSH-2.0-x\r\n", "not-http"),
        (long, "too-long"),
        (b"HTTP/1.1 200 OK\r\nContent-Length: x\r\n\r\n", "bad-length"),
        (b"HTTP/1.1 200 OK\r\nTransfer-Encoding: chunked\r\n\r\nzz\r\n", "bad-chunks"),
        (b"HTTP/1.1 200 OK\r\n" + b"A: b\r\n" * 65 + b"\r\n", "too-many-fields"),
    ):
        a_failure_is_told_and_the_key_asks_again(
            content, "", ERROR, f"application-error reason={event}", raw=True
        )


@check
def a_value_shows_what_a_reply_has_for_it():
    """It shows as much of a text as it has room for, and of an array a text in each row; it is no
    field of a question; and it is empty again once another panel was shown."""
    panels = PANELS.replace(b'name = "MENU"\n', b'name = "MENU"\nasks = ["enter"]\n')
    application = Application()
    with Host(application.url, OWN, text=panels) as host:
        first, _ = host.operators()
        first.presses("enter")
        texts = {"total": "12345", "line": ["ONE", "TWO"]}
        application.takes().sends({"panel": "MENU", "fields": texts})
        shown = first.sees("SECOND PANEL", "1234", "ONE", "TWO")
        expect("a value beyond its length", "12345" in shown, False)
        first.presses("enter")
        exchange = application.takes()
        expect("the fields of a question", exchange.asked["fields"], {"choice": ""})
        exchange.sends({"fields": {"line": ["XYZ"]}})
        first.sees("XYZ")
        for panel in ("FIRST PANEL", "SECOND PANEL"):
            first.presses("pf3")
            shown = first.sees(panel)
        expect("values of before", [it for it in ("1234", "XYZ", "TWO") if it in shown], [])


@check
def a_repeated_field_is_an_array():
    """A question has the texts of all copies, in order. A reply's array sets all of them: those
    that it has no text for are empty. It may also name one copy; more texts than copies are a
    fault."""
    application = Application()
    with Host(application.url, OWN, text=REPEATED) as host:
        first = Operator(host.port).binds("PNL01")
        host.first, host.second = first, None
        first.sees("FIRST PANEL")
        first.presses("enter", "ONE", "THREE")
        exchange = application.takes()
        expect("its fields", exchange.asked["fields"], {"word": ["ONE", "", "THREE"]})
        exchange.sends({"fields": {"word": ["UNO", "DOS"]}})
        expect("the third copy", "THREE" in first.sees("UNO", "DOS"), False)
        keyed = bytes.fromhex("11 C2 E7") + "UNO".encode("cp037")
        keyed += bytes.fromhex("11 C3 F7") + "DOS".encode("cp037")
        first.says(b"\x00\x00\x00\x00\x00\x7d\xc2\xe8", keyed, b"\xff\xef")
        exchange = application.takes()
        expect("its fields then", exchange.asked["fields"], {"word": ["UNO", "DOS", ""]})
        exchange.sends({"fields": {"word.2": "TWO"}})
        first.sees("UNO", "TWO")
        keyed = keyed[:6] + bytes.fromhex("11 C3 F7") + "TWO".encode("cp037")
        first.says(b"\x00\x00\x00\x00\x00\x7d\xc2\xe8", keyed, b"\xff\xef")
        application.takes().sends({"fields": {"word": ["A", "B", "C", "D"]}})
        first.sees(ERROR)
        host.has_said('application-error reason=unknown-field key="word.4"')


@check
def a_row_may_have_a_text_of_its_own_beside_an_array():
    """A reply has an array, and one row by its own name, in either order, as a JSON object has none:
    the row has its own text, and the others have those of the array."""
    texts = {"line": ["ONE", "TWO"], "line.2": "ZWEI"}
    application = Application()
    with Host(application.url, OWN, text=PANELS) as host:
        first, _ = host.operators()
        for fields in (texts, dict(reversed(texts.items()))):
            first.presses("enter")
            application.takes().sends({"panel": "MENU", "fields": fields})
            shown = first.sees("SECOND PANEL", "ONE", "ZWEI")
            expect(f"the array's second text with {[*fields]}", "TWO" in shown, False)
            first.presses("pf3")
            first.sees("FIRST PANEL")


@check
def a_reply_that_breaks_off_is_no_application():
    """A connection that is closed before the reply's end, or that fails, is APPLICATION NOT
    AVAILABLE."""
    for content in (b"", b"HTTP/1.1 200", reply({"message": "X"})[:-1]):
        event = "application-not-available reason=broken"
        a_failure_is_told_and_the_key_asks_again(content, "", NOT_AVAILABLE, event, raw=True)


@check
def a_connection_that_is_kept_has_the_next_question():
    """The operator's next question comes on it, and gets its own reply; another operator's comes on
    a connection of its own. When the operator leaves, the host closes it."""
    with a_host(OWN) as (_, application, first, second):
        first.presses("enter", "ONE")
        exchange = application.takes()
        exchange.keeps({"message": "FIRST"})
        first.sees("FIRST")
        second.presses("enter", "TWO")
        other = application.takes()
        first.presses("enter", "THREE")
        again = Exchange(exchange.connection)
        expect("who asks", [it.asked["lu"] for it in (again, other)], ["PNL01", "PNL02"])
        other.sends({"message": "OTHER"})
        second.sees("OTHER")
        again.keeps({"message": "SECOND"})
        first.sees("SECOND")
        application.has_no_other()
        first.ends()
        application.hears_end(again.asked["session"], "PNL01", "lost").sends({})
        again.is_closed()


@check
def a_connection_that_is_not_kept_is_closed():
    """So it is after a reply without a promise, or with one of a second; after one that closes, or
    that isn't alone; after a fault; and once the time that was promised is over but for a second.
    The next question comes on another connection."""
    kept = "Keep-Alive: timeout=5\r\n"
    with a_host(OWN) as (_, application, first, _):
        for content in (
            reply({}),
            reply({}, fields="Keep-Alive: timeout=1\r\n"),
            reply({}, fields="Keep-Alive: timeout\r\n"),
            reply({}, fields=kept + "Connection: close\r\n"),
            reply({}, fields=kept).replace(b"HTTP/1.1", b"HTTP/1.0"),
            reply({}, fields=kept) + reply({"message": "NOBODY ASKED"}),
            reply({}, "500 No", fields=kept),
            reply({"cursor": "none"}, fields=kept.replace("5", "2")),
            reply({}, fields=kept.replace("5", "2")),
        ):
            first.presses("enter", "WORD")
            exchange = application.takes()
            exchange.connection.sendall(content)
            first.sees()
            exchange.is_closed()


@check
def a_kept_connection_with_something_on_it_is_not_used():
    """If the application has closed it, or has sent bytes that nobody asked for, the next question
    comes on another connection, once, and gets its own reply."""
    with a_host(OWN) as (_, application, first, _):
        for unasked in (b"", reply({"message": "NOBODY ASKED"})):
            first.presses("enter", "WORD")
            exchange = application.takes()
            exchange.keeps({})
            first.sees()
            exchange.connection.sendall(unasked)
            exchange.connection.shutdown(socket.SHUT_WR)
            first.presses("enter", "WORD")
            application.takes().sends({"message": "ASKED"})
            first.sees("ASKED")
            exchange.is_closed()


@check
def where_nothing_listens_the_operator_is_told():
    """It is APPLICATION NOT AVAILABLE at once, and the key asks again."""
    application = Application()
    application.listener.close()
    with Host(application.url, OWN) as host:
        first, second = host.operators()
        first.presses("enter", "LOGAN")
        first.sees(NOT_AVAILABLE)
        host.has_said("application-not-available reason=refused")
        second.works()
        with socket.create_server((hosts.LOCALHOST, application.port)) as application.listener:
            application.listener.settimeout(hosts.PATIENCE)
            first.presses("enter", "LOGAN")
            application.takes().sends({"message": "BACK"})
            first.sees("BACK")


@check
def an_application_that_never_answers_is_not_available():
    """Its time is over after the limit and not before, whether it sends nothing or byte by byte;
    the others are served meanwhile."""
    for sent in (b"", reply({"message": "SLOW"})[:-1]):
        with a_host() as (host, application, first, second):
            first.presses("enter")
            begun = time.monotonic()
            exchange = application.takes()
            for number in range(20):
                with contextlib.suppress(OSError):
                    exchange.connection.sendall(sent[number : number + 1])
                if time.monotonic() - begun < 0.6 * LIMIT:
                    second.works()
                time.sleep(0.02)
            first.sees(NOT_AVAILABLE)
            took = time.monotonic() - begun
            expect(f"it takes its time: {took}", 0.9 * LIMIT < took < LIMIT + 1, True)
            host.has_said("application-not-available reason=timeout")
            exchange.is_closed()
            second.works()


@check
def an_operator_who_waits_for_the_application_is_not_idle():
    """An application may take longer than the limit for idle clients; who then presses no key is
    dropped after the limit."""
    application = Application()
    with Host(application.url, "--idle", "1", seconds=10) as host:
        first, second = host.operators()
        first.presses("enter", "LOGAN")
        exchange = application.takes()
        begun = time.monotonic()
        while time.monotonic() - begun < 2.5:
            second.works()
            time.sleep(0.2)
        exchange.sends({"message": "AT LAST"})
        first.sees("AT LAST")
        hosts.in_seconds(0.8, 3, "it is dropped", first.hears_the_end)
        host.has_said("idle turns=1")
        application.hears_end(exchange.asked["session"], "PNL01", "idle")


@check
def an_answer_acknowledges_the_key():
    """Half a record is answered by NOP; the other half by nothing but the application's answer."""
    with a_host() as (_, application, first, _):
        first.hears_nop()
        first.says(b"\x00\x00\x00\x00\x00")
        first.hears_nop()
        first.says(KEYS["enter"], bytes.fromhex("C2 E8 FF EF"))
        exchange = application.takes()
        expect("who waits hears", bool(select.select([first.socket], [], [], 0.3)[0]), False)
        exchange.sends({"message": "DONE"})
        first.sees("DONE")


@check
def a_reply_may_end_the_session():
    """Its screen is shown, and once the terminal has answered, the host closes the connection, and
    tells the application; `false` is as if it were absent."""
    with a_host(OWN) as (host, application, first, second):
        first.presses("enter", "LOGAN")
        application.takes().sends({"message": "STAY", "end": False})
        first.sees("STAY")
        first.presses("enter", "LOGAN")
        exchange = application.takes()
        exchange.sends({"panel": "MENU", "message": "GOOD BYE", "end": True})
        shown = first.record().decode("cp037")
        expect("the last screen", "SECOND PANEL" in shown and "GOOD BYE" in shown, True)
        second.works()
        time.sleep(0.3)
        expect("an end before the answer", "ended-by-application" in host.logged(), False)
        first.takes_write()
        first.hears_the_end()
        host.has_said("ended-by-application turns=2")
        ended = application.hears_end(exchange.asked["session"], "PNL01", "ended-by-application")
        ended.sends({})
        Operator(host.port).signs_on("PNL01")
        second.works()


@check
def an_end_is_told_once():
    """It is told of each session that was asked about, and of no other; nothing is made of the
    reply, and an application that gives none holds up nobody."""
    with a_host() as (host, application, first, second):
        first.presses("enter", "LOGAN")
        exchange = application.takes()
        exchange.sends({"panel": "MENU"})
        first.sees("SECOND PANEL")
        first.ends()
        silent = application.hears_end(exchange.asked["session"], "PNL01", "lost")
        third = Operator(host.port).signs_on("PNL01")
        third.ends()
        second.presses("enter", "MOORE")
        exchange = application.takes()
        exchange.sends({"message": "ONE"})
        second.sees("ONE")
        second.says(bytes.fromhex("FF FA 28 FF 00"))
        second.hears_the_end()
        application.hears_end(exchange.asked["session"], "PNL02", "closed").sends(b"[", "500 Oh")
        silent.is_closed()
        application.has_no_other()
        expect("a fault in its log", "event=application" in host.logged(), False)


@check
def a_reply_may_come_byte_by_byte():
    """It is read however it comes, with its length, in chunks, or up to the end of the
    connection."""
    content = b'{"message": "SLOWLY"}'
    chunked = b"".join(b"%x\r\n%s\r\n" % (len(it), it) for it in (content[:5], content[5:], b""))
    head = b"HTTP/1.1 200 OK\r\n"
    for sent in (
        reply(content),
        head + b"Transfer-Encoding: chunked\r\n\r\n" + chunked,
        head + b"\r\n" + content,
    ):
        with a_host() as (_, application, first, second):
            first.presses("enter")
            exchange = application.takes()
            exchange.connection.setsockopt(socket.IPPROTO_TCP, socket.TCP_NODELAY, 1)
            for number in range(len(sent)):
                exchange.connection.sendall(sent[number : number + 1])
                time.sleep(0.002)
            exchange.connection.shutdown(socket.SHUT_WR)
            second.works()
            first.sees("SLOWLY")


@check
def a_reply_of_the_longest_length_is_read():
    """One of 65,536 bytes is read, and one of a byte more is APPLICATION ERROR."""
    for more, seen in ((0, "WHOLE"), (1, ERROR)):
        with a_host() as (host, application, first, second):
            first.presses("enter")
            content = b'{"message": "WHOLE"}'
            head = f"HTTP/1.1 200 OK\r\nContent-Length: {65536 + more - 45}\r\n\r\n".encode()
            sent = head + content + b" " * (65536 + more - len(head) - len(content))
            length = int(re.search(rb"Length: (\d+)", head)[1])
            sent = head.replace(b"%d" % length, b"%d" % (len(sent) - len(head))) + sent[len(head) :]
            expect("its length", len(sent), 65536 + more)
            with contextlib.suppress(OSError):
                application.takes().connection.sendall(sent)
            first.sees(seen)
            second.works()
            if more:
                host.has_said("application-error reason=too-long")


@check
def a_second_reply_is_dropped():
    """Of two replies on one connection the first one counts."""
    with a_host(OWN) as (_, application, first, second):
        first.presses("enter")
        exchange = application.takes()
        with contextlib.suppress(OSError):
            exchange.connection.sendall(reply({"message": "ONE"}) + reply({"message": "TWO"}))
        expect("the second reply", "TWO" in first.sees("ONE"), False)
        exchange.is_closed()
        second.works()
        first.presses("enter")
        application.takes().sends({"message": "THREE"})
        first.sees("THREE")


@check
def a_reply_to_one_who_left_is_dropped():
    """It reaches nobody, not even the next operator on the same number, and the log says so."""
    with a_host() as (host, application, first, second):
        first.presses("enter", "LOGAN", "HIDDEN")
        exchange = application.takes()
        first.leaves()
        host.has_said("application-reply-dropped")
        application.hears_end(exchange.asked["session"], "PNL01", "lost")
        third = Operator(host.port).signs_on("PNL01")
        exchange.sends({"message": "LATE"})
        exchange.is_closed()
        second.works()
        third.presses("enter")
        late = application.takes()
        expect(
            "its session",
            (late.asked["session"], late.asked["session"][16:]),
            (host.session(0), "-2"),
        )
        expect("its fields", late.asked["fields"], {"word": "", "secret": ""})
        late.sends({"message": "MINE"})
        expect("the late reply", "LATE" in third.sees("MINE"), False)


@check
def a_long_text_is_cut():
    """A text longer than its field is cut, as is a message longer than the row; characters beyond
    ASCII are shown."""
    with a_host() as (_, application, first, second):
        first.presses("enter")
        application.takes().sends(
            {"fields": {"word": "ABCDEFGHIJ" * 1000}, "message": "\u00e4" * 500}
        )
        shown = first.sees("ABCDEFGH", "\u00e4" * 79)
        expect("a text beyond its field", "ABCDEFGHI" in shown or "\u00e4" * 80 in shown, False)
        second.works()
        first.presses("enter", "AB\u00e4")
        exchange = application.takes()
        expect("a text", exchange.asked["fields"]["word"], "AB\u00e4")
        exchange.sends({})
        first.sees()


@check
def characters_that_code_page_037_lacks_are_shown_plainly():
    """Each is replaced, in the message and in fields; the log has one line for the reply, without
    its text."""
    with a_host(OWN) as (host, application, first, second):

        def shows(content, *texts):
            # The host writes only what changes: so the panel is emptied before.
            for sent in ({"panel": "WORD"}, content):
                first.presses("enter")
                application.takes().sends(sent)
                first.sees(*texts if sent is content else ())
            second.works()

        for text, shown, count in (
            ("DON\u2019T \u2013 \u201eNOW\u201d\u2026", "DON'T - \"NOW\"...", 5),
            ("ONE\r\nTWO\tTHREE\x00.", "ONE  TWO THREE .", 4),
            ("\u017bubr \u0141\u00f3d\u017a \u0151.", "Zubr L\u00f3dz o.", 4),
            ("e\u0301 x\u0302.", "\u00e9 x.", 2),
            ("\ufb01 \u2153 \u2122 \uff21.", "fi 1/3 TM A.", 4),
            ("A\u2003B\u200bC\u2028D", "A BC D", 3),
            ("\u65e5\u672c \u20ac \U0001f642.", "?? ? ?.", 4),
        ):
            shows({"message": text}, shown)
            host.has_said(f'application-replaced key="message" characters={count}')
        shows({"fields": {"word": "\u2019\u2014\u2026\u0153", "secret": "SESAME"}}, "'-...oe")
        host.has_said('application-replaced key="word" characters=4')
        first.presses("enter")
        texts = {"total": "\u20ac5", "line": ["\u2019A", "B"]}
        application.takes().sends({"panel": "MENU", "fields": texts})
        first.sees("?5", "'A")
        host.has_said('application-replaced key="line.1" characters=2')
        first.presses("pf3")
        first.sees("FIRST PANEL")
        for message, key, count in (("", "secret", 2), ("\u201c", "message", 3)):
            shows(
                {"message": message, "fields": {"word": "\u2014", "secret": "OPEN\u20ac"}}, "OPEN?"
            )
            host.has_said(f'application-replaced key="{key}" characters={count}')
        shows(
            {"message": "\u00e9\u00a0\u00ab", "fields": {"word": "\u00df"}},
            "\u00e9\u00a0\u00ab",
            "\u00df",
        )
        expect("its lines of replaced characters", host.logged().count("application-replaced"), 11)
        expect(
            "a hidden text in its log", "SESAME" in host.logged() or "OPEN" in host.logged(), False
        )


@check
def a_wide_panel_is_answered_alike_for_all_terminals():
    """Its fields are those of the reply's cursor, and keep their texts while its `otherwise` is
    shown, whose fields don't."""
    with a_host() as (host, application, first, second):
        first.presses("enter", "LOGAN")
        application.takes().sends(
            {"panel": "WIDE", "fields": {"seat": "17A", "choice": "42"}, "cursor": "seat"}
        )
        first.sees("SECOND PANEL", "42", "17A")
        first.presses("pf3")
        first.sees("FIRST PANEL")
        first.presses("enter", "LOGAN")
        application.takes().sends({"panel": "WIDE"})
        expect(
            "a text of the panel that is shown", "42" in first.sees("SECOND PANEL", "17A"), False
        )
        second.works()
        expect("a fault in its log", "application-error" in host.logged(), False)


@check
def all_operators_are_asked_for_at_once():
    """64 operators wait at once, each with one exchange, and each gets the answer to its own
    question."""
    lus = [f"LU{number:02}" for number in range(hosts.MOST_CONNECTIONS)]
    application = Application()
    with Server64(application.url, lus) as host:
        operators = [Operator(host.port).signs_on(lu) for lu in lus]
        for number, operator in enumerate(operators):
            operator.presses("enter", f"W{number:02}")
        exchanges = [application.takes() for _ in operators]
        application.has_no_other()
        for exchange in reversed(exchanges):
            exchange.sends({"message": exchange.asked["lu"] + exchange.asked["fields"]["word"]})
        for number, operator in enumerate(operators):
            operator.sees(f"LU{number:02}W{number:02}")


class Server64(hosts.Server):
    """A host of 64 LUs, with an application."""

    def __init__(self, url, lus):
        text = PANELS.replace(b'["PNL01", "PNL02"]', json.dumps(lus).encode())
        super().__init__("serve", "--application", url, "--application-timeout", "60", text=text)


@check
def no_reply_grows_the_memory_of_the_host():
    """The host's memory doesn't grow by replies of seven kinds, by one that never comes, nor by
    operators who leave."""
    long = b'{"message": "X"}'.ljust(60000)
    wide = reply({"fields": {"word": "A" * 50000}})
    two = reply({"message": "ONE"}) + reply({"message": "TWO"})
    kinds = (
        reply({}), reply(long), reply(b"{"), wide, b"HTTP/1.1 200", reply(b"{}".ljust(65537)), two
    )
    with a_host(OWN) as (host, application, first, second):
        status = pathlib.Path(f"/proc/{host.process.pid}/status")
        sizes, left = [], 0
        for _ in range(3):
            for content in kinds * 8:
                first.presses("enter", "LOGAN")
                exchange = application.takes()
                with contextlib.suppress(OSError):
                    exchange.connection.sendall(content)
                exchange.connection.close()
                first.sees()
            first.presses("enter", "LOGAN")
            silent = application.takes()
            first.sees(NOT_AVAILABLE)
            silent.connection.close()
            for _ in range(8):
                second.presses("enter", "LOGAN")
                late = application.takes()
                second.leaves()
                left += 1
                hosts.until(
                    "the host drops a reply",
                    lambda: host.logged().count("application-reply-dropped") == left,
                )
                application.takes().sends({})
                late.sends({"message": "LATE"})
                second = Operator(host.port).signs_on("PNL02")
            sizes.append(int(re.search(r"VmRSS:\s+(\d+) kB", status.read_text())[1]))
            second.works()
        expect(f"its memory grows by less than 256 KiB: {sizes}", sizes[2] - sizes[0] < 256, True)


@check
def without_an_application_panels_that_ask_are_refused():
    """serve and host name the first panel that asks, and its first key, Enter before Clear, PA keys
    and PF keys, and connect before these, and don't listen."""
    first = PANELS.replace(b'["enter", "pf1", "pa1"]', b'["pf12", "pf9", "pa3"]')
    clear = PANELS.replace(b'["enter", "pf1", "pa1"]', b'["pa1", "clear"]')
    connect = PANELS.replace(b'["enter", "pf1", "pa1"]', b'["enter", "connect"]')
    second = PANELS.replace(b'asks = ["enter", "pf1", "pa1"]\n', b"").replace(
        b'name = "MENU"\n', b'name = "MENU"\nasks = ["pf24"]\n'
    )
    for text, panel, key in (
        (PANELS, "WORD", "enter"),
        (first, "WORD", "pa3"),
        (clear, "WORD", "clear"),
        (connect, "WORD", "connect"),
        (second, "MENU", "pf24"),
    ):
        asks = f"panel {panel} asks the application about {key}"
        for words, advice in (
            (["serve"], "give --application URL"),
            (["host"], "host has no application: use serve --application URL"),
        ):
            with socket.create_server((hosts.LOCALHOST, 0)) as taken:
                told = hosts.run([*words, "--port", taken.getsockname()[1]], text)
            expect(f"{words[0]} with {key}", told, (2, "", f"{asks}; {advice}\n"))
    told = hosts.run(
        ["serve", "--listen", "0.0.0.0", "--quiet", "--port", hosts.free_port()], PANELS
    )
    expect(
        "a quiet serve",
        told,
        (2, "", "panel WORD asks the application about enter; give --application URL\n"),
    )
    for job in ("script", "selfrun"):
        told = hosts.run(
            [job],
            PANELS + b"%%\nconnect 0\nsettle\nkey 0 enter\nsettle\n"
            b"answer 0 MENU\nsettle\nstatus 0\n",
        )
        expect(job, told, (0, "bound PNL01\n", ""))


@check
def a_url_that_is_none_is_refused():
    """Another machine, another scheme, a user, a fragment, or no URL at all ends the program, as
    does a time that is none."""
    for url, why in (
        (
            "http://192.0.2.1:80/",
            "the URL's host is not this machine: localhost, 127.x.x.x or [::1]",
        ),
        ("https://127.0.0.1/", "the URL doesn't begin with http://"),
        ("http://me@127.0.0.1/", "the URL has a user name or a password"),
        ("http://127.0.0.1/#here", "the URL has a fragment, behind #"),
        ("bank", "not a URL"),
    ):
        told = hosts.run(["serve", "--port", hosts.free_port(), "--application", url], PANELS)
        expect(url, told, (2, "", f"--application: {why}\n"))
    for seconds in ("0", "3601", "x"):
        told = hosts.run(["serve", "--port", 5000, "--application-timeout", seconds], PANELS)
        wanted = (
            f"error: invalid value '{seconds}' for '--application-timeout'\n"
            "For more information, try 'panel3270 help serve'.\n"
        )
        expect(seconds, told, (2, "", wanted))
