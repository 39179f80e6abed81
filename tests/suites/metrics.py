"""The metrics port of `serve`: what it counts, who is connected, and who may read that."""
import calendar
import contextlib
import json
import re
import select
import socket
import time

from harness import applications
from harness.case import Checks, Difference, expect
from harness.hosts import (
    DEVICE_IN_USE,
    DO,
    ENTER,
    GET,
    LOCALHOST,
    MOST_CONNECTIONS,
    NEXT_WRITE,
    NOP,
    PATIENCE,
    Server,
    event,
    free_port,
    metered,
    panels,
    plain,
    run,
    scraped,
    until,
)

check = Checks()
cases = check.cases

CAUSES = (
    "NoTn3270e",
    "NoResponses",
    "BadTalk",
    "TooMany",
    "Wire",
    "BadRecord",
    "BadInbound",
    "BadResponse",
    "Negative",
    "RuleBroken",
)
REASONS = ("DEVICE-IN-USE", "INV-NAME", "INV-DEVICE-TYPE", "UNSUPPORTED-REQ", "other")
FAILURES = ("refused", "broken", "timeout", "no-memory", "status", "bad-reply", "left")
BOUNDS = "0.005 0.01 0.025 0.05 0.1 0.25 0.5 1 2.5 5 10 30 +Inf".split()


# The kind of each metric, and what its HELP line says.
METRICS = {
    "panel3270_sessions": ("gauge", "Connections of terminals that are open."),
    "panel3270_sessions_total": ("counter", "Connections of terminals that began."),
    "panel3270_session_ends_total": (
        "counter",
        "Connections of terminals that ended, by what ended them.",
    ),
    "panel3270_turned_away_total": (
        "counter",
        "Connections closed at once because no number was free.",
    ),
    "panel3270_rejections_total": ("counter", "Rejected requests for an LU, by reason."),
    "panel3270_dropped_keys_total": (
        "counter",
        "Keys that were dropped because the last one wasn't answered yet.",
    ),
    "panel3270_rule_breaks_total": (
        "counter",
        "Terminals that broke a rule that the host verifies.",
    ),
    "panel3270_restored_screens_total": (
        "counter",
        "Screens that were painted over because a client's data couldn't be believed.",
    ),
    "panel3270_turns_total": ("counter", "Screens sent after the first one of a connection."),
    "panel3270_paints_total": ("counter", "Screens sent."),
    "panel3270_received_bytes_total": ("counter", "Bytes received from terminals."),
    "panel3270_sent_bytes_total": ("counter", "Bytes sent to terminals."),
    "panel3270_questions_total": ("counter", "Questions to the application."),
    "panel3270_question_failures_total": (
        "counter",
        "Questions that the application didn't answer, by reason.",
    ),
    "panel3270_answer_seconds": (
        "histogram",
        "Time from a question to the application's answer.",
    ),
    "panel3270_log_lines_dropped_total": (
        "counter",
        "Lines of the log dropped because nobody read those before.",
    ),
    "panel3270_build_info": ("gauge", "The program's version."),
    "process_start_time_seconds": (
        "gauge",
        "Start time of the process since the Unix epoch, in seconds.",
    ),
}


def metrics_page(
    now=0,
    total=0,
    closed=(),
    lost=0,
    idle=0,
    no_agreement=0,
    by_application=0,
    turned_away=0,
    rejected=(),
    dropped=0,
    broken=0,
    restored=0,
    turns=0,
    paints=0,
    received=0,
    sent=0,
    asked=0,
    failed=(),
    times=(),
    started=0,
):
    """The page of these numbers, as Prometheus' text format has it. The times of answers are in
    milliseconds."""
    ends = [(f'{{end="closed",cause="{it}"}}', closed.count(it)) for it in CAUSES]
    ends += [('{end="lost"}', lost), ('{end="idle"}', idle), ('{end="no-agreement"}', no_agreement)]
    ends += [('{end="ended-by-application"}', by_application)]
    within = [sum(it <= 1000 * float(bound) for it in times) for bound in BOUNDS]
    answers = [(f'_bucket{{le="{it}"}}', count) for it, count in zip(BOUNDS, within)]
    answers += [("_sum", f"{sum(times) / 1000:.3f}"), ("_count", len(times))]
    version = run(["version"], b"")[1].split()[1]
    numbers = {
        "session_ends_total": ends,
        "rejections_total": [(f'{{reason="{it}"}}', rejected.count(it)) for it in REASONS],
        "sessions": [("", now)],
        "sessions_total": [("", total)],
        "turned_away_total": [("", turned_away)],
        "dropped_keys_total": [("", dropped)],
        "rule_breaks_total": [("", broken)],
        "restored_screens_total": [("", restored)],
        "turns_total": [("", turns)],
        "paints_total": [("", paints)],
        "received_bytes_total": [("", received)],
        "sent_bytes_total": [("", sent)],
        "questions_total": [("", asked)],
        "question_failures_total": [(f'{{reason="{it}"}}', failed.count(it)) for it in FAILURES],
        "answer_seconds": answers,
        "log_lines_dropped_total": [("", 0)],
        "build_info": [(f'{{version="{version}"}}', 1)],
        "process_start_time_seconds": [("", started)],
    }
    page = ""
    for name, (kind, said) in METRICS.items():
        page += f"# HELP {name} {said}\n# TYPE {name} {kind}\n"
        kept = numbers[name.removeprefix("panel3270_")]
        page += "".join(f"{name}{it} {number}\n" for it, number in kept)
    return page


# What each response says to a browser: that it is of the type that it says, loads nothing, and is shown
# in no frame of another page.
GUARDS = (
    "X-Content-Type-Options: nosniff\r\n"
    "Content-Security-Policy: default-src 'none'; frame-ancestors 'none'\r\n"
)


def response(status, body="", allow=""):
    fields = (
        f"{allow}Content-Type: text/plain; version=0.0.4; charset=utf-8\r\n{GUARDS}"
        f"Content-Length: {len(body)}\r\nConnection: close\r\n\r\n"
    )
    return f"HTTP/1.1 {status}\r\n{fields}{body}"


def figure(host, name):
    """A number on the page of a host."""
    return re.search(rf"^{name} (\S+)$", scraped(host.metrics, GET).decode(), re.MULTILINE)[1]


def started(host):
    """When a host says that it started, which is in the last minutes."""
    seconds = int(figure(host, "process_start_time_seconds"))
    expect("a host started", time.time() - 900 < seconds <= time.time(), True)
    return seconds


def all_read(*clients):
    """The bytes that clients sent and read, once they read what comes in a twentieth of a second,
    IAC NOP."""
    for it in clients:
        while select.select([it.socket], [], [], 0.05)[0] and it.more():
            pass
    return {"received": sum(it.sent for it in clients), "sent": sum(it.received for it in clients)}


def has_counted(host, **numbers):
    wanted = response("200 OK", metrics_page(started=started(host), **numbers))
    with contextlib.suppress(Difference):
        until("metrics", lambda: scraped(host.metrics, GET).decode() == wanted)
    expect("metrics", scraped(host.metrics, GET).decode().splitlines(), wanted.splitlines())


@check
def metrics_count_what_happened():
    """Each connection, end, rejection, screen and byte is counted once."""
    with metered() as host:
        has_counted(host)
        first = host.client().signs_on("PNL01")
        second = host.client()
        second.is_asked()
        second.asks_for("PNL01")
        second.hears(DEVICE_IN_USE)
        first.enters()
        first.enters()
        numbers = {"total": 2, "rejected": ("DEVICE-IN-USE",), "turns": 2, "paints": 3}
        has_counted(host, now=2, **numbers, **all_read(first, second))
        first.ends()
        second.says(bytes.fromhex("FF FA 28 FF 00"))
        second.hears_the_end()
        has_counted(host, lost=1, closed=("Wire",), **numbers, **all_read(first, second))


@check
def metrics_count_who_is_dropped():
    """A connection that stalls in its negotiation, one that is idle, and one for which no number is
    free are counted as such."""
    with metered("--negotiate", "1", "--idle", "2") as host:
        stalled = host.client()
        stalled.hears(DO)
        idle = host.client().signs_on("PNL01")
        stalled.hears_the_end()
        idle.hears_the_end()
        has_counted(
            host,
            total=2,
            idle=1,
            no_agreement=1,
            paints=1,
            **all_read(stalled, idle),
        )
    with metered() as host:
        many = [host.client() for _ in range(MOST_CONNECTIONS)]
        for it in many:
            it.hears(DO)
        host.client().hears_the_end()
        sent = sum(it.received for it in many)
        has_counted(host, now=MOST_CONNECTIONS, total=MOST_CONNECTIONS, turned_away=1, sent=sent)


# What answers Read Buffer behind Enter with an A in the field, behind its number: the AID, the
# cursor, and each cell. The field's attribute is at 166, the others are at 175 and 1840.
SCREEN = "7D C2 E8" + "00" * 166 + "1D C1 C1" + "00" * 7 + "1D F0" + "00" * 1664
SCREEN = bytes.fromhex(SCREEN + "1D F8" + "00" * 79 + "FF EF")
# By the rule that it shows to be broken, and the cell: what is changed there. The field has MDT
# off; the attribute behind it has MDT on; a character is where nothing was written.
BROKEN = {
    "sends cell=166": (b"\x1d\xc1", b"\x1d\x40"),
    "edits cell=175": (b"\x1d\xf0", b"\x1d\xf1"),
    "applies cell=1840": (b"\x1d\xf8\x00", b"\x1d\xf8\xe7"),
}


@check
def broken_rules_are_logged_and_counted():
    """With --verify the host reads the screen after Enter. A terminal that broke no rule is shown
    the panel; one that broke a rule is closed, and the log names the rule and the cell."""
    with metered("--verify") as host:
        clients, events = [], []
        for broken, (one, other) in {"": (b"", b""), **BROKEN}.items():
            client = host.client().signs_on("PNL01")
            client.says(bytes(5), ENTER)
            client.hears(bytes.fromhex("00 00 01 00 01 F2 FF EF"))
            client.says(bytes.fromhex("00 00 00 00 01"), SCREEN.replace(one, other))
            logged = ["connected", "bound lu=PNL01"]
            if broken:
                client.hears_the_end()
                logged += [
                    f"rule-broken rule={broken}", "closed cause=RuleBroken number=10 turns=0"
                ]
            else:
                client.hears(b"\x00\x00\x02\x00\x02", NEXT_WRITE)
                client.ends()
                logged.append("lost turns=1")
            clients.append(client)
            events += [event(0, client, it) for it in logged]
            host.has_logged(*events)
        has_counted(
            host,
            total=4,
            lost=1,
            closed=("RuleBroken",) * 3,
            broken=3,
            turns=1,
            paints=5,
            **all_read(*clients),
        )


@check
def each_request_has_its_answer():
    """GET /metrics is answered with the page, with a query and by HTTP/1.0 too, HEAD with the head
    alone; other paths, methods and bytes by their status."""
    with metered() as host:
        page = response("200 OK", metrics_page(started=started(host)))
        for wanted, sent in answers_of(page):
            came = scraped(host.metrics, sent).decode()
            expect(f"the answer to {sent[:40]!r}", came, wanted)
        slow = [bytes([it]) for it in GET]
        expect(
            "the answer to a slow client", scraped(host.metrics, *slow, pause=0.02).decode(), page
        )


def sessions(host, path, kind, name="localhost"):
    """The body of the answer to a request for sessions, whose head is as it has to be: it isn't kept."""
    asked = f"GET {path} HTTP/1.1\r\nHost: {name}:{host.metrics}\r\n\r\n"
    head, _, body = scraped(host.metrics, asked.encode()).decode().partition("\r\n\r\n")
    fields = f"Content-Type: {kind}\r\n{GUARDS}Content-Length: {len(body)}\r\nConnection: close"
    expect(f"the head of {path}", head, f"HTTP/1.1 200 OK\r\nCache-Control: no-store\r\n{fields}")
    return body


def boot_of_a_start() -> int:
    """The first part of the names of sessions, of a host that has just begun."""
    with Server("serve") as host:
        host.client().signs_on("PNL01").ends()
        return int(re.search(r" session=([0-9a-f]{16})-0 ", host.logged())[1], 16)


@check
def starts_draw_other_names():
    """Of 64 starts no two have session names that begin alike, and each of the 64 bits of these
    beginnings is set in 8 to 56 of them: the chance that a bit of random ones isn't is below 10^-9."""
    boots = [boot_of_a_start() for _ in range(64)]
    expect("different beginnings", len(set(boots)), 64)
    for bit in range(64):
        ones = sum(it >> bit & 1 for it in boots)
        if not 8 <= ones <= 56:
            raise Difference(f"8 to 56 beginnings with bit {bit}", ones)


@check
def sessions_are_listed():
    """Each open connection is listed with its session's number, LU, client, start, turns and phase, as
    data and as a page; none that has ended; nothing that was typed. Nor is what the names of sessions
    begin with, since applications know by a name who is signed on."""
    with metered() as host:
        expect("no sessions", sessions(host, "/sessions.json", "application/json"), '{"sessions":[]}\n')
        began = int(time.time())
        first, second, third = host.client().signs_on("PNL01"), host.client(), host.client()
        first.enters()
        third.is_asked()
        second.is_asked()
        second.ends()
        until("an end", lambda: "event=lost" in host.logged())
        data = sessions(host, "/sessions.json", "application/json")
        rows = json.loads(data)["sessions"]
        for row in rows:
            since = time.strptime(row.pop("since"), "%Y-%m-%dT%H:%M:%SZ")
            expect("a start", abs(calendar.timegm(since) - began) <= 5, True)
        peers = [f"{LOCALHOST}:{it.socket.getsockname()[1]}" for it in (first, third)]
        wanted = [
            {"session": 0, "lu": "PNL01", "client": peers[0], "turns": 1, "phase": "operator"},
            {"session": 2, "lu": None, "client": peers[1], "turns": 0, "phase": "negotiating"},
        ]
        expect("the sessions", rows, wanted)
        page = sessions(host, "/sessions", "text/html; charset=utf-8", "127.0.0.1")
        found = [re.split("<td>", it)[1:] for it in re.findall("<tr>(<td>.*)", page)]
        expect(
            "the page",
            [[*it[:3], *it[4:]] for it in found],
            [
                ["0", "PNL01", peers[0], "1", "operator"],
                ["2", "-", peers[1], "0", "negotiating"],
            ],
        )
        boot = re.search(r" session=([0-9a-f]{16})-0 ", host.logged())[1]
        expect("the name's first part is told", boot in data + page, False)


def asked_at(path, *fields, version="1.1"):
    """A request with these fields."""
    return "\r\n".join((f"GET {path} HTTP/{version}", *fields, "", "")).encode()


@check
def it_answers_at_this_machine_alone():
    """A Host of another name is refused, as a page of another site would send it after DNS rebinding; so
    are two, and none but in HTTP/1.0 (RFC 9112, section 3.2). A Host of this machine has any port."""
    forbidden, bad = response("403 Forbidden"), response("400 Bad Request")
    with metered() as host:
        for path in ("/metrics", "/sessions", "/sessions.json?x", "/other"):
            for wanted, *fields in (
                (forbidden, "Host: evil.example"),
                (forbidden, "Host: localhost.evil"),
                (forbidden, "Host: evil.localhost"),
                (forbidden, "Host: localhost:evil"),
                (forbidden, "Host: 127.0.0.10"),
                (forbidden, "Host: [::1"),
                (forbidden, "Host: ::1"),
                (forbidden, "Host:"),
                (bad,),
                (bad, "Host: localhost", "Host: localhost"),
                (bad, "Host: localhost", "HOST: evil.example"),
            ):
                sent = asked_at(path, *fields)
                expect(f"the answer to {sent!r}", scraped(host.metrics, sent).decode(), wanted)
        two = asked_at("/metrics", "Host: localhost", "Host: localhost", version="1.0")
        expect("two of HTTP/1.0", scraped(host.metrics, two).decode(), bad)
        for name in ("127.0.0.1", "localhost", "[::1]"):
            for port in ("", ":", ":9100"):
                for path in ("/metrics", "/sessions", "/sessions.json"):
                    came = scraped(host.metrics, asked_at(path, f"Host: {name}{port}"))
                    expect(f"{path} at {name}{port}", came[:15], b"HTTP/1.1 200 OK")


def answers_of(page):
    """Answers of the metrics port, each with its request."""
    long = b"GET /metrics HTTP/1.1\r\nX: " + b"x" * 4096
    head = page.partition("\r\n\r\n")[0] + "\r\n\r\n"
    not_allowed = response("405 Method Not Allowed", allow="Allow: GET, HEAD\r\n")
    local = b" HTTP/1.1\r\nHost: localhost\r\n"
    return [
        (page, GET),
        (page, b"GET /metrics?name[]=x" + local + b"\r\n"),
        (page, b"GET /metrics HTTP/1.0\r\n\r\n"),
        (page, b"\r\nGET /metrics HTTP/1.1\nHost: 127.0.0.1\n\n"),
        (head, b"HEAD /metrics" + local + b"\r\n"),
        (head, b"HEAD /metrics?name[]=x HTTP/1.0\r\n\r\n"),
        (response("404 Not Found"), b"HEAD /" + local + b"\r\n"),
        (response("404 Not Found"), b"HEAD /metrics/" + local + b"\r\n"),
        (response("404 Not Found"), b"GET /" + local + b"\r\n"),
        (response("404 Not Found"), b"GET /metricsx" + local + b"\r\n"),
        (response("404 Not Found"), b"GET /metrics/" + local + b"\r\n"),
        (not_allowed, b"POST /metrics" + local + b"Content-Length: 3\r\n\r\nabc"),
        (not_allowed, b"head /metrics" + local + b"\r\n"),
        (not_allowed, b"OPTIONS /" + local + b"\r\n"),
        (response("400 Bad Request"), b"\xff\xfb\x28"),
        (response("400 Bad Request"), b"GET /metrics\r\n\r\n"),
        (response("400 Bad Request"), b"GET /metrics HTTP/2.0\r\n\r\n"),
        (response("400 Bad Request"), b"HEAD /metrics HTTP/2.0\r\n\r\n"),
        (response("431 Request Header Fields Too Large"), long),
        (response("431 Request Header Fields Too Large"), long * 20),
        (
            response("431 Request Header Fields Too Large"),
            b"HEAD /metrics HTTP/1.1\r\n" + b"a:b\r\n" * 65 + b"\r\n",
        ),
    ]


def has_asked(host, **numbers):
    """Its page has these figures of questions."""

    def figures(page):
        return re.findall(r"^panel3270_(?:question|answer).*", page, re.MULTILINE)

    wanted = figures(metrics_page(**numbers))
    with contextlib.suppress(Difference):
        until("questions", lambda: figures(scraped(host.metrics, GET).decode()) == wanted)
    expect("questions", figures(scraped(host.metrics, GET).decode()), wanted)


@check
def questions_are_counted():
    """Each question is counted once: when it is asked, and by the time of its answer or by the
    reason for which it has none. A failure's message is no answer."""
    application, port = applications.Application(), free_port()
    words = applications.OWN, "--metrics", str(port)
    with applications.Host(application.url, *words) as host:
        host.metrics, times, failed = port, [], []
        first, second = host.operators()
        for pause, message in ((0.0, "ONE"), (0.06, "TWO"), (0.3, "SIX")):
            first.presses("enter", "LOGAN")
            exchange = application.takes()
            has_asked(host, asked=len(times) + 1, times=times)
            time.sleep(pause)
            exchange.sends({"message": message})
            first.sees(message)
            took = 1000 * float(figure(host, "panel3270_answer_seconds_sum")) - sum(times)
            times.append(round(took))
            fits = 1000 * pause - 20 < took < 1000 * applications.LIMIT
            expect(f"a time of {took} ms", fits, True)
            has_asked(host, asked=len(times), times=times)
        for reason, fails in (
            ("status", lambda it: it.sends({}, "500 Oh")),
            ("bad-reply", lambda it: it.sends(b"[]")),
            ("bad-reply", lambda it: it.sends({"panel": "NONE"})),
            ("broken", lambda it: it.connection.close()),
            ("timeout", lambda it: None),
        ):
            first.presses("enter", "LOGAN")
            exchange = application.takes()
            fails(exchange)
            first.sees()
            failed.append(reason)
            has_asked(host, asked=3 + len(failed), times=times, failed=failed)
        second.presses("enter", "LOGAN")
        exchange = application.takes()
        second.leaves()
        has_asked(host, asked=9, times=times, failed=[*failed, "left"])
        application.listener.close()
        first.presses("enter", "LOGAN")
        first.sees()
        has_asked(host, asked=10, times=times, failed=[*failed, "left", "refused"])


@check
def ends_by_the_application_are_counted():
    application, port = applications.Application(), free_port()
    with applications.Host(application.url, "--metrics", str(port)) as host:
        host.metrics = port
        first, _ = host.operators()
        first.presses("enter")
        application.takes().sends({"end": True})
        first.sees()
        first.hears_the_end()
        ends = 'panel3270_session_ends_total{end="ended-by-application"}'
        expect("such ends", figure(host, ends), "1")


@check
def clients_of_the_metrics_port_harm_nobody():
    """Clients that send nothing, or don't close, are dropped after five seconds; of many at once
    four are kept; terminals are served."""
    with metered() as host:
        terminal = host.client().signs_on("PNL01")
        silent = [socket.create_connection((LOCALHOST, host.metrics), PATIENCE) for _ in range(100)]
        began = time.monotonic()
        silent[0].sendall(GET)
        silent[1].sendall(GET[:20])
        silent[2].sendall(b"x" * 100)
        terminal.enters()
        times = []
        for it in silent:
            with contextlib.suppress(ConnectionError):
                while it.recv(1 << 16):
                    pass
            times.append(time.monotonic() - began)
            it.close()
        terminal.enters()
        if times[0] > 3 or not 4 < times[3] < 8 or times[-1] > 8:
            raise Difference(
                "clients of the metrics port are dropped after 5 seconds",
                f"after {[round(it, 1) for it in times]}",
            )
        expect("metrics", scraped(host.metrics, GET)[:15], b"HTTP/1.1 200 OK")
        terminal.ends()


@check
def it_answers_with_metrics_at_127_0_0_1_alone():
    """No other address answers with metrics; a port that another program has ends the run with
    status 4."""
    with metered("--listen", "0.0.0.0") as host:
        for address in ("127.0.0.2", "127.255.255.254"):
            with socket.socket() as it:
                expect(address, it.connect_ex((address, host.metrics)) != 0, True)
    with socket.create_server((LOCALHOST, 0)) as taken:
        port = taken.getsockname()[1]
        said = run(["serve", "--port", free_port(), "--metrics", port], panels("PNL01"))
    expect("serve", said, (4, "", f"cannot listen on {LOCALHOST}:{port}: address in use\n"))
