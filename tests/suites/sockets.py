"""The loops of `serve`, `host` and `term` over sockets of this machine: who is served, what is
logged, and how a terminal signs on.

No page can show which connections a host serves, and when it closes them. The first line of each
check says what holds."""
import datetime
import os
import re
import select
import socket
import subprocess
import tempfile
import time

from harness import programs
from harness.case import Checks, expect
from harness.hosts import (
    Client,
    DEVICE_IN_USE,
    DO,
    ENTER,
    FUNCTIONS_IS,
    FUNCTIONS_REQUEST,
    INV_DEVICE_TYPE,
    LOCALHOST,
    MOST_CONNECTIONS,
    NEXT_WRITE,
    NOP,
    PATIENCE,
    SESSION_NAME,
    Server,
    TIME,
    TerminalHeard,
    WONT,
    device_type,
    event,
    free_port,
    panels,
    run,
    until,
)

check = Checks()
cases = check.cases

# ---- who is served


@check
def each_connection_is_logged_and_frees_what_it_held():
    """A connection that ended, failed or was closed is closed at the host too, its number and LU
    are free, and its log says so."""
    with Server("serve") as host:
        first = host.client().signs_on("PNL01")
        log = [event(0, first, "connected"), event(0, first, "bound lu=PNL01")]
        second = host.client()
        second.is_asked()
        second.asks_for("PNL01")
        second.hears(DEVICE_IN_USE)
        second.asks_for("PNL02")
        second.is_bound("PNL02")
        log += [
            event(1, second, it)
            for it in ("connected", "rejected lu=PNL01 reason=DEVICE-IN-USE", "bound lu=PNL02")
        ]
        third = host.client()
        third.hears(DO)
        third.says(WONT)
        third.hears_the_end()
        log += [event(2, third, it) for it in ("connected", "closed cause=NoTn3270e number=1")]
        host.has_logged(*log)
        first.ends()
        log += [event(0, first, "lost turns=0")]
        host.has_logged(*log)
        fourth = host.client().signs_on("PNL01")
        second.enters()
        second.says(bytes.fromhex("FF FA 28 FF 00"))
        second.hears_the_end()
        log += [
            event(0, fourth, "connected"),
            event(0, fourth, "bound lu=PNL01"),
            event(1, second, "closed cause=Wire number=5 turns=1"),
        ]
        host.has_logged(*log)
        fifth = host.client().signs_on("PNL02")
        fifth.resets()
        log += [event(1, fifth, it) for it in ("connected", "bound lu=PNL02", "lost turns=0")]
        host.has_logged(*log)
        sixth = host.client().signs_on("PNL02")
        sixth.enters()
        fourth.enters()
        host.has_logged(*log, event(1, sixth, "connected"), event(1, sixth, "bound lu=PNL02"))


@check
def each_refusal_is_sent_and_logged():
    """Of eight refusals of one turn each is sent and logged, and then the connection is closed."""
    with Server("serve") as host:
        client = host.client()
        client.is_asked()
        client.says(device_type(7, None, "X") * 8)
        client.hears(INV_DEVICE_TYPE * 8)
        client.hears_the_end()
        refused = [event(0, client, "rejected reason=INV-DEVICE-TYPE")] * 8
        host.has_logged(
            event(0, client, "connected"),
            *refused,
            event(0, client, "closed cause=TooMany number=4"),
        )


@check
def a_line_of_the_log_has_its_time_and_figures():
    """An event's line begins with its time in UTC, and the end of a session has its length, its
    turns and its bytes both ways."""
    begun = datetime.datetime.now(datetime.timezone.utc).replace(microsecond=0)
    with Server("serve") as host:
        client = host.client().signs_on("PNL01")
        client.enters()
        time.sleep(1)
        client.enters()
        client.ends()
        figures = rf"duration=[1-9] turns=2 sent={client.received} received={client.sent}"
        until("its log", lambda: "event=lost" in host.logged())
        last = host.logged().splitlines()[-1]
        expect(f"figures of {last!r}", re.search(rf"event=lost {figures}$", last) is None, False)
        # All lines but the first, which says where it listens.
        times = [
            datetime.datetime.fromisoformat(TIME.match(it)[1].replace("Z", "+00:00"))
            for it in host.logged().splitlines()[1:]
        ]
        ended = datetime.datetime.now(datetime.timezone.utc)
        expect(
            "its times", times == sorted(times) and begun <= times[0] and times[-1] <= ended, True
        )


@check
def each_session_has_a_name_of_its_own():
    """Each line of a connection has its session's name: 16 digits drawn when the host started, and
    how many sessions began before."""
    boots = []
    for _ in range(2):
        with Server("serve") as host:
            first = host.client().signs_on("PNL01")
            host.client().resets()
            first.ends()
            second = host.client().signs_on("PNL01")
            second.ends()
            until("its log", lambda: host.logged().count("event=lost") == 3)
            lines = host.logged().splitlines()[1:]
            names = [SESSION_NAME.search(it) for it in lines]
            expect(
                "lines without a session", [it for it, name in zip(lines, names) if not name], []
            )
            expect("starts of the host", len({it[1] for it in names}), 1)
            boots.append(names[0][1])
            for number, client in ((0, first), (2, second)):
                mine = [name[2] for it, name in zip(lines, names) if f"peer={client.peer} " in it]
                expect("the session's number in its three lines", mine, [str(number)] * 3)
    expect("two starts have one name", boots[0] == boots[1], False)


@check
def all_numbers_are_served():
    """64 connections are served, one more is closed at once, and the least number that becomes free
    is the next one's."""
    lus = [f"LU{number:02}" for number in range(MOST_CONNECTIONS)]
    with Server("serve", lus=lus) as host:
        clients, log = [], []
        for number, lu in enumerate(lus):
            clients.append(host.client().signs_on(lu))
            log += [
                event(number, clients[-1], "connected"),
                event(number, clients[-1], f"bound lu={lu}"),
            ]
        host.has_logged(*log)
        one_more = host.client()
        one_more.hears_the_end()
        log += [f"peer={one_more.peer} event=turned-away"]
        host.has_logged(*log)
        for client in clients:
            client.enters()
        for number in (63, 17):
            clients[number].leaves()
            log += [event(number, clients[number], "lost turns=1")]
            host.has_logged(*log)
        for number in (17, 63):
            clients[number] = host.client().signs_on(lus[number])
            log += [
                event(number, clients[number], "connected"),
                event(number, clients[number], f"bound lu={lus[number]}"),
            ]
        for client in reversed(clients):
            client.enters()
        host.has_logged(*log)


@check
def a_script_can_take_all_numbers():
    """A script's 65th connection is closed by the host, which the terminal sees; the host sees all
    that were lost."""
    script = "".join(f"connect 0\nlose {number}\n" for number in range(MOST_CONNECTIONS))
    script += "connect 0\nlose 64\nsettle\nstatus 0\nconnect 0\nsettle\nstatus 0\n"
    came = run(["selfrun"], panels("PNL01") + b"%%\n" + script.encode())
    expect("selfrun", came, (0, "skipped\nidle\nbound PNL01\n", ""))


@check
def it_listens_at_127_0_0_1_alone():
    """Another address of this machine refuses."""
    for job in ("host", "serve"):
        with Server(job) as host:
            host.client().hears(DO)
            for address in ("127.0.0.2", "127.255.255.254"):
                with socket.socket() as other:
                    other.settimeout(PATIENCE)
                    expect(
                        f"{job} at {address}", other.connect_ex((address, host.port)) == 0, False
                    )


@check
def serve_listens_where_it_is_told():
    """At ::1 it is reached and logs so. It says where it can't listen and why; and that others can
    connect, if they can."""
    with Server("serve", "--listen", "::1") as host:
        client = Client(host.port, host="::1").signs_on("PNL01")
        client.enters()
        log = [
            f"listening on [::1]:{host.port}",
            event(0, client, "connected"),
            event(0, client, "bound lu=PNL01"),
        ]
        until("its log", lambda: host.events() == log)
    with socket.create_server((LOCALHOST, 0)) as taken:
        port = taken.getsockname()[1]
        told = f"cannot listen on {LOCALHOST}:{port}: address in use\n"
        expect(
            "serve at a port that is taken",
            run(["serve", "--port", port], panels("PNL01")),
            (4, "", told),
        )
        expect(
            "host at a port that is taken",
            run(["host", "--port", port], panels("PNL01")),
            (4, "", "socket failed\n"),
        )
    # An address for documentation (RFC 5737), which no machine has.
    at = f"192.0.2.1:{port}"
    told = f"warning: other machines can connect to {at}, and nothing is encrypted\n"
    told += f"cannot listen on {at}: address not available\n"
    expect(
        "serve at another's address",
        run(["serve", "--listen", "192.0.2.1", "--port", port], panels("PNL01")),
        (4, "", told),
    )


@check
def serve_prints_each_fault_of_its_panels():
    """With a file it prints each fault with the file's name and the line, and a suggestion, as
    check does; and so on a quiet service."""
    text = panels("PNL01", "PNL01").replace(b"keys = {enter", b"keys = {entr").replace(
        b"length = 8", b"lenght = 8"
    )
    with tempfile.NamedTemporaryFile(suffix=".toml") as it:
        it.write(text)
        it.flush()
        status, out, told = run(
            ["serve", "--quiet", "--port", free_port(), "--panels", it.name], b""
        )
        expect("check prints", run(["check", it.name], b"")[:2], (1, told))
    faults = [
        ": LU 'PNL01' is already listed in line 2",
        ": panel WORD: no key is named 'entr' (did you mean 'enter'?)",
    ]
    faults += [
        ": panel WORD, field word: unknown key 'lenght' (did you mean 'length'?)",
        ": panel WORD, field word: missing key 'length'",
    ]
    lines = [re.sub(rf"^{re.escape(it.name)}:[23]", "", line) for line in told.splitlines()]
    expect("serve", (status, out, sorted(lines)), (1, "", sorted([*faults, "4 faults"])))


@check
def a_quiet_service_logs_no_connections():
    """With --quiet it logs what ends it alone."""
    with Server("serve", "--quiet") as host:
        host.client().signs_on("PNL01").ends()
        host.client().signs_on("PNL01").enters()
        expect("its log", host.logged(), "")
    with socket.create_server((LOCALHOST, 0)) as taken:
        port = taken.getsockname()[1]
        status, _, told = run(["serve", "--quiet", "--port", port], panels("PNL01"))
        expect(
            "serve at a port that is taken",
            (status, told),
            (4, f"cannot listen on {LOCALHOST}:{port}: address in use\n"),
        )


# ---- panels of all models

# A start panel for model 5, with a text at its first row's last cell, and one of model 2 for other
# terminals.
WIDE_AND_NARROW = b"""start = 'WIDE'
lus = ['PNL01']
panel = [
 {name = 'WIDE', model = 5, otherwise = 'NARROW', text = [{row = 1, col = 132, text = 'W'}]},
 {name = 'NARROW', text = [{row = 1, col = 2, text = 'N'}]}]
"""
# Erase/Write Alternate, attributes at 130 and 3432; Erase/Write, attributes at 0 and 1840. The
# cursor is at 0.
WIDE = bytes.fromhex("00 00 02 00 00 7E C3 11 C2 C2 1D F0 E6 11 F5 E8 1D F8 11 40 40 13 FF EF")
NARROW = bytes.fromhex("00 00 02 00 00 F5 C3 11 40 40 1D F0 D5 11 5C F0 1D F8 11 40 40 13 FF EF")


@check
def each_client_gets_the_panel_of_its_model():
    """A client of the panel's model gets it in that model's larger size; all others get the panel
    of model 2, on 24 rows of 80 cells."""
    types = [
        ("IBM-3278-2", NARROW),
        ("IBM-3278-3-E", NARROW),
        ("IBM-3278-4", NARROW),
        ("IBM-3278-5", WIDE),
        ("IBM-3278-5-E", WIDE),
    ]
    for job in (["serve"], ["host", "--turns", "1000000"]):
        with Server(*job, text=WIDE_AND_NARROW) as host:
            for name, write in types:
                client = host.client()
                client.is_asked()
                client.says(device_type(7, None, name))
                client.hears(device_type(4, "PNL01", name))
                client.says(FUNCTIONS_REQUEST)
                client.hears(FUNCTIONS_IS, write)
                client.takes_write()
                client.ends()
            for model, shown in (("2", " N" + "\n" * 24), ("5", " " * 131 + "W" + "\n" * 27)):
                came = run(["term", "--port", host.port, "--model", model], b"wait\nshow\n")
                expect(
                    f"term --model {model}", came, (0, f"{shown}cursor 0 lock free aid 60\n", "")
                )


@check
def a_number_of_255_is_doubled():
    """The write with the number 255, and the response to it, have the byte twice (RFC 854)."""
    with Server("serve") as host:
        client = host.client().signs_on("PNL01")
        while client.writes < 255:
            client.enters()
        client.says(b"\x00\x00\x00\x00\x00", ENTER)
        # `came` would take the second FF and the command F1 for NOP, so NOP is only looked for
        # before the write.
        wanted = bytes.fromhex("00 00 02 00 FF FF") + NEXT_WRITE
        came, client.kept = client.kept, b""
        while len(came) < len(wanted) and (more := client.more()):
            came += more
            while came.startswith(NOP):
                came = came.removeprefix(NOP)
        expect("a client hears", came.hex(" "), wanted.hex(" "))
        client.says(bytes.fromhex("02 00 00 00 FF FF 00 FF EF"))
        client.writes += 1
        client.enters()


# ---- the terminal


@check
def a_terminal_signs_on():
    """A terminal asks for its LU, waits for the host, and prints what its operator then sees; the
    host sees when it leaves."""
    with Server("serve") as host:
        script = b"status\nwait\nstatus\ntype ANN\nshow\nkey enter\nwait\nshow\n"
        script += b"key left\ntype AB\nshow 0\n"
        shown = (
            "\n" * 2
            + " " * 7
            + "ANN\n"
            + "\n" * 21
            + "cursor 170 lock free aid 60\n"
            + "\n" * 24
            + "cursor 167 lock free aid 60\n"
        )
        came = run(["term", "--port", host.port, "--lu", "PNL02"], script)
        expect(
            "term",
            came,
            (1, f"talking\nbound PNL02\n{shown}refused 2\n", "line 11: not understood\n"),
        )
        kinds = ("connected", "bound lu=PNL02", "lost turns=1")
        until("its log", lambda: [it.split("event=")[1] for it in host.events()[1:]] == list(kinds))
        expect(
            "term",
            run(["term", "--port", host.port, "--lu", "NOSUCH"], b"wait\nstatus\n"),
            (0, "refused 3\n", ""),
        )


@check
def a_terminal_prints_each_line_when_it_is_done():
    """What the lines before a wait print is there while that lasts; it ends where the host ends the
    connection."""
    with socket.create_server((LOCALHOST, 0)) as host:
        words = [programs.panel3270(), "term", "--port", str(host.getsockname()[1])]
        with subprocess.Popen(words, stdin=subprocess.PIPE, stdout=subprocess.PIPE) as term:
            term.stdin.write(b"status\nwait\nstatus\n")
            term.stdin.close()
            wire, _ = host.accept()
            is_ready = select.select([term.stdout], [], [], PATIENCE)[0]
            came = os.read(term.stdout.fileno(), 100) if is_ready else b""
            wire.close()
            rest = term.stdout.read()
        expect("term", (term.returncode, came, rest), (0, b"talking\n", b"idle\n"))


# The words for each model, its type, the size that Erase/Write Alternate sets, and its last
# address.
MODELS = [
    ([], "IBM-3278-2", 24, 80, "5D 7F"),
    (["--model", "2"], "IBM-3278-2", 24, 80, "5D 7F"),
    (["--model", "3"], "IBM-3278-3", 32, 80, "E7 7F"),
    (["--model=4"], "IBM-3278-4", 43, 80, "F5 6F"),
    (["--model", "5"], "IBM-3278-5", 27, 132, "F7 6B"),
]


@check
def a_terminal_is_of_its_model():
    """A terminal asks for its model's type, and takes what its screen has room for: 24 by 80, or
    the size of its model after that is set."""
    for more, name, rows, columns, last in MODELS:
        to_last = bytes.fromhex(f"C3 11 {last} C1 13")
        with socket.create_server((LOCALHOST, 0)) as host:
            words = [programs.panel3270(), "term", "--port", str(host.getsockname()[1]), *more]
            with subprocess.Popen(words, stdin=subprocess.PIPE, stdout=subprocess.PIPE) as term:
                term.stdin.write(b"wait\nshow\n")
                term.stdin.close()
                end = TerminalHeard(host)
                # A terminal that waits ends once its connection does, also if a check fails here.
                with end.socket:
                    end.binds(name)
                    if rows > 24:
                        end.writes_with(b"\xf5" + to_last, (1, 2))
                    end.writes_with(b"\x7e" + to_last, (0, 0))
                    came = term.stdout.read().decode()
        shown = "\n" * (rows - 1) + " " * (columns - 1) + "A\ncursor 0 lock free aid 60\n"
        expect(f"term {' '.join(more)}", (term.returncode, came), (0, shown))
