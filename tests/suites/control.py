"""The control socket of `serve`, the job `tell`, and bin/serve, which signals control."""
import contextlib
import os
import pathlib
import re
import resource
import signal
import socket
import stat
import subprocess
import tempfile
import threading
import time

from harness import programs
from harness.case import TOP, Checks, expect
from harness.hosts import (
    Client,
    DEVICE_IN_USE,
    ENTER,
    FUNCTIONS_IS,
    FUNCTIONS_REQUEST,
    LOCALHOST,
    NEXT_WRITE,
    PATIENCE,
    Server,
    device_type,
    event,
    free_port,
    in_seconds,
    listens,
    panels,
    plain,
    run,
    until,
)

check = Checks()
cases = check.cases

# The time that a client of the socket has, in seconds, and the most bytes of a command and of an answer.
CLIENT_TIME, MOST_BYTES, MOST_ANSWER = 5, 512, 8192
UNKNOWN = "the command is none of: reload, drain [TEXT], note LU|* TEXT, sessions, stop"


@contextlib.contextmanager
def controlled(*words, **how):
    """A host with a control socket."""
    with tempfile.TemporaryDirectory() as folder:
        name = f"{folder}/control"
        with Server("serve", "--control", name, *words, **how) as host:
            host.control = name
            yield host


def tells(host, *words):
    """What `tell` prints, and its status."""
    status, printed, faults = run(["tell", host.control, *words], b"")
    expect("standard error", faults, "")
    return status, printed.rstrip("\n")


def command(name, status="ok", lu=None):
    """A line of the log, plain."""
    return f"event=command command={name}" + (f" lu={lu}" if lu else "") + f" status={status}"


def note(text, number):
    """A Write with WCC 40 that puts a text at 1841, and nulls to the row's end."""
    spelt = text.encode("cp037").ljust(79, b"\0")
    return b"\0\0\2" + number.to_bytes(2, "big") + b"\xf1\x40\x11\x5c\xf1" + spelt + b"\xff\xef"


def hears_note(client, text):
    client.hears(note(text, client.writes))
    client.takes_write()


def enters_over_note(client, text):
    """Presses Enter, and is shown the panel again, without the note."""
    client.says(bytes(5), ENTER)
    field, cursor = NEXT_WRITE[:-6], NEXT_WRITE[-6:]
    no_note = b"\x11\x5c\xf1" + bytes(len(text))
    client.hears(b"\0\0\2", client.writes.to_bytes(2, "big"), field, no_note, cursor)
    client.takes_write()


def plain_rows(answer):
    """The answer to `sessions` without ports and seconds."""
    return re.sub(r"127.0.0.1:\d+ \d+ s", "PEER", answer)


def raw(host):
    it = socket.socket(socket.AF_UNIX)
    it.settimeout(PATIENCE)
    it.connect(host.control)
    return it


def whole(it):
    """What comes until the end."""
    came = b""
    with contextlib.suppress(ConnectionError):
        while more := it.recv(1 << 16):
            came += more
    return came


@check
def only_the_owner_may_connect():
    """The socket has mode 600, and is gone when the service has ended."""
    with controlled() as host:
        mode = os.stat(host.control).st_mode
        expect("a socket", stat.S_ISSOCK(mode), True)
        expect("its mode", oct(stat.S_IMODE(mode)), "0o600")
        expect("tell", tells(host, "stop"), (0, "ok stopping"))
        expect("its status", host.ends(), 0)
        expect("is there", os.path.exists(host.control), False)
        host.has_logged(command("stop"))


@check
def sessions_are_listed():
    """Bound sessions are listed with their LU, others with a hyphen."""
    with controlled() as host:
        expect("tell", tells(host, "sessions"), (0, "ok sessions=0"))
        first = host.client().signs_on("PNL01")
        second = host.client()
        second.is_asked()
        status, answer = tells(host, "sessions")
        expect("tell", (status, plain_rows(answer)), (0, "ok sessions=2: PNL01 PEER, - PEER"))
        expect("the first peer", first.peer in answer and second.peer in answer, True)


@check
def a_note_is_shown_at_once():
    """An operator in the turn is shown the note at once, on this LU alone; the log hasn't its text."""
    with controlled() as host:
        first, second = host.client().signs_on("PNL01"), host.client().signs_on("PNL02")
        expect("tell", tells(host, "note", "PNL02", "BYE")[0], 0)
        hears_note(second, "BYE")
        expect("tell", tells(host, "note", "*", "DOWN AT 18:00")[0], 0)
        hears_note(first, "DOWN AT 18:00")
        hears_note(second, "DOWN AT 18:00")
        expect("the log has the text", "18:00" in host.logged(), False)
        expect("tell", tells(host, "note", "PNL09", "BYE"), (1, "error no session has this LU"))
        commands = [it for it in host.events() if "command" in it]
        expect(
            "its log",
            commands,
            [
                command("note", lu="PNL02"),
                command("note"),
                command("note", "error", "PNL09"),
            ],
        )


@check
def a_note_waits_for_the_turn():
    """Who has pressed Enter is shown the note after the next panel is confirmed; the last note counts."""
    with controlled() as host:
        client = host.client().signs_on("PNL01")
        client.says(bytes(5), ENTER)
        client.hears(b"\0\0\2", client.writes.to_bytes(2, "big"), NEXT_WRITE)
        for text in ("ONE", "TWO"):
            expect("tell", tells(host, "note", "*", text)[0], 0)
        client.takes_write()
        hears_note(client, "TWO")
        enters_over_note(client, "TWO")


@check
def a_note_is_for_its_session():
    """A note that waits is gone with its session: who comes next on its LU isn't shown it."""
    with controlled() as host:
        client = host.client().signs_on("PNL01")
        client.says(bytes(5), ENTER)
        client.hears(b"\0\0\2", client.writes.to_bytes(2, "big"), NEXT_WRITE)
        expect("tell", tells(host, "note", "*", "OLD")[0], 0)
        client.ends()
        after = host.client().signs_on("PNL01")
        after.enters()


@check
def a_note_needs_a_session():
    with controlled() as host:
        expect("tell", tells(host, "note", "*", "BYE"), (1, "error there is no session"))


@check
def a_drained_service_takes_nobody():
    """It shows the text, takes no new session, serves the others, and ends with the last."""
    with controlled() as host:
        client = host.client().signs_on("PNL01")
        expect("tell", tells(host, "drain", "GOING DOWN"), (0, "ok draining"))
        hears_note(client, "GOING DOWN")
        with contextlib.suppress(ConnectionRefusedError):
            Client(host.port)
            expect("a new client", "connected", "refused")
        enters_over_note(client, "GOING DOWN")
        expect("tell", tells(host, "drain"), (0, "ok draining"))
        expect("its status", host.process.poll(), None)
        client.ends()
        expect("its status", host.ends(), 0)
        host.has_logged(
            event(0, client, "connected"),
            event(0, client, "bound lu=PNL01"),
            command("drain"),
            command("drain"),
            event(0, client, "lost turns=1"),
        )


@check
def a_drained_service_ends_after_its_time():
    with controlled("--drain", "2") as host:
        client = host.client().signs_on("PNL01")
        expect("tell", tells(host, "drain"), (0, "ok draining"))
        in_seconds(1, 4, "ends", client.hears_the_end)
        expect("its status", host.ends(), 0)
        host.has_logged(
            event(0, client, "connected"),
            event(0, client, "bound lu=PNL01"),
            command("drain"),
            event(0, client, "stopped turns=0"),
        )


@check
def half_a_header_holds_no_drain_up():
    """A drained service without sessions ends, though a client has sent only a part of its PROXY header."""
    with controlled("--proxy-protocol") as host:
        with socket.create_connection((LOCALHOST, host.port), PATIENCE) as half:
            half.sendall(b"PROXY TCP4 192.0.2.1 ")
            behind = host.client()
            behind.says(b"PROXY UNKNOWN\r\n")
            behind.signs_on("PNL01")
            expect("tell", tells(host, "drain"), (0, "ok draining"))
            behind.ends()
            in_seconds(0, 4, "ends", lambda: expect("its status", host.ends(), 0))
            expect("the client's end", half.recv(1), b"")


@check
def a_stopped_service_ends_its_sessions():
    with controlled() as host:
        clients = [host.client().signs_on(it) for it in ("PNL01", "PNL02")]
        expect("tell", tells(host, "stop"), (0, "ok stopping"))
        for client in clients:
            client.hears_the_end()
        expect("its status", host.ends(), 0)
        expect(
            "its log",
            host.events()[-2:],
            [event(it, client, "stopped turns=0") for it, client in enumerate(clients)],
        )


@check
def a_wrong_command_is_refused():
    """`tell` refuses it, and sends nothing; the service answers it, and logs it."""
    with controlled() as host:
        for words, why in {
            ("halt",): UNKNOWN,
            ("stop", "now"): UNKNOWN,
            ("note",): UNKNOWN,
            ("note", "A-B", "X"): "the recipient is neither the name of an LU nor *",
            ("note", "*", "x" * 132): "the text has more than 131 characters, or one that no 3270 screen has",
            ("drain", "a\nb"): "the text has more than 131 characters, or one that no 3270 screen has",
        }.items():
            expect(f"tell {words}", run(["tell", host.control, *words], b""), (2, "", f"{why}\n"))
        with raw(host) as it:
            it.sendall(b"halt\nstop\n")
            expect("answer", whole(it).decode(), f"error {UNKNOWN}\n")
        with raw(host) as it:
            it.sendall(b"\xff\n")
            expect("answer", whole(it).decode(), "error the line is not UTF-8\n")
        host.has_logged(command("unknown", "error"), command("unknown", "error"))


@check
def a_line_is_bounded():
    """A line that has no end within 512 bytes is refused; one of 512 bytes isn't, in any pieces."""
    with controlled() as host:
        with raw(host) as it:
            it.sendall(b"x" * MOST_BYTES)
            expect("answer", whole(it).decode(), "error the line is too long\n")
        with raw(host) as it:
            for byte in b"sessions\n":
                it.sendall(bytes([byte]))
            expect("answer", whole(it).decode(), "ok sessions=0\n")


@check
def a_slow_client_is_dropped():
    """After five seconds; terminals and others are served meanwhile."""
    with controlled() as host:
        with raw(host) as slow:
            slow.sendall(b"sess")
            host.client().signs_on("PNL01").enters()
            expect("tell", tells(host, "sessions")[0], 0)
            in_seconds(CLIENT_TIME - 2, CLIENT_TIME + 3, "dropped", lambda: whole(slow))


@check
def four_clients_are_served():
    """A fifth one is dropped, and served once one of the four has left."""
    with controlled() as host, contextlib.ExitStack() as stack:
        four = [stack.enter_context(raw(host)) for _ in range(4)]
        for it in four:
            it.sendall(b"s")
        time.sleep(0.1)
        with raw(host) as fifth:
            expect("the fifth hears", whole(fifth), b"")
        four[0].sendall(b"essions\n")
        expect("the first hears", whole(four[0]), b"ok sessions=0\n")
        four[0].close()
        until("another is served", lambda: run(["tell", host.control, "sessions"], b"")[0] == 0)


@check
def a_socket_has_one_service():
    """A second service is refused; after a kill the next one takes the socket over, but no other file."""
    with controlled() as host:
        words = ["serve", "--port", free_port(), "--control", host.control]
        faults = f"--control {host.control}: is in use\n"
        expect("a second one", run(words, panels("A")), (4, "", faults))
        expect("tell", tells(host, "sessions")[0], 0)
        host.process.kill()
        host.process.wait()
        status, _, faults = run(["tell", host.control, "stop"], b"")
        expect("tell", (status, faults), (4, f"{host.control}: no service listens there\n"))
        with Server("serve", "--control", host.control) as after:
            after.control = host.control
            expect("tell", tells(after, "stop"), (0, "ok stopping"))
            expect("its status", after.ends(), 0)
        kept = pathlib.Path(host.control)
        kept.write_text("kept")
        expect("a third one", run(words, panels("A"))[0], 4)
        expect("the file", kept.read_text(), "kept")


def answers(service, answer):
    """A service's socket that gives one command this answer."""
    client, _ = service.accept()
    with client, client.makefile("rb") as commands:
        commands.readline()
        client.sendall(answer)


@check
def an_invalid_answer_is_a_fault():
    """`tell` refuses a line without a status, one that isn't UTF-8 and one without an end within 8,192
    bytes, and a connection that ends within the line."""
    for answer, why in (
        (b"stopping\n", "the answer has no status"),
        (b"ok \xff\n", "the line is not UTF-8"),
        (b"ok ".ljust(MOST_ANSWER, b"x"), "the line is too long"),
        (b"ok stopping", "the service gave no answer"),
    ):
        with tempfile.TemporaryDirectory() as folder, socket.socket(socket.AF_UNIX) as service:
            name = f"{folder}/control"
            service.bind(name)
            service.listen()
            service.settimeout(PATIENCE)
            answering = threading.Thread(target=answers, args=(service, answer))
            answering.start()
            told = run(["tell", name, "stop"], b"")
            answering.join()
            expect(f"tell, answered {answer[:16]}", told, (4, "", f"{name}: {why}\n"))


@check
def tell_needs_a_service():
    expect("tell", run(["tell", "/nowhere", "stop"], b""), (4, "", "/nowhere: no such file\n"))


# ---- reload

# As hosts.FIRST_WRITE, NEXT_WRITE and ENTER, for a field in row 5 in place of row 3: the attributes
# at 326 and 335, the field at 327, the cursor behind an A at 328 (addresses of 12 bits, GA23-0059).
NEW_FIRST_WRITE = bytes.fromhex(
    "00 00 02 00 00 F5 C3 11 C5 C6 1D C1 11 C5 4F 1D F0 11 5C F0 1D F8 11 C5 C7 13 FF EF"
)
NEW_NEXT_WRITE = bytes.fromhex(
    "F1 C3 11 C5 C6 1D C1 00 00 00 00 00 00 00 00 11 C5 C7 13 FF EF"
)
NEW_ENTER = bytes.fromhex("7D C5 C8 11 C5 C7 C1 FF EF")


class NewClient(Client):
    """A client that is shown the new panel."""

    first_write = NEW_FIRST_WRITE

    def enters(self):
        self.says(bytes(5), NEW_ENTER)
        self.hears(b"\0\0\2", self.writes.to_bytes(2, "big"), NEW_NEXT_WRITE)
        self.takes_write()


def new_panels(*lus):
    return panels(*lus).replace(b"row = 3", b"row = 5")


@contextlib.contextmanager
def of_file(*lus, words=()):
    """A host with a control socket, whose panels are in a file."""
    with tempfile.TemporaryDirectory() as folder:
        file = pathlib.Path(folder, "panels.toml")
        file.write_bytes(panels(*lus))
        with controlled("--panels", str(file), *words) as host:
            host.file = file
            yield host


def reloads(host, text):
    host.file.write_bytes(text)
    return tells(host, "reload")


@check
def new_sessions_get_the_new_panels():
    """Old ones keep theirs to their end; so after a second reload."""
    with of_file("PNL01", "PNL02", "PNL03") as host:
        old = host.client().signs_on("PNL01")
        lus = "PNL01", "PNL02", "PNL03", "PNL04"
        expect("tell", reloads(host, new_panels(*lus)), (0, "ok reloaded: panels=1 lus=4"))
        new = NewClient(host.port).signs_on("PNL02")
        old.enters()
        new.enters()
        expect("tell", reloads(host, panels(*lus)), (0, "ok reloaded: panels=1 lus=4"))
        last = host.client().signs_on("PNL03")
        for it in (old, new, last):
            it.enters()
        for it in (old, new):
            it.ends()
        host.has_logged(
            event(0, old, "connected"),
            event(0, old, "bound lu=PNL01"),
            "event=reloaded panels=1 lus=4",
            command("reload"),
            event(1, new, "connected"),
            event(1, new, "bound lu=PNL02"),
            "event=reloaded panels=1 lus=4",
            command("reload"),
            event(2, last, "connected"),
            event(2, last, "bound lu=PNL03"),
            event(0, old, "lost turns=2"),
            event(1, new, "lost turns=2"),
        )


@check
def sessions_of_each_text_are_listed():
    """After a reload the sessions of the old panels and of the new ones are listed, each with its LU and
    its client."""
    with of_file("PNL01", "PNL02") as host:
        old = host.client().signs_on("PNL01")
        expect("tell", reloads(host, new_panels("PNL01", "PNL02"))[0], 0)
        new = NewClient(host.port).signs_on("PNL02")
        status, answer = tells(host, "sessions")
        rows = re.sub(r" \d+ s", "", answer)
        wanted = [f"PNL01 {old.peer}", f"PNL02 {new.peer}"]
        expect("the sessions", (status, [it for it in wanted if it not in rows], rows), (0, [], rows))


@check
def an_lu_has_one_session():
    """The LU of an old session is in use until that ends; one that isn't in the new text isn't granted."""
    with of_file("PNL01", "PNL02") as host:
        old, gone = host.client().signs_on("PNL01"), host.client().signs_on("PNL02")
        expect("tell", reloads(host, new_panels("PNL01", "PNL03"))[0], 0)
        new = NewClient(host.port)
        new.is_asked()
        for lu in ("PNL01", "PNL02"):
            new.asks_for(lu)
            reason = 1 if lu == "PNL01" else 3
            new.hears(b"\xff\xfa\x28\x02\x06\x05", bytes([reason]), b"\xff\xf0")
        new.asks_for(None)
        new.is_bound("PNL03")
        last = NewClient(host.port)
        last.is_asked()
        last.asks_for(None)
        last.hears(DEVICE_IN_USE)
        old.enters()
        old.ends()
        last.asks_for(None)
        last.is_bound("PNL01")
        gone.enters()
        gone.ends()
        last.enters()


@check
def a_wrong_text_changes_nothing():
    """The answer is what `check` prints, in one line; a long one is cut."""
    with of_file("PNL01", "PNL02") as host:
        old = host.client().signs_on("PNL01")
        wrong = panels("PNL01").replace(b"'WORD'}", b"'NONE'}").replace(b"length = 8", b"lenght = 8")
        told = reloads(host, wrong)
        said = run(["check", str(host.file)], b"")[1]
        expect("tell", told, (1, "error " + said.rstrip("\n").replace("\n", "; ")))
        many = b", ".join(b"{name = 'P%d', keys = {enter = 'NONE'}}" % it for it in range(300))
        status, answer = reloads(host, b"start = 'P0'\nlus = ['A']\npanel = [" + many + b"]\n")
        lines = run(["check", str(host.file)], b"")[1].splitlines()
        parts = answer.removeprefix("error ").split("; ")
        expect("tell", (status, len(answer) < MOST_ANSWER), (1, True))
        expect("its findings", parts[:-2], lines[: len(parts) - 2])
        expect("its end", parts[-2:], [f"and {len(lines) - len(parts) + 1} more", lines[-1]])
        host.file.unlink()
        expect("tell", tells(host, "reload"), (1, "error the file isn't there"))
        host.file.mkdir()
        expect("tell", tells(host, "reload"), (1, "error the file can't be opened"))
        host.client().signs_on("PNL02").enters()
        old.enters()
        expect("logged", [it for it in host.events() if "reload" in it], [command("reload", "error")] * 4)


@check
def panels_that_ask_need_an_application():
    with of_file("PNL01") as host:
        asking = panels("PNL01").replace(b"keys =", b"asks = ['enter'], keys =").replace(b"{enter = 'WORD'}", b"{}")
        why = "panel WORD asks the application about enter; give --application URL"
        expect("tell", reloads(host, asking), (1, f"error {why}"))


@check
def a_reload_ends_negotiations():
    """Who isn't bound yet could still get an LU of the old text: the connection ends."""
    with of_file("PNL01") as host:
        asks = host.client()
        asks.is_asked()
        expect("tell", reloads(host, new_panels("PNL01"))[0], 0)
        asks.hears_the_end()
        bound = NewClient(host.port).signs_on("PNL01")
        bound.enters()
        bound.ends()
        host.has_logged(
            event(0, asks, "connected"),
            event(0, asks, "reloaded"),
            "event=reloaded panels=1 lus=1",
            command("reload"),
            event(0, bound, "connected"),
            event(0, bound, "bound lu=PNL01"),
            event(0, bound, "lost turns=1"),
        )


@check
def eight_earlier_texts_are_kept():
    """A further reload is refused until the sessions of one of them have ended."""
    lus = [f"PNL{it:02}" for it in range(10)]
    with of_file(*lus) as host:
        clients = []
        for lu in lus[:8]:
            clients.append(host.client().signs_on(lu))
            expect("tell", reloads(host, panels(*lus))[0], 0)
        clients.append(host.client().signs_on(lus[8]))
        refused = (1, "error sessions of 8 earlier panel texts go on; wait until those of one end")
        expect("tell", reloads(host, new_panels(*lus)), refused)
        host.client().signs_on(lus[9]).ends()
        clients.pop(3).ends()
        until("it reloads", lambda: reloads(host, new_panels(*lus))[0] == 0)
        NewClient(host.port).signs_on(lus[3]).enters()
        for it in clients:
            it.enters()


@check
def standard_input_is_read_once():
    with controlled() as host:
        why = "the panels came from standard input; start serve with --panels FILE"
        expect("tell", tells(host, "reload"), (1, f"error {why}"))


# ---- bin/serve


@contextlib.contextmanager
def script(*words, before=lambda: None, listens_in=None):
    """bin/serve on its own port; `before` is done in its process before it begins. It says that it
    listens on standard error, or in a file."""
    port = free_port()

    def begins():
        # A shell can't trap a signal that it was started to ignore, as in the background.
        signal.signal(signal.SIGINT, signal.SIG_DFL)
        before()

    with tempfile.TemporaryFile() as log:
        process = subprocess.Popen(
            [TOP / "bin/serve", "--port", str(port), *words],
            stdin=subprocess.PIPE,
            stderr=log,
            env={**os.environ, "PANEL3270": str(programs.panel3270())},
            preexec_fn=begins,
        )
        try:
            # Unless its standard input is closed.
            with contextlib.suppress(BrokenPipeError):
                process.stdin.write(panels("PNL01"))
                process.stdin.close()
            process.port = port
            process.logged = lambda: os.pread(log.fileno(), 1 << 16, 0).decode()
            said = listens_in.read_text if listens_in else process.logged
            until("it listens", lambda: listens(port) and "listening" in said())
            yield process
        finally:
            if process.poll() is None:
                process.send_signal(signal.SIGINT)
                process.wait(PATIENCE)


@check
def term_drains():
    """TERM: nobody new, and the end with the last session."""
    with script() as it:
        client = Client(it.port).signs_on("PNL01")
        it.send_signal(signal.SIGTERM)
        until("it drains", lambda: "ok draining" in it.logged())
        client.enters()
        client.ends()
        expect("its status", it.wait(PATIENCE), 0)
        expect("its log", plain(it.logged().splitlines()[-1]), event(0, client, "lost turns=1"))


@check
def int_stops():
    with script() as it:
        client = Client(it.port).signs_on("PNL01")
        it.send_signal(signal.SIGINT)
        client.hears_the_end()
        expect("its status", it.wait(PATIENCE), 0)


@check
def hup_keeps_the_sessions():
    """A service that can't read its panels again says so, and goes on."""
    with script() as it:
        client = Client(it.port).signs_on("PNL01")
        it.send_signal(signal.SIGHUP)
        until("it answers", lambda: "error the panels came from standard input" in it.logged())
        client.enters()


@check
def hup_reloads():
    with tempfile.NamedTemporaryFile() as file:
        file.write(panels("PNL01", "PNL02"))
        file.flush()
        with script("--panels", file.name) as it:
            client = Client(it.port).signs_on("PNL01")
            file.seek(0)
            file.write(new_panels("PNL01", "PNL02"))
            file.flush()
            it.send_signal(signal.SIGHUP)
            until("it answers", lambda: "ok reloaded: panels=1 lus=2" in it.logged())
            NewClient(it.port).signs_on("PNL02").enters()
            client.enters()


@check
def a_log_at_its_limit_ends_nothing():
    """A log that mayn't grow takes no more lines. The signal of that limit (SIGXFSZ) doesn't end the
    service: sessions go on, and TERM drains."""
    limit = 200
    limited = lambda: resource.setrlimit(resource.RLIMIT_FSIZE, (limit, limit))
    with script(before=limited) as it:
        for _ in range(4):
            Client(it.port).signs_on("PNL01").ends()
        client = Client(it.port).signs_on("PNL01")
        client.enters()
        expect("bytes of the log", len(it.logged()), limit)
        it.send_signal(signal.SIGTERM)
        until("it drains", lambda: not listens(it.port))
        client.enters()
        client.ends()
        expect("its status", it.wait(PATIENCE), 0)


@check
def a_log_is_a_file_that_is_opened_again():
    """With --log the lines of one process go to a file as they are, and after HUP to a new one."""
    with tempfile.TemporaryDirectory() as folder:
        log = pathlib.Path(folder) / "log"
        begins = lambda: os.dup2(os.open(os.devnull, os.O_WRONLY), 2)
        with script("--log", str(log), before=begins, listens_in=log) as it:
            client = Client(it.port).signs_on("PNL01")
            log.rename(f"{log}.1")
            it.send_signal(signal.SIGHUP)
            until("a new file", log.exists)
            client.ends()
            until("its end", lambda: event(0, client, "lost turns=0") in map(plain, log.read_text().splitlines()))


@check
def closed_streams_are_no_files_of_the_service():
    """bin/serve without standard input and output: it and its process have /dev/null there, and no
    socket and no file."""
    with tempfile.NamedTemporaryFile() as file:
        file.write(panels("PNL01"))
        file.flush()
        with script("--panels", file.name, before=lambda: os.closerange(0, 2)) as it:
            children = pathlib.Path(f"/proc/{it.pid}/task/{it.pid}/children").read_text().split()
            expect("processes", len(children), 1)
            for pid in (it.pid, *children):
                for stream in (0, 1):
                    where = os.readlink(f"/proc/{pid}/fd/{stream}")
                    expect(f"stream {stream} of {pid}", where, "/dev/null")
            Client(it.port).signs_on("PNL01").enters()
