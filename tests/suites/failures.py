"""What becomes of a run when memory, a socket or an output fails."""
import contextlib
import os
import pathlib
import resource
import socket
import subprocess
import tempfile

from harness import growths, programs
from harness.case import Checks, Difference, expect, needs_proved
from harness.hosts import LOCALHOST, Client, Server, event, free_port, listens, panels, run, until

check = Checks()
cases = check.cases

# ---- what fails


def is_served(host):
    """Whether a session goes on, or ends."""
    with contextlib.suppress(Difference, ConnectionError):
        host.client().signs_on("PNL01").enters()
        return True
    return False


@check
@needs_proved
def a_host_without_memory_ends():
    """Each growth of memory refused to a host in a session ends it: when it opens the connection,
    takes bytes, acts or logs."""
    with socket.create_server((LOCALHOST, 0)) as taken:
        # A port that is taken ends it once it has all that it needs to serve.
        status, _, told = run(
            ["serve", "--port", taken.getsockname()[1]], panels("PNL01"), env=growths.settings(0)
        )
        expect("serve at a port that is taken", status, 4)
        ended = 0
        # More growths than a session has.
        for growth in range(growths.met(told) + 1, growths.met(told) + 25):
            with Server("serve", lus=["PNL01"], env=growths.settings(growth)) as host:
                if not is_served(host):
                    expect(
                        "serve without memory",
                        (host.ends(), host.logged().splitlines()[-2:-1]),
                        (3, ["no memory"]),
                    )
                    ended += 1
        expect("at least 8 growths end it", ended >= 8, True)


SESSION = b"%%\nconnect 0\nsettle\ntype 0 A\nkey 0 enter\nsettle\nstatus 0\ntype 0 BC\nshow 0\n"
SHOWN = "bound PNL01\n" + "\n" * 2 + " " * 7 + "BC\n" + "\n" * 21 + "cursor 169 lock free aid 60\n"


@check
@needs_proved
def a_script_without_memory_ends():
    """Each growth of memory refused to a script's host or terminal ends the run, and nothing is
    printed; it may get over one."""
    first = growths.met(run(["selfrun"], panels("PNL01"), env=growths.settings(0))[2])
    status, printed, told = run(["selfrun"], panels("PNL01") + SESSION, env=growths.settings(0))
    expect("selfrun", (status, printed), (0, SHOWN))
    met, got_over = range(first + 1, growths.met(told) + 1), 0
    for growth in met:
        came = run(["selfrun"], panels("PNL01") + SESSION, env=growths.settings(growth))
        if came[:2] == (0, SHOWN):
            got_over += 1
        else:
            expect(
                f"selfrun without growth {growth}",
                (*came[:2], came[2].splitlines()[:-1]),
                (3, "", ["no memory"]),
            )
    expect(
        "at least 8 growths are met, and at most one is got over",
        len(met) >= 8 and got_over <= 1,
        True,
    )


def ends_without_memory(words, given, status, printed):
    """How many growths of memory a run met, each refused in a run of its own: it ends by status 3
    and prints nothing, or gets over it."""
    came = run(words, given, env=growths.settings(0))
    expect(words[0], came[:2], (status, printed))
    met = growths.met(came[2])
    for growth in range(1, met + 1):
        came = run(words, given, env=growths.settings(growth))
        if came[:2] != (status, printed):
            expect(
                f"{words[0]} without growth {growth}",
                (*came[:2], came[2].splitlines()[:-1]),
                (3, "", ["no memory"]),
            )
    return met


@check
@needs_proved
def a_run_without_memory_ends():
    """Each growth of memory refused to `show`, `script` or `host` ends the run with status 3, and
    nothing is printed."""
    shown = " HI" + "\n" * 24 + "cursor 4\n"
    expect(
        "show meets growths",
        ends_without_memory(["show"], b"F5 C3 11 40 40 1D 60 C8 C9 1D 40 13\n", 0, shown) > 4,
        True,
    )
    expect(
        "script meets growths",
        ends_without_memory(["script"], panels("PNL01") + SESSION, 0, SHOWN) > 8,
        True,
    )
    host = ["host", "--port", free_port(), "--turns", 1]
    expect("host meets growths", ends_without_memory(host, panels("PNL01"), 5, "") > 8, True)


@check
def a_script_without_sockets_ends():
    """Where the system refuses a socket to listen or to connect the run ends; one that it doesn't
    hand over waits."""
    ends = [
        (4, "", "socket failed\n"),
        (4, "idle\n", "socket failed\n"),
        (0, "idle\ntalking\n", ""),
        (0, "idle\nbound PNL01\n", ""),
    ]
    script = panels("PNL01") + b"%%\nstatus 0\nconnect 0\nsettle\nstatus 0\n"
    came = []
    # A program is loaded by a fourth file.
    for limit in range(4, 12):
        end = run(["selfrun"], script, limit)
        came += [end] if end not in came[-1:] else []
    expect("selfrun with 4 to 11 files", came, ends)


@check
def a_connection_waits_for_a_socket():
    """A connection that the system doesn't hand over, for want of a socket, is taken once another
    ends."""
    with Server("serve") as host:
        first = host.client().signs_on("PNL01")
        files = max(int(it) for it in os.listdir(f"/proc/{host.process.pid}/fd")) + 1
        resource.prlimit(host.process.pid, resource.RLIMIT_NOFILE, (files, files))
        second = host.client()
        first.enters()
        first.leaves()
        second.signs_on("PNL01").enters()
        log = [event(0, first, it) for it in ("connected", "bound lu=PNL01", "lost turns=1")]
        host.has_logged(*log, event(0, second, "connected"), event(0, second, "bound lu=PNL01"))


@check
def output_that_fails_is_told():
    """Where what is printed can't be written the run ends with status 6."""
    with open("/dev/full", "wb") as full, socket.create_server((LOCALHOST, 0)) as silent:
        script = panels("PNL01") + b"%%\nstatus 0\n"
        runs = [
            (["show"], b""),
            (["script"], script),
            (["selfrun"], script),
            (["term", "--port", silent.getsockname()[1]], b"status\n"),
        ]
        for words, given in runs:
            expect(words[0], run(words, given, stdout=full), (6, "", "output failed\n"))
        # What ended a run is its status, whether or not that can be told.
        for words, given, status in (
            (["selfrun", "--turns", "1"], script + b"settle\nsettle\n", 5), (["show"], b"x\n", 1)
        ):
            expect(words[0], run(words, given, stderr=full)[0], status)


@check
def a_reader_may_close_the_pipe():
    """Where the reader of `help`, `version` or `check` closes the pipe, as `head -1` does, the run
    ends as if it had read all."""
    for words, status in (
        (["help"], 0), (["help", "serve"], 0), (["--version"], 0), (["check"], 1)
    ):
        ours, theirs = os.pipe()
        os.close(ours)
        expect(words[0], run(words, b"", stdout=theirs), (status, "", ""))
        os.close(theirs)
    ours, theirs = os.pipe()
    os.close(ours)
    expect("show", run(["show"], b"", stdout=theirs), (6, "", "output failed\n"))
    os.close(theirs)


@check
def closed_streams_are_no_sockets():
    """A standard stream that is closed at the start is /dev/null: no socket and no file has its number,
    and so nothing that is printed gets into one. Those that aren't closed stay as they are."""
    for closed in ((0,), (2,), (0, 2), (0, 1, 2)):
        port = free_port()
        with tempfile.TemporaryDirectory() as folder, open(f"{folder}/out", "wb") as out:
            file = pathlib.Path(folder) / "panels.toml"
            file.write_bytes(panels("PNL01"))
            with subprocess.Popen(
                [programs.panel3270(), "serve", "--port", str(port), "--panels", file],
                stdin=out,
                stdout=out,
                stderr=out,
                preexec_fn=lambda closed=closed: [os.close(it) for it in closed],
            ) as host:
                try:
                    until("a host listens", lambda port=port: listens(port))
                    client = Client(port).signs_on("PNL01")
                    streams = [os.readlink(f"/proc/{host.pid}/fd/{it}") for it in range(3)]
                    wanted = ["/dev/null" if it in closed else out.name for it in range(3)]
                    expect(f"the streams without {closed}", streams, wanted)
                    client.enters()
                finally:
                    host.kill()
