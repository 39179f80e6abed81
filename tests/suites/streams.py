"""Streams that end, fail or are interrupted at each place: what the program prints, and how it
ends. tests/harness/streams.c, which is preloaded, makes its reads and writes so."""
import contextlib
import os
import socket
import threading

from harness import hosts
from harness.case import Checks, expect
from harness.growths import library
from harness.hosts import LOCALHOST

check = Checks()
cases = check.cases

# What the program reads of its input (docs/USING.md, "How a run ends").
MOST_BYTES, MOST_READS = 1_048_576, 65_536
# The longest time of a run of so much input, in seconds: a program without a proof is slow.
LONGEST = 300


def limited(limits: dict[str, int]) -> dict[str, str]:
    """The environment of a run with these limits of streams.c."""
    preload = {"LD_PRELOAD": str(library("streams"))}
    return {**os.environ, **preload, **{name.upper(): str(it) for name, it in limits.items()}}


def run(job: str, given: bytes, **limits: int) -> tuple[int, str, str]:
    """The status of `show` or `script`, what it printed, and its faults."""
    return hosts.run([job], given, seconds=LONGEST, env=limited(limits))


# ---- show and script

LINE = b"F5 C3 11 40 40 1D 60 C8 C9 1D 40 13\n"
UNREAD = (1, "", "input not read\n")


@check
def input_that_breaks_off_is_refused() -> None:
    """At each read of a line in pieces of seven bytes, nothing is printed, and one fault is
    reported."""
    for count in range(len(LINE) // 7 + 2):
        expect(f"show whose read {count} fails", run("show", LINE, size=7, reads=count), UNREAD)


@check
def input_is_read_up_to_its_limits_of_bytes_and_reads() -> None:
    """A byte more than may be read isn't; and of one byte a read, the last read that is allowed
    finds the end."""
    blanks = b" " * MOST_BYTES
    expect("the status with all bytes", run("show", blanks)[0], 0)
    expect("one byte more", run("show", blanks + b" "), UNREAD)
    expect("the status with a read too many", run("show", blanks[:MOST_READS], size=1)[0], 1)
    expect("the status with all reads", run("show", blanks[: MOST_READS - 1], size=1)[0], 0)


@check
def output_that_fails_ends_a_run_wherever_it_fails() -> None:
    """Whatever room there is, a run ends by its writer, but if the whole page has room."""
    given = b"F5\n" + LINE
    whole = run("show", given)
    expect("the status with room", (whole[0], whole[2]), (0, ""))
    for room in range(len(whole[1])):
        status, _, faults = run("show", given, room=room)
        expect(f"show with room for {room} bytes", (status, faults), (6, "output failed\n"))
    expect("show with room for all", run("show", given, room=len(whole[1])), whole)


@check
def a_script_tells_of_output_that_fails_not_of_its_line() -> None:
    """Of two lines the first prints `idle`, and the second isn't understood."""
    given = b"panel = [{name = 'P'}]\nstart = 'P'\nlus = ['A']\n%%\nstatus 0\nshow\n"
    for room in range(5):
        status, _, faults = run("script", given, room=room)
        expect(f"script with room for {room} bytes", (status, faults), (6, "output failed\n"))
    expect(
        "script with room for its line",
        run("script", given, room=5),
        (1, "idle\n", "line 2: not understood\n"),
    )


@check
def a_write_that_is_interrupted_is_made_again() -> None:
    """That of the page, and that of a fault."""
    for interruptions in (1, 3):
        came = run("show", b"F5\n%\n", interruptions=interruptions)
        expect(
            f"show with {interruptions} interruptions",
            came,
            (1, "refused OPERATION-CHECK\n", "line 2: not hex\n"),
        )


# ---- term

# TN3270E is offered, the device type asked for, PNL01 granted, and RESPONSES (RFC 1647); and what
# the terminal says to that.
GRANTS = bytes.fromhex("FFFD28 FFFA280802FFF0 FFFA280204") + b"IBM-3278-2\x01PNL01" + bytes.fromhex(
    "FFF0 FFFA28030402FFF0"
)
ASKS = bytes.fromhex("FFFB28 FFFA280207") + b"IBM-3278-2\x01PNL01" + bytes.fromhex(
    "FFF0 FFFA28030702FFF0"
)
# Erase/Write, number 0: `HI` in a protected field from 0 on, and an unprotected one from 3 on with
# the cursor in it.
HI = bytes.fromhex("0000020000 F5C3 114040 1D60 C8C9 1D40 13 FFEF")
# Erase All Unprotected, number 1.
ERASE = bytes.fromhex("0000020001 6F FFEF")
# The response to number 0, Enter with an `A` in the field at 3, and the response to number 1.
ENTERS = bytes.fromhex("020000000000FFEF 0000000000 7D40C5 1140C4 C1 FFEF 020000000100FFEF")


def screen(row: str, cursor: int) -> str:
    return row + "\n" * 24 + f"cursor {cursor} lock free aid 60\n"


def serve(listener: socket.socket, came: bytes, heard: bytearray) -> None:
    """A host that sends these bytes, and then hears the terminal out."""
    with listener.accept()[0] as it, contextlib.suppress(ConnectionError):
        it.sendall(came)
        it.shutdown(socket.SHUT_WR)
        while more := it.recv(1 << 16):
            heard += more


def term(script: str, came: bytes, **limits: int) -> tuple[tuple[int, str, str], bytes]:
    """How a terminal's script ends, whose reads from the host give a byte each, and what it
    sends."""
    heard = bytearray()
    with socket.create_server((LOCALHOST, 0)) as listener:
        host = threading.Thread(target=serve, args=(listener, came, heard))
        host.start()
        words = ["term", "--lu", "PNL01", "--port", listener.getsockname()[1]]
        end = hosts.run(words, script.encode(), env=limited({"socket": 1, "size": 1, **limits}))
        host.join()
    return end, bytes(heard)


def prints(script: str, came: bytes, wanted: str) -> bytes:
    """A script prints this and ends well, though it reads a byte at a time. What it sends."""
    end, sent = term(script, came)
    expect(f"the script {script!r}", end, (0, wanted, ""))
    return sent


@check
def an_operator_signs_on_over_a_wire_that_gives_a_byte_at_a_time() -> None:
    """A wait ends with the write that frees the keyboard. At a lock that waits one character is
    tried; on an attribute one."""
    prints("status\nwait\nstatus\n\nshow", GRANTS + HI, "talking\nbound PNL01\n" + screen(" HI", 4))
    sent = prints("wait\ntype A\nkey enter\nwait\nshow\n", GRANTS + HI + ERASE, screen(" HI", 4))
    expect("what is sent", sent.hex(" "), (ASKS + ENTERS).hex(" "))
    typed = "refused 1\nrefused 2\nrefused 1\n" + screen(" HI A", 5)
    prints(
        "type AB\nwait\nkey left\ntype AB\nkey tab\nkey reset\nkey tab\ntype A\nshow\n",
        GRANTS + HI,
        typed,
    )


@check
def a_wait_ends_if_the_host_or_the_wire_ends_it() -> None:
    """After 1,000 reads too; then the next wait goes on from there. A read or a write that fails is
    the end of the connection."""
    prints("wait\nstatus\nwait\nstatus\n", bytes.fromhex("FFF1") * 500, "talking\nidle\n")
    wait = "wait\nstatus\n"
    prints(wait, bytes.fromhex("FFFD28 FFFA280802FFF0 FFFA2802060501FFF0"), "refused 1\n")
    prints(wait, bytes.fromhex("FFFE28"), "closed 1\n")
    prints(wait, bytes.fromhex("FFFD28"), "idle\n")
    for count in range(len(GRANTS)):
        end, _ = term(wait, GRANTS, reads=count)
        expect(f"a wait whose read {count} fails", end, (0, "idle\n", ""))
    expect("a wait whose write fails", term(wait, GRANTS, sends=0)[0], (0, "idle\n", ""))


@check
def a_terminals_script_ends_at_a_line_or_if_nothing_is_printed() -> None:
    """The lines before one that isn't understood are done."""
    expect(
        "a script",
        term("status\n\nwait 0\nstatus\n", b"")[0],
        (1, "talking\n", "line 3: not understood\n"),
    )
    expect("a script without room", term("status\n", b"", room=0)[0], (6, "", "output failed\n"))
