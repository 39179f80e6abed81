"""The operator's live terminal, bin/operate, on ttys of their own.

A check is the operator: it types bytes, as xterm, tmux and the Linux console send them, and looks
at the screen. The host is `serve`, or a socket of the check itself."""
import contextlib
import os
import pathlib
import re
import signal
import subprocess
import tempfile
import time
from collections.abc import Iterator

from harness import documents, programs
from harness.case import Case, Checks, Difference, expect, of_function
from harness.hosts import (
    DEVICE_IN_USE,
    DO,
    FUNCTIONS_IS,
    FUNCTIONS_REQUEST,
    LOCALHOST,
    PATIENCE,
    SEND_TYPE,
    WILL,
    device_type,
    free_port,
)
from harness.tty import (
    BACKSPACE,
    BACK_TAB,
    CLEAR,
    ENTER,
    HOME,
    Host,
    INSERT,
    KEYS,
    LEFT,
    Operator,
    PASTE,
    PASTED,
    QUIT,
    REDRAW,
    RESET,
    SAVE,
    SCRIPT,
    SIGNALS,
    STATUS,
    TAB,
    bound,
    serve_bank,
)
from harness.s3270 import S3270, is_wanted
from suites import s3270_sessions

check = Checks()
OPERATING = "docs/OPERATING.md"
# What bin/operate says of its words.
USAGE = [
    "usage: bin/operate [OPTION ..] [HOST:]PORT|HOST [LU]",
    "       bin/operate --hosts FILE [OPTION ..] [NAME [LU]]",
]


def run_alone(*words):
    """The status of a run without a tty, and what it printed on its two outputs."""
    done = subprocess.run(
        words, stdin=subprocess.DEVNULL, capture_output=True, timeout=PATIENCE, check=False
    )
    return done.returncode, done.stdout.decode(), done.stderr.decode()


@check
def an_operator_works_at_the_bank():
    """Signs on, is refused and noted, fills in a form, sends it, and ends."""
    with serve_bank() as host, Operator(host.port) as operator:
        operator.sees("FIRST NATIONAL BANK")
        operator.has_status("connected", "BANK01", "005/030")
        operator.types("A")
        operator.has_status("connected", "X", "NUMERIC", "BANK01", "005/030")
        operator.types(RESET, "4711", TAB, "SECRET", BACK_TAB, BACK_TAB, TAB, ENTER)
        operator.sees("TRANSFER OF FUNDS")
        expect("a hidden field is shown", "SECRET" in operator.screen.text(), False)
        operator.types(ENTER)
        operator.sees("REQUIRED")
        operator.types(b"\x1b[15~")
        operator.sees("KEY NOT ACTIVE")
        operator.types(HOME, "1234567890", "9876543210", "150.00", ENTER)
        operator.sees("TRANSFER DONE")
        operator.sees("150.00")
        operator.types(QUIT)
        operator.ends(0)


@check
def refusals_are_told():
    """The status row says why a key was refused, and in insert mode; no key is kept for later."""
    with bound() as (operator, host):
        operator.types("AB", LEFT, LEFT, LEFT, LEFT, "C")
        operator.has_status("connected", "X", "PROTECTED", "PNL01", "001/003")
        operator.types("D", ENTER, TAB)
        operator.has_status("connected", "X", "PROTECTED", "PNL01", "001/003")
        operator.types(RESET, TAB, INSERT)
        operator.has_status("connected", "^", "PNL01", "001/005")
        operator.types("XYZ1")
        operator.has_status("connected", "^", "PNL01", "001/009")
        operator.types("2")
        operator.has_status("connected", "X", "NO", "ROOM", "^", "PNL01", "001/009")
        operator.types(RESET, "Ā")
        operator.has_status("connected", "X", "NO", "CODE", "PNL01", "001/009")
        operator.types(TAB, "A")
        operator.has_status("connected", "X", "NUMERIC", "PNL01", "001/012")
        expect("a row", operator.screen.line(0), " HI XYZ1AB")
        host.hears_nothing(0.1)


# A write that restores the keyboard, and the positive response to it.
def restoring(number: int) -> bytes:
    return bytes.fromhex(f"00 00 02 00 {number:02X} F1 C3 FF EF")


def response(number: int) -> bytes:
    return bytes.fromhex(f"02 00 00 00 {number:02X} 00 FF EF")


def all_is_taken(operator):
    """Waits until the program has taken what was typed: it shows the table of keys only then."""
    operator.types(KEYS)
    operator.sees("on this keyboard")
    operator.types(KEYS)
    operator.until("the screen is shown", lambda screen: screen.line(0).startswith(" HI"))


@check
def keys_may_be_typed_ahead():
    """What is typed while the host works is done once the host has answered, up to a key that
    sends. Reset drops it."""
    with bound() as (operator, host):
        operator.types("A", ENTER)
        # Number 0: Enter, the cursor at 5, and the field from 4 on.
        host.hears(bytes.fromhex("00 00 00 00 00 7D 40 C5 11 40 C4 C1 FF EF"))
        operator.has_status("connected", "X", "SYSTEM", "PNL01", "001/006")
        operator.types("BC", CLEAR, RESET, "DE", ENTER, "F", ENTER)
        all_is_taken(operator)
        host.hears_nothing(0.1)
        expect("a row", operator.screen.line(0), " HI A")
        host.says(restoring(1))
        host.hears(response(1), bytes.fromhex("00 00 00 00 01 7D 40 C7 11 40 C4 C1 C4 C5 FF EF"))
        operator.has_status("connected", "X", "SYSTEM", "T", "PNL01", "001/008")
        expect("a row", operator.screen.line(0), " HI ADE")
        host.says(restoring(2))
        host.hears(response(2), bytes.fromhex("00 00 00 00 02 7D 40 C8 11 40 C4 C1 C4 C5 C6 FF EF"))
        host.says(restoring(3))
        host.hears(response(3))
        operator.has_status("connected", "PNL01", "001/009")
        host.hears_nothing(0.1)


@check
def so_many_keys_may_be_typed_ahead():
    """256 keys are kept, and no more: the cursor goes left from 4, round the end, and nothing is
    typed there."""
    with bound() as (operator, host):
        operator.types(ENTER)
        host.hears(bytes.fromhex("00 00 00 00 00 7D 40 C4 FF EF"))
        operator.types(LEFT * 256, "B", ENTER)
        all_is_taken(operator)
        host.hears_nothing(0.1)
        host.says(restoring(1))
        host.hears(response(1))
        operator.has_status("connected", "PNL01", "021/069")
        host.hears_nothing(0.1)


@check
def page_keys_are_pf7_and_pf8():
    """Page Up and Page Down send PF7 and PF8."""
    for typed, aid in ((b"\x1b[5~", "F7"), (b"\x1b[6~", "F8")):
        with bound() as (operator, host):
            operator.types(typed)
            host.hears(bytes.fromhex(f"00 00 00 00 00 {aid} 40 C4 FF EF"))


@check
def end_is_erase_eof():
    """End, alone, with Shift and with Ctrl, erases from the cursor to the end of the field."""
    for typed in (b"\x1b[F", b"\x1bOF", b"\x1b[4~", b"\x1b[8~", b"\x1b[1;2F", b"\x1b[1;5F"):
        with bound() as (operator, host):
            operator.types("ABC", LEFT, LEFT, typed, ENTER)
            # Number 0: Enter, the cursor at 5, and the field from 4 on.
            host.hears(bytes.fromhex("00 00 00 00 00 7D 40 C5 11 40 C4 C1 FF EF"))


@check
def the_alarm_sounds():
    """A write whose WCC asks for the alarm has the tty written one BEL. One that doesn't ask for it
    has none, nor one that is rejected."""
    with bound() as (operator, host):
        for number, write, answer, bells in (
            (1, "F1 C4", "00 00", 1),
            (2, "F1 C3", "00 00", 1),
            # The buffer address 1920 isn't on the screen.
            (3, "F1 C4 11 5E 40", "01 02", 1),
            (4, "F5 C6", "00 00", 2),
        ):
            host.says(bytes.fromhex(f"00 00 02 00 {number:02X} {write} FF EF"))
            flag, code = answer.split()
            host.hears(bytes.fromhex(f"02 00 {flag} 00 {number:02X} {code} FF EF"))
            operator.until("the alarm", lambda screen, bells=bells: screen.bells >= bells)
            operator.looks(0.1)
            expect("how often the alarm sounded", operator.screen.bells, bells)


# Erase/Write, number 0, which restores the keyboard: protected fields, normal from 0 on and bright
# from 4 on, and unprotected ones, normal from 8 on and bright from 12 on, which ends at 16; each
# begins with a character. The cursor is at 9.
FOUR_LOOKS = bytes.fromhex(
    "00 00 02 00 00 F5 C3 11 40 40 1D F0 C1 11 40 C4 1D F8 C2 11 40 C8 1D 40 C3 11 40 4C 1D C8 C4"
    "11 40 50 1D F0 11 40 C9 13 FF EF"
)


@check
def fields_have_their_looks():
    """In the tty's own colours protected fields are blue, unprotected ones green and underlined."""
    with bound(options=("--colors", "terminal")) as (operator, _):
        operator.types("A")
        operator.until("a character is typed", lambda screen: screen.line(0) == " HI A")
        looks = operator.screen.looks[0]
        expect("the looks of a row", (looks[1], looks[4], looks[5]), ("0;34", "0;4;32", "0;4;32"))


def palette(number: int) -> tuple[int, ...]:
    """The red, green and blue of a colour from 16 on of the palette of 256 that xterm has: a cube of
    6 levels, and 24 greys."""
    if number >= 232:
        return (8 + 10 * (number - 232),) * 3
    levels = 0, 95, 135, 175, 215, 255
    cube = number - 16
    return levels[cube // 36], levels[cube // 6 % 6], levels[cube % 6]


def luminance(number: int) -> float:
    """The relative luminance of a colour (WCAG 2.1)."""

    def linear(level: float) -> float:
        return level / 12.92 if level <= 0.04045 else ((level + 0.055) / 1.055) ** 2.4

    red, green, blue = (linear(part / 255) for part in palette(number))
    return 0.2126 * red + 0.7152 * green + 0.0722 * blue


def contrast(look: str) -> float:
    """The contrast of the foreground and the background that an SGR selects (WCAG 2.1)."""
    found = re.fullmatch(r"[0-9;]*?38;5;(\d+);48;5;(\d+)", look)
    if not found:
        raise Difference("a foreground and a background of the palette", look)
    light, dark = sorted((luminance(int(it)) for it in found.groups()), reverse=True)
    return (light + 0.05) / (dark + 0.05)


@check
def colours_have_contrast():
    """Whatever the tty's own colours are, each colour that is drawn, the status row's too, has a
    contrast of 4.5 to 1 or more to the background that is drawn behind it, dark and light; each cell
    of the picture has that background; and the four kinds of fields differ."""
    for colors, background in (("dark", 16), ("light", 231)):
        with bound(first=FOUR_LOOKS, options=("--colors", colors)) as (operator, _):
            operator.until("the fields", lambda screen: screen.line(0) == " A   B   C   D")
            operator.has_status("connected", "PNL01", "001/010")
            drawn = {look for row in operator.screen.looks for look in row}
            for look in drawn:
                if not contrast(look) >= 4.5:
                    raise Difference("a contrast of 4.5 or more", f"{contrast(look):.2f}: {look}")
                expect("the background", look.rsplit(";", 1)[1], str(background))
            fields = [operator.screen.looks[0][column] for column in (1, 5, 9, 13)]
            expect("different looks", len(set(fields)), 4)


@check
def a_tty_without_colours():
    """With --colors mono bright is bold, input is underlined, and no colour is selected."""
    with bound(first=FOUR_LOOKS, options=("--colors", "mono")) as (operator, _):
        operator.until("the fields", lambda screen: screen.line(0) == " A   B   C   D")
        fields = [operator.screen.looks[0][column] for column in (1, 5, 9, 13)]
        expect("the looks of the fields", fields, ["0", "0;1", "0;4", "0;1;4"])


@check
def the_screen_is_drawn_again():
    """Ctrl-L draws the whole screen, whatever was written there."""
    with bound() as (operator, _):
        operator.screen.erase()
        operator.types("A")
        operator.until("a character is typed", lambda screen: screen.cells[0][4] == "A")
        expect("a row", operator.screen.line(0), "    A")
        operator.types(REDRAW)
        operator.until("the screen is drawn", lambda screen: screen.line(0) == " HI A")
        operator.has_status("connected", "PNL01", "001/006")


# ---- what a tty is written


# The SGR of what is in no field, and of the status row: light grey on black, of the palette of 256.
PLAIN = "\x1b[0;38;5;252;48;5;16m"


def put(row: int, column: int, text: str) -> str:
    return f"\x1b[{row:03};{column:03}H{PLAIN}{text}"


def at(row: int, column: int) -> str:
    return f"\x1b[{row:03};{column:03}H"


def drawn_again(first: str, *last: str, rows: int = 24) -> str:
    """What erases the tty and draws each cell: the first row of the screen, blank ones, and the last."""
    texts = [first, *[""] * (rows - 1), *last]
    return ERASE_ALL + "".join(put(row, 1, text.ljust(80)) for row, text in enumerate(texts, 1))


def status(lock: str, lu: str, place: str) -> str:
    return f"{'connected':16}{lock:16}{'':8}{lu:15}{'ESC ? shows keys':17}{place}"


ERASE_ALL = "\x1b[0m\x1b[2J"
WAITS, FREE = put(25, 17, "X") + put(25, 19, "SYSTEM"), put(25, 17, " ") + put(25, 19, " " * 6)
# At first the whole screen, which is blank. Later all, with what was typed.
FIRST = drawn_again("", status("X SYSTEM", "", "001/001")) + at(1, 1)
ALL = drawn_again("HIABCDE", status("", "PNL01", "001/008")) + at(1, 8)
# Turns of a session: the bytes of the host, those that are typed, and those that the tty is written
# then. What is written are CUP, SGR and ED (ECMA-48): the cells that changed, and then the cursor's
# place; if the host sent bytes, first for these, and then for the keys. The status row is the 25th.
TURNS = [
    # The terminal is bound.
    (
        DO + SEND_TYPE + device_type(4, "PNL01") + FUNCTIONS_IS,
        b"",
        put(25, 41, "PNL01") + at(1, 1) * 2,
    ),
    # Erase/Write, number 0: `HI` without fields, the cursor after it; it restores the keyboard.
    (
        bytes.fromhex("0000020000 F5C3 114040 C8C9 13 FFEF"),
        b"",
        put(1, 1, "HI") + FREE + put(25, 79, "3") + at(1, 3) * 2,
    ),
    # Two keys, in one read.
    (b"", b"AB", put(1, 3, "AB") + put(25, 79, "5") + at(1, 5)),
    # Nothing happens, and nothing is written.
    (b"", b"", ""),
    # Enter, and another key, which is kept.
    (b"", b"\rC", WAITS + put(25, 35, "T") + at(1, 5)),
    # Another, in a turn of its own.
    (b"", b"D", at(1, 5)),
    # Write, number 1, which restores the keyboard.
    (
        bytes.fromhex("0000020001 F1C3 FFEF"),
        b"",
        FREE + at(1, 5) + put(1, 5, "CD") + put(25, 35, " ") + put(25, 79, "7") + at(1, 7),
    ),
    (b"", b"E", put(1, 7, "E") + put(25, 79, "8") + at(1, 8)),
    # The tty has 24 rows: all is drawn again, without a status row; and 25 again.
    (b"", b"\x1b[24;80R", drawn_again("HIABCDE") + at(1, 8)),
    (b"", b"\x1b[25;080R", ALL),
    # The operator has the screen drawn again.
    (b"", b"\x0c", ALL),
]
# All that the terminal sends: its answers, the response to number 0, Enter with the text of a
# screen without fields (GA23-0059, Read Modified), and the response to number 1.
SENT = WILL + device_type(7, None) + FUNCTIONS_REQUEST + bytes.fromhex(
    "020000000000FFEF 0000000000 7D40C4 C8C9C1C2 FFEF 020000000100FFEF"
)


@check
def each_turn_writes_what_changed():
    """Nothing more is written. The end draws nothing."""
    with Host() as host, Operator(host.port) as operator:
        host.accepts()
        operator.has_status("connected", "X", "SYSTEM", "001/001")
        # Behind what bin/operate writes before the program begins.
        expect("the first turn", operator.written.partition(b"\x1b[2J")[2].decode(), FIRST)
        for came, typed, drawn in TURNS:
            operator.written = b""
            host.says(came)
            operator.types(typed)
            operator.writes(drawn)
        operator.written = b""
        operator.types(b"\x1dF")
        operator.ends(0)
        host.hears(SENT)


@check
def keys_may_come_in_pieces():
    """A sequence that comes in two pieces at once is one key."""
    with bound() as (operator, _):
        operator.types("AB" + "\x1b[D\x1b[D" + "C")
        operator.until("a character is typed", lambda screen: screen.line(0) == " HI CB")


@check
def a_lost_host_is_connected_again():
    """The status row says that the host is gone; Enter connects again, when the host is back."""
    port = free_port()
    with serve_bank(port):
        operator = Operator(port)
        operator.__enter__()
        operator.sees("FIRST NATIONAL BANK")
    try:
        operator.has_status("not", "connected", "X", "SYSTEM", "Enter", "connects", "005/030")
        operator.sees("FIRST NATIONAL BANK")
        operator.types("4", ENTER)
        # The last screen stays until the host takes a new connection, with the reason.
        operator.has_status("not", "connected", "X", "REFUSED", "Enter", "connects", "005/030")
        time.sleep(0.5)
        operator.has_status("not", "connected", "X", "REFUSED", "Enter", "connects", "005/030")
        operator.sees("FIRST NATIONAL BANK")
        with serve_bank(port):
            operator.types(ENTER)
            operator.has_status("connected", "BANK01", "005/030")
            operator.types("4711")
            operator.sees("TELLER NUMBER       4711")
            operator.types(QUIT)
            operator.ends(0)
    finally:
        operator.__exit__()


@check
def without_a_host_it_ends():
    """If nothing listens, a line says so, with host, port and reason, and status 4."""
    port = free_port()
    for word, address in (
        (port, LOCALHOST),
        (f"{LOCALHOST}:{port}", LOCALHOST),
        (f"localhost:{port}", LOCALHOST),
        (f"[::1]:{port}", "[::1]"),
    ):
        with Operator(word) as operator:
            operator.ends(4, f"cannot connect to {address}:{port}: connection refused")


@check
def a_host_has_an_address():
    """A host is an address with a port, or has port 23. A name is looked up."""
    for address, word in ((LOCALHOST, "{}:{}"), ("::1", "[{}]:{}"), (LOCALHOST, "localhost:{1}")):
        with Host(address) as host, Operator(word.format(address, host.port), "PNL01") as operator:
            host.accepts()
            host.says(DO, SEND_TYPE)
            host.hears(WILL, device_type(7, "PNL01"))
            operator.types(QUIT)
            operator.ends(0)
    for word, address in (("127.0.0.1", "127.0.0.1"), ("[::1]", "[::1]"), ("::1", "[::1]")):
        with Operator(word) as operator:
            operator.ends(4, f"cannot connect to {address}:23: connection refused")
    with Operator("no-host.invalid:3270") as operator:
        operator.ends(2, "no address is known of no-host.invalid")
    with Operator("127.0.0.256:3270", columns=120) as operator:
        operator.ends(
            2,
            "error: invalid value '127.0.0.256' for '--host': "
            "an IPv4 or IPv6 address is needed, or localhost",
            "For more information, try 'panel3270 help operate'.",
        )


@check
def options_are_passed_on():
    """The script passes the program its options, in any order, and the program says which it
    doesn't know."""
    for words in (("--lu", "PNL01", "--model=3"), ("--model", 3, "--lu=PNL01")):
        with Host() as host, Operator(*words, host.port, rows=33) as operator:
            host.accepts()
            host.says(DO, SEND_TYPE)
            host.hears(WILL, device_type(7, "PNL01", "IBM-3278-3"))
            operator.types(QUIT)
            operator.ends(0)
    with Operator("--modle", 3, 3270) as operator:
        operator.ends(
            2,
            "error: unexpected argument '--modle' found",
            "",
            "  tip: a similar argument exists: '--model'",
            "",
            "Usage: panel3270 operate --port <port> --model <model>",
            "",
            "For more information, try '--help'.",
        )
    with Operator("--port", 0) as operator:
        operator.ends(
            2,
            "error: invalid value '0' for '--port'",
            "For more information, try 'panel3270 help operate'.",
        )
    status, out, said = run_alone(SCRIPT, "--help")
    lines = out.splitlines()
    expect("bin/operate --help", (status, lines[:2], said), (0, USAGE, ""))
    expect("its own option", any(it.startswith("  --hosts FILE") for it in lines), True)
    expect("the program's", "usage: panel3270 operate --port P [OPTION ..]" in lines, True)


# ---- the list of hosts


@contextlib.contextmanager
def hosts(text: str):
    """The name of a file with this list of hosts."""
    with tempfile.TemporaryDirectory() as name:
        path = pathlib.Path(name) / "hosts"
        path.write_text(text)
        yield path


def asks_host_for(operator, host, lu, model=2):
    """The terminal is of this model, and asks for this LU; then the operator ends it."""
    host.accepts()
    host.says(DO, SEND_TYPE)
    host.hears(WILL, device_type(7, lu, f"IBM-3278-{model}"))
    operator.types(QUIT)
    operator.ends(0)


@check
def a_name_of_the_list_is_a_host():
    """A name stands for the words of its line: options, a host and an LU. An LU behind the name takes
    the place of the line's, and further options go before or behind it."""
    with Host() as host, hosts(
        f"# Ours.\n\n  bank  {host.port}\nair\t--model 3 {LOCALHOST}:{host.port}  PNL01\n"
    ) as path:
        for words, lu, model in (
            (("--hosts", path, "bank"), None, 2),
            (("--hosts", path, "bank", "PNL02"), "PNL02", 2),
            ((f"--hosts={path}", "air"), "PNL01", 3),
            (("air", "PNL02", "--hosts", path), "PNL02", 3),
            (("--hosts", path, "--model=4", "bank"), None, 4),
            (("--quiet-keys", "--hosts", path, "bank", "--lu", "PNL01"), "PNL01", 2),
        ):
            with Operator(*words, rows=44) as operator:
                asks_host_for(operator, host, lu, model)


@check
def the_list_of_hosts_is_asked_from():
    """Without a name the list is shown, and a name is asked for until the list has it; the end of
    input ends it."""
    with Host() as host, hosts(f"# Ours.\nbank {host.port}\nair {host.port} PNL01\n") as path:
        with Operator("--hosts", path, columns=160) as operator:
            operator.until("a question", lambda screen: screen.line(2) == "host:")
            listed = [f"{'bank':16} {host.port}", f"{'air':16} {host.port} PNL01"]
            expect("the list", [operator.screen.line(row) for row in (0, 1)], listed)
            operator.types("desk\n")
            operator.until("a question", lambda screen: screen.line(4) == "host:")
            unknown = f"{path} has no host 'desk'; it has bank air"
            expect("what is said", operator.screen.line(3), unknown)
            operator.types("air\n")
            asks_host_for(operator, host, "PNL01")
        with Operator("--hosts", path) as operator:
            operator.until("a question", lambda screen: screen.line(2) == "host:")
            operator.types(b"\x04")
            operator.ends(0, *listed, "host:")


@check
def a_wrong_list_of_hosts_is_told():
    """An unknown name has status 2. A file that can't be read, a line without a host and a name of two
    lines have status 1, and the fault has the line's number."""
    with hosts("# Ours.\nbank 3270\nair 3271\n") as path:
        with Operator("--hosts", path, "desk", columns=160) as operator:
            operator.ends(2, f"{path} has no host 'desk'; it has bank air")
        with Operator("--hosts", path, "bank", "A", "B", columns=160) as operator:
            operator.ends(2, *USAGE)
    for text, fault in (
        ("bank\n", ":1: a line NAME HOST is needed"),
        ("bank 1\n\nair 2\nbank 3\n", ":4: the host 'bank' has a line already"),
        ("# none\n", ": no line has a host"),
        ("bank --model 3\n", ": 'bank' has no HOST"),
    ):
        with hosts(text) as path, Operator("--hosts", path, "bank", columns=160) as operator:
            operator.ends(1, f"{path}{fault}")
    for path in ("/no/hosts", "/"):
        with Operator("--hosts", path) as operator:
            operator.ends(1, f"{path}: can't be read")


@check
def a_refused_lu_is_told():
    """A refused LU is said in one line, with status 4."""
    with serve_bank() as host, Operator(host.port, "NOSUCH") as operator:
        operator.ends(4, "the host refused an LU: INV-NAME")
    with Host() as host, Operator(host.port, "PNL01") as operator:
        host.accepts()
        host.says(DO, SEND_TYPE)
        host.hears(WILL, device_type(7, "PNL01"))
        host.says(DEVICE_IN_USE)
        operator.ends(4, "the host refused an LU: DEVICE-IN-USE")


@check
def a_host_that_ends_early_is_told():
    """A host that ends the connection before a session, or breaks the protocol, is said in one
    line, with status 4."""
    with Host() as host, Operator(host.port) as operator:
        host.accepts()
        host.socket.close()
        operator.ends(4, "the host ended the connection")
    with Host() as host, Operator(host.port) as operator:
        host.accepts()
        # DONT TN3270E.
        host.says(DO, bytes.fromhex("FF FE 28"))
        operator.ends(4, "the host broke the protocol: NoTn3270e")


@check
def signals_restore_the_tty():
    """After TERM, INT, HUP and QUIT the tty is as before, and so it is if the program is killed."""
    for number in SIGNALS:
        with bound() as (operator, _):
            os.kill(operator.process.pid, number)
            operator.ends(128 + number)
    with bound() as (operator, _):
        os.kill(operator.program(), signal.SIGTERM)
        operator.ends(128 + signal.SIGTERM)
    with bound() as (operator, _):
        os.kill(operator.program(), signal.SIGKILL)
        operator.ends(128 + signal.SIGKILL)


@check
def a_program_that_was_stopped_goes_on():
    """After STOP and CONT it works on."""
    with bound() as (operator, _):
        it = operator.program()
        os.kill(it, signal.SIGSTOP)
        time.sleep(0.05)
        os.kill(it, signal.SIGCONT)
        operator.types("A")
        operator.until("a character is typed", lambda screen: screen.line(0) == " HI A")


@check
def a_tty_that_is_too_small_is_told():
    """A tty without room for the screens of the model is said in one line, with status 2."""
    port = free_port()
    with Operator(port, rows=23) as operator:
        operator.ends(2, "the tty has 23 rows of 80 columns, and the screen needs 24 rows of 80")
    with Operator("--model", 5, port, rows=50, columns=131) as operator:
        operator.ends(2, "the tty has 50 rows of 131 columns, and the screen needs 27 rows of 132")


# ---- what keys do


def rows_of(screen) -> dict[str, list[str]]:
    """The actions and their keys in the table of keys."""
    rows, columns = {}, ((1, 24), (24, 51), (51, 80))
    for number in range(2, 14):
        line = screen.line(number)
        for start, end in columns:
            name, *keys = line[start:end].split()
            rows[name] = keys
    for number in range(15, 22):
        line = screen.line(number)
        for start, end in ((1, 52), (53, 80)):
            if words := line[start:end].split():
                rows[words[0]] = words[1:]
    return rows


# The bytes of the keys with names: xterm's.
SENT_BY = {
    "Enter": b"\r", "Tab": b"\t", "Backspace": b"\x7f", "PageUp": b"\x1b[5~",
    "PageDown": b"\x1b[6~", "Up": b"\x1b[A", "Down": b"\x1b[B", "Right": b"\x1b[C",
    "Left": b"\x1b[D", "Home": b"\x1b[H", "Insert": b"\x1b[2~", "Delete": b"\x1b[3~",
    "Shift-Tab": b"\x1b[Z", "End": b"\x1b[F", "Shift-End": b"\x1b[1;2F",
    "Ctrl-End": b"\x1b[1;5F", "KeypadEnter": b"\x1bOM",
}  # fmt: skip
F_KEYS = ["OP", "OQ", "OR", "OS", "[15~", "[17~", "[18~", "[19~", "[20~", "[21~", "[23~", "[24~"]


def sent_by(key: str) -> bytes:
    """What xterm sends for a key of the table."""
    if key in SENT_BY:
        return SENT_BY[key]
    if key.startswith("Ctrl-"):
        return bytes([ord(key[5:]) & 0x1F])
    if key.startswith("Alt-"):
        return b"\x1b" + key[4:].encode()
    shifted, number = key.startswith("Shift-F"), int(key.rpartition("F")[2])
    plain = F_KEYS[number - 1]
    if not shifted:
        return b"\x1b" + plain.encode()
    return (f"\x1b[1;2{plain[1]}" if number < 5 else f"\x1b{plain[:-1]};2~").encode()


# The AIDs of the keys that send (GA23-0059), and what the others do to the form after `AB` is typed
# and Cursor Left pressed: the first row, and the cursor's place.
AIDS = {"Enter": 0x7D, "Clear": 0x6D, "PA(1)": 0x6C, "PA(2)": 0x6E, "PA(3)": 0x6B} | {
    f"PF({number})": aid
    for number, aid in enumerate(
        bytes.fromhex("F1F2F3F4F5F6F7F8F97A7B7C C1C2C3C4C5C6C7C8C94A4B4C"), 1
    )
}
EDITS = {
    "Tab": (" HI AB", "001/012"), "BackTab": (" HI AB", "001/005"),
    "Newline": (" HI AB", "001/005"), "Home": (" HI AB", "001/005"), "Up": (" HI AB", "024/006"),
    "Down": (" HI AB", "002/006"), "Left": (" HI AB", "001/005"), "Right": (" HI AB", "001/007"),
    "Erase": (" HI B", "001/005"), "BackSpace": (" HI AB", "001/005"), "Delete": (" HI A", "001/006"),
    "EraseEOF": (" HI A", "001/006"), "EraseInput": (" HI", "001/005"),
    "Reset": (" HI AB", "001/006"), "Redraw": (" HI AB", "001/006"), "Status": (" HI AB", "001/006"),
    "PrintText": (" HI AB", "001/006"),
}  # fmt: skip


@check
def each_row_of_the_table_is_so():
    """Each key in the table of keys does what the table says: the keys that send send their AID, and
    the others change the form as 3270 keys do."""
    with bound() as (operator, _):
        operator.types(KEYS)
        operator.sees("on this keyboard")
        operator.until("the whole table", lambda screen: "next key" in screen.text())
        rows = rows_of(operator.screen)
    expect("the actions", set(rows), set(AIDS) | set(EDITS) | {"Insert", "Help", "Quit"})
    for action, keys in rows.items():
        expect(f"{action} has a key", bool(keys), True)
        for key in keys:
            with bound() as (operator, host):
                operator.types("AB", LEFT, sent_by(key))
                if action in AIDS:
                    host.hears(bytes([0, 0, 0, 0, 0, AIDS[action]]))
                elif action in EDITS:
                    row, place = EDITS[action]
                    operator.has_status("connected", "PNL01", place)
                    operator.until(f"{key} is {action}", lambda it, row=row: it.line(0) == row)
                elif action == "Insert":
                    operator.has_status("connected", "^", "PNL01", "001/006")
                elif action == "Help":
                    operator.sees("on this keyboard")
                elif action == "Quit":
                    operator.ends(0)


@check
def backspace_erases():
    """As c3270's Erase: the character before the cursor; nothing at the first one of a field; refused
    in a protected field, and where the cursor is on an attribute. The rest of the field follows, in
    insert mode or not. Ctrl-H moves."""
    with bound() as (operator, host):
        operator.types("ABCD", BACKSPACE)
        operator.until("one is erased", lambda screen: screen.line(0) == " HI ABC")
        operator.has_status("connected", "PNL01", "001/008")
        operator.types(LEFT, BACKSPACE)
        operator.until("the rest follows", lambda screen: screen.line(0) == " HI AC")
        operator.has_status("connected", "PNL01", "001/006")
        operator.types(INSERT, "X", BACKSPACE, RESET)
        operator.until("in insert mode", lambda screen: screen.line(0) == " HI AC")
        operator.types(b"\x08")
        operator.has_status("connected", "PNL01", "001/005")
        operator.types(BACKSPACE)
        operator.has_status("connected", "PNL01", "001/005")
        expect("a row", operator.screen.line(0), " HI AC")
        operator.types(LEFT, BACKSPACE)
        operator.has_status("connected", "X", "PROTECTED", "PNL01", "001/004")
        operator.types(RESET, LEFT, BACKSPACE)
        operator.has_status("connected", "X", "PROTECTED", "PNL01", "001/003")
        operator.types(RESET, TAB, "Z", BACKSPACE, BACKSPACE, ENTER)
        # Number 0: Enter, the cursor at 4, and the field from 4 on.
        host.hears(bytes.fromhex("00 00 00 00 00 7D 40 C4 11 40 C4 C3 FF EF"))


@check
def erasing_nothing_is_a_key():
    """At the first character of a field Erase changes nothing and is not refused, as in s3270; the status
    row doesn't tell any more of the key before it, as after each key that isn't refused."""
    with bound() as (operator, host):
        operator.types("Ā")
        operator.has_status("connected", "X", "NO", "CODE", "PNL01", "001/005")
        operator.types(BACKSPACE)
        operator.has_status("connected", "PNL01", "001/005")
        operator.types(PASTE + b"1" * 99 + PASTED)
        operator.has_status("connected", "X", "PASTE", "CUT", "PNL01", "001/005")
        operator.types(BACKSPACE)
        operator.has_status("connected", "PNL01", "001/005")
        expect("a row", operator.screen.line(0), " HI 111111 1111")
        operator.types(INSERT, BACKSPACE)
        operator.has_status("connected", "^", "PNL01", "001/005")
        expect("how often the bell rang", operator.screen.bells, 2)


@check
def s3270_erases_nothing_there():
    """What the check before says of s3270."""
    is_wanted("s3270")
    with serve_bank() as host, S3270(2) as other:
        other.does(f"Connect(127.0.0.1:{host.port})", "Wait(InputField)", "Home()", "String(47)")
        other.does("Home()", "Erase()")
        expect("the cursor", other.does("Query(Cursor)"), ["4 29"])
        expect("a row", other.shows()[4].split(), ["TELLER", "NUMBER", "47"])
        other.does("String(1)")
        expect("it goes on", other.shows()[4].split(), ["TELLER", "NUMBER", "17"])


@check
def a_key_wakes_the_program():
    """The program waits for its tty as for its connection (epoll, by /proc): a key needn't wait."""
    with bound() as (operator, _):
        own = pathlib.Path(f"/proc/{operator.program()}")
        polls = [it.name for it in (own / "fd").iterdir() if "eventpoll" in os.readlink(it)]
        lines = "".join((own / "fdinfo" / it).read_text() for it in polls)
        watched = re.findall(r"^tfd: *(\d+)", lines, re.MULTILINE)
        expect("the tty is among what is watched", "0" in watched, True)


@check
def screens_are_saved():
    """Ctrl-P appends the rows of the screen, as they are when it is pressed, to the file of --save: one
    line a row, in UTF-8, and a hidden field as blanks. So it does in the wait, too."""
    with tempfile.TemporaryDirectory() as name:
        path = pathlib.Path(name) / "screens"
        path.write_text("KEPT\n")

        def has(wanted):
            end = time.monotonic() + PATIENCE
            while path.read_text() != wanted and time.monotonic() < end:
                time.sleep(0.02)
            expect("the file", path.read_text(), wanted)

        with bound(options=("--save", path)) as (operator, host):
            operator.types(b"\xc3\xa9" + SAVE + b"B")
            operator.until("the keys are done", lambda screen: screen.line(0) == " HI éB")
            has(first := "KEPT\n HI é\n" + "\n" * 23)
            operator.types(ENTER, SAVE)
            host.hears(bytes.fromhex("00 00 00 00 00 7D 40 C6 11 40 C4 51 C2 FF EF"))
            has(first + " HI éB\n" + "\n" * 23)
            expect("how often the bell rang", operator.screen.bells, 0)
        path.unlink()
        with serve_bank() as host, Operator("--save", path, host.port) as operator:
            operator.sees("FIRST NATIONAL BANK")
            operator.types("4711", TAB, "SECRET", SAVE)
            operator.types(QUIT)
            operator.ends(0)
            lines = path.read_text().splitlines()
            expect("the rows", len(lines), 24)
            expect("a row", lines[4].split(), ["TELLER", "NUMBER", "4711"])
            expect("a hidden field", lines[6].split(), ["PASSWORD"])


@check
def a_screen_that_is_not_saved_is_told():
    """If the file can't be written the status row says so, the bell rings, and the session goes on. If it
    can't be opened a line says why, and no session begins. Without a file the key is refused."""
    with bound(options=("--save", "/dev/full")) as (operator, _):
        operator.types(SAVE)
        operator.has_status("connected", "X", "NOT", "SAVED", "PNL01", "001/005")
        operator.until("the bell rings", lambda screen: screen.bells == 1)
        operator.types("A")
        operator.has_status("connected", "PNL01", "001/006")
        expect("a row", operator.screen.line(0), " HI A")
    for name, why in (("/no/screens", "no such file"), ("/", "is a directory")):
        with Operator("--save", name, free_port()) as operator:
            operator.ends(1, f"{name}: {why}")
    with bound() as (operator, _):
        operator.types(SAVE)
        operator.until("the bell rings", lambda screen: screen.bells == 1)
        operator.has_status("connected", "PNL01", "001/005")


@check
def a_limit_of_a_file_is_told():
    """A file that mayn't grow is one that can't be written: the signal of that limit ends nothing."""
    limited = ["sh", "-c", 'ulimit -f 0; exec "$0" "$@"', SCRIPT]
    with tempfile.TemporaryDirectory() as name, Host() as host:
        path = pathlib.Path(name) / "screens"
        with Operator("--save", path, host.port, command=limited) as operator:
            host.binds()
            operator.until("the form is shown", lambda screen: screen.line(0) == " HI")
            operator.types(SAVE)
            operator.has_status("connected", "X", "NOT", "SAVED", "PNL01", "001/005")
            operator.types("A", QUIT)
            operator.ends(0)


@check
def the_soft_hyphen_is_drawn():
    """U+00AD is drawn as a hyphen, since terminals don't agree on its width; the host gets it as it is."""
    with bound() as (operator, host):
        operator.types("1\u00ad0", ENTER)
        operator.until("a hyphen", lambda screen: screen.line(0) == " HI 1-0")
        host.hears(bytes.fromhex("00 00 00 00 00 7D 40 C7 11 40 C4 F1 CA F0 FF EF"))


@check
def erase_may_be_typed_ahead():
    """It is done once the keyboard is free, at the place where the cursor is then."""
    with bound() as (operator, host):
        operator.types("A", ENTER)
        host.hears(bytes.fromhex("00 00 00 00 00 7D 40 C5 11 40 C4 C1 FF EF"))
        operator.types("BC", BACKSPACE)
        operator.has_status("connected", "X", "SYSTEM", "T", "PNL01", "001/006")
        host.says(restoring(1))
        operator.until("the keys are done", lambda screen: screen.line(0) == " HI AB")
        operator.has_status("connected", "PNL01", "001/007")


@contextlib.contextmanager
def keymap(text: str):
    """The name of a file with this keymap."""
    with tempfile.TemporaryDirectory() as name:
        path = pathlib.Path(name) / "keys"
        path.write_text(text)
        yield path


@check
def a_keymap_says_what_keys_do():
    """Keys that it names do what it says, others what is usual; the table of keys has it, too."""
    text = "# A 3278's keys.\n\nBackspace = BackSpace\nf1=Enter()\n Alt-# = pf(24)\nCtrl-a = Home\n"
    with keymap(text + "Alt-= = EraseEOF\nHome = Ignore\n") as path:
        with bound(options=("--keymap", path)) as (operator, host):
            operator.types("AB", BACKSPACE)
            operator.has_status("connected", "PNL01", "001/006")
            expect("a row", operator.screen.line(0), " HI AB")
            operator.types(b"\x1b=")
            operator.until("EraseEOF", lambda screen: screen.line(0) == " HI A")
            operator.types(HOME, b"\x01")
            operator.has_status("connected", "PNL01", "001/005")
            operator.types(KEYS)
            operator.sees("BackSpace  Backspace Ctrl-H")
            operator.sees("PF(24)     Shift-F12 Alt-# Alt-+")
            operator.types(RESET, b"\x1bOP")
            host.hears(bytes.fromhex("00 00 00 00 00 7D 40 C4 11 40 C4 C1 FF EF"))
    with keymap("F1 = Enter\n") as path, bound(options=("--keymap", path)) as (operator, host):
        operator.types(b"\x1b#")
        host.hears(bytes.fromhex("00 00 00 00 00 C3 40 C4 FF EF"))


@check
def a_wrong_keymap_is_told():
    """A line says the file, the line and what is wrong, before the session begins; status 1."""
    port = free_port()
    for text, fault in (
        ("F1 = Enter\nF2\n", "2: a line KEY = ACTION is needed"),
        ("\n# a comment\nF13 = Enter", "3: unknown key 'F13'"),
        ("A = Enter", "1: unknown key 'A'"),
        ("Ctrl-[ = Enter", "1: unknown key 'Ctrl-['"),
        ("Alt-O = Enter", "1: unknown key 'Alt-O'"),
        ("F1 = PF(25)", "1: unknown action 'PF(25)'"),
        ("F1 = PF", "1: unknown action 'PF'"),
        ("F1 = Attn", "1: unknown action 'Attn'"),
        ("F1 =", "1: unknown action ''"),
        ("F1 = Tab\nf1 = Tab", "2: the key 'f1' has an action already"),
    ):
        with keymap(text) as path, Operator("--keymap", path, port, columns=120) as operator:
            operator.ends(1, f"{path}:{fault}")
    with Operator("--keymap", "/no/keys", port) as operator:
        operator.ends(1, "/no/keys: no such file")


@check
def a_refused_key_rings():
    """Once for each refused or unknown key, on a tty with and without a status row, which is shown
    over the last row until the next key; with --quiet-keys it doesn't ring."""
    for rows, quiet in ((25, ()), (24, ()), (24, ("--quiet-keys",))):
        with Host() as host, Operator(*quiet, host.port, rows=rows) as operator:
            host.binds()
            operator.until("the form is shown", lambda screen: screen.line(0) == " HI")

            def rings(*typed, bells, operator=operator, quiet=quiet):
                operator.types(*typed)
                if not quiet:
                    operator.until(f"bell {bells}", lambda screen: screen.bells == bells)

            rings(LEFT, "C", bells=1)
            operator.has_status("connected", "X", "PROTECTED", "PNL01", "001/004")
            rings("D", bells=2)
            operator.has_status("connected", "X", "PROTECTED", "PNL01", "001/004")
            operator.types(RESET)
            if rows == 24:
                operator.until("the screen alone", lambda screen: screen.text() == " HI")
            # Ctrl-A, Ctrl-Left, and é in Latin-1.
            rings(TAB, b"\x01", bells=3)
            rings(b"\x1b[1;5D", bells=4)
            rings(b"\xe9", bells=5)
            operator.types("A")
            operator.until("a character is typed", lambda screen: screen.line(0) == " HI A")
            expect("how often the bell rang", operator.screen.bells, 0 if quiet else 5)


@check
def sequences_may_be_cut():
    """What comes late of a control sequence is a part of it; a lone ESC does nothing to the key after
    it, once --escape is over."""
    for pause in (0.3, 0.8):
        with bound() as (operator, _):
            for front, rest in (("\x1b", "[D"), ("\x1b[", "D"), ("\x1b[1", "~"), ("\x1bO", "C")):
                operator.types("A", front)
                time.sleep(pause)
                operator.types(rest)
            # A, left, over it A, left, over it A, home, over it A, right.
            operator.until("the keys are done", lambda screen: screen.line(0) == " HI A")
            operator.has_status("connected", "PNL01", "001/007")
    with bound() as (operator, _):
        operator.types("\xc3".encode("latin-1"))
        time.sleep(0.3)
        operator.types(b"\xa9")
        operator.until("a character is typed", lambda screen: screen.line(0) == " HI é")
    for options, pause, row in (
        ((), 0.8, " HI 1"), (("--escape", "100"), 0.3, " HI 1"), (("--escape", "3000"), 0.8, " HI")
    ):  # fmt: skip
        with bound(options=options) as (operator, host):
            operator.types(b"\x1b")
            time.sleep(pause)
            operator.types("1")
            operator.until("the key is done", lambda screen, row=row: screen.line(0) == row)
            if row == " HI":
                host.hears(bytes.fromhex("00 00 00 00 00 6C FF EF"))


@check
def reports_type_nothing():
    """Reports of the mouse (X10), and control strings as an answer to a query of colours."""
    with bound() as (operator, _):
        operator.types(b"\x1b[M !!", b"\x1b[M#\x7f\xe9", b"\x1b]11;rgb:0000/0000/0000\x07")
        operator.types(b"\x1b]11;rgb:0000/0000/0000\x1b\\", b"\x1bP>|xterm(379)\x1b\\", "A")
        operator.until("a character is typed", lambda screen: screen.line(0) == " HI A")
        operator.has_status("connected", "PNL01", "001/006")


@check
def a_paste_ends_at_the_last_field():
    """Its characters go from field to field up to the last one, as in x3270; then the rest is left
    out, and the bell and the status row tell. No key that sends is pressed. Without marks, the tty is
    asked for them; at the end it isn't any more."""
    with bound() as (operator, host):
        operator.types(PASTE + b"ABCDE\t12" + PASTED)
        operator.until("the text", lambda screen: screen.line(0) == " HI ABCDE  12")
        expect("how often the bell rang", operator.screen.bells, 0)
        operator.types(HOME, PASTE + b"1" * 5000 + PASTED)
        operator.until("the text", lambda screen: screen.line(0) == " HI 111111 1111")
        operator.has_status("connected", "X", "PASTE", "CUT", "PNL01", "001/005")
        expect("how often the bell rang", operator.screen.bells, 1)
        operator.types(b"A")
        operator.has_status("connected", "PNL01", "001/006")
        operator.types(PASTE + b"\x1bOPB\x03\x1d\r" + PASTED)
        operator.until("the text", lambda screen: screen.line(0) == " HI AB1111 1111")
        host.hears_nothing(0.1)
        operator.types(QUIT)
        operator.ends(0)
        asked = [it for it in (b"\x1b[?2004h", b"\x1b[?2004l") if it in operator.written]
        expect("marks are asked for", len(asked), 2)


@check
def a_long_wait_is_told():
    """From 2 seconds on the status row has the seconds of the wait."""
    with bound() as (operator, host):
        operator.types(ENTER)
        operator.until("2 seconds", lambda screen: "X SYSTEM       2" in screen.line(24))
        operator.until("3 seconds", lambda screen: "X SYSTEM       3" in screen.line(24))
        host.hears(bytes.fromhex("00 00 00 00 00 7D 40 C4 FF EF"))
        host.says(restoring(1))
        operator.until(
            "the wait is over", lambda screen: "SYSTEM" not in screen.line(24)
        )
        operator.has_status("connected", "PNL01", "001/005")


@check
def the_status_row_gives_way():
    """On a tty that has just the rows of the screen, the status row is shown over the last one
    from Ctrl-T to the next key."""
    with Host() as host, Operator(host.port, rows=24) as operator:
        host.binds()
        operator.until("the form is shown", lambda screen: screen.text() == " HI")
        operator.types(STATUS)
        operator.has_status("connected", "PNL01", "001/005")
        operator.types("A")
        operator.until("the screen is shown", lambda screen: screen.text() == " HI A")


@check
def the_table_of_keys_is_shown():
    """ESC and `?` show it, and the next key shows the screen again, and does nothing else."""
    with bound() as (operator, host):
        for key in (ENTER, "A", KEYS):
            operator.types(KEYS)
            operator.sees("Each action, and the keys that have it on this keyboard:")
            operator.sees("Quit       Ctrl-]")
            operator.types(key)
            operator.until("the screen is shown", lambda screen: screen.line(0) == " HI")
            operator.has_status("connected", "PNL01", "001/005")
        host.hears_nothing(0.1)


@check
def a_resized_window_is_drawn_again():
    """All is drawn again for the new size. The status row is shown if the window has a row for it;
    if not, it gives way, and Ctrl-T shows it."""
    with bound() as (operator, host):
        for rows, columns in ((24, 80), (30, 100), (24, 132), (25, 80), (43, 80)):
            operator.resizes(rows, columns)
            operator.until("the screen is drawn", lambda screen: screen.line(0) == " HI")
            if rows == 24:
                operator.types(REDRAW)
                operator.until("the screen alone", lambda screen: screen.text() == " HI")
                operator.types(STATUS)
            operator.has_status("connected", "PNL01", "001/005", row=min(rows - 1, 24))
            # The next key ends what Ctrl-T shows.
            operator.types(RESET)
        operator.types("A")
        operator.until("a character is typed", lambda screen: screen.line(0) == " HI A")
        host.hears_nothing(0.1)
        operator.types(QUIT)
        operator.ends(0)


@check
def a_window_that_becomes_too_small_says_so():
    """A window without room for the screens of the model says so, as at the start, from row to row.
    The terminal works on, and is shown once the window is large again."""
    needs = "columns, and the screen needs 24 rows of 80"
    with bound() as (operator, host):
        for rows, columns, lines in (
            (23, 80, [f"the tty has 23 rows of 80 {needs}"]),
            (1, 100, [f"the tty has 1 rows of 100 {needs}"]),
            (24, 40, ["the tty has 24 rows of 40 columns, and t", "he screen needs 24 rows of 80"]),
            (2, 20, ["the tty has 2 rows o", "f 20 columns, and th"]),
        ):
            operator.resizes(rows, columns)
            operator.until(
                "the window is too small",
                lambda screen, lines=lines: screen.text() == "\n".join(lines),
            )
        operator.types("A", KEYS, KEYS, STATUS)
        operator.resizes(25, 80)
        operator.until("the screen is drawn", lambda screen: screen.line(0) == " HI A")
        operator.has_status("connected", "PNL01", "001/006")
        host.hears_nothing(0.1)
        operator.resizes(23, 80)
        operator.sees("the tty has 23 rows of 80")
        operator.types(QUIT)
        operator.ends(0)
    with Host() as host, Operator("--model", 5, host.port, rows=27, columns=132) as operator:
        host.accepts()
        operator.resizes(30, 131)
        operator.sees("the tty has 30 rows of 131 columns, and the screen needs 27 rows of 132")


@check
def modified_f3_is_no_size():
    """What xterm sends for F3 with Shift is PF15, and with other modifiers nothing, though it has
    the form of a report of the cursor's place."""
    with bound() as (operator, host):
        operator.types("\x1b[1;5R", "\x1b[1;16R", "A")
        operator.has_status("connected", "PNL01", "001/006")
        operator.types("\x1b[1;2R")
        # Number 0: PF15, the cursor at 5, and the field from 4 on.
        host.hears(bytes.fromhex("00 00 00 00 00 C3 40 C5 11 40 C4 C1 FF EF"))


@check
def each_model_has_its_size():
    """A terminal of each model is shown the panels of its size."""
    for model, rows, columns in ((2, 25, 80), (3, 33, 80), (4, 44, 80), (5, 28, 132)):
        with Host() as host, Operator(
            "--model", model, host.port, rows=rows, columns=columns
        ) as operator:
            host.accepts()
            host.says(DO, SEND_TYPE)
            host.hears(WILL, device_type(7, None, f"IBM-3278-{model}"))
            host.says(device_type(4, "PNL01", f"IBM-3278-{model}"), FUNCTIONS_IS)
            # Erase/Write Alternate: `HI` from 1 on; it restores the keyboard.
            host.says(bytes.fromhex("00 00 02 00 00 7E C3 11 40 40 1D 40 C8 C9 FF EF"))
            operator.until("the screen is drawn", lambda screen: screen.line(0).strip() == "HI")
            operator.until(
                "the status row",
                lambda screen: screen.line(rows - 1).split()[:2] == ["connected", "PNL01"],
            )


@check
def serve_says_that_it_reads_a_tty():
    """`serve` without a file, at a tty, says what it waits for; Ctrl-D ends the panel text."""
    with Operator("serve", "--port", free_port(), command=[programs.panel3270()]) as operator:
        operator.sees("reading panels from standard input; end with Ctrl-D, or give --panels FILE")
        operator.types(b"\x04")
        operator.until(
            "the panel text is refused",
            lambda screen: "standard input:1: missing key 'start'" in screen.text(),
        )


@check
def it_says_how_it_is_started():
    """Without a tty in raw mode a line says how the program is started, with status 2; and so does
    the script without a tty."""
    said = run_alone(programs.panel3270(), "operate", "--port", "3270")
    expect(
        "operate",
        said,
        (2, "", "operate needs a tty in raw mode: start it by bin/operate PORT [LU]\n"),
    )
    usage = "\n".join(USAGE)
    for words, line in (
        (["3270"], "standard input and output must be a tty"),
        ([], usage),
        (["1", "A", "B"], usage),
        (["--hosts"], usage),
    ):
        expect("bin/operate", run_alone(SCRIPT, *words), (2, "", line + "\n"))


def an_operator_works_over_tls():
    """stunnel before the operator, with the lines that docs/OPERATING.md has for it, reaches the
    host behind its own."""
    lines = documents.block(OPERATING, "stunnel on the operator's machine has these lines:")
    with tempfile.TemporaryDirectory() as name, serve_bank() as host:
        folder, port = pathlib.Path(name), free_port()
        with s3270_sessions.encrypted(s3270_sessions.TLS_ADDRESS, host.port, folder) as front:
            for old, new in (
                ("127.0.0.1:3271", f"127.0.0.1:{port}"),
                ("mainframe:992", front),
                ("/etc/stunnel/host-certificate.pem", "cert.pem"),
                ("mainframe", "localhost"),
            ):
                expect(f"{old} is in the lines", old in lines, True)
                lines = lines.replace(old, new)
            with s3270_sessions.tunnel(folder, port, lines), Operator(port) as operator:
                operator.sees("FIRST NATIONAL BANK")
                operator.has_status("connected", "BANK01", "005/030")
                operator.types(QUIT)
                operator.ends(0)


def cases() -> Iterator[Case]:
    yield from check.cases()
    if s3270_sessions.TLS in s3270_sessions.HOSTS:
        yield of_function(an_operator_works_over_tls)
    else:
        print("operate: stunnel or openssl isn't installed (apt-get install stunnel4 openssl)")
