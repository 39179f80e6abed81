#!/usr/bin/env python3
"""Prints how fast `panel3270 term` and s3270 take screens from a host, and the processor time of
each, in one run.

usage: beside_s3270.py [--records N] [--rounds N] [--instructions] PROGRAM. Linux; s3270 is in
Debian's package s3270. The script is the host, on 127.0.0.1, of one client at a time. It agrees
with the client on TN3270E with RESPONSES, and sends N Erase/Writes of all 1,920 cells, two screens
by turns, in large writes. All but the last have NO-RESPONSE, and leave the keyboard locked, so that
a `wait` of term goes on; a `wait` ends after 1,000 reads, so term is given many. The last one has
ALWAYS-RESPONSE, and restores the keyboard. Then the client prints its screen, which must be that of
the last record.

Measured are the time from the first write to the response to the last record, and the client's
processor time (getrusage(2)), less that of a run with few records: for receiving, Telnet, the
headers of records, and the data stream's effect on the screen in memory. Not measured are the
client's start, the negotiation and the printed screen, which are in both runs; keys, inbound data
and responses; TLS and a display, which neither client has here. The system divides processor time
into user and system by samples, so that these two need runs of a second or more; their sum is
exact. The host shares the machine with the client. Figures and ratios are medians of the rounds.

With --instructions (Debian's package valgrind) each client also runs twice in callgrind, which
counts its instructions, those of libraries among them, and not the system's.
"""
import argparse, collections, os, re, socket, statistics, subprocess, sys, time

CELLS, COLUMNS, SCREENS = 1920, 80, (24, 96, 960)  # screens by their numbers of fields
CONNECTS, PATIENCE = 10, 60  # seconds: until a client connects, and for anything else
FEW, BLOCK = 100, 256  # records of the run whose time is subtracted; records in a write
COUNTED = 500  # records of the longer run whose instructions are counted
CALLGRIND = ["valgrind", "--tool=callgrind", "--callgrind-out-file=/dev/null"]
DO, WILL = bytes.fromhex("FF FD 28"), bytes.fromhex("FF FB 28")
SEND_TYPE, TYPE_IS = bytes.fromhex("FF FA 28 08 02 FF F0"), bytes.fromhex("FF FA 28 02 04")
FUNCTIONS_REQUEST, FUNCTIONS_IS = (
    bytes.fromhex(f"FF FA 28 03 {it} 02 FF F0") for it in ("07", "04")
)  # of RESPONSES alone
END, SE = b"\xff\xef", b"\xff\xf0"  # IAC EOR, IAC SE
NO_RESPONSE, ALWAYS_RESPONSE, RESPONSE = (
    bytes.fromhex(it) for it in ("00 00 00 00 00", "00 00 02 00 01", "02 00 00 00 01 00 FF EF")
)
LOCKED, RESTORED = b"\xc1", b"\xc3"  # WCC: reset MDT; the same, and restore the keyboard
TERM, S3270 = CLIENTS = ("panel3270 term", "s3270")


def fields_of(fields, which):
    """The characters of a screen's fields, of equal length, each with a blank for its attribute in
    front."""
    letters, length = "".join(
        chr(ord("A") + (it + 13 * which) % 26) for it in range(CELLS)
    ), CELLS // fields
    return [" " + letters[it + 1 : it + length] for it in range(0, CELLS, length)]


def data_stream(fields, which, wcc):
    """Erase/Write, Set Buffer Address 0, and Start Field and characters of each field, protected
    and unprotected by turns."""
    orders = (
        (b"\x1d\x60", b"\x1d\x40")[at % 2] + it[1:].encode("cp037")
        for at, it in enumerate(fields_of(fields, which))
    )
    return b"\xf5" + wcc + b"\x11\x40\x40" + b"".join(orders)


class Host:
    """The host's end of a connection."""

    def __init__(self, listener):
        self.socket, self.came = listener.accept()[0], b""
        self.socket.settimeout(PATIENCE)
        self.socket.setsockopt(socket.IPPROTO_TCP, socket.TCP_NODELAY, 1)

    def read_until(self, end):
        while end not in self.came:
            self.came += self.socket.recv(65536) or sys.exit("a client ended its connection")
        at = self.came.index(end) + len(end)
        front, self.came = self.came[:at], self.came[at:]
        return front

    def expect(self, end, wanted):
        if (came := self.read_until(end)) != wanted:
            sys.exit(f"a client says {came.hex(' ')} in place of {wanted.hex(' ')}")

    def agree(self):
        """Grants an LU, with the device type that the client requests, and agrees on the function
        RESPONSES alone."""
        self.socket.sendall(DO)
        self.expect(WILL, WILL)
        self.socket.sendall(SEND_TYPE)
        name = self.read_until(SE)[len(TYPE_IS) : -len(SE)]
        self.socket.sendall(TYPE_IS + name + b"\x01PNL01" + SE)
        if self.read_until(SE) == FUNCTIONS_REQUEST:
            self.socket.sendall(FUNCTIONS_IS)
        else:  # the client requests more functions
            self.socket.sendall(FUNCTIONS_REQUEST)
            self.expect(SE, FUNCTIONS_IS)

    def send(self, fields, records):
        """Sends records, and returns the seconds until the response to the last one."""
        two = b"".join(NO_RESPONSE + data_stream(fields, it, LOCKED) + END for it in range(2))
        block, (blocks, rest) = two * (BLOCK // 2), divmod(records - 1, BLOCK)
        last = block[: rest * len(two) // 2] + ALWAYS_RESPONSE
        last += data_stream(fields, 1, RESTORED) + END
        begun = time.monotonic()
        for _ in range(blocks):
            self.socket.sendall(block)
        self.socket.sendall(last)
        self.expect(END, RESPONSE)
        return time.monotonic() - begun


Run = collections.namedtuple("Run", "user system seconds instructions")


def run(client, program, fields, records, counter=()):
    """Starts a client, in a program that counts if one is given, and sends it records. Returns its
    user and system time, how many seconds the records took, and its instructions, if they were
    counted."""
    with socket.create_server(("127.0.0.1", 0)) as listener:
        listener.settimeout(CONNECTS)
        port = listener.getsockname()[1]
        words = ["term", "--port", str(port)] if client == TERM else [
            "-model", "3278-2", f"127.0.0.1:{port}"
        ]
        process = subprocess.Popen(
            [*counter, program, *words],
            stdin=subprocess.PIPE,
            stdout=subprocess.PIPE,
            stderr=subprocess.PIPE,
        )
        try:
            if client == TERM:  # enough for 60 reads a record
                process.stdin.write(b"wait\n" * (10 + records // 16) + b"show\n")
                process.stdin.close()
            host = Host(listener)
            host.agree()
            took = host.send(fields, records)
            if client == S3270:
                process.stdin.write(b"Ascii()\nQuit()\n")
                process.stdin.close()
            printed, complaints = process.stdout.read().decode(), process.stderr.read().decode()
            _, status, used = os.wait4(process.pid, 0)
            process.returncode = os.waitstatus_to_exitcode(status)
        finally:
            if process.returncode is None:
                process.kill()
        host.socket.close()
    rows = printed.split("\n") if client == TERM else re.findall("data: (.*)", printed)
    rows = rows[: CELLS // COLUMNS]
    shown = "".join(it.ljust(COLUMNS) for it in rows)
    if process.returncode or shown != "".join(fields_of(fields, 1)):
        sys.exit(
            f"{client} ends with status {process.returncode}, and doesn't show the last screen "
            f"sent:\n{printed}{complaints}"
        )
    counted = re.search(r"Collected : (\d+)", complaints)
    return Run(used.ru_utime, used.ru_stime, took, int(counted[1]) if counted else None)


def measure(client, program, fields, records):
    """Records a second, and microseconds of processor time a record: user, system, and both."""
    few, many = (run(client, program, fields, it) for it in (FEW, records))
    user, system = ((many[it] - few[it]) * 1e6 / (records - FEW) for it in range(2))
    return records / many.seconds, user, system, user + system


def count(client, program, fields):
    """Instructions a record."""
    few, many = (run(client, program, fields, it, CALLGRIND).instructions for it in (FEW, COUNTED))
    return (many - few) // (COUNTED - FEW)


def ratio(ours, theirs):
    """The median of the rounds' ratios, the least, and the most."""
    ratios = [mine / other if other > 0 else float("nan") for mine, other in zip(ours, theirs)]
    return f"{statistics.median(ratios):.2f} ({min(ratios):.2f} to {max(ratios):.2f})"


def arguments():
    words = argparse.ArgumentParser(
        description="Prints figures of panel3270's terminal beside those of s3270."
    )
    words.add_argument("program", help="the path of panel3270")
    words.add_argument(
        "--records",
        type=int,
        default=50000,
        help=f"how many records a client is sent, more than {FEW} [default: 50000]",
    )
    words.add_argument(
        "--rounds", type=int, default=7, help="how often each client is measured [default: 7]"
    )
    words.add_argument(
        "--instructions",
        action="store_true",
        help="also count the instructions of a record, by valgrind",
    )
    given = words.parse_args()
    if given.records <= FEW or given.rounds < 1:
        words.error(f"it takes more than {FEW} records, and a round")
    return given


def print_versions(given):
    programs = [[given.program, "--version"], ["s3270", "-v"]]
    if given.instructions:
        programs.append(["valgrind", "--version"])
    for words in programs:
        said = subprocess.run(
            words,
            stdin=subprocess.DEVNULL,
            stdout=subprocess.PIPE,
            stderr=subprocess.STDOUT,
            check=False,
        )
        print(said.stdout.decode().partition("\n")[0], flush=True)


def measure_all(given, programs):
    """The figures of each client with each screen. The clients take turns to be the first."""
    rounds = collections.defaultdict(list)
    for number in range(given.rounds):
        for fields in SCREENS:
            for client in CLIENTS[:: -1 if number % 2 else 1]:
                figures = measure(client, programs[client], fields, given.records)
                rounds[fields, client].append(figures)
    return rounds


def rows_of(given, programs, rounds):
    """The rows of the table, the titles first, and the line of ratios of each screen."""
    titles, ratios = ["fields", "bytes", "client", "records a second", "user", "system", "both"], []
    rows = [titles + ["instructions"] if given.instructions else titles]
    for fields in SCREENS:
        ours, theirs = columns = [list(zip(*rounds[fields, it])) for it in CLIENTS]
        for client, (rate, *times) in zip(CLIENTS, columns):
            size, rate = len(data_stream(fields, 0, LOCKED)), f"{statistics.median(rate):.0f}"
            times = [f"{statistics.median(it):.1f}" for it in times]
            row = [str(fields), str(size), client, rate, *times]
            if given.instructions:
                row.append(str(count(client, programs[client], fields)))
            rows.append(row)
        ratios.append(
            f"{fields} fields, term to s3270: user and system {ratio(ours[3], theirs[3])}, "
            f"user alone {ratio(ours[1], theirs[1])}"
        )
    return rows, ratios


def print_table(rows):
    widths = [max(map(len, column)) for column in zip(*rows)]
    for row in rows:
        cells = enumerate(zip(row, widths))
        print("  ".join(it.ljust(n) if at == 2 else it.rjust(n) for at, (it, n) in cells))


def main():
    given = arguments()
    programs = {TERM: given.program, S3270: "s3270"}
    try:
        print_versions(given)
        rounds = measure_all(given, programs)
    except OSError as fault:
        sys.exit(f"a client can't be measured: {fault}")
    rows, ratios = rows_of(given, programs, rounds)
    print_table(rows)
    print(
        "bytes: of a record's data stream. user, system, both: microseconds of the client's "
        f"processor time a record, of {given.records} records.\n"
        "ratios: the median of the rounds, and the least and the most; "
        f"rounds: {given.rounds}.",
        *ratios,
        sep="\n",
    )


if __name__ == "__main__":
    main()
