#!/usr/bin/env python3
"""Prints turns a second of `panel3270 serve`: of a key that an application decides, beside those of
a key that leads by itself.

usage: turns.py [--seconds S] [--close] PROGRAM. It starts the program and an application, works as
1 and as 64 terminals, and ends both. Linux, for /proc. Both keys show the same panel again, so only
who decides differs. The application answers at once, in a process of its own, and keeps its
connections, or closes them with --close; host, application and terminals have a processor each if
the machine has three that are free.

The keys take turns, ten of each, and a row has the median of its turns: another load of the machine
meets both alike.
"""
import argparse, multiprocessing, os, re, selectors, socket, statistics, subprocess, sys, time

SESSIONS = (1, 64)
# The turns that each key gets.
PARTS = 10
# Enter and PF1.
KEYS = (
    ("a key that leads by itself", b"\x7d"),
    ("a key that asks the application", b"\xf1"),
)
PANELS = """start = "WORD"
lus = [{}]
panel = [{{name = "WORD", field = [
    {{name = "word", row = 3, col = 8, length = 8}},
], keys = {{enter = "WORD"}}, asks = ["pf1"]}}]
""".format(", ".join(f'"LOAD{number:02}"' for number in range(max(SESSIONS))))
CONTENT = b'{"panel":"WORD"}'
REPLY = b"HTTP/1.1 200 OK\r\n%sContent-Length: %d\r\n\r\n%s"
LENGTH = re.compile(rb"Content-Length: (\d+)\r\n")
END, SE = b"\xff\xef", b"\xff\xf0"  # IAC EOR, IAC SE
RECORD = re.compile(rb"((?:[^\xff]|\xff[^\xef])*)\xff\xef", re.DOTALL)
ESCAPED = re.compile(rb"\xff(.)", re.DOTALL)  # of IAC IAC one byte is data, of IAC NOP none
TALK = [
    (b"\xff\xfd\x28", b"\xff\xfb\x28"),
    (SE, b"\xff\xfa\x28\x02\x07IBM-3278-2\xff\xf0"),
    (SE, b"\xff\xfa\x28\x03\x07\x02\xff\xf0"),
]


def application(listener, keeps):
    """Reads questions, and sends replies."""
    reply = REPLY % (b"Keep-Alive: timeout=60\r\n" if keeps else b"", len(CONTENT), CONTENT)
    with selectors.DefaultSelector() as selector:
        selector.register(listener, selectors.EVENT_READ)
        asked = {}
        while True:
            for ready in (entry.fileobj for entry, _ in selector.select()):
                if ready is listener:
                    connection, _ = listener.accept()
                    connection.setsockopt(socket.IPPROTO_TCP, socket.TCP_NODELAY, 1)
                    selector.register(connection, selectors.EVENT_READ)
                    asked[connection] = b""
                    continue
                more = ready.recv(65536)
                asked[ready] += more
                if is_whole(asked[ready]):
                    ready.sendall(reply)
                    asked[ready] = b""
                    more = more if keeps else b""
                if not more:
                    selector.unregister(ready)
                    del asked[ready]
                    ready.close()


def is_whole(asked):
    head, blank, body = asked.partition(b"\r\n\r\n")
    return blank and len(body) >= int(LENGTH.search(head + b"\r\n")[1])


class Terminal:  # does what this panel needs, and no more
    def __init__(self, port):
        self.socket, self.came = socket.create_connection(("127.0.0.1", port), timeout=60), b""
        self.socket.setsockopt(socket.IPPROTO_TCP, socket.TCP_NODELAY, 1)
        for end, answer in TALK:
            self.read_until(end)
            self.socket.sendall(answer)
        self.read_until(SE)
        while not self.takes_write():
            self.more()

    def more(self):
        self.came += self.socket.recv(65536) or sys.exit("the host ended a connection")

    def read_until(self, end):
        while end not in self.came:
            self.more()
        self.came = self.came.partition(end)[2]

    def takes_write(self):
        """Whether a write is whole; responds to it."""
        record = RECORD.match(self.came)
        if not record:
            return False
        self.came = self.came[record.end() :]
        number = ESCAPED.sub(lambda it: it[1] if it[1] == b"\xff" else b"", record[1])[3:5]
        self.socket.sendall(b"\x02\x00\x00" + number.replace(b"\xff", b"\xff\xff") + b"\x00" + END)
        return True

    def presses(self, key):  # with the cursor and a word in the field, whose first cell is 167
        self.socket.sendall(bytes(5) + key + b"\xc2\xe7\x11\xc2\xe7" + "WORD".encode("cp037") + END)


def turns(terminals, key, seconds):
    """How many turns terminals have that press a key as soon as they may, and how many seconds
    these take."""
    with selectors.DefaultSelector() as selector:
        begun, done, waiting = time.monotonic(), 0, len(terminals)
        for it in terminals:
            selector.register(it.socket, selectors.EVENT_READ, it)
            it.presses(key)
        while waiting:
            ready = selector.select(60) or sys.exit("the host doesn't answer")
            goes_on = time.monotonic() - begun < seconds
            for it in (entry.data for entry, _ in ready):
                it.more()
                if it.takes_write():
                    done += 1
                    if goes_on:
                        it.presses(key)
                    else:
                        waiting -= 1
        return done, time.monotonic() - begun


def processor_time(pid):
    """Seconds of processor time that a process took (proc(5))."""
    with open(f"/proc/{pid}/stat") as it:
        stat = it.read().rsplit(")", 1)[1].split()
    return (int(stat[11]) + int(stat[12])) / os.sysconf("SC_CLK_TCK")


def measure(processes, terminals, key, seconds):
    """Turns a second; microseconds of processor time a turn, of each process; the application's
    part of the time."""
    before = [processor_time(pid) for pid in processes]
    done, took = turns(terminals, key, seconds)
    used = [processor_time(pid) - it for pid, it in zip(processes, before)]
    return [done / took, *(it * 1e6 / done for it in used), 100 * used[1] / took]


def is_connected(port):
    with socket.socket() as it:
        return it.connect_ex(("127.0.0.1", port)) == 0


def arguments():
    words = argparse.ArgumentParser(
        description="Prints turns a second of a host, with an application and without one."
    )
    words.add_argument("program", help="the path of panel3270")
    words.add_argument(
        "--seconds", type=float, default=10, help="how long each row is measured [default: 10]"
    )
    words.add_argument(
        "--close", action="store_true", help="the application closes each connection"
    )
    return words.parse_args()


def begin(host, port):
    """Gives a host its panels, and waits until it serves."""
    host.stdin.write(PANELS.encode())
    host.stdin.close()
    while not is_connected(port):
        if host.poll() is not None:
            sys.exit("the host doesn't run")
        time.sleep(0.1)
    time.sleep(1)  # until the host has seen that this connection is over


def measure_all(pids, port, seconds):
    """The rows of the table, the titles first."""
    figures = ["turns a second", "host", "application", "terminals", "application's part, %"]
    rows, terminals = [["sessions", "", *figures]], []
    for sessions in SESSIONS:
        terminals += [Terminal(port) for _ in range(sessions - len(terminals))]
        for _, key in KEYS:
            turns(terminals, key, seconds / PARTS)
        parts = [
            [measure(pids, terminals, key, seconds / PARTS) for _, key in KEYS] for _ in range(PARTS)
        ]
        for (name, _), of_key in zip(KEYS, zip(*parts)):
            row = map(statistics.median, zip(*of_key))
            rows.append([str(sessions), name, *(f"{it:.1f}" for it in row)])
        ratio = statistics.median(asked[1] / alone[1] for alone, asked in parts)
        rows.append([str(sessions), "the second by the first", "", f"{ratio:.2f}", "", "", ""])
    return rows


def print_table(rows):
    widths = [max(map(len, column)) for column in zip(*rows)]
    for row in rows:
        cells = enumerate(zip(row, widths))
        print("  ".join(it.ljust(n) if at == 1 else it.rjust(n) for at, (it, n) in cells))


def main():
    given = arguments()
    listener = socket.create_server(("127.0.0.1", 0), backlog=max(SESSIONS))
    url = f"http://127.0.0.1:{listener.getsockname()[1]}/"
    asked = multiprocessing.get_context("fork").Process(
        target=application, args=(listener, not given.close), daemon=True
    )
    asked.start()
    with socket.create_server(("127.0.0.1", 0)) as it:
        port = it.getsockname()[1]
    serve = [given.program, "serve", "--port", str(port), "--quiet", "--application", url]
    host = subprocess.Popen(serve, stdin=subprocess.PIPE)
    try:
        begin(host, port)
        print_table(measure_all((host.pid, asked.pid, os.getpid()), port, given.seconds))
        print(
            "host, application, terminals: microseconds of processor time a turn. "
            "application's part: its processor time of the whole time."
        )
    finally:
        host.kill()
        host.wait()
        asked.kill()


if __name__ == "__main__":
    main()
