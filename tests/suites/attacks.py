"""What a hostile client or a broken neighbour does to others, bounded in count and time. Beside each there
is a witness, a session that must notice nothing."""
import contextlib
import os
import re
import socket
import time
from collections import Counter

from harness.case import Checks, expect
from harness.hosts import GET, LOCALHOST, in_seconds, metered, scraped, until

check = Checks()
cases = check.cases

# They cause more lines than a pipe and the host's buffer hold.
CLIENTS = 4_000


def figure(host, name):
    """A number of the metrics."""
    page = scraped(host.metrics, GET).decode()
    return int(re.search(rf"^panel3270_{name} (\d+)$", page, re.MULTILINE)[1])


@check
def an_unread_log_holds_up_nobody() -> None:
    """If nobody reads the log, sessions go on. Lines that have no room are counted, whole lines come once
    it is read again, and one of them says how many are missing."""
    log, end = os.pipe()
    with open(log, "rb", buffering=0) as read, open(end, "wb", buffering=0) as write:
        with metered(log=write) as host:
            witness = host.client().signs_on("PNL01")
            for _ in range(CLIENTS):
                with contextlib.suppress(OSError):
                    socket.create_connection((LOCALHOST, host.port), 5).close()
            until("all have left", lambda: figure(host, "sessions") == 1)
            for _ in range(5):
                in_seconds(0, 1, "a turn of the witness", witness.enters)
            began, turned_away, count = (
                figure(host, name)
                for name in ("sessions_total", "turned_away_total", "log_lines_dropped_total")
            )
            text, end = b"", time.monotonic() + 10
            while b"log-lines-dropped" not in text and time.monotonic() < end:
                text += read.read(1 << 16)
            first, *lines = text.decode().splitlines()
            events = Counter(re.fullmatch(r"time=\S+Z .*?event=(\S+).*", it)[1] for it in lines)
            expect("the last line", lines[-1].split(" ", 1)[1], f"event=log-lines-dropped lines={count}")
            expect("some are dropped", count > 0, True)
            # Each client's connection began and ended, or was turned away; the witness was bound.
            wanted = 2 * began - 1 + turned_away + 1
            expect("lines in all", sum(events.values()) - 1 + count, wanted)
