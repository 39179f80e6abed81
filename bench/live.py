#!/usr/bin/env python3
"""Measures the operator's live terminal on a tty of its own: bytes written, and an idle one's
processor. bench/latency.py measures the time from a key to its cell.

    bench/live.py PROGRAM

starts a host with the bank's panels and bin/operate, types, and prints a line for each figure.
docs/PERFORMANCE.md has them.
"""
import fcntl
import os
import pathlib
import pty
import select
import socket
import struct
import subprocess
import sys
import termios
import time

HERE = pathlib.Path(__file__).resolve().parent
IDLE = 10


def free_port():
    with socket.create_server(("127.0.0.1", 0)) as it:
        return it.getsockname()[1]


def written(tty, quiet=0.3):
    """What is written until nothing was for this time."""
    came = b""
    while select.select([tty], [], [], quiet)[0]:
        came += os.read(tty, 1 << 16)
    return came


def typed(tty, *keys):
    """How many bytes each of these has the program write."""
    counts = []
    for key in keys:
        os.write(tty, key)
        counts.append(len(written(tty)))
    return counts


def spent(process):
    """The seconds of processor that a process took."""
    fields = pathlib.Path(f"/proc/{process}/stat").read_text().rsplit(")", 1)[1].split()
    return (int(fields[11]) + int(fields[12])) / os.sysconf("SC_CLK_TCK")


def child_of(process):
    return int(pathlib.Path(f"/proc/{process}/task/{process}/children").read_text().split()[-1])


def measure(tty, script):
    first = len(written(tty, 1))
    print(f"the first panel, with the erased screen: {first} bytes")
    print(f"a digit typed: {max(typed(tty, b'4', b'7', b'1', b'1'))} bytes at most")
    typed(tty, b"\t", b"SECRET")
    print(f"Enter, and the next panel: {typed(tty, bytes([13]))[0]} bytes")
    program = child_of(script)
    before = spent(program)
    time.sleep(IDLE)
    print(f"idle: {(spent(program) - before) / IDLE * 100:.2f} % of a processor")


def main():
    program, port = sys.argv[1], free_port()
    words = [
        program,
        "serve",
        "--quiet",
        "--port",
        str(port),
        "--panels",
        str(HERE.parent / "examples/bank.toml"),
    ]
    host = subprocess.Popen(words, stdin=subprocess.DEVNULL)
    time.sleep(0.5)
    tty, slave = pty.openpty()
    fcntl.ioctl(slave, termios.TIOCSWINSZ, struct.pack("HHHH", 25, 80, 0, 0))
    begun = subprocess.Popen(
        [HERE.parent / "bin/operate", str(port)],
        stdin=slave,
        stdout=slave,
        env={**os.environ, "PANEL3270": program},
    )
    try:
        measure(tty, begun.pid)
        os.write(tty, b"\x1d")
        begun.wait(5)
    finally:
        begun.kill()
        host.kill()


main()
