#!/usr/bin/env python3
"""Prints turns a second, and processor time a turn, of `bin/serve` with 1, 2 and 4 processes.

usage: processes.py [--seconds S] PROGRAM. Works as 64 terminals, in four processes; each terminal
presses a key, which leads by itself, as soon as it may. Linux, for /proc; HAProxy, for more than one
process.
"""
import argparse, multiprocessing, os, pathlib, signal, socket, subprocess, sys, tempfile, time

from turns import KEYS, PANELS, Terminal, processor_time, turns

BIN = pathlib.Path(__file__).resolve().parent.parent / "bin"
PORT, CLIENTS, EACH = 13270, 4, 16


def works(seconds, results):
    terminals = [Terminal(PORT) for _ in range(EACH)]
    results.put(None)
    turns(terminals, KEYS[0][1], min(1, seconds))
    results.put(turns(terminals, KEYS[0][1], seconds))


def times(service):
    """Seconds of processor time that each child of a process took: the hosts, then HAProxy's two."""
    children = pathlib.Path(f"/proc/{service.pid}/task/{service.pid}/children").read_text().split()
    below = [pathlib.Path(f"/proc/{it}/task/{it}/children").read_text().split() for it in children]
    return [sum(processor_time(pid) for pid in [it, *more]) for it, more in zip(children, below)]


def measure(number, seconds, program):
    with tempfile.TemporaryDirectory() as folder:
        panels = pathlib.Path(folder, "panels.toml")
        panels.write_text(PANELS.replace(', asks = ["pf1"]', ""))
        words = [BIN / "serve", "--port", str(PORT), "--panels", panels, "--folder", folder]
        service = subprocess.Popen(
            [*words, "--processes", str(number)],
            env={**os.environ, "PANEL3270": program},
            stdout=subprocess.DEVNULL,
            stderr=subprocess.DEVNULL,
        )
        try:
            time.sleep(2)
            results = multiprocessing.Queue()
            clients = [
                multiprocessing.Process(target=works, args=(seconds, results)) for _ in range(CLIENTS)
            ]
            for it in clients:
                it.start()
            for _ in clients:
                results.get(timeout=60)
            before, begun = times(service), time.monotonic()
            done = sum(results.get(timeout=seconds + 60)[0] for _ in clients)
            took = time.monotonic() - begun
            used = [after - it for after, it in zip(times(service), before)]
        finally:
            service.send_signal(signal.SIGINT)
            service.wait()
    # The turns before those that are counted take processor time, too: about a second of them.
    turn = 1e6 * seconds / (seconds + min(1, seconds)) / done
    host, proxy = sum(used[:number]) * turn, sum(used[number:]) * turn
    print(f"{number} | {done / seconds:,.0f} | {host:.1f} | {proxy:.1f} | {took:.1f}", flush=True)


if __name__ == "__main__":
    parser = argparse.ArgumentParser()
    parser.add_argument("--seconds", type=float, default=10)
    parser.add_argument("program")
    given = parser.parse_args()
    print("processes | turns a second | microseconds a turn, hosts | HAProxy | seconds")
    for it in (1, 2, 4):
        measure(it, given.seconds, given.program)
