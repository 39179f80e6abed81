#!/usr/bin/env python3
"""Prints figures of the engine in memory: screens that commands fill, and turns of a host and
terminals.

usage: engine.py PROGRAM [ROUNDS]. `show` applies full-screen Erase/Writes, whose attributes are
every so many cells, and `script` takes turns: a key's data goes up, a panel comes down, and its
response goes up. Each figure is the best of some rounds, in processor time. It has the reading of
the text in it, whose share the first row tells: lines of as many blanks.
"""
import os
import subprocess
import sys
from collections.abc import Iterator

# The program reads at most this number of bytes.
MOST_BYTES = 1_048_576
CELLS = 1920
PANELS = """start = "WORD"
lus = [{}]
panel = [{{name = "WORD", field = [
    {{name = "word", row = 3, col = 8, length = 8}},
], keys = {{enter = "WORD"}}}}]
%%
"""


def seconds(program: str, job: str, text: str) -> float:
    """The processor time of a run."""
    before = os.times()
    done = subprocess.run(
        [program, job],
        input=text.encode(),
        stdout=subprocess.DEVNULL,
        stderr=subprocess.PIPE,
        check=False,
    )
    after = os.times()
    if done.returncode:
        sys.exit(f"{job} ends with status {done.returncode}: {done.stderr.decode()}")
    return (
        after.children_user + after.children_system - before.children_user - before.children_system
    )


def erase_write(every: int) -> str:
    """A line for `show`: an Erase/Write of all cells, with one attribute every `every` cells, or
    none."""
    cells = ["1D 40" if every and not at % every else "C1" for at in range(CELLS)]
    return " ".join(["F5 C3 11 40 40", *cells]) + "\n"


def screens() -> Iterator[tuple[str, str, str, int]]:
    """Each case of `show`: its name, the job, the text, and how many commands that has."""
    layouts = [
        ("characters", erase_write(0)),
        *((f"an attribute every {it} cells", erase_write(it)) for it in (80, 10, 2)),
    ]
    for name, line in [("blank lines", " " * len(erase_write(0)) + "\n"), *layouts]:
        count = MOST_BYTES // len(line)
        yield name, "show", line * count, count


def turns() -> Iterator[tuple[str, str, str, int]]:
    """Each case of `script`."""
    for terminals in (1, 4):
        lus = ", ".join(f'"LU{it}"' for it in range(terminals))
        connects = "".join(f"connect {it}\n" for it in range(terminals))
        begin = f"{PANELS.format(lus)}{connects}settle\n"
        turn = "".join(f"type {it} A\nkey {it} enter\n" for it in range(terminals)) + "settle\n"
        count = 10_000 // terminals
        yield f"turns of {terminals} terminals", "script", begin + turn * count, count * terminals


def main() -> None:
    if len(sys.argv) not in (2, 3):
        sys.exit(__doc__)
    program, rounds = os.path.abspath(sys.argv[1]), int(sys.argv[2]) if len(sys.argv) == 3 else 5
    for name, job, text, count in (*screens(), *turns()):
        best = min(seconds(program, job, text) for _ in range(rounds))
        print(
            f"{name:32} {count / best:10.0f} a second, {1e6 * best / count:8.1f} microseconds each",
            flush=True,
        )


if __name__ == "__main__":
    main()
