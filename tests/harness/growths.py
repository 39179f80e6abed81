"""Runs of programs in which one allocation fails: harness/refuse.c is preloaded."""
import functools
import os
import pathlib
import re
import subprocess
import tempfile

from harness.case import BadCase, Difference

SOURCES = pathlib.Path(__file__).resolve().parent
# Held until the process ends.
FOLDER = tempfile.TemporaryDirectory(prefix="tests-growths-")


@functools.cache
def library(name: str = "refuse") -> pathlib.Path:
    """A C file of this folder as a library, which is compiled once in a process."""
    path = pathlib.Path(FOLDER.name) / f"{name}.so"
    try:
        subprocess.run(
            ["cc", "-O2", "-shared", "-fPIC", "-o", path, SOURCES / f"{name}.c"],
            check=True,
            capture_output=True,
            text=True,
        )
    except (OSError, subprocess.CalledProcessError) as error:
        raise BadCase(f"{name}.c isn't compiled: {getattr(error, 'stderr', error)}") from None
    return path


def settings(growth: int, whole: bool = True) -> dict[str, str]:
    """The environment of a run whose allocation with this number fails, from 1 on; 0 is none's.
    `whole` counts those of the whole run, else those between the lines `begin` and `end` that the
    program writes to standard error."""
    return {
        **os.environ,
        "LD_PRELOAD": str(library()),
        "GROWTH": str(growth),
        **({"WHOLE": "1"} if whole else {}),
    }


def met(told: str) -> int:
    """How many allocations a run met, by what it wrote to standard error."""
    found = re.search(r"^growths (\d+)$", told, re.MULTILINE)
    if not found:
        raise Difference("a line `growths N` of refuse.c", told)
    return int(found[1])
