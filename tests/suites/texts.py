"""What the program prints of faults of which the system gives few: tests/cases/texts.talks. And of a
word that no page can have."""
import subprocess
from collections.abc import Iterator

from harness import programs
from harness.case import CASES, Case, Checks, expect
from harness.talk import talks

check = Checks()


def cases() -> Iterator[Case]:
    yield from talks(CASES / "texts.talks", "lines")
    yield from check.cases()


@check
def a_word_that_is_not_utf_8_is_refused():
    """The line for it, and where help is, with status 2."""
    done = subprocess.run(
        [programs.panel3270(), b"show", b"\xff"],
        stdin=subprocess.DEVNULL,
        capture_output=True,
        check=False,
    )
    told = "error: a word isn't UTF-8\nFor more information, try 'panel3270 help'.\n"
    expect("the run", (done.returncode, done.stdout, done.stderr.decode()), (2, b"", told))
