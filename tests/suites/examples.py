"""What the documents print of the examples, as harness/documents reads them; and what each
examples/NAME.script prints: NAME.screens.

Other commands than those of the program are only shown.
"""
import functools
from collections.abc import Iterator

from harness.case import TOP, Case, Place
from harness.documents import DOCUMENTS, PROGRAM, printed, ran, read, runs, same_output


def check_run(at: Place, command: str, behind: list[str]) -> None:
    same_output(at, printed(behind), ran(command))


def check_script(at: Place, name: str) -> None:
    same_output(
        at, (read(f"examples/{name}.screens"), 0), ran(f"{PROGRAM} < examples/{name}.script")
    )


def cases() -> Iterator[Case]:
    for document in DOCUMENTS:
        for at, command, behind in runs(document):
            if PROGRAM in command:
                yield Case(command, at, functools.partial(check_run, at, command, behind))
    for script in sorted((TOP / "examples").glob("*.script")):
        at = Place(f"examples/{script.stem}.screens", 1)
        yield Case(
            f"the screens of {script.name}", at, functools.partial(check_script, at, script.stem)
        )
