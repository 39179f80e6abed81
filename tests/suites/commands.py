"""Commands of the data stream, read and written: tests/cases/commands.rows and commands.talks."""
from collections.abc import Iterator

from harness.case import CASES, Case
from harness.cells import rows_in_part
from harness.talk import talks


def cases() -> Iterator[Case]:
    yield from rows_in_part(CASES / "commands.rows", "commands")
    yield from talks(CASES / "commands.talks", "commands")
