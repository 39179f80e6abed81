"""Inbound data: tests/cases/inbound.rows, and inbound.talks on graphic escapes."""
from collections.abc import Iterator

from harness.case import CASES, Case
from harness.cells import rows_in_part
from harness.talk import talks


def cases() -> Iterator[Case]:
    yield from rows_in_part(CASES / "inbound.rows", "commands")
    yield from talks(CASES / "inbound.talks", "commands")
