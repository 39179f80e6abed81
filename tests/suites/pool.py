"""The pool of LUs: the stories of tests/cases/pool.blocks, the sizes of pools, and random requests.

What is wanted of random requests is answered by a table of who holds what.
"""
import functools
import random
import re
from collections.abc import Iterator

from harness.case import CASES, Case, Place, of_function, same
from harness.probe import Probe
from harness.tables import blocks, named

MOST = 64


def names(count: int) -> list[str]:
    return [f"L{number}" for number in range(count)]


def in_words(answer: str) -> str:
    """An answer with the names of LUs alone, and `none`."""
    return re.sub(r"Some\((.*)\)", r"\1", named(answer)).replace("None", "none")


def read(probe: Probe, texts: list[str]) -> list[str]:
    return probe.ask(" ".join(["read", *(f'"{text}"' for text in texts)]))


def a_pool_has_at_most_64_lus() -> None:
    with Probe("pool") as probe:
        for count in (1, 2, MOST):
            same(["done"], read(probe, names(count)))
            same(names(count), [in_words(probe.ask(f"ask {conn}")[0]) for conn in range(count)])
            same(["DEVICE-IN-USE"], probe.ask(f"ask {count}"))
        same(["lu: BadCount"], read(probe, names(MOST + 1)))
        same(["lu: BadCount"], read(probe, ["A"] * (MOST + 1)))


class Holders:
    """Who holds which LU."""

    def __init__(self, texts: list[str]) -> None:
        self.holders: dict[str, int | None] = dict.fromkeys(texts)

    def held(self, conn: int) -> str:
        return next((lu for lu, holder in self.holders.items() if holder == conn), "none")

    def ask(self, conn: int, name: str | None) -> str:
        free = [lu for lu, holder in self.holders.items() if holder is None and name in (None, lu)]
        if not free:
            return "DEVICE-IN-USE" if name is None or name in self.holders else "INV-NAME"
        self.holders[free[0]] = conn
        return free[0]

    def free(self, conn: int | None) -> None:
        """Frees the LU of a connection, or each."""
        self.holders = {
            lu: None if conn in (None, holder) else holder for lu, holder in self.holders.items()
        }


def request(chance: random.Random, holders: Holders) -> tuple[str, str]:
    """A command, and the answer that is wanted."""
    conn = chance.randrange(6)
    kind = chance.choice(
        ("ask", "ask", "ask", "held", "held", "give-back", "give-back", "free-all")
    )
    if kind == "ask" and holders.held(conn) == "none":
        name = chance.choice((None, *names(6)))
        return (f'ask {conn} "{name}"' if name else f"ask {conn}"), holders.ask(conn, name)
    if kind == "give-back":
        holders.free(conn)
        return f"give-back {conn}", ""
    if kind == "free-all":
        holders.free(None)
        return "free-all", ""
    return f"held {conn}", holders.held(conn)


def check_random(seed: int) -> None:
    chance = random.Random(seed)
    texts = names(chance.randrange(1, 6))
    holders = Holders(texts)
    with Probe("pool") as probe:
        read(probe, texts)
        for step in range(300):
            command, wanted = request(chance, holders)
            same(
                f"step {step}: {command} = {wanted}",
                f"step {step}: {command} = {in_words(''.join(probe.ask(command)))}",
            )


def cases() -> Iterator[Case]:
    yield from blocks(CASES / "pool.blocks", "pool", in_words)
    yield of_function(a_pool_has_at_most_64_lus)
    at = Place("tests/suites/pool.py", check_random.__code__.co_firstlineno)
    for seed in range(10):
        yield Case(f"random requests of seed {seed}", at, functools.partial(check_random, seed))
