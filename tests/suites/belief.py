"""What a host believes of a screen, and what it paints: tests/cases/belief.cases and paint.cases.

The steps of a case, which begins with nothing known:

    new                      nothing is known
    take MODEL BYTES         a terminal of a model carried out a plain write
    hear FORM BYTES          data of a form is heard: modified, all, buffer
    refuse FAULT FORM BYTES  data is refused
    no-data FAULT FORM BYTES bytes are no inbound data
    size ROWS COLUMNS        something is known of a screen of this size; `size none`: nothing is
    fact ADDR FACT BYTES     the fact of the field whose attribute is there, and the text that it
                             speaks of, unless that isn't said; `none`: there is none
    known ADDR CELL          a cell, ? if it isn't known
    settled BOOL             whether the text of each field is known, but for its nulls
    again                    the wanted screen: each known cell with MDT off, nulls elsewhere, and
                             the cursor in the first cell
    want, put, aim           make the wanted screen as the probe's lines do
    wanted ADDR BOOL CELL .. the wanted screen has this cursor, resets MDT or not, and has these
                             cells
    fits BOOL                whether what is to be kept is believed to be there
    paints BYTES             these bytes paint the wanted screen
    paints-first BYTES       they begin so
    appends ROOM BEFORE BYTES  they are appended to a vector with room for so many bytes and these
                               in it
"""
from collections.abc import Iterator

from harness.case import CASES, Case, same
from harness.cells import appended, cases_of, line_of, plainly, text_of, tokens
from harness.data import Line
from harness.probe import Probe
from harness.sights import cells_of, parts_of


def want_again(token: str) -> str:
    """What is wanted of a cell that is believed to be this one: itself with MDT off. Bit 7 of an
    attribute is MDT, and bits 0 and 1 make the code a graphic (GA23-0059-07 on the field
    attribute)."""
    graphic = {0x40: 0x40, 0xC1: 0x40}
    if len(token) == 4:
        code = int(token[2:], 16) & ~1
        return f"1D{graphic.get(code, code):02X}"
    return "00" if token == "??" else token


class Belief:
    """A belief, which the probe has."""

    def __init__(self) -> None:
        self.probe = Probe("belief")

    def ask(self, command: str, line: Line) -> str:
        return "\n".join(self.probe.ask(command, line.at))

    def silent(self, line: Line, words: list[str]) -> None:
        same("", self.ask(line.text, line), line.at)

    do_new = do_want = do_aim = silent

    def do_put(self, line: Line, words: list[str]) -> None:
        same("", self.ask(f"put {' '.join(tokens(' '.join(words)))}", line), line.at)

    def do_take(self, line: Line, words: list[str]) -> None:
        same("Ok(true)", self.ask(line.text, line), line.at)

    def do_hear(self, line: Line, words: list[str]) -> None:
        same("Ok(None)", self.ask(line.text, line), line.at)

    def do_refuse(self, line: Line, words: list[str]) -> None:
        same(f"Ok(Some({words[0]}))", self.ask(f"hear {' '.join(words[1:])}", line), line.at)

    def do_no_data(self, line: Line, words: list[str]) -> None:
        same(f"Err({words[0]})", self.ask(f"hear {' '.join(words[1:])}", line), line.at)

    def do_size(self, line: Line, words: list[str]) -> None:
        (size,) = plainly([self.ask("size", line)])
        same(line.text, f"size {size}", line.at)

    def place(self, line: Line, words: list[str]) -> list[str]:
        """What is believed at an address: a fact, the cell, and the text."""
        return plainly(self.probe.ask(f"at {words[0]}", line.at))

    def do_fact(self, line: Line, words: list[str]) -> None:
        fact, _, text = self.place(line, words)
        same(words[1], fact, line.at)
        if len(words) > 2:
            wanted = line.data(" ".join(words[2:])).hex().upper() or "-"
            came = text_of(text.removeprefix("text").strip().replace(" ", ", "))
            same(wanted, came, line.at)

    def do_known(self, line: Line, words: list[str]) -> None:
        same(words[1], self.place(line, words)[1].replace("none", "?"), line.at)

    def do_settled(self, line: Line, words: list[str]) -> None:
        same(line.text, f"settled {self.ask('settled', line)}", line.at)

    def do_again(self, line: Line, words: list[str]) -> None:
        known = cells_of(parts_of(self.probe.ask("show", line.at))["belief"])
        # Where nothing is known, it is a screen of model 2.
        cells = known or ["??"] * 1920
        model = {1920: 2, 2560: 3, 3440: 4, 3564: 5}[len(cells)]
        self.ask(f"want {model} 00", line)
        self.ask(f"put 0 {' '.join(map(want_again, cells))}", line)
        self.ask("aim 0 false", line)

    def do_wanted(self, line: Line, words: list[str]) -> None:
        answer, cells = plainly(self.probe.ask("wanted", line.at)), tokens(" ".join(words[2:]))
        came = [line_of(answer, it) for it in ("cursor", "reset", "cells")]
        same([words[:1], words[1:2], cells], came, line.at)

    def do_fits(self, line: Line, words: list[str]) -> None:
        same(line.text, f"fits {self.ask('fits', line)}", line.at)

    def paint(self, line: Line, room: str = "0", before: str = "-") -> bytes:
        self.ask(f"vector {room} {before}", line)
        return appended(self.probe, "paint", line)

    def do_paints(self, line: Line, words: list[str]) -> None:
        same(line.data(" ".join(words)).hex().upper(), self.paint(line).hex().upper(), line.at)

    def do_paints_first(self, line: Line, words: list[str]) -> None:
        wanted = line.data(" ".join(words))
        same(wanted.hex().upper(), self.paint(line)[: len(wanted)].hex().upper(), line.at)

    def do_appends(self, line: Line, words: list[str]) -> None:
        wanted = line.data(words[1]) + line.data(" ".join(words[2:]))
        same(wanted.hex().upper(), self.paint(line, *words[:2]).hex().upper(), line.at)


def cases() -> Iterator[Case]:
    yield from cases_of(CASES / "belief.cases", Belief)
    yield from cases_of(CASES / "paint.cases", Belief)
