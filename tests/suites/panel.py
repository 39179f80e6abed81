"""Panels read from texts, and the screens that they ask for: tests/cases/panel.cases, with the
texts of panel.texts.

The steps of a case:

    read NAME                its text, or that of a file of the repository, is read
    fault NAME FAULT         a text is refused for this fault
    has LINE                 what the probe says of the text; no panel has the index that is its
                             number of panels
    lus N                    it has so many LUs
    panel INDEX              the next steps speak of this panel
    is NAME M                it has this name, and is of this model
    shows MESSAGE at ADDR    it asks for a screen with the cursor there, and with the items below,
                             nulls elsewhere. It resets MDT if it is fresh; if not, the screen that
                             keeps the fields becomes this one once their values are put
    keeps MESSAGE FROM-TO .. it asks for a screen that keeps these cells, and has the items below
    elsewhere
    item ADDR CODE BYTES     an item of such a screen: the address of its attribute, its code, and
                             characters
    cursor MESSAGE at ADDR   it asks for a screen with the cursor there
    leads NEXT by KEYS       the keys of these AIDs lead there
    fields N:ATTR+LENGTH:required ..; size ROWS COLUMNS      `free` and `value` beside `required`
    shown INDEX MODEL INDEX  in a session of this model the panel is shown as the other one
    set FIELD BYTES; value FIELD BYTES; copy; swap      values of fields, and a copy of them
    mark                     all fields of all panels are marked
"""
import dataclasses
import functools
import re
from collections.abc import Iterator

from harness.case import CASES, TOP, Case, of_function, same
from harness.cells import line_of, plainly, steps_of, take_step, tokens
from harness.data import Line, blocks_of
from harness.probe import Probe
from harness.sights import plain

Texts = dict[str, str]


@dataclasses.dataclass
class Screen:
    """A wanted screen as a case says it: how it is asked for, its cursor, if that is said, the
    cells that it keeps, and its items."""

    message: str
    cursor: str | None
    kept: list[tuple[int, int]]
    items: list[tuple[int, str, bytes]]
    line: Line

    def cells(self, size: int) -> list[str]:
        found = ["00"] * size
        for attr, code, text in self.items:
            found[attr : attr + 1 + len(text)] = [f"1D{code}", *(f"{it:02X}" for it in text)]
        for first, end in self.kept:
            found[first:end] = ["keep"] * (end - first)
        return found


class Panels:
    """The panels of a text, which the probe has."""

    def __init__(self, texts: Texts) -> None:
        self.probe, self.texts, self.panel, self.screen = Probe("panel"), texts, "0", None

    def ask(self, command: str, line: Line) -> list[str]:
        return plainly(self.probe.ask(command, line.at))

    def done(self) -> None:
        """Compares the screen whose items were read."""
        screen, self.screen = self.screen, None
        if screen is None:
            return
        if screen.kept:
            self.check(screen, self.ask(f"wanted true {screen.message}", screen.line)[:4], "false")
            return
        is_fresh = screen.message == "fresh"
        self.check(
            screen, self.ask(f"wanted false {screen.message}", screen.line), str(is_fresh).lower()
        )
        if not is_fresh:
            self.check(screen, self.ask(f"wanted true {screen.message}", screen.line)[4:], "false")

    def check(self, screen: Screen, answer: list[str], reset: str) -> None:
        cells = line_of(plainly(answer), "cells")
        for place, (wanted, came) in enumerate(zip(screen.cells(len(cells)), cells)):
            same(f"{place}: {wanted}", f"{place}: {came}", screen.line.at)
        same([reset], line_of(answer, "reset"), screen.line.at)
        if screen.cursor is not None:
            same([screen.cursor], line_of(answer, "cursor"), screen.line.at)

    def text(self, name: str, line: Line) -> str:
        file = TOP / name
        if name not in self.texts and not file.is_file():
            raise line.bad("needs the name of a text")
        return (self.texts.get(name) or file.read_text()).encode().hex()

    def do_read(self, line: Line, words: list[str]) -> None:
        self.read = said(self.probe.ask(f"read {self.text(words[0], line)}", line.at))
        same("start", self.read[0].split()[0], line.at)

    def do_fault(self, line: Line, words: list[str]) -> None:
        same(
            [f"fault {' '.join(words[1:])}"],
            self.probe.ask(f"read {self.text(words[0], line)}", line.at),
            line.at,
        )

    def do_has(self, line: Line, words: list[str]) -> None:
        same([" ".join(words)], self.read, line.at)
        same([], self.ask(f"panel {words[3]}", line), line.at)

    def do_lus(self, line: Line, words: list[str]) -> None:
        same(int(words[0]), len(self.read[0].partition(" lus ")[2].split()), line.at)

    def do_panel(self, line: Line, words: list[str]) -> None:
        self.about = self.ask(line.text, line)

    def begin(
        self, line: Line, message: str, cursor: str | None, kept: list[tuple[int, int]]
    ) -> None:
        self.screen = Screen(message, cursor, kept, [], line)

    def do_shows(self, line: Line, words: list[str]) -> None:
        message, _, cursor = " ".join(words).partition(" at ")
        self.begin(line, message, str(int(cursor)), [])

    def do_keeps(self, line: Line, words: list[str]) -> None:
        spans = [tuple(map(int, it.split("-"))) for it in words[1:]]
        self.begin(line, words[0], None, [(first, end) for first, end in spans])

    def do_item(self, line: Line, words: list[str]) -> None:
        if self.screen is None:
            raise line.bad("needs a screen")
        self.screen.items.append((int(words[0]), words[1], line.data(" ".join(words[2:]))))

    def do_cursor(self, line: Line, words: list[str]) -> None:
        message, _, cursor = " ".join(words).partition(" at ")
        same([cursor], line_of(self.ask(f"wanted false {message}", line), "cursor"), line.at)

    def do_leads(self, line: Line, words: list[str]) -> None:
        place, _, keys = " ".join(words).partition(" by ")
        for key in keys.split():
            came = plain(self.probe.ask(f"next {key}", line.at)[0])
            same(f"{key}: {place}", f"{key}: {came}", line.at)

    def do_fields(self, line: Line, words: list[str]) -> None:
        found = []
        for word in words:
            number, extent, required = word.split(":")
            place = extent.replace("+", ", ")
            if required == "value":
                found.append(f'("value", {number}, ({place}))')
            else:
                found.append(f"({number}, ({place}), {str(required == 'required').lower()})")
        same(found, self.about[1:], line.at)

    def do_is(self, line: Line, words: list[str]) -> None:
        name, model, _ = self.about[0].strip("()").split(", ")
        same([f'"{words[0]}"', f"M{words[1]}"], [name, model], line.at)

    def do_size(self, line: Line, words: list[str]) -> None:
        size = " ".join(words)
        same(size, self.about[0].rstrip(")").rpartition(", ")[2], line.at)
        same(f"size {size}", self.ask("wanted true plain", line)[0], line.at)

    def do_shown(self, line: Line, words: list[str]) -> None:
        same([words[2]], self.ask(f"shown {words[0]} {words[1]}", line), line.at)

    def do_set(self, line: Line, words: list[str]) -> None:
        same(["done"], self.ask(line.text, line), line.at)

    do_copy = do_set

    def do_value(self, line: Line, words: list[str]) -> None:
        wanted = None if words[1] == "none" else [*line.data(words[1])]
        same(["None" if wanted is None else f"Some({wanted})"], self.probe.ask(f"value {words[0]}"))

    def silent(self, line: Line, words: list[str]) -> None:
        same([], self.ask(line.text, line), line.at)

    do_swap = do_mark = silent


def said(answer: list[str]) -> list[str]:
    """What the probe says of a text, in the words of a case."""
    start, panels, *lus = re.findall(r"\w+", answer[0])
    return [" ".join(["start", start, "panels", panels, "lus", *lus])]


def held(texts: Texts, lines: list[Line], head: Line) -> None:
    if not lines:
        raise head.bad("needs steps")
    panels = Panels(texts)
    try:
        for line in lines:
            if not line.text.startswith("item "):
                panels.done()
            take_step(steps_of(Panels), panels, line)
        panels.done()
    finally:
        panels.probe.close()


def read_texts() -> Texts:
    """The texts of panel.texts."""
    return {
        name: "".join(f"{it.text[1:]}\n" for it in lines if it.text.startswith("|"))
        for _, name, lines in blocks_of(CASES / "panel.texts", "text")
    }


def large_text() -> str:
    """As many panels as there may be, each with as many fields and texts as there may be."""
    found = ['start = "P0"\nlus = []\n']
    for panel in range(64):
        found.append(f'[[panel]]\nname = "P{panel}"\nfield = [')
        for it in range(128):
            place = f"row = {1 + it // 20}, col = {2 + it % 20 * 3}"
            found.append(f'{{name = "f{panel}_{it}", {place}, length = 1}},')
        found.append("]\ntext = [")
        for it in range(256):
            place = f"row = {8 + it // 20}, col = {2 + it % 20 * 3}"
            found.append(f'{{{place}, show = "f{panel}_{it % 128}", length = 1}},')
        found.append("]\n")
    return "".join(found)


def a_large_text_is_read() -> None:
    text = large_text()
    same(True, len(text) > 1_048_576)
    with Probe("panel") as probe:
        same(["start 0 panels 64 lus"], said(probe.ask(f"read {text.encode().hex()}")))
        numbers = [int(it[1:].split(",")[0]) for it in probe.ask("panel 63")[1:]]
        same(list(range(63 * 128, 64 * 128)), numbers)


def cases() -> Iterator[Case]:
    texts = read_texts()
    for head, name, lines in blocks_of(CASES / "panel.cases", "case"):
        yield Case(name, head.at, functools.partial(held, texts, lines, head))
    yield of_function(a_large_text_is_read)
