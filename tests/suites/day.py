"""An operator's day: random keys and pastes at `bin/operate` on a tty, and at the page of `web` in
Chromium, with resized windows, reloads, slow and lost networks, and a host that is restarted.

At each rest the terminal shows, cell by cell, what the model of harness/terminal.py shows after the
same keys and the same bytes of the host, with the cursor and the lock; and the host was sent the
bytes that the model sends: so no key is lost, and none is done twice. The panels are the bank's.

`tests/run day` types KEYS keys of a fixed seed at each terminal, with `--minutes N --seed S` it
types for N minutes, from seed S on. The gate leaves it out."""
import contextlib
import functools
import os
import pathlib
import random
import subprocess
import tempfile
import time
from collections import Counter

from harness import hosts, programs
from harness.browser import get, requested
from harness.case import Case, Difference, Place, expect, relative
from harness.chromium import ALT, SHIFT, Chromium, installed
from harness.network import Network
from harness.terminal import COLUMNS, PASTE_CUT, ROWS, Record, Terminal, Wire
from harness.tty import BANK, Operator

PARTS = 2
LONG = True
KEYS = 60
MINUTES = float(os.environ.get("TESTS_MINUTES") or 0)
SEED = int(os.environ.get("TESTS_SEED", "3270"))
SECONDS = 60 * MINUTES + 300

# ---- what is typed

# Each key's bytes on a tty, as docs/OPERATING.md has its keys.
ESC = b"\x1b"
FUNCTION_KEYS = [
    *(ESC + it for it in (b"OP", b"OQ", b"OR", b"OS")),
    *(ESC + b"[%d~" % it for it in (15, 17, 18, 19, 20, 21, 23, 24)),
    *(ESC + b"[1;2" + it for it in (b"P", b"Q", b"R", b"S")),
    *(ESC + b"[%d;2~" % it for it in (15, 17, 18, 19, 20, 21, 23, 24)),
]
TTY_KEYS = {
    "enter": b"\r", "newline": b"\n", "tab": b"\t", "backtab": ESC + b"[Z", "backspace": b"\b",
    "erase": b"\x7f",
    "up": ESC + b"[A", "down": ESC + b"[B", "right": ESC + b"[C", "left": ESC + b"[D",
    "home": ESC + b"[H", "insert": ESC + b"[2~", "delete": ESC + b"[3~", "eraseeof": ESC + b"[F",
    "eraseinput": b"\x15", "reset": b"\x12", "clear": b"\x03",
    **{f"pa{number}": ESC + b"%d" % number for number in (1, 2, 3)},
    **{f"pf{number}": typed for number, typed in enumerate(FUNCTION_KEYS, 1)},
}
SHOW_KEYS, SHOW_STATUS, REDRAW, QUIT = ESC + b"?", b"\x14", b"\x0c", b"\x1d"
# Each key in a browser: the key, its code, and the modifiers.
PAGE_KEYS = {
    "enter": ("Enter", None, 0), "newline": ("Enter", None, SHIFT), "tab": ("Tab", None, 0),
    "backtab": ("Tab", None, SHIFT), "backspace": ("Backspace", None, SHIFT),
    "erase": ("Backspace", None, 0),
    "up": ("ArrowUp", None, 0), "down": ("ArrowDown", None, 0), "right": ("ArrowRight", None, 0),
    "left": ("ArrowLeft", None, 0), "home": ("Home", None, 0), "insert": ("Insert", None, 0),
    "delete": ("Delete", None, 0), "eraseeof": ("End", None, 0), "eraseinput": ("End", None, ALT),
    "reset": ("Escape", None, 0), "clear": ("Pause", None, 0),
    **{f"pa{number}": (str(number), f"Digit{number}", ALT) for number in (1, 2, 3)},
    **{f"pf{number}": (f"F{number}", None, 0) for number in range(1, 13)},
    **{f"pf{number}": (f"F{number - 12}", None, SHIFT) for number in range(13, 25)},
}
SENDS = [*["enter"] * 6, *["pf3"] * 3, "clear", "pa1", "pa2", "pa3", "pf1", "pf12", "pf13", "pf24"]
EDITS = [
    "tab", "tab", "backtab", "newline", "home", "up", "down", "left", "left", "right", "backspace",
    "erase", "erase", "insert", "delete", "eraseeof", "eraseinput",
]
LETTERS = "0123456789.-ABCxyz [é¦Ā"
# What leads from panel to panel.
WORDS = [
    ["home", "eraseinput", *"4711", "tab", *"SECRET", "enter"],
    ["home", *"1000200030", *"1000200044", "eraseeof", *"1.50", "enter"],
]
PASTES = [
    "4711\tSECRET", "4711\nSECRET\n", "1000200030\t1000200044\t99.95\tRENT", "1" * 99, "A" * 9,
    "12\t\t\t7", "1\n2\n3\n" + "RENT FOR MAY " * 9, "1 2",
]
PASTED = {"\t": "tab", "\n": "newline"}


class Typist:
    """Random keys and texts."""

    def __init__(self, chance, most_sent):
        # How many keys that send may be typed before the host has answered the first.
        self.chance, self.most_sent = chance, most_sent

    def key(self):
        kinds = self.chance.choices((LETTERS, EDITS, SENDS, ["reset"]), (10, 8, 2, 2))
        return self.chance.choice(kinds[0])

    def keys(self, count):
        """So many keys. There is no Reset behind a key that sends: what it drops depends on when
        the host answers."""
        found, sent = [], 0
        while len(found) < count:
            key = self.key()
            if key in SENDS and sent == self.most_sent or key == "reset" and sent:
                continue
            sent += key in SENDS
            found.append(key)
        return found

    def burst(self, is_locked):
        """Keys that are typed at once. At a locked keyboard Reset is mostly the first."""
        first = ["reset"] if is_locked and self.chance.random() < 0.8 else []
        if self.chance.random() < 0.15:
            return first + self.chance.choice(WORDS)
        return first + self.keys(self.chance.randrange(1, 9))


# ---- the terminals


class Sight:
    """What an operator sees: the rows and how they look, the cursor, and of the status row the
    connection, why keys are refused, the sign of insert mode, the LU, and the cursor's place. What
    is None isn't compared."""

    def __init__(self, rows, cursor=None, status=None, looks=None):
        self.rows, self.cursor, self.status, self.looks = rows, cursor, status, looks

    @staticmethod
    def of(rows, cursor, looks=None):
        """What is drawn. The last row is the status row, which may be over the screen's last."""
        *rows, last = [it[:COLUMNS].ljust(COLUMNS) for it in rows[: ROWS + 1]]
        status = [last[:16], last[16:29], last[32], last[40:55], last[72:79]]
        return Sight(rows, tuple(cursor), [it.strip() for it in status], looks)

    def differences(self, wanted):
        """Lines on what is wanted, and on what is seen."""
        found = []
        for what in ("rows", "looks", "cursor", "status"):
            one, other = getattr(wanted, what), getattr(self, what)
            if None in (one, other):
                continue
            pairs = [(what, one, other)]
            if what in ("rows", "looks"):
                pairs = [(f"{what}: row {row}", *it) for row, it in enumerate(zip(one, other), 1)]
            pairs = [it for it in pairs if it[1] != it[2]]
            found += [(f"{it}: {one}", f"{it}: {other}") for it, one, other in pairs]
        return found


def models_paste(keys, model):
    """The model pastes keys, and tells if some are left out."""
    if not model.paste(keys):
        model.keyboard.has_rung = True
        model.keyboard.refusal = model.keyboard.refusal or PASTE_CUT


class AtTty:
    """An operator at bin/operate."""

    name, most_sent = "operate", 3
    # With 24 rows there is none for the status row. Some are too small.
    sizes = ((25, 80), (24, 80), (24, 132), (43, 80), (60, 200), (30, 70), (10, 30))

    def __init__(self, network):
        self.operator, self.bells = Operator("--colors", "mono", network.port), 0
        self.operator.screen.is_dragged = True

    def __enter__(self):
        return self

    def __exit__(self, *_):
        self.operator.__exit__()

    def typed(self, typed):
        """Types bytes, and has the status row shown if the window has no row for it."""
        self.operator.types(typed + SHOW_STATUS * (self.operator.screen.rows == ROWS))

    def types(self, keys):
        self.typed(b"".join(TTY_KEYS.get(key) or key.encode() for key in keys))

    def pastes(self, text, keys, model):
        """A tty marks a pasted text."""
        self.typed(ESC + b"[200~" + text.encode() + ESC + b"[201~")
        models_paste(keys, model)

    def sees(self):
        self.operator.looks(0.01)
        screen = self.operator.screen
        rows = ["".join(it) for it in screen.cells]
        looks = [it[:COLUMNS] for it in screen.looks[: min(screen.rows - 1, ROWS)]]
        return Sight.of(rows, (screen.row, screen.column), looks)

    def has_taken_all(self):
        """Waits until each key is taken, also one that changes nothing on the screen: the table of
        keys is shown behind them."""
        self.shows_its_keys()

    def rings(self, has_rung):
        """The bell has rung since the last rest, or hasn't."""
        screen = self.operator.screen
        if has_rung is not None:
            if has_rung:
                self.operator.until("the bell rings", lambda it: it.bells > self.bells)
            expect("the bell rang", screen.bells > self.bells, has_rung)
        self.bells = screen.bells

    def is_over(self, sight):
        """Whether the operator sees that the connection is over."""
        return sight.status[0] == "not connected"

    def connects_in_vain(self):
        """Presses Enter while no host is there."""
        self.types(["enter"])
        self.has_taken_all()

    # ---- what happens to a tty

    def is_resized(self, chance):
        """The window is resized a few times, also to one that is too small; in the end it has
        room."""
        for rows, columns in chance.sample(self.sizes, 3):
            self.operator.resizes(rows, columns)
            self.operator.looks(chance.random() / 10)
        self.operator.resizes(*chance.choice(self.sizes[:5]))
        self.typed(b"")

    def is_drawn_again(self, _):
        """Another program writes to the tty, and Ctrl-L draws all again."""
        self.operator.looks(0.05)
        self.operator.screen.erase()
        self.operator.types(REDRAW)

    def shows_its_keys(self, _=None):
        """The table of keys is shown, and any key shows the screen again."""
        self.operator.types(SHOW_KEYS)
        self.operator.sees("Ctrl-]")
        self.typed(b"A")
        self.operator.until("the screen", lambda it: "Ctrl-]" not in it.text())

    events = events_in_the_wait = [is_resized, is_drawn_again, shows_its_keys]


class AtPage:
    """An operator at the page of `web`."""

    name, most_sent = "the page of web", 1

    def __init__(self, network):
        self.browsers, self.log = Network(None), tempfile.TemporaryFile()
        address = f"http://{hosts.LOCALHOST}:{self.browsers.port}"
        self.browsers.to = hosts.free_port()
        words = ["web", "--port", self.browsers.to, "--connect", network.port, "--origin", address]
        self.web = subprocess.Popen(
            [programs.panel3270(), *map(str, words)], stdin=subprocess.DEVNULL, stderr=self.log
        )
        self.page = None
        self.address = address

    def __enter__(self):
        hosts.until("web answers", self.answers)
        self.page = Chromium(self.address)
        return self

    def rings(self, _):
        """A page shows the bell for a moment only."""

    def answers(self):
        with contextlib.suppress(OSError):
            return requested(self.browsers.to, get(self.browsers.port))[0] == 200
        return False

    def __exit__(self, *_):
        if self.page:
            self.page.__exit__()
        self.web.kill()
        self.web.wait()
        self.browsers.__exit__()

    def types(self, keys):
        for key in keys:
            if key in PAGE_KEYS:
                name, code, modifiers = PAGE_KEYS[key]
                self.page.key(name, code, modifiers=modifiers)
            else:
                self.page.types(key)

    def pastes(self, text, keys, model):
        self.page.pastes(text)
        models_paste(keys, model)

    def sees(self):
        with contextlib.suppress(Difference):
            return Sight.of(self.page.rows(), self.page.cursor())
        return None

    def has_taken_all(self):
        """What `web` hasn't taken before the session ends is lost with it."""

    def is_over(self, sight):
        return self.page.value("state.textContent.includes('has ended')")

    def connects_in_vain(self):
        self.waits_for(b"reason=cannot-connect", lambda: self.types(["enter"]))

    # ---- what happens to a page

    def is_resized(self, chance):
        """The browser's window is resized."""
        for _ in range(3):
            size = {"width": chance.randrange(400, 2000), "height": chance.randrange(300, 1500)}
            self.page.call(
                "Emulation.setDeviceMetricsOverride", deviceScaleFactor=1, mobile=False, **size
            )

    def is_loaded_again(self, _):
        """The page is loaded again, and resumes its session."""
        self.resumes(lambda: self.page.call("Page.reload"))

    def is_cut_off(self, _):
        """The connection between browser and `web` fails, and the page connects again."""
        self.resumes(self.browsers.cuts)

    def is_away(self, does):
        """The network between browser and `web` is down while this is done."""
        def loses():
            self.browsers.goes_down()
            does()
            self.browsers.comes_up()

        self.resumes(loses)

    def resumes(self, does):
        self.waits_for(b"event=resumed", does)
        is_back = "document.body.className === ''"
        self.page.until("the page is back", lambda: self.page.value(is_back))

    def waits_for(self, words, does):
        """Does this, and waits until `web` has logged these words once more."""
        def count():
            return os.pread(self.log.fileno(), 1 << 22, 0).count(words)

        before = count()
        does()
        hosts.until(f"web logs {words.decode()}", lambda: count() > before)

    events = events_in_the_wait = [is_resized, is_loaded_again, is_cut_off]


# ---- the host


class Host:
    """A `serve` with the bank's panels, which can be killed and started again."""

    def __init__(self, folder, chance):
        self.panels, self.control = f"{folder}/panels.toml", f"{folder}/control"
        self.chance, self.port = chance, hosts.free_port()
        pathlib.Path(self.panels).write_bytes(BANK.read_bytes())
        self.starts()

    def __enter__(self):
        return self

    def __exit__(self, *_):
        self.ends()

    def starts(self):
        words = ["--panels", self.panels, "--control", self.control]
        words += self.chance.choice(([], ["--own-terminals"], ["--verify"]))
        self.server = hosts.Server("serve", *words, port=self.port)

    def ends(self):
        self.server.__exit__()

    def reads_panels(self):
        status, out, _ = hosts.run(["tell", self.control, "reload"], b"")
        expect("tell reload", (status, out.split(":")[0]), (0, "ok reloaded"))


# ---- a day


class Day:
    """A terminal at a host behind a network, and the model."""

    def __init__(self, chance, host, network, terminal):
        self.chance, self.host, self.network, self.terminal = chance, host, network, terminal
        self.model, self.typist = Terminal(), Typist(chance, terminal.most_sent)
        self.done, self.last, self.count, self.seen = Counter(), [], 0, 0

    # ---- the model follows

    def is_connected_again(self):
        """The terminal has a new connection, behind `seen` earlier ones."""
        hosts.until("a connection", lambda: len(self.network.links) > self.seen)
        self.seen = len(self.network.links)
        self.link, self.down, self.heard = self.network.links[-1], Wire(), 0
        self.items = []
        self.model.connect()
        self.agrees(is_first=True)

    def hears(self):
        """What the host has sent meanwhile."""
        came = self.link.came["down"]
        self.items += self.down.takes(came[self.heard :])
        self.heard = len(came)
        return self.items

    def follows(self):
        """The model takes what the host sends, as long as it waits for it."""
        while self.model.waits():
            hosts.until("a record of the host", self.hears)
            self.model.hear(self.items.pop(0))

    def wanted(self):
        word = "connected" if self.model.is_connected else "not connected"
        sign, (row, column) = "^" * self.model.keyboard.is_inserting, self.model.cursor()
        status = [word, self.model.reason(), sign, self.model.lu, f"{row + 1:03}/{column + 1:03}"]
        return Sight(self.model.rows(), (row, column), status, self.model.looks())

    def sees(self, wanted):
        """Waits until the terminal shows this."""
        end, seen = time.monotonic() + hosts.PATIENCE, None
        while time.monotonic() < end:
            seen = self.terminal.sees() or seen
            if seen and not (found := seen.differences(wanted)):
                return
        self.fails(found if seen else [("a screen", "none")])

    def fails(self, found):
        raise Difference(*map("\n".join, zip(*found)))

    def agrees(self, is_first=False):
        """A rest: once the host has answered, the terminal shows what the model does, has sent what
        that has, and rang if that did."""
        self.follows()
        self.sees(self.wanted())
        with contextlib.suppress(Difference):
            hosts.until("it is sent", lambda: self.sent() == self.model.sent)
        if self.sent() != self.model.sent:
            spelt = [[it.hex(" ") for it in one[-8:]] for one in (self.model.sent, self.sent())]
            self.fails([tuple("\n".join(records) for records in spelt)])
        expect("more of the host", self.hears(), [])
        self.terminal.rings(None if is_first else self.model.keyboard.has_rung)
        self.model.keyboard.has_rung = False
        self.done["rests"] += 1

    def sent(self):
        """The records that the terminal has sent."""
        came = Wire().takes(self.link.came["up"])
        return [it.data for it in came if isinstance(it, Record)]

    def noted(self, what, keys):
        self.done[what] += 1
        self.count += len(keys) * (what != "pastes")
        self.last = [*self.last, *(f"{what}:" for _ in range(what != "types")), *keys][-60:]

    # ---- what an operator does

    def types(self):
        keys = self.typist.burst(self.model.keyboard.lock)
        self.noted("types", keys)
        self.terminal.types(keys)
        self.model.type(keys)
        self.agrees()

    def pastes(self):
        self.resets()
        self.agrees()
        text = self.chance.choice(PASTES)
        keys = [PASTED.get(it, it) for it in text]
        self.noted("pastes", keys)
        self.terminal.pastes(text, keys, self.model)
        self.agrees()

    def resets(self):
        """The keyboard takes keys, at the first field."""
        self.terminal.types(["reset", "home"])
        self.model.type(["reset", "home"])

    # ---- what happens

    def happens(self, event):
        """Something that changes nothing of the session."""
        self.noted(event.__name__, [])
        event(self.terminal, self.chance)
        self.agrees()

    def types_over_a_cut(self):
        """The connection between browser and `web` fails while keys are under way: those that `web`
        hasn't heard are sent again, and so are those that are typed before it is back."""
        keys = self.typist.burst(self.model.keyboard.lock)
        self.noted("types over a cut", keys)
        place = self.chance.randrange(len(keys) + 1)
        self.terminal.types(keys[:place])
        self.terminal.is_away(lambda: self.terminal.types(keys[place:]))
        self.model.type(keys)
        self.agrees()

    def types_over_a_reload(self):
        """The page is loaded again while keys are under way: those that `web` hasn't heard are sent
        again."""
        keys = self.typist.burst(self.model.keyboard.lock)
        self.noted("types over a reload", keys)
        self.terminal.types(keys)
        self.terminal.is_loaded_again(self.chance)
        self.model.type(keys)
        self.agrees()

    def panels_are_read(self):
        self.noted("panels are read", [])
        self.host.reads_panels()
        self.agrees()

    def types_ahead(self):
        """The network is slow: what is typed behind a key that sends is kept. The model hasn't
        heard the host yet."""
        self.resets()
        keys = [*self.typist.keys(2), *self.chance.sample(EDITS, 2), *"12"]
        keys = [it for it in keys if it not in SENDS and it != "reset"]
        place = self.chance.randrange(len(keys))
        keys.insert(place, "enter")
        self.network.holds()
        self.terminal.types(keys)
        self.model.type(keys)
        self.sees(self.wanted())
        return keys

    def network_is_slow(self):
        self.noted("a slow network", self.types_ahead())
        if self.chance.random() < 0.5:
            event = self.chance.choice(self.terminal.events_in_the_wait)
            self.noted(event.__name__, [])
            event(self.terminal, self.chance)
            self.sees(self.wanted())
        self.network.opens()
        self.agrees()

    def network_is_lost(self):
        """While the host answers: what was typed ahead is lost with the session."""
        keys = self.types_ahead() if self.chance.random() < 0.5 else []
        self.noted("a lost network", keys)
        self.terminal.has_taken_all()
        self.network.cuts()
        self.is_lost()
        self.connects()

    def host_is_restarted(self):
        """The host is killed and started again, or only answers again after another key."""
        self.noted("a restarted host", [])
        self.terminal.has_taken_all()
        self.network.goes_down()
        self.host.ends()
        self.is_lost()
        if self.chance.random() < 0.5:
            self.terminal.connects_in_vain()
            self.sees_the_end()
        self.host.starts()
        self.network.comes_up()
        self.connects()

    def is_lost(self):
        """The operator sees that the connection is over; the screen stays, and keys do nothing."""
        self.model.lose()
        self.sees_the_end()
        self.terminal.types("A1")
        self.sees_the_end()

    def sees_the_end(self):
        rows = self.model.rows()

        def is_end():
            seen = self.terminal.sees()
            return seen and self.terminal.is_over(seen) and not seen.differences(Sight(rows))

        hosts.until("the end is seen, on the last screen", is_end)

    def connects(self):
        self.terminal.types(["enter"])
        self.is_connected_again()

    # ---- all of it

    def acts(self):
        """Each act, and how often it is done among others."""
        return {
            self.types: 20,
            self.pastes: 3,
            self.panels_are_read: 1,
            self.network_is_slow: 2,
            self.network_is_lost: 1,
            self.host_is_restarted: 1,
            **{functools.partial(self.happens, it): 1 for it in self.terminal.events},
            **(
                {self.types_over_a_cut: 3, self.types_over_a_reload: 3}
                if isinstance(self.terminal, AtPage) else {}
            ),
        }

    def goes_on(self, is_over):
        """Each act at least once, in a random order, with keys between; then as it comes."""
        self.is_connected_again()
        acts = self.acts()
        for act in self.chance.sample([*acts], len(acts)):
            self.types()
            act()
        while not is_over(self.count):
            [act] = self.chance.choices([*acts], [*acts.values()])
            act()

    def tells(self):
        return f"after {self.count} keys, the last are {' '.join(self.last)}"

    def report(self):
        return ", ".join(f"{count} {what}" for what, count in sorted(self.done.items()))


def day_at(kind, seed, is_over):
    """A day at a terminal. What was done, in words."""
    chance = random.Random(seed)
    with (
        tempfile.TemporaryDirectory() as folder,
        Host(folder, chance) as host,
        Network(host.port) as network,
        kind(network) as terminal,
    ):
        day = Day(chance, host, network, terminal)
        try:
            day.goes_on(is_over)
        except Difference as it:
            raise Difference(f"{it.wanted}\n{day.tells()}", it.came) from it
    return f"{kind.name}: {day.count} keys: {day.report()}"


def for_minutes():
    end = time.monotonic() + 60 * MINUTES
    return lambda _: time.monotonic() > end


def cases():
    for kind in (AtTty, AtPage):
        length = f"{MINUTES:g} minutes" if MINUTES else f"{KEYS} keys"
        run = functools.partial(day_case, kind)
        place = Place(relative(__file__), day_case.__code__.co_firstlineno)
        yield Case(f"{length} at {kind.name}, seed {SEED}", place, run)


def day_case(kind):
    kind is AtPage and installed()
    report = day_at(kind, SEED, for_minutes() if MINUTES else lambda count: count >= KEYS)
    return report if MINUTES else None
