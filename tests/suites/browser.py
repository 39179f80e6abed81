"""The page in a real Chromium, at a `web` beside a host. If Chromium isn't installed, the suite says so.

That the page shows what is sent, and sends what is typed, isn't proved: so screens are compared with
those of `panel3270 term`, whose keys are the same, and keys with the bytes of crates/tty. Contrasts
and names for those who don't see the page are requirements of the Web Content Accessibility Guidelines
2.2 (1.3.1, 1.4.3, 1.4.4, 2.1.1, 4.1.2, 4.1.3)."""
import contextlib
import json
import random
import re
import select
import signal
import socket
import subprocess
import tempfile
import threading
import time

from harness import programs
from harness.case import Checks, Difference, expect
from harness.chromium import ALT, CTRL, SHIFT, Chromium, installed
from harness.hosts import LOCALHOST, free_port, run
from suites.web import Web

PARTS = 1
LONG = True
check = Checks()


def cases():
    installed()
    yield from check.cases()


@contextlib.contextmanager
def terminal(words="model=2", *options, prepare=None, port=None):
    """A page at a `web`, once it shows the sign-on."""
    with Web(*options) as web, Chromium("about:blank") as page:
        page.web = web
        if prepare:
            prepare(page)
        page.call("Page.navigate", url=f"http://{LOCALHOST}:{port or web.port}/#{words}")
        page.shows("TELLER")
        yield page
        expect("complaints", page.complaints(), [])


# ---- keys

# Each function of the page: the bytes by which crates/tty reads it, and its keys.
FUNCTION_KEYS = [
    *(b"\x1bO" + it for it in (b"P", b"Q", b"R", b"S")),
    *(b"\x1b[%d~" % it for it in (15, 17, 18, 19, 20, 21, 23, 24)),
]
SHIFTED_KEYS = [
    *(b"\x1b[1;2" + it for it in (b"P", b"Q", b"R", b"S")),
    *(b"\x1b[%d;2~" % it for it in (15, 17, 18, 19, 20, 21, 23, 24)),
]
FUNCTIONS = {
    "Enter": (b"\r", "Enter", "KeypadEnter"), "New Line": (b"\n", "Shift-Enter"),
    "Clear": (b"\x03", "Pause", "Alt-C"), "Reset": (b"\x12", "Escape", "Ctrl-R"),
    "Tab": (b"\t", "Tab"), "Back Tab": (b"\x1b[Z", "Shift-Tab"),
    "Erase": (b"\x7f", "Backspace"), "Backspace": (b"\b", "Shift-Backspace"),
    "Delete": (b"\x1b[3~", "Delete"), "Insert": (b"\x1b[2~", "Insert"),
    "Home": (b"\x1b[H", "Home"), "Up": (b"\x1b[A", "ArrowUp"), "Down": (b"\x1b[B", "ArrowDown"),
    "Right": (b"\x1b[C", "ArrowRight"), "Left": (b"\x1b[D", "ArrowLeft"),
    "Erase EOF": (b"\x05", "End", "Ctrl-E"), "Erase Input": (b"\x15", "Alt-End", "Ctrl-U"),
    "Redraw": (b"\x0c", "Ctrl-L"),
    "PA1": (b"\x1b1", "Alt-1", "Alt-Insert"), "PA2": (b"\x1b2", "Alt-2", "Alt-Home"),
    "PA3": (b"\x1b3", "Alt-3"),
    **{f"PF{n + 1}": (it, f"F{n + 1}") for n, it in enumerate(FUNCTION_KEYS)},
    **{f"PF{n + 13}": (it, f"Shift-F{n + 1}") for n, it in enumerate(SHIFTED_KEYS)},
    "PF7": (FUNCTION_KEYS[6], "F7", "PageUp"), "PF8": (FUNCTION_KEYS[7], "F8", "PageDown"),
}
# What the page does itself.
OWN = {"Help": ("Ctrl-Alt-K",), "Buttons": ("Ctrl-Alt-B",)}
MODIFIERS = {"Ctrl": CTRL, "Alt": ALT, "Shift": SHIFT}


def presses_key(page, spelt):
    """Presses a key as the page spells it, such as `Shift-F1`."""
    if spelt == "KeypadEnter":
        return page.key("Enter", "NumpadEnter")
    *held, name = spelt.split("-")
    code = f"Digit{name}" if name.isdigit() else f"Key{name}" if len(name) == 1 else name
    key = name.lower() if len(name) == 1 else name
    page.key(key, code, modifiers=sum(MODIFIERS[it] for it in held))


def sends(page, what, act, wanted):
    """What the page sends at an act; the keyboard is free before and after it."""
    page.value("isWaiting = false")
    before = len(page.sent())
    act()
    if wanted:
        page.until(f"{what} is sent", lambda: len(page.sent()) > before)
    expect(what, page.sent()[before:], wanted)


def listed(page):
    """The table of keys that the page shows."""
    page.value("showKeys(); help.close()")
    rows = page.value("""[...document.querySelectorAll('#help dl > div')].map(it =>
      [it.querySelector('dt').textContent, [...it.querySelectorAll('kbd')].map(it => it.textContent)])""")
    return {name: tuple(keys) for name, keys in rows}


@check
def each_listed_key_sends_its_bytes() -> None:
    """The table that the page shows has each function with its keys, and each of these keys sends the
    bytes of the function; Ctrl-C sends none, and letters themselves."""
    with terminal() as page:
        table = listed(page)
        wanted = {name: keys for name, (_, *keys) in FUNCTIONS.items()}
        expect("the table", table, {**{name: tuple(it) for name, it in wanted.items()}, **OWN})
        for name, keys in table.items():
            for key in keys if name in FUNCTIONS else ():
                sends(page, f"{name} by {key}", lambda: presses_key(page, key), [FUNCTIONS[name][0]])
        sends(page, "Ctrl-C", lambda: presses_key(page, "Ctrl-C"), [])
        sends(page, "a letter", lambda: page.types("a"), [b"a"])
        sends(page, "a capital", lambda: page.types("B"), [b"B"])


@check
def a_keymap_is_shown_and_done() -> None:
    """With --keymap the table that the page shows has each key with what it does now, and each of these
    keys sends the bytes of its function."""
    moved = {"Backspace": ("BackSpace", "Backspace"), "F12": ("PA(1)", "PA1"), "End": ("Tab", "Tab"), "Ctrl-A": ("Home", "Home")}
    wanted = {name: [it for it in keys if it not in moved] for name, (_, *keys) in FUNCTIONS.items()}
    for key, (_, function) in moved.items():
        wanted[function].append(key)
    with tempfile.NamedTemporaryFile("w") as file:
        file.writelines(f"{key} = {action}\n" for key, (action, _) in moved.items())
        file.flush()
        with terminal("model=2", "--keymap", file.name) as page:
            table = {name: set(keys) for name, keys in listed(page).items() if name in FUNCTIONS}
            expect("the table", table, {name: set(keys) for name, keys in wanted.items() if keys})
            for name, keys in table.items():
                for key in sorted(keys):
                    sends(page, f"{name} by {key}", lambda: presses_key(page, key), [FUNCTIONS[name][0]])


@check
def a_layout_changes_no_key() -> None:
    """Digits are keys by their place, as on a French keyboard; letters by the layout if it is Latin."""
    with terminal() as page:
        for key, code, modifiers, wanted in (
            ("&", "Digit1", ALT, b"\x1b1"), ("é", "Digit2", ALT, b"\x1b2"),
            ("к", "KeyR", CTRL, b"\x12"), ("r", "KeyO", CTRL, b"\x12"),
        ):
            sends(page, key, lambda: page.key(key, code, modifiers=modifiers), [wanted])


@check
def no_key_is_made_by_accident() -> None:
    """Alt with Shift and a digit does nothing; Option makes characters on a Mac, where Ctrl is what Alt
    is elsewhere."""
    def on_a_mac(page):
        agent = page.value("navigator.userAgent")
        page.call("Emulation.setUserAgentOverride", userAgent=agent, platform="MacIntel")

    with terminal() as page:
        for key, code in (("!", "Digit1"), ("@", "Digit2"), ("#", "Digit3"), ("+", "Equal")):
            sends(page, key, lambda: page.key(key, code, modifiers=ALT | SHIFT), [])
    with terminal(prepare=on_a_mac) as page:
        for key, code in (("¡", "Digit1"), ("™", "Digit2"), ("ç", "KeyC"), ("Dead", "KeyE")):
            sends(page, key, lambda: page.key(key, code, modifiers=ALT), [])
        sends(page, "a character", lambda: page.key("¡", "Digit1", "¡", ALT), ["¡".encode()])
        for name, (wanted, *keys) in FUNCTIONS.items():
            for key in (it.replace("Alt", "Ctrl") for it in keys if "Alt" in it):
                sends(page, f"{name} by {key}", lambda: presses_key(page, key), [wanted])
                expect(f"{key} is listed", key in listed(page)[name], True)


@check
def buttons_send_their_bytes() -> None:
    """Each button sends the bytes of its key."""
    with terminal() as page:
        names = page.value("[...document.querySelectorAll('#keys > button')].map(it => it.textContent)")
        wanted = ["Enter", "Clear", "Reset", "Erase EOF", "Erase Input", "New Line", "PA1", "PA2", "PA3"]
        wanted += [f"PF{n}" for n in range(1, 25)] + ["Help", "Larger", "Smaller"]
        expect("missing buttons", set(wanted) - set(names), set())
        for name in names:
            if name in FUNCTIONS:
                sends(page, name, lambda: page.presses(name), [FUNCTIONS[name][0]])


@check
def the_page_has_its_own_hint() -> None:
    """The status row names the page's own key for its table of keys, which shows it; Escape closes it,
    and the next key is the terminal's."""
    with terminal() as page:
        expect("the tty's hint", "ESC ?" in page.status(), False)
        expect("the hint", "Ctrl-Alt-K: keys" in page.status(), True)
        sends(page, "the table", lambda: presses_key(page, "Ctrl-Alt-K"), [])
        expect("it is open", page.value("document.getElementById('help').open"), True)
        page.key("Escape", windowsVirtualKeyCode=27)
        page.until("it is closed", lambda: not page.value("document.getElementById('help').open"))
        sends(page, "a letter", lambda: page.types("4"), [b"4"])


@check
def buttons_work_by_keyboard() -> None:
    """Ctrl-Alt-B leads to the buttons, Tab from one to the next, Enter presses one, and then, or at
    Escape, the keys are the terminal's again."""
    focused = "document.activeElement.textContent"
    with terminal() as page:
        presses_key(page, "Ctrl-Alt-B")
        expect("the first", page.value(focused), "Enter")
        sends(page, "Tab", lambda: page.key("Tab", windowsVirtualKeyCode=9), [])
        expect("the second", page.value(focused), "Clear")
        press = lambda: page.key("Enter", text="\r", windowsVirtualKeyCode=13)
        sends(page, "Clear", press, [b"\x03"])
        sends(page, "a letter", lambda: page.types("4"), [b"4"])
        presses_key(page, "Ctrl-Alt-B")
        sends(page, "Escape", lambda: page.key("Escape"), [])
        sends(page, "a letter again", lambda: page.types("4"), [b"4"])


# ---- dialogues

@check
def an_operator_signs_on() -> None:
    """Keys, a paste and a click fill in a panel; a hidden field isn't in the document."""
    with terminal() as page:
        page.types("47")
        page.pastes("11\tsecret")
        page.shows("4711")
        page.click(6, 33)
        page.until("the cursor is there", lambda: page.cursor() == [6, 33])
        expect("hidden", "secret" in page.value("document.documentElement.innerHTML"), False)
        page.key("Enter")
        page.shows("TRANSFER OF FUNDS")


@check
def models_have_their_sizes() -> None:
    """The document has the rows and columns of the model, and the status below."""
    for model, (rows, columns) in {2: (25, 80), 3: (33, 80), 4: (44, 80), 5: (28, 132)}.items():
        with terminal(f"model={model}&lu=BANK0{model - 1}") as page:
            found = page.rows()
            expect(f"model {model}", {len(it) for it in found}, {columns})
            expect("rows", len(found), rows)
            page.shows(f"BANK0{model - 1}")


# The graphic characters of code page 037, by python's own table.
CHARACTERS = bytes(range(0x40, 0xFF)).decode("cp037")


@check
def each_character_has_one_cell() -> None:
    """Each character of code page 037 that a host shows is as wide as a blank; U+00AD, which has no
    width in Chromium, is drawn as a hyphen."""
    rows = [CHARACTERS[begin : begin + 60] for begin in range(0, len(CHARACTERS), 60)]
    texts = [
        f"{{ row = {at}, col = 10, text = {json.dumps(it, ensure_ascii=False)} }}" for at, it in enumerate(rows, 2)
    ]
    head = 'start = "ALL"\nlus = ["PNL01"]\n[[panel]]\nname = "ALL"\n'
    panels = f"{head}text = [{', '.join(texts)}]\n".encode()
    with Web(text=panels) as web, Chromium(f"http://{LOCALHOST}:{web.port}/") as page:
        page.shows("ABCDEFGHI")
        for row, text in enumerate(rows, 1):
            widths = page.value(f"""(() => {{
              const walk = document.createTreeWalker(screen.children[{row}], NodeFilter.SHOW_TEXT), all = [];
              for (let node; node = walk.nextNode();)
                for (let at = 0; at < node.length; at += 1) {{
                  const range = document.createRange();
                  range.setStart(node, at);
                  range.setEnd(node, at + 1);
                  all.push(range.getBoundingClientRect().width);
                }}
              return all;
            }})()""")
            expect("cells", len(widths), 80)
            for letter, width in zip(text, widths[9:]):
                if abs(width - widths[0]) > 0.02:
                    raise Difference(f"U+{ord(letter):04X} is {widths[0]} wide", width)
            expect("drawn", page.rows()[row][9 : 9 + len(text)], text.replace("\xad", "-"))


# ---- the keyboard's lock, and the network

class Relay:
    """A network between browsers and a port: it forwards, or can't be connected to (`is_cut`). Once a
    connection loses something (`dead`), it loses all that follows: TCP has no gaps."""

    def __init__(self, port):
        self.to, self.is_cut, self.pairs, self.used, self.dead = port, False, [], set(), set()
        self.listener = socket.create_server((LOCALHOST, free_port()))
        self.port = self.listener.getsockname()[1]
        threading.Thread(target=self.run, daemon=True).start()

    def run(self):
        while True:
            ends = {a: b for pair in self.pairs for a, b in (pair, pair[::-1])}
            for it in select.select([self.listener, *ends], [], [], 0.05)[0]:
                if it is self.listener:
                    self.accept()
                elif it in ends:
                    self.forward(it, ends[it])

    def accept(self):
        socket_, _ = self.listener.accept()
        if self.is_cut:
            return socket_.close()
        self.pairs.append((socket_, socket.create_connection((LOCALHOST, self.to))))

    def forward(self, source, target):
        data = b""
        with contextlib.suppress(OSError):
            data = source.recv(65536)
            self.used |= {source, target}
            if data and source not in self.dead:
                target.sendall(data)
        if not data:
            self.pairs = [it for it in self.pairs if source not in it]
            source.close()
            if source not in self.dead:
                target.close()

    def die(self):
        """What is sent from now on by the connections that were used is lost, in both directions, and
        nobody notices."""
        self.dead |= self.used

    def cut(self):
        """Closes all connections, and takes no more."""
        self.is_cut = True
        for pair in self.pairs:
            for it in pair:
                it.close()
        self.pairs = []


@contextlib.contextmanager
def relayed():
    """A page that reaches its `web` over a relay."""
    listener = socket.create_server((LOCALHOST, 0))
    port = listener.getsockname()[1]
    listener.close()
    with Web("--origin", f"http://{LOCALHOST}:{port}") as web, Chromium("about:blank") as page:
        relay = Relay(web.port)
        relay.listener.close()
        relay.listener = socket.create_server((LOCALHOST, port))
        page.web, page.relay = web, relay
        page.call("Page.navigate", url=f"http://{LOCALHOST}:{port}/")
        page.shows("TELLER")
        yield page


@check
def the_page_locks_by_itself() -> None:
    """While the host doesn't answer, X SYSTEM is there at once, a second Enter isn't sent, and other keys
    are type-ahead, with the sign T. Then one panel follows, not two."""
    with terminal() as page:
        page.pastes("4711\tsecret")
        page.until("all is shown", lambda: page.cursor() == [6, 35])
        page.web.process.send_signal(signal.SIGSTOP)
        sends(page, "Enter", lambda: page.key("Enter"), [b"\r"])
        expect("the lock", page.status()[16:32].rstrip(), "X SYSTEM")
        before = len(page.sent())
        for key in ("Enter", "F3", "Pause"):
            page.key(key)
        expect("further keys that send", page.sent()[before:], [])
        page.says("not answered")
        expect("no sign", page.status()[34], " ")
        page.types("1")
        expect("the sign", page.status()[34], "T")
        page.web.process.send_signal(signal.SIGCONT)
        page.shows("TRANSFER OF FUNDS")
        page.until("the lock is gone", lambda: page.status()[16:40].strip() == "")
        page.shows("1")


@check
def a_refused_key_needs_no_lock() -> None:
    """If the keyboard is locked already, Enter doesn't wait for a drawing that never comes."""
    with terminal() as page:
        page.types("A")
        page.until("it is refused", lambda: "X NUMERIC" in page.status())
        page.key("Enter")
        time.sleep(0.5)
        expect("the lock", page.status()[16:32].rstrip(), "X NUMERIC")
        page.key("Escape")
        page.until("it is free", lambda: page.status()[16:32].strip() == "")


@check
def a_dead_network_loses_no_key() -> None:
    """If nothing comes for 6 seconds the page says so. Keys that were typed are there once it has
    connected again, once each, which it does after 15 seconds."""
    with relayed() as page:
        page.types("4")
        page.shows("4")
        page.relay.die()
        page.types("7")
        page.says("No answer for 6 s.")
        page.announces("No answer")
        page.types("11")
        page.says("3 keys are kept")
        page.until("it is resumed", lambda: "event=resumed" in page.web.logged())
        page.shows("4711")
        page.until("nothing is said", lambda: page.state() == "")
        page.types("2")
        page.shows("47112")


@check
def keys_without_a_network_are_kept() -> None:
    """While the page has no connection it says so, and keeps what is typed."""
    with relayed() as page:
        page.relay.cut()
        page.says("Not connected")
        page.types("4711")
        page.says("4 keys are kept")
        page.relay.is_cut = False
        page.shows("4711")
        page.until("nothing is said", lambda: page.state() == "")


@check
def keys_of_a_quick_typist_are_kept() -> None:
    """1,205 keys that `web` doesn't read for a while are all kept, and sent once."""
    with terminal() as page:
        page.web.process.send_signal(signal.SIGSTOP)
        for _ in range(1200):
            page.key("ArrowRight")
        page.key("Home")
        page.types("4711")
        expect("what is said", "No more keys" in page.state(), False)
        page.web.process.send_signal(signal.SIGCONT)
        page.shows("4711")
        page.types("2")
        page.shows("47112")


@check
def a_reload_loses_no_key() -> None:
    """Keys that `web` hasn't got when the page is loaded again are sent then, and no key twice."""
    with relayed() as page:
        page.types("4")
        page.shows("4")
        page.relay.die()
        page.types("711")
        page.call("Page.reload")
        page.until("it is resumed", lambda: "event=resumed" in page.web.logged())
        page.shows("4711")
        expect("stored", page.value("sessionStorage.getItem('unheard')"), None)
        page.types("2")
        page.shows("47112")


@check
def a_reload_loses_nothing() -> None:
    """After a reload the page shows what was typed, and the same session goes on."""
    with terminal() as page:
        page.types("4711")
        page.shows("4711")
        rows, cursor = page.rows(), page.cursor()
        page.call("Page.reload")
        page.until("it is resumed", lambda: "event=resumed" in page.web.logged())
        page.shows("4711")
        expect("rows", page.rows(), rows)
        expect("cursor", page.cursor(), cursor)
        page.key("Tab")
        page.types("secret")
        page.key("Enter")
        page.shows("TRANSFER OF FUNDS")


@check
def a_closed_tab_gives_its_lu_back() -> None:
    """The session of a tab that is closed ends after 5 seconds, whatever --keep is."""
    with Web("--keep", "300") as web, Chromium(f"http://{LOCALHOST}:{web.port}/") as page:
        page.shows("TELLER")
        other = page.call("Target.createTarget", url=f"http://{LOCALHOST}:{web.port}/")["targetId"]
        page.until("its session", lambda: web.logged().count("event=bound") == 2)
        page.call("Target.closeTarget", targetId=other)
        page.until("it is left", lambda: "event=page-lost reason=closed" in web.logged())
        begin = time.monotonic()
        page.until("it has ended", lambda: "event=ended reason=not-resumed" in web.logged())
        expect("in time", 4 < time.monotonic() - begin < 7, True)
        page.types("4")
        page.shows("4")


@check
def a_full_house_is_tried_again() -> None:
    """If all sessions or all LUs are in use the page says so, and gets in once one is free."""
    for options in (("--sessions", "1"), ()):
        lu = "" if options else "lu=BANK01"
        with Web(*options) as web, Chromium("about:blank") as page:
            with contextlib.closing(web.page("open 2 BANK01")) as first:
                first.told("token")
                web.logs("event=bound lu=BANK01")
                page.call("Page.navigate", url=f"http://{LOCALHOST}:{web.port}/#{lu}")
                page.says("All terminals are in use: trying again.")
                first.send(8, b"\x03\xe8")
            page.shows("TELLER")
            expect("nothing is said", page.state(), "")


@check
def a_failed_connection_blanks_nothing() -> None:
    """After the host has ended the screen stays, also if Enter can't begin a session."""
    with terminal() as page:
        page.types("4711")
        page.shows("4711")
        page.web.host.__exit__()
        page.says("The session has ended")
        page.key("Enter")
        page.says("cannot connect")
        page.shows("4711")


@check
def an_unknown_model_is_refused() -> None:
    """A model or an LU that can't be is refused once; an edited address takes effect."""
    for words in ("model=9", "model=2&lu=9LU"):
        with Web() as web, Chromium(f"http://{LOCALHOST}:{web.port}/#{words}") as page:
            page.says("no such model or LU")
            time.sleep(2)
            expect("tries", web.logged().count("not-opened"), 1)
            page.value("location.hash = '#model=3&lu=BANK02'")
            page.shows("TELLER")
            page.shows("BANK02")
            expect("rows", len(page.rows()), 33)


@check
def the_menu_begins_a_session() -> None:
    """The menu has the model and the LU of the address, and asks for others."""
    with terminal("model=2&lu=BANK03") as page:
        expect("the LU", page.value("document.querySelector('form input').value"), "BANK03")
        page.value("document.querySelector('form select').value = '5'")
        page.value("document.querySelector('form input').value = 'BANK04'")
        page.presses("New session")
        page.shows("BANK04")
        expect("columns", len(page.status()), 132)
        expect("the address", page.value("location.hash"), "#model=5&lu=BANK04")


# ---- paste and copy

@check
def a_paste_ends_at_the_last_field() -> None:
    """What doesn't fit behind the cursor is left out, and the status row says so, also to who doesn't see
    it. The next key works."""
    with terminal() as page:
        page.pastes("1" * 5000)
        page.until("it is cut", lambda: "X PASTE CUT" in page.status())
        page.announces("X PASTE CUT")
        page.shows("111111")
        page.key("Backspace")
        page.until("it is free", lambda: page.status()[16:32].strip() == "")
        page.key("Enter")
        page.shows("TRANSFER OF FUNDS")


@check
def keys_under_way_move_a_paste() -> None:
    """A pasted text begins where the keys before it lead, although the page doesn't show that yet: here at
    the second field of three. The first gets nothing; control characters are left out."""
    with terminal() as page:
        page.web.process.send_signal(signal.SIGSTOP)
        page.key("Tab")
        page.pastes("1" * 8 + "\x03\x1b" + "2" * 12)
        expect("where it is drawn", page.cursor(), [4, 29])
        page.web.process.send_signal(signal.SIGCONT)
        page.until("it is cut", lambda: "X PASTE CUT" in page.status())
        page.shows("2222")
        expect("the first field", page.rows()[4][29:39].strip(), "")


@check
def nothing_is_pasted_in_the_wait() -> None:
    """While the host doesn't answer, a paste is refused, and the page says so."""
    with terminal() as page:
        page.web.process.send_signal(signal.SIGSTOP)
        page.key("F3")
        before = len(page.sent())
        page.pastes("4711")
        page.says("Nothing can be pasted until the host has answered.")
        expect("what is sent", page.sent()[before:], [])
        page.web.process.send_signal(signal.SIGCONT)
        page.until("the lock is gone", lambda: page.status()[16:32].strip() == "")


@check
def enter_begins_one_session() -> None:
    """Enter between the end of a session and that of its WebSocket begins one session, not two."""
    with terminal() as page:
        page.value("notice('ended it was ended by a key')")
        page.key("Enter")
        page.until("a session", lambda: page.web.logged().count("event=bound") == 2)
        page.types("4")
        page.shows("4")
        time.sleep(1)
        expect("sessions", page.web.logged().count("event=opened"), 2)


@check
def a_block_is_copied() -> None:
    """A rectangle that the mouse marks is copied, without blanks at the ends of its lines."""
    with terminal() as page:
        page.drags((4, 9), (6, 24))
        expect("marked", page.value("document.querySelectorAll('#screen .selected').length") > 0, True)
        expect("copied", page.copies(), "TELLER NUMBER\n\nPASSWORD")
        page.click(6, 40)
        page.until("the cursor is there", lambda: page.cursor() == [6, 40])
        expect("nothing is marked", page.value("document.querySelectorAll('#screen .selected').length"), 0)


# ---- sizes, paper and colours

def glyph_size(page):
    """The width of a cell, in CSS pixels."""
    return page.value("screen.getBoundingClientRect().width / columns")


def zoomed(factor):
    """A window of 1200 by 900 pixels that is zoomed: fewer CSS pixels inside, the same outside."""
    def prepare(page):
        page.call(
            "Emulation.setDeviceMetricsOverride", width=round(1200 / factor),
            height=round(760 / factor), deviceScaleFactor=factor, mobile=False,
        )
        page.call(
            "Page.addScriptToEvaluateOnNewDocument",
            source="Object.defineProperty(window, 'outerWidth', { get: () => 1200 })",
        )
    return prepare


@check
def zoom_enlarges_the_screen() -> None:
    """At a zoom of 200 and 400 % the characters have as many CSS pixels as without: so they are twice
    and four times as large. The screen scrolls to the cursor."""
    sizes = {}
    for factor in (1, 2, 4):
        with terminal(prepare=zoomed(factor)) as page:
            sizes[factor] = glyph_size(page)
            page.key("Tab")
            seen = page.value("""(() => {
              const it = document.querySelector('.cursor').getBoundingClientRect();
              const box = document.querySelector('main').getBoundingClientRect();
              return it.left >= box.left && it.right <= box.right && it.top >= box.top
                && it.bottom <= box.bottom;
            })()""")
            expect(f"the cursor is seen at {factor}", seen, True)
    expect("sizes", max(sizes.values()) / min(sizes.values()) < 1.05, True)


@check
def a_chosen_size_is_kept() -> None:
    """The buttons make the characters larger and smaller, and a reload keeps that."""
    with terminal() as page:
        before = glyph_size(page)
        for _ in range(4):
            page.presses("Larger")
        large = glyph_size(page)
        expect("larger", 1.4 < large / before < 1.5, True)
        page.call("Page.reload")
        page.until("it is resumed", lambda: "event=resumed" in page.web.logged())
        page.shows("TELLER")
        expect("kept", glyph_size(page), large)
        page.presses("Fit")
        expect("fitted", glyph_size(page), before)
        page.presses("Smaller")
        expect("smaller", glyph_size(page) < before, True)


def phone(page):
    page.call(
        "Emulation.setDeviceMetricsOverride", width=390, height=844, deviceScaleFactor=3, mobile=True
    )


@check
def a_phone_has_the_whole_width() -> None:
    """On a screen of 390 by 844 pixels nothing is wider, from the first layout on."""
    first = """new PerformanceObserver(() => 0);
      addEventListener('load', () => window.widest = document.documentElement.scrollWidth)"""
    def prepare(page):
        phone(page)
        page.call("Page.addScriptToEvaluateOnNewDocument", source=first)

    with terminal(prepare=prepare) as page:
        expect("the first layout", page.value("widest") <= 390, True)
        expect("the layout", page.value("document.documentElement.scrollWidth") <= 390, True)
        expect("the window", page.value("innerWidth"), 390)
        expect("the screen", page.value("screen.getBoundingClientRect().width") <= 390, True)


@check
def paper_has_the_screen_alone() -> None:
    """On paper there are no buttons, and the screen is as wide as the page, with 80 columns or 132."""
    for model in (2, 5):
        with terminal(f"model={model}") as page:
            page.call("Emulation.setEmulatedMedia", media="print")
            page.call(
                "Emulation.setDeviceMetricsOverride",
                width=700, height=1000, deviceScaleFactor=1, mobile=False,
            )
            for name in ("keys", "state"):
                shown = page.value(f"getComputedStyle(document.getElementById('{name}')).display")
                expect(name, shown, "none")
            width = page.value("screen.getBoundingClientRect().width")
            expect(f"the width of model {model}: {width}", 560 < width < 700, True)
            expect("clipped", page.value("getComputedStyle(document.querySelector('main')).overflow"), "visible")


def luminance(colour):
    """The relative luminance of a colour (WCAG 2.2)."""
    parts = [int(it) / 255 for it in re.findall(r"\d+", colour)[:3]]
    red, green, blue = (it / 12.92 if it <= 0.04045 else ((it + 0.055) / 1.055) ** 2.4 for it in parts)
    return 0.2126 * red + 0.7152 * green + 0.0722 * blue


def contrast(one, other):
    dark, light = sorted((luminance(one), luminance(other)))
    return (light + 0.05) / (dark + 0.05)


# Each text that is drawn: what it is, its colour, and the nearest background that is there.
COLOURS = """(() => {
  const all = [...document.querySelectorAll('#screen span, #state, button, label, input, select, dt, kbd')];
  const behind = it => {
    const colour = getComputedStyle(it).backgroundColor;
    return colour !== 'rgba(0, 0, 0, 0)' || !it.parentElement ? colour : behind(it.parentElement);
  };
  return all.filter(it => it.localName !== 'span' || !it.children.length).map(it => [
    it.localName + '.' + it.className, getComputedStyle(it).color, behind(it), getComputedStyle(it).opacity]);
})()"""


@check
def each_text_has_contrast() -> None:
    """Each text has a contrast of at least 4.5:1 to what is behind it, in dark and in light colours,
    connected and not, marked and not."""
    for scheme in ("dark", "light"):
        with terminal() as page:
            page.call(
                "Emulation.setEmulatedMedia", features=[{"name": "prefers-color-scheme", "value": scheme}]
            )
            page.drags((0, 0), (6, 36))
            looks = "[..'green underlined', 'red underlined', 'blue', 'bold']"
            page.value(f"""{looks.replace('..', '')}.forEach((it, at) =>
              grid[10][at] = {{ glyph: 'X', name: it }}); changed.add(10); show()""")
            presses_key(page, "Ctrl-Alt-K")
            found = page.value(COLOURS)
            page.web.process.kill()
            page.says("Not connected")
            found += page.value(COLOURS)
            expect("kinds", {"span.selected", "span.bold", "button.", "kbd."} <= {it[0] for it in found}, True)
            for what, colour, behind, opacity in found:
                expect(f"opacity of {what}", opacity, "1")
                if contrast(colour, behind) < 4.5:
                    raise Difference(f"{what} is readable in {scheme}", f"{colour} on {behind}")


@check
def forced_colours_show_the_cursor() -> None:
    """With forced colours the cursor's cell differs from the others."""
    with terminal() as page:
        page.call("Emulation.setEmulatedMedia", features=[{"name": "forced-colors", "value": "active"}])
        cursor, other = (
            page.value(f"getComputedStyle(document.querySelector('#screen {it}')).backgroundColor")
            for it in (".cursor", ".blue")
        )
        expect("the cursor", cursor != other, True)


# ---- without sight

@check
def the_page_is_announced() -> None:
    """The accessibility tree has the screen, its fields by the text to their left, with what is in
    them, and each button; news of the message row, of locks and of the field is announced."""
    with terminal() as page:
        nodes = page.nodes()
        expect("the screen", ("application", "3270 screen", "") in nodes, True)
        fields = [name for role, name, _ in nodes if role == "textbox"]
        expect("fields", {"TELLER NUMBER", "PASSWORD"} <= set(fields), True)
        buttons = {name for role, name, _ in nodes if role == "button"}
        expect("buttons", {"Enter", "Clear", "PA1", "PF1", "PF24", "Help", "Larger", "New session"} <= buttons, True)
        expect("a live region", ("status", "", "") in nodes, True)
        page.types("47")
        page.until("the text of a field", lambda: page.value(
            "document.querySelector('[role=textbox]').textContent.trim()") == "47")
        page.key("Tab")
        page.announces("PASSWORD")
        page.key("Tab", modifiers=SHIFT)
        page.announces("TELLER NUMBER")
        page.types("A")
        page.announces("X NUMERIC")
        page.key("Escape")
        page.until("it is free", lambda: page.status()[16:32].strip() == "")
        page.key("F5")
        page.announces("KEY NOT ACTIVE")
        page.pastes("11\tsecret")
        page.key("Enter")
        page.announces("TRANSFER OF FUNDS")
        spoken = page.value("document.activeElement.getAttribute('aria-label')")
        expect("what is typed into", spoken in [name for role, name, _ in page.nodes() if role == "textbox"], True)


@check
def a_note_is_announced() -> None:
    """A note of who operates the host comes without a key, and is announced."""
    with tempfile.TemporaryDirectory() as folder:
        control = f"{folder}/control"
        with Web(host=("--control", control)) as web, Chromium(f"http://{LOCALHOST}:{web.port}/") as page:
            page.shows("TELLER")
            run(["tell", control, "note", "*", "SYSTEM DOWN AT 18:00"], b"")
            page.announces("SYSTEM DOWN AT 18:00")


# ---- random keys

# What a random key is: its name for `term`, and the key of the browser with its modifiers.
RANDOM_KEYS = [
    ("tab", "Tab", 0), ("backtab", "Tab", SHIFT), ("up", "ArrowUp", 0), ("down", "ArrowDown", 0),
    ("left", "ArrowLeft", 0), ("right", "ArrowRight", 0), ("home", "Home", 0),
    ("newline", "Enter", SHIFT), ("backspace", "Backspace", SHIFT), ("delete", "Delete", 0),
    ("insert", "Insert", 0), ("eraseeof", "End", 0), ("reset", "Escape", 0),
]


def after_keys(port, lines):
    """The rows of a screen, and its cursor, after these commands of `term`."""
    ran = subprocess.run(
        [programs.panel3270(), "term", "--port", str(port)],
        input="\n".join(["wait", *lines, "show", ""]).encode(), capture_output=True, check=True,
    )
    *rows, last = ran.stdout.decode().splitlines()
    return [it for it in rows if not it.startswith("refused ")], int(last.split()[1])


@check
def random_keys_show_what_term_shows() -> None:
    """After 1,000 random keys the document has, cell by cell, the screen of `term` after the same."""
    chance, lines = random.Random(3278), []
    with terminal() as page:
        for count in range(1, 1001):
            if chance.random() < 0.5:
                letter = chance.choice("0123456789ABC xyz")
                lines += ["key reset", f"type {letter}"]
                page.key("Escape")
                page.types(letter)
            else:
                name, key, modifiers = chance.choice(RANDOM_KEYS)
                lines += ["key reset", f"key {name}"]
                page.key("Escape")
                page.key(key, modifiers=modifiers)
            if count % 100 == 0:
                rows, cursor = after_keys(page.web.host.port, lines)
                place = [cursor // 80, cursor % 80]
                page.until(
                    f"the screen of term after {count} keys: {rows} {place}",
                    lambda: [it.rstrip() for it in page.rows()[:-1]] == rows
                    and page.cursor() == place,
                )
