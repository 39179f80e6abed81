"""The page of a terminal in a browser, crates/web_wire/src/page.rt.

Its text, its hashes, and, if Node.js is installed, parts of its script: the tty beside the model of a
tty of the suite operate, the bytes that each key sends, and what a session's part says to a server.
Which keys these are is a requirement: those of a PC keyboard that x3270's keymaps have for the same
functions, but that Ctrl-C copies, and Esc is Reset."""
import base64
import hashlib
import json
import random
import re
import shutil
import subprocess

from harness.case import TOP, Checks, NotHere, expect
from harness.tty import Screen

SOURCE = TOP / "crates/web_wire/src/page.rt"
MOST_LINES = 450
check = Checks()
cases = check.cases


def constant(name):
    """The text of a constant, which has neither a quotation mark nor a backslash."""
    source = SOURCE.read_text(encoding="utf-8")
    return re.search(rf'^pub const {name}: &str = "([^"\\]*)";$', source, re.MULTILINE)[1]


def inside(element):
    """What is in the page's only element of this name."""
    page = constant("PAGE")
    expect(f"elements {element}", page.count(f"<{element}>"), 1)
    return page.split(f"<{element}>")[1].split(f"</{element}>")[0]


def section(begin, end):
    """The part of the script from one heading to another."""
    found = inside("script").split(f"// ---- {begin}")[1].split(f"// ---- {end}")[0]
    return found.split("\n", 1)[1]


@check
def it_is_short() -> None:
    """The page has at most 450 lines, of at most 118 characters."""
    lines = constant("PAGE").splitlines()
    expect("it fits", len(lines) <= MOST_LINES, True)
    expect("long lines", [it for it in lines if len(it) > 118], [])


@check
def its_script_is_javascript() -> None:
    """Node's own parser takes the script."""
    script = "new (require('vm').Script)(JSON.parse(require('fs').readFileSync(0, 'utf8')));"
    of_node(script + "console.log('true')", inside("script"))


@check
def its_policy_has_its_hashes() -> None:
    """The hashes are those of the page's script and style (Content Security Policy Level 3)."""
    for element, name in (("script", "SCRIPT_HASH"), ("style", "STYLE_HASH")):
        digest = hashlib.sha256(inside(element).encode()).digest()
        expect(name, constant(name), base64.b64encode(digest).decode())


@check
def it_loads_nothing() -> None:
    """The page names no other resource, and makes no markup from text."""
    for word in ("src=", "href=", "url(", "@import", "innerHTML", "outerHTML", "eval(", "fetch("):
        expect(word, word in constant("PAGE"), False)


# ---- the script, in Node.js

HELPERS = "const code = String.fromCharCode, ESC = code(27), CSI = ESC + '[';"
TTY = f"""
{HELPERS}
const document = {{ createElement: () => ({{}}) }}, said = {{}};
const screen = {{ replaceChildren() {{}}, children: [] }};
let bells = 0;
const show = () => {{}}, fit = () => {{}}, ring = () => bells++;
%s
const given = JSON.parse(require('fs').readFileSync(0, 'utf8'));
resize(given.rows, given.columns);
awaited = first;
given.pieces.forEach(read);
console.log(JSON.stringify({{
  lines: grid.map(row => row.map(cell => cell.glyph).join('').trimEnd()),
  names: grid.map(row => row.map(cell => cell.name)), cursor: [cursor.row, cursor.column], bells,
}}));
"""
KEYS = f"""
{HELPERS}
const typed = {{ focus() {{}} }}, terminal = {{ contains: () => true }}, help = {{ open: false }};
const navigator = {{ platform: 'Linux x86_64' }}, document = {{}}, keys = {{}};
const isWaiting = false, isOver = true, tell = () => {{}}, reason = () => '', isLocked = () => false;
let last;
const send = (...texts) => last = texts.join(''), ring = () => last = 'bell', showKeys = () => last = 'help';
%s
const {{ keymap, events }} = JSON.parse(require('fs').readFileSync(0, 'utf8'));
useKeymap(keymap);
const sent = it => {{
  last = null;
  let kept = false;
  onKey({{ getModifierState: () => false, preventDefault: () => kept = true, ...it }});
  return kept ? last : null;
}};
console.log(JSON.stringify(events.map(sent)));
"""


SESSION = f"""
{HELPERS}
const enter = code(13), log = [], sockets = [], waits = [], model = {{}}, lu = {{}}, listeners = {{}};
const stored = JSON.parse(require('fs').readFileSync(0, 'utf8'));
const state = {{ textContent: '' }}, typed = {{ focus() {{}} }}, screen = {{ querySelector: () => null }};
const document = {{ body: {{ classList: {{ toggle() {{}} }} }} }};
const addEventListener = (name, then) => listeners[name] = then, useKeymap = words => log.push(['keymap', ...words]);
const resize = (...size) => log.push(['size', ...size]), fit = 0, first = 0, ring = () => log.push('bell');
const show = () => 0, say = () => 0, isLocked = () => false, summary = () => ({{}}), changes = () => [];
const read = bytes => log.push(['draw', [...bytes]]), setInterval = then => every = then;
let isWaiting = false, isAhead = false, every, now = 0;
const Date = {{ now: () => now }}, clearTimeout = () => 0;
const location = {{ hash: '#model=4&lu=BANK02', href: 'https://bank.example/t/#model=4&lu=BANK02' }};
const sessionStorage = {{
  getItem: name => stored[name] ?? null,
  setItem: (name, it) => stored[name] = it,
  removeItem: name => delete stored[name],
}};
const setTimeout = (then, wait) => waits.push([then, wait]);
class WebSocket {{
  static OPEN = 1;
  constructor(address) {{
    [this.readyState, this.sent] = [1, []];
    log.push(['connect', String(address)]);
    sockets.push(this);
  }}
  send(it) {{ this.sent.push(typeof it === 'string' ? it : new TextDecoder('utf-8', {{ fatal: true }}).decode(it)); }}
  close() {{ this.readyState = 3; }}
}}
let awaited;
%s
const last = () => sockets.at(-1), close = (code = 1006) => last().onclose({{ code }});
const says = (...texts) => texts.forEach(data => last().onmessage({{ data }}));
const draws = () => last().onmessage({{ data: new Uint8Array([65]).buffer }});
const again = () => waits.at(-1)[0]();
%s
console.log(JSON.stringify(log));
"""


def of_node(script, given):
    """What Node.js prints for a script, as JSON."""
    if not shutil.which("node"):
        raise NotHere("Node.js isn't installed (apt-get install nodejs)")
    done = subprocess.run(
        ["node", "-e", script], input=json.dumps(given).encode(), capture_output=True, check=False
    )
    expect("faults of the script", done.stderr.decode(), "")
    return json.loads(done.stdout)


# Looks, by the SGR that selects each, as crates/tty/specs/Spelling has them.
LOOKS = {
    "0": "",
    "0;4;32": "green underlined",
    "0;4;31": "red underlined",
    "0;34": "blue",
    "0;1": "bold",
}


def drawing(rng, rows, columns):
    """A drawing: places, looks and characters in them, and the place of the cursor."""
    out = b"\x1b[0m\x1b[2J" if rng.random() < 0.3 else b""
    for _ in range(rng.randrange(6)):
        row, column = rng.randrange(rows), rng.randrange(columns)
        out += b"\x1b[%03d;%03dH" % (row + 1, column + 1)
        for _ in range(rng.randrange(1, columns - column + 1)):
            if rng.random() < 0.3:
                out += b"\x1b[" + rng.choice(list(LOOKS)).encode() + b"m"
            out += rng.choice("AZ09 ~\xa2\xac\xe9\xff").encode()
    out += b"\x07" if rng.random() < 0.2 else b""
    return out + b"\x1b[%03d;%03dH" % (rng.randrange(rows) + 1, rng.randrange(columns) + 1)


@check
def it_is_a_tty() -> None:
    """After drawings that are cut anywhere it shows what a tty shows: characters, looks, cursor and
    bells."""
    for seed in range(30):
        rng = random.Random(seed)
        rows, columns = rng.choice([(25, 80), (33, 80), (44, 80), (28, 132)])
        data = b"".join(drawing(rng, rows, columns) for _ in range(5))
        cuts = sorted(rng.sample(range(len(data) + 1), min(9, len(data))))
        pieces = [list(data[a:b]) for a, b in zip([0, *cuts], [*cuts, len(data)])]
        found = of_node(
            TTY % section("A tty", "Fields"),
            {"rows": rows, "columns": columns, "pieces": pieces},
        )
        screen = Screen(rows, columns)
        screen.takes(data)
        wanted = [screen.line(row) for row in range(rows)]
        expect(f"characters, {seed=}", found["lines"], wanted)
        looks = [[LOOKS.get(it, it) for it in row] for row in screen.looks]
        expect(
            f"looks, {seed=}",
            [[" ".join(sorted(it.split())) for it in row] for row in found["names"]],
            [[" ".join(sorted(it.split())) for it in row] for row in looks],
        )
        expect(f"cursor, {seed=}", found["cursor"], [screen.row, screen.column])
        expect(f"bells, {seed=}", found["bells"], screen.bells)


# What each key sends: the bytes by which a tty says the function (crates/tty/specs/KeySequences).
SHIFT, CTRL, ALT = {"shiftKey": True}, {"ctrlKey": True}, {"altKey": True}
F_KEYS = "OP OQ OR OS [15~ [17~ [18~ [19~ [20~ [21~ [23~ [24~"
SHIFTED = "[1;2P [1;2Q [1;2R [1;2S [15;2~ [17;2~ [18;2~ [19;2~ [20;2~ [21;2~ [23;2~ [24;2~"
SENT = [
    *(({"key": f"F{n}"}, it) for n, it in enumerate(F_KEYS.split(), 1)),
    *(({"key": f"F{n}", **SHIFT}, it) for n, it in enumerate(SHIFTED.split(), 1)),
    *(({"key": f"{n}", "code": f"Digit{n}", **ALT}, str(n)) for n in (1, 2, 3)),
    # The place of a digit, whatever the layout has there.
    ({"key": "&", "code": "Digit1", **ALT}, "1"),
    ({"key": "Insert", **ALT}, "1"),
    ({"key": "Home", **ALT}, "2"),
    ({"key": "PageUp"}, "[18~"),
    ({"key": "PageDown"}, "[19~"),
    ({"key": "Home"}, "[H"),
    ({"key": "Insert"}, "[2~"),
    ({"key": "Delete"}, "[3~"),
    ({"key": "ArrowUp"}, "[A"),
    ({"key": "ArrowDown"}, "[B"),
    ({"key": "ArrowRight"}, "[C"),
    ({"key": "ArrowLeft"}, "[D"),
    ({"key": "Tab", **SHIFT}, "[Z"),
]
CONTROLS = [
    ({"key": "Enter"}, "\r"),
    ({"key": "Enter", "code": "NumpadEnter"}, "\r"),
    ({"key": "Enter", **SHIFT}, "\n"),
    ({"key": "Tab"}, "\t"),
    ({"key": "Backspace"}, "\x7f"),
    ({"key": "Backspace", **SHIFT}, "\b"),
    ({"key": "Escape"}, "\x12"),
    ({"key": "Pause"}, "\x03"),
    ({"key": "c", "code": "KeyC", **ALT}, "\x03"),
    ({"key": "End"}, "\x05"),
    ({"key": "End", **ALT}, "\x15"),
    ({"key": "r", "code": "KeyR", **CTRL}, "\x12"),
    ({"key": "e", "code": "KeyE", **CTRL}, "\x05"),
    ({"key": "u", "code": "KeyU", **CTRL}, "\x15"),
    ({"key": "l", "code": "KeyL", **CTRL}, "\x0c"),
    # The letter of the layout; if that has no Latin ones, its place.
    ({"key": "r", "code": "KeyO", **CTRL}, "\x12"),
    ({"key": "к", "code": "KeyR", **CTRL}, "\x12"),
    # A character is an event of the input, and the browser keeps what it has for other keys.
    ({"key": "a", "code": "KeyA"}, None),
    ({"key": "A", "code": "KeyA", **SHIFT}, None),
    ({"key": "1", "code": "Digit1"}, None),
    ({"key": "!", "code": "Digit1", **SHIFT, **ALT}, None),
    ({"key": "c", "code": "KeyC", **CTRL}, None),
    ({"key": "v", "code": "KeyV", **CTRL}, None),
    ({"key": "t", "code": "KeyT", **CTRL}, None),
    ({"key": "R", "code": "KeyR", **CTRL, **SHIFT}, None),
    ({"key": "Insert", **SHIFT}, None),
    ({"key": "Enter", "metaKey": True}, None),
    ({"key": "Enter", "isComposing": True}, None),
]


@check
def its_keys_send_what_a_tty_sends() -> None:
    """Each key sends the bytes of its function, and no other is kept from the browser."""
    wanted = [(key, "\x1b" + it) for key, it in SENT] + CONTROLS
    expect_sent([], wanted)


def expect_sent(keymap, wanted):
    """With these words of a keymap these keys send these texts."""
    events = [{"code": key["key"], **key} for key, _ in wanted]
    given = {"keymap": keymap, "events": events}
    found = of_node(KEYS % section("Keys", "The operator"), given)
    for (key, text), sent in zip(wanted, found):
        expect(f"text of {key}", sent, text)


@check
def a_keymap_changes_keys() -> None:
    """A key that the server's keymap names, as crates/tty spells it, has that action, and others have what
    is usual. An action that a page hasn't does nothing."""
    words = [
        "Backspace=BackSpace", "F12=PA(1)", "Shift-F2=EraseEOF", "Enter=Newline", "KeypadEnter=Enter", "Up=PF(7)",
        "Ctrl-A=Home", "Alt-c=Tab", "Alt-Q=BackTab", "Alt-!=PF(13)", "Alt-==Clear", "Alt-Space=Reset",
        "End=Help", "F1=Quit", "Ctrl-End=Redraw",
    ]  # fmt: skip
    wanted = [
        ({"key": "Backspace"}, "\b"), ({"key": "F12"}, "\x1b1"), ({"key": "F2", **SHIFT}, "\x05"),
        ({"key": "Enter"}, "\n"), ({"key": "Enter", "code": "NumpadEnter"}, "\r"),
        ({"key": "ArrowUp"}, "\x1b[18~"), ({"key": "a", "code": "KeyA", **CTRL}, "\x1b[H"),
        ({"key": "c", "code": "KeyC", **ALT}, "\t"), ({"key": "q", "code": "KeyQ", **ALT}, None),
        ({"key": "Q", "code": "KeyQ", **ALT, **SHIFT}, "\x1b[Z"),
        ({"key": "!", "code": "Digit1", **ALT, **SHIFT}, "\x1b[1;2P"), ({"key": "=", "code": "Equal", **ALT}, "\x03"),
        ({"key": " ", "code": "Space", **ALT}, "\x12"), ({"key": "End"}, "help"), ({"key": "F1"}, "bell"),
        ({"key": "End", **CTRL}, "\x0c"), ({"key": "F2"}, "\x1bOQ"), ({"key": "ArrowDown"}, "\x1b[B"),
    ]  # fmt: skip
    expect_sent(words, wanted)


def of_session(steps, stored=None):
    """What a session's part of the script does in these steps, in a tab that has this stored."""
    script = inside("script").split("// ---- The session")[1].split("\n", 1)[1]
    return of_node(SESSION % (script, steps), stored or {})


@check
def it_opens_a_session() -> None:
    """The first message has the model and the LU of the address; the WebSocket is beside the page. The
    screen has the size of the session once that draws."""
    found = of_session(
        "last().onopen(); log.push(last().sent); says('size 44 80'); log.push('sized'); draws();"
    )
    wanted = [["size", 25, 80], ["connect", "wss://bank.example/t/terminal"], ["open 4 BANK02"]]
    expect("log", found, [*wanted, "sized", ["size", 44, 80], ["draw", [65]]])


@check
def it_resumes_a_session() -> None:
    """A page that lost its WebSocket connects again, after 0.5 to 15 seconds, and resumes by its
    token; a session that can't be resumed is begun again."""
    found = of_session(
        "last().onopen(); says('size 25 80', 'token 0f'); log.length = 0;"
        "for (let n = 0; n < 7; n++) { close(); again(); }"
        "last().onopen(); log.length = 0;"
        "log.push(waits.map(it => it[1]), last().sent);"
        "says('ended no such session'); close(); again(); last().onopen();"
        "log.push(waits.at(-1)[1], last().sent);"
    )
    waits, first, *_, wait, second = found
    expect("waits", waits, [500, 1000, 2000, 4000, 8000, 15000, 15000])
    expect("first messages", (first, second), (["resume 0f"], ["open 4 BANK02"]))
    expect("the last wait", wait, 15000)


@check
def it_stays_when_a_session_has_ended() -> None:
    """After `ended` the page waits for Enter, and then begins a session."""
    found = of_session(
        "last().onopen(); says('size 25 80', 'token 0f', 'ended signed off'); close();"
        "log.length = 0; log.push(state.textContent, waits.length); send('a'); send(enter);"
        "last().onopen(); log.push(last().sent);"
    )
    wanted = ["The session has ended: signed off. Enter begins a new one.", 0]
    expect("log", found, [*wanted, ["connect", "wss://bank.example/t/terminal"], ["open 4 BANK02"]])


@check
def an_ended_session_is_followed_by_one() -> None:
    """Enter between `ended` and the end of its WebSocket begins one session, not two."""
    found = of_session(
        "last().onopen(); says('size 25 80', 'token 0f', 'ended signed off'); const old = last();"
        "log.length = 0; send(enter); old.onclose?.({ code: 1000 }); old.onmessage?.({ data: 'heard 1' });"
        "last().onopen(); says('size 25 80', 'token 1f', 'heard 0'); log.push(waits.length, sockets.length);"
        "send('a'); log.push(last().sent);"
    )
    connect = ["connect", "wss://bank.example/t/terminal"]
    expect("log", found, [connect, 0, 2, ["open 4 BANK02", "a"]])


@check
def a_reload_keeps_what_was_typed() -> None:
    """Keys that the server hasn't heard are stored while the page is loaded again, and are sent then, unless
    the server has them meanwhile. Nothing that is typed is stored before, or stays stored."""
    kept, stored = of_session(
        "last().onopen(); says('size 25 80', 'token 0f', 'heard 40'); send('a'); send('€'); send('d');"
        "says('heard 41'); log.length = 0; log.push({ ...stored }); listeners.pagehide(); log.push(stored);"
    )
    expect("stored while typing", kept, {"token": "0f"})
    for heard, sent in ((41, ["€", "d"]), (44, ["d"]), (45, [])):
        found = of_session(
            f"last().onopen(); says('size 25 80', 'token 0f', 'heard {heard}'); log.length = 0;"
            "log.push(last().sent, stored);",
            stored,
        )
        expect(f"sent after {heard}", found, [["resume 0f", *sent], {"token": "0f"}])


@check
def a_keymap_is_taken() -> None:
    """The words behind `keymap` are those of the keymap."""
    found = of_session("last().onopen(); log.length = 0; says('keymap Backspace=BackSpace F12=PA(1)');")
    expect("log", found, [["keymap", "Backspace=BackSpace", "F12=PA(1)"]])


@check
def it_waits_for_a_free_terminal() -> None:
    """After `busy` it tries again each 5 seconds."""
    found = of_session(
        "last().onopen(); log.length = 0; says('busy'); close(1000); log.push(state.textContent, waits[0][1]);"
        "again(); last().onopen(); log.push(last().sent);"
    )
    wanted = ["All terminals are in use: trying again.", 5000]
    expect("log", found, [*wanted, ["connect", "wss://bank.example/t/terminal"], ["open 4 BANK02"]])


@check
def a_refused_opening_is_not_tried_again() -> None:
    """A close with code 1008, policy, is the server's answer to a model or an LU that can't be."""
    found = of_session("last().onopen(); log.length = 0; close(1008); log.push(waits.length, state.textContent);")
    expect("log", found, [0, "The session has ended: there is no such model or LU: 4 BANK02. Enter begins a new one."])


@check
def each_key_arrives_once() -> None:
    """Keys that were typed without a connection are sent once there is one; keys that the server hasn't
    heard are sent again to it, in order, and no others."""
    found = of_session(
        "last().onopen(); last().sent.length = 0; send('a'); log.length = 0; log.push([...last().sent]);"
        "says('size 25 80', 'token 0f', 'heard 40'); send('b'); send('€'); send('d');"
        "log.push([...last().sent]); says('heard 42'); close(); send('e'); again(); last().onopen();"
        "log.push([...last().sent]); says('size 25 80', 'token 0f', 'heard 45'); log.push([...last().sent]);"
        "says('heard 47'); close(); again(); last().onopen(); says('heard 47'); log.push([...last().sent]);"
    )
    connect = ["connect", "wss://bank.example/t/terminal"]
    wanted = [
        [], ["a", "b", "€", "d"], connect, ["resume 0f"], ["resume 0f", "d", "e"], connect, ["resume 0f"],
    ]
    expect("log", found, wanted)


@check
def silence_is_told_and_ends() -> None:
    """After 6 seconds without a word of the server the page says so; after 15 it connects again, and
    doesn't close what it had, by which the server would end the session soon."""
    found = of_session(
        "last().onopen(); says('size 25 80', 'token 0f', 'heard 0'); log.length = 0;"
        "for (now of [6000, 7000, 15000, 15001]) { every(); log.push(state.textContent); }"
        "log.push(sockets.length, sockets[0].readyState);"
    )
    connect = ["connect", "wss://bank.example/t/terminal"]
    texts = ["", "No answer for 7 s.", "No answer for 15 s.", connect, "Not connected: trying again."]
    expect("log", found, [*texts, 2, 1])


@check
def its_messages_are_short() -> None:
    """A long text is sent in messages of at most 4,096 bytes, each of whole characters."""
    found = of_session(
        "last().onopen(); says('heard 0'); last().sent.length = 0; send('€😀'.repeat(1500));"
        "log.length = 0; log.push(...last().sent);"
    )
    expect("together", "".join(found), "€😀" * 1500)
    expect("each", max(len(it.encode()) for it in found) <= 4096, True)
