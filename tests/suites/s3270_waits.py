"""Sessions of s3270 behind a proxy that holds what passes back, whose operator presses Reset at some
point of the wait.

The expected screens are what examples/bank.toml has at its rows and columns, that is those of an
operator who waits, whether or not the host verifies the terminal. Only PA1 is answered by what is on
the screen when the host reads it; if that was cleared before, by what Clear leads to. Nothing
depends on time: what comes is handed on when the operator has done what is to be done."""
import contextlib
import functools
import itertools
import re
import socket
import threading
import time
import tomllib

from harness import hosts
from harness.case import TOP, Case, Difference, Place, expect, relative
from harness.s3270 import S3270, is_wanted

LONG = True
# How many cases are run at once.
THREADS = 8


class Proxy:
    """Hands on what each side of a connection sends, in order, but for a way that it holds back
    until it is told to pass that. IAC NOP, which answers nothing and isn't answered, counts for
    nothing."""

    def __init__(self, port):
        self.to, self.change = port, threading.Condition()
        self.came, self.went = {"up": 0, "down": 0}, {"up": 0, "down": 0}
        # How many bytes may go each way; None: all.
        self.allowed = {"up": None, "down": None}
        self.listener = socket.create_server((hosts.LOCALHOST, 0))
        self.port = self.listener.getsockname()[1]
        threading.Thread(target=self.serve, daemon=True).start()

    def serve(self):
        with contextlib.suppress(OSError):
            terminal, _ = self.listener.accept()
            host = socket.create_connection((hosts.LOCALHOST, self.to))
            for way, one, other in (("up", terminal, host), ("down", host, terminal)):
                other.setsockopt(socket.IPPROTO_TCP, socket.TCP_NODELAY, 1)
                threading.Thread(target=self.hands_on, args=(way, one, other), daemon=True).start()

    def hands_on(self, way, one, other):
        piece = b"-"
        with contextlib.suppress(OSError):
            while piece:
                piece = b""
                with contextlib.suppress(OSError):
                    piece = one.recv(1 << 16)
                if piece == hosts.NOP:
                    other.sendall(piece)
                    continue
                with self.change:
                    self.came[way] += len(piece)
                    self.change.wait_for(lambda: self.allowed[way] in (None, self.came[way]))
                other.sendall(piece) if piece else other.shutdown(socket.SHUT_WR)
                with self.change:
                    self.went[way] += len(piece)

    def holds(self):
        """Holds back what comes from now on, either way."""
        with self.change:
            self.allowed = dict(self.came)

    def passes(self, way):
        """Passes what is held back on a way, once something is, and waits until the other end has
        answered: what it answers is held back, and so is what comes behind that."""
        answer = {"up": "down", "down": "up"}[way]
        hosts.until(f"something comes {way}", lambda: self.came[way] > self.went[way])
        before = self.came[answer]
        with self.change:
            self.allowed[way] = self.came[way]
            self.change.notify_all()
        hosts.until(f"it is answered {answer}", lambda: self.came[answer] > before)

    def opens(self):
        """Holds nothing back any more."""
        with self.change:
            self.allowed = dict.fromkeys(self.allowed)
            self.change.notify_all()

    def settles(self):
        """Waits until nothing is under way, and nothing more comes."""
        end, quiet, before = time.monotonic() + hosts.PATIENCE, time.monotonic(), None
        while time.monotonic() < min(end, quiet + 0.25):
            now = (*self.came.values(), *self.went.values())
            if now != before or self.came != self.went:
                quiet, before = time.monotonic(), now
            time.sleep(0.01)


class Operator(S3270):
    """An operator who connects by a proxy, until the check is over."""

    def __init__(self, model, proxy):
        super().__init__(model)
        self.proxy = proxy
        self.does(f"Connect({hosts.LOCALHOST}:{proxy.port})", "Wait(InputField)")

    def fills_in(self, panel, texts):
        """Types the texts into these fields of a panel; the cursor ends behind the last."""
        for name, text in texts.items():
            self.does(at(panel, name), "EraseEOF", f'String("{text}")')

    def signs_on(self, model):
        """Signs on, and is shown TRANSFER."""
        self.fills_in("SIGNON", TELLER)
        self.does("Enter", "Wait(Unlock)")
        sees("TRANSFER", self, screen(model, "TRANSFER", TELLER))


# ---- the screens of the bank

BANK = (TOP / "examples/bank.toml").read_text()
PANELS = {it["name"]: it for it in tomllib.loads(BANK)["panel"]}
SIZES = {2: (24, 80), 3: (32, 80), 4: (43, 80), 5: (27, 132)}
TELLER, ACCOUNTS = {"teller": "123456", "password": "SECRET"}, {
    "from_account": "1000200030", "to_account": "1000200044"
}
FILLED_IN = {**ACCOUNTS, "amount": "150.00"}


def bank_for(model):
    """The bank's panels as those of a model, whose larger size they have."""
    if model == 2:
        return BANK.encode()
    text = re.sub(r'(?m)^(name = "[A-Z]+")$', rf'\1\nmodel = {model}\notherwise = "PLAIN"', BANK)
    return (text + '\n[[panel]]\nname = "PLAIN"\n').encode()


def at(panel, name):
    """The action that moves to a field's first cell."""
    field = next(it for it in PANELS[panel]["field"] if it["name"] == name)
    return f"MoveCursor({field['row'] - 1},{field['col'] - 1})"


def screen(model, panel, shown, fields=None, message=""):
    """The rows of a panel: its texts and the values that they show, its fields with these texts,
    else their fills, and the message."""
    rows = [""] * SIZES[model][0]
    texts = [
        (it["row"], it["col"], it.get("text") or shown.get(it["show"], ""))
        for it in PANELS[panel]["text"]
    ]
    texts += [
        (it["row"], it["col"], (fields or {}).get(it["name"], it.get("fill", "")))
        for it in PANELS[panel].get("field", ())
    ]
    for row, column, text in sorted([*texts, (len(rows), 2, message)]):
        rows[row - 1] = (rows[row - 1].ljust(column - 1) + text).rstrip()
    return rows


def sees(what, operator, wanted):
    """The operator sees these rows in the end."""
    with contextlib.suppress(Difference):
        hosts.until(what, lambda: operator.does("Ascii()") == wanted)
    rows = operator.does("Ascii()")
    expect(f"{what}, the number of rows", len(rows), len(wanted))
    differ = [place for place, (it, other) in enumerate(zip(rows, wanted)) if it != other]
    if differ:
        raise Difference(
            *(
                "\n".join(f"row {place + 1}: {it[place]!r}" for place in differ)
                for it in (wanted, rows)
            )
        )


# ---- what is done in the wait

TYPED = "AMOUNT 9999.00"
# Each is some actions behind Reset, and what they make of the fields of TRANSFER.
DONE_IN_THE_WAIT = {
    "types into an empty field": (
        [at("TRANSFER", "reference"), f'String("{TYPED}")'], lambda it: {**it, "reference": TYPED}
    ),
    "types over the amount": (
        [at("TRANSFER", "amount"), "EraseEOF", 'String("9999.00")'],
        lambda it: {**it, "amount": "9999.00"},
    ),
    "erases the input": (["EraseInput"], lambda it: dict.fromkeys([*FILLED_IN, "reference"], "")),
    "erases a field": (
        [at("TRANSFER", "to_account"), "EraseEOF"], lambda it: {**it, "to_account": ""}
    ),
    "deletes a digit": (
        [at("TRANSFER", "from_account"), "Delete"],
        lambda it: {**it, "from_account": it["from_account"][1:]},
    ),
}
# Behind the first of these a second key may be pressed, which is dropped.
IN_THE_WAIT = [(it, ()) for it in DONE_IN_THE_WAIT] + [
    ("types into an empty field", (it,)) for it in ("Enter", "PF(3)", "PA(1)", "Clear")
]
# The first key, which fields are empty then, and whether a host that doesn't verify reads the screen
# before it answers.
KEYS = {
    "Enter": ("Enter", (), False),
    "Enter, without an amount,": ("Enter", ("amount",), False),
    "PA1": ("PA(1)", (), True),
}
# The points of a wait: at once; when the host has the key's record, and what the host sends is under
# way; and of a key for which the host reads the screen when that read is there, and when its answer
# is. From the third on the screen is read.
POINTS, POINTS_WITH_READ, READ = 2, 4, 2
# The models whose terminals are verified, too.
VERIFIED = (2, 5)
MESSAGES = {"Enter, without an amount,": "REQUIRED: amount", "PA1": "KEY NOT ACTIVE"}


def in_the_wait(model, words, key, point, what, second):
    """An operator who presses Reset at a point of the wait, and then changes fields and presses a
    key, sees what one who waits sees."""
    action, empty, _ = KEYS[key]
    actions, change = DONE_IN_THE_WAIT[what]
    shown = {**TELLER, **FILLED_IN}
    # Clear counts in place of a PA key if the screen isn't read yet: what would be read is gone.
    is_cleared = key == "PA1" and second == ("Clear",) and point < READ
    with hosts.Server("serve", *words, text=bank_for(model)) as host, Operator(
        model, Proxy(host.port)
    ) as operator:
        proxy = operator.proxy
        operator.signs_on(model)
        texts = {**FILLED_IN, **dict.fromkeys(empty, "")}
        operator.fills_in("TRANSFER", texts)
        operator.does(at("TRANSFER", "reference"))
        proxy.settles()
        proxy.holds()
        operator.does(action)
        for way in itertools.islice(itertools.cycle(("up", "down")), point):
            proxy.passes(way)
        operator.does("Reset", *actions, *second)
        proxy.opens()
        proxy.settles()
        if is_cleared:
            # It leads to the first panel.
            sees("SIGNON", operator, screen(model, "SIGNON", {}))
            operator.signs_on(model)
        elif key in MESSAGES:
            if key == "PA1" and point < READ:
                texts = change(texts)
            sees("the same panel", operator, screen(model, "TRANSFER", shown, texts, MESSAGES[key]))
        if key in MESSAGES:
            operator.fills_in("TRANSFER", FILLED_IN)
            operator.does("Enter", "Wait(Unlock)")
        sees("DONE", operator, screen(model, "DONE", shown))
        operator.does("Enter", "Wait(Unlock)")
        sees("the next panel", operator, screen(model, "TRANSFER", shown))
        dropped = host.logged().count("event=key-dropped")
        expect("keys that the log says were dropped", dropped, len(second) - is_cleared)


def cases():
    """The dialogues, if s3270 is installed."""
    is_wanted("s3270")
    for model, words, (key, (_, _, is_read)), (what, second) in itertools.product(
        SIZES, ((), ("--verify",)), KEYS.items(), IN_THE_WAIT
    ):
        if words and model not in VERIFIED:
            continue
        for point in range(POINTS_WITH_READ if is_read or words else POINTS):
            name = (
                " ".join(("model", str(model), *words))
                + f": {key} is pressed; at point {point} an operator {what}"
                + "".join(f", then presses {it}" for it in second)
            )
            run = functools.partial(in_the_wait, model, words, key, point, what, second)
            yield Case(name, Place(relative(__file__), in_the_wait.__code__.co_firstlineno), run)
