"""Clients that say the bytes that a terminal sends which doesn't wait for the host.

After a key that sends, a 3278 refuses all keys until the host has written. x3270 and its like have
a Reset that ends this wait: then fields can be changed, and keys be pressed, before the host's
write is there. The host must show its panels all the same: of an input field a paint takes nothing
for granted, what counts is what the key returned, and a key that comes while the host works is
dropped. No key ends the session. The host marks all fields (MDT), so that Enter and each PF key
return every one. The bytes are spelt by GA23-0059 and RFC 1647."""
import contextlib
import dataclasses
import re
import tempfile

from harness import hosts, applications
from harness.case import Checks, Difference, expect

check = Checks()
cases = check.cases

# The longest time in which a host of this machine answers, in seconds.
SOON = 5

EOR = b"\xff\xef"
# Attributes are at 0, 160, 166, 175, 240, 246, 251 and 1840: USER has its field at 167 to 174, DEPT
# at 247 to 250.
SIGN_ON = b"""start = "SIGNON"
lus = ["PNL01"]
[[panel]]
name = "SIGNON"
text = [
    {row = 1, col = 2, text = "SIGN ON"},
    {row = 3, col = 2, text = "USER"},
    {row = 4, col = 2, text = "DEPT"},
]
field = [
    {name = "user", row = 3, col = 8, length = 8, required = true},
    {name = "dept", row = 4, col = 8, length = 4},
]
keys = {enter = "HELLO"}
[[panel]]
name = "HELLO"
text = [{row = 1, col = 2, text = "HELLO"}, {row = 1, col = 9, show = "user", length = 8}]
keys = {pf3 = "SIGNON"}
"""
# With this a host relies on the wait.
OWN = "--own-terminals"
# The same, but that an application decides on Enter and PA1.
ASKING = SIGN_ON.replace(b'keys = {enter = "HELLO"}', b'asks = ["enter", "pa1"]')


def spelt(text):
    """Bytes in hexadecimal; 00*5 are five of them."""
    return b"".join(
        bytes.fromhex(it.partition("*")[0]) * int(it.partition("*")[2] or 1) for it in text.split()
    )


# SIGN ON behind an Erase/Write. C1 is the attribute of an input field with MDT on; a host that
# relies on the wait writes 40, with MDT off.
SIGN_ON_CELLS = (
    "11 40 40 1D F0 E2 C9 C7 D5 40 D6 D5 11 C2 60 1D F0 E4 E2 C5 D9 11 C2 E6 1D C1 11 C2 6F 1D F0"
    " 11 C3 F0 1D F0 C4 C5 D7 E3 11 C3 F6 1D C1 11 C3 7B 1D F0 11 5C F0 1D F8 11 C2 E7 13"
)
# HELLO written over SIGN ON after Enter with an A in `user`. From 1 on HELLO, a null and an
# attribute, and the A; nulls where texts and their attributes were; and nulls in each cell of the
# input fields, at 166 to 175 and 246 to 251: none of these is taken for granted.
HELLO_OVER_SIGN_ON = (
    "F1 C3 11 40 C1 C8 C5 D3 D3 D6 00 1D F0 C1 11 C2 60 00*5"
    " 11 C2 E6 00*10 11 C3 F0 00*5 11 C3 F6 00*6"
)
# The same of a host that relies on the wait: nothing was returned for `dept`, so that its cells are
# known to be null.
RELYING = (
    "F1 C3 11 40 C1 C8 C5 D3 D3 D6 00 1D F0 C1 11 C2 60 00*5"
    " 11 C2 E6 00*10 11 C3 F0 00*5 11 C3 F6 00 11 C3 7B 00"
)
TO_ORIGIN, NO_MESSAGE = " 11 40 40 13", " 11 5C F1 00*14"
# SIGN ON over HELLO, which has no input field: what differs.
SIGN_ON_OVER_HELLO = (
    "F1 C3 11 40 C1 E2 C9 C7 D5 40 D6 D5 00"
    " 11 C2 60 1D F0 E4 E2 C5 D9 11 C2 E6 1D C1 11 C2 6F 1D F0"
    " 11 C3 F0 1D F0 C4 C5 D7 E3 11 C3 F6 1D C1 11 C3 7B 1D F0 11 C2 E7 13"
)
# The messages of 14 characters, and the write that shows SIGN ON again with one: `user` and `dept` are
# written whole, with their attributes, whose MDT is on, and the cursor is at 167.
REQUIRED_USER = " 11 5C F1 D9 C5 D8 E4 C9 D9 C5 C4 7A 40 A4 A2 85 99"
KEY_NOT_ACTIVE = " 11 5C F1 D2 C5 E8 40 D5 D6 E3 40 C1 C3 E3 C9 E5 C5"
AGAIN = "F1 C2 11 C2 E6 1D C1 {} 11 C3 F6 1D C1 00*4{} 11 C2 E7 13"
NOBODY, AB = "00*8", "C1 C2 00*6"
READ_BUFFER = "F2"
# What keys send: the AID and, but for PA1 and Clear, the cursor, and each field with MDT on. SIGN
# ON has two, of which each is returned: its first address, 167 or 247, and the text behind it, if
# any. HELLO has none.
NO_DEPT = " 11 C3 F7"
ENTER, ENTER_A = "7D C2 E7 11 C2 E7" + NO_DEPT, "7D C2 E8 11 C2 E7 C1" + NO_DEPT
PF3, PA1, CLEAR = "F3 40 40", "6C", "6D"
# Keys that may be pressed in the wait, when a B has been typed behind the A, by the names that the
# log has for them.
SECOND_KEYS = {
    "enter": "7D C2 E9 11 C2 E7 C1 C2" + NO_DEPT,
    "pf3": "F3 C2 E9 11 C2 E7 C1 C2" + NO_DEPT,
    "pa1": PA1,
}


class Waitless(hosts.Client):
    """A client that says what a terminal sends whose Reset ends the wait."""

    def __init__(self, port):
        super().__init__(port)
        self.socket.settimeout(SOON)
        self.data, self.commands, self.is_silent = 0, 0, False

    def more(self):
        """Bytes that came: none if the connection ended, or nothing came soon."""
        try:
            return super().more()
        except TimeoutError:
            self.is_silent = True
            return b""

    def hears_the_end(self):
        super().hears_the_end()
        expect("whether the host is silent where it has to close", self.is_silent, False)

    def record(self, text):
        """3270-DATA with this behind its number, which the next record follows."""
        self.data += 1
        header = b"\x00\x00\x00" + (self.data - 1).to_bytes(2, "big")
        return header + spelt(text).replace(b"\xff", b"\xff\xff") + EOR

    def sends(self, *texts):
        """All records in one piece."""
        self.says(*map(self.record, texts))

    def is_sent(self, text, response=2):
        """A command comes: 2 for one that wants a response, 1 for a read."""
        self.hears(bytes([0, 0, response]), self.commands.to_bytes(2, "big"), spelt(text), EOR)
        self.commands += 1

    def takes(self):
        """Answers the last command positively."""
        self.says(b"\x02\x00\x00", (self.commands - 1).to_bytes(2, "big"), b"\x00", EOR)

    def is_shown(self, text):
        self.is_sent(text)
        self.takes()


@contextlib.contextmanager
def served(*words, text, device="IBM-3278-2", closed=(), dropped=(), restored=(), replaced=0):
    """A client that agreed with `serve` with these words, and was sent no panel yet. At the end the
    log has its LU, these dropped keys, how often characters were replaced, why screens were
    restored, and this cause of a close."""
    with hosts.Server("serve", *words, text=text) as host:
        client = Waitless(host.port)
        client.is_asked()
        client.says(hosts.device_type(7, None, device))
        client.hears(hosts.device_type(4, "PNL01", device))
        client.says(hosts.FUNCTIONS_REQUEST)
        client.hears(hosts.FUNCTIONS_IS)
        yield client
        events = [
            "connected",
            "bound lu=PNL01",
            *(f"key-dropped key={it}" for it in dropped),
            *replaced * ["character-replaced"],
            *(f"screen-restored reason={it}" for it in restored),
            *(f"closed cause={it}" for it in closed),
        ]
        with contextlib.suppress(Difference):
            hosts.until("its log", lambda: len(logged(host)) >= len(events))
        expect("what the host logs", logged(host), events)


@contextlib.contextmanager
def at_the_sign_on(*words, text=SIGN_ON, **how):
    """The same, and the client was shown SIGN ON."""
    cells = SIGN_ON_CELLS.replace("1D C1", "1D 40") if OWN in words else SIGN_ON_CELLS
    with served(*words, text=text, **how) as client:
        client.is_shown("F5 C3 " + cells)
        yield client


def logged(host):
    """The events of the log but for commands, without the figures of a session."""
    return re.findall(r"event=(?!command)(.*?)(?: duration=.*)?$", host.logged(), re.MULTILINE)


def goes_on(client, shown=HELLO_OVER_SIGN_ON + TO_ORIGIN, back=SIGN_ON_OVER_HELLO):
    """HELLO is shown over SIGN ON, and PF3 leads back."""
    client.is_shown(shown)
    client.sends(PF3)
    client.is_shown(back)


def screen_read(aid, user, dept="00*4", message="00*14", cursor="C2 E8"):
    """What answers Read Buffer while SIGN ON is shown: each cell, an input field's attribute with
    MDT on, as it was written."""
    user, dept = (f"1D C1 {it} 1D F0" for it in (user, dept))
    texts = (
        "1D F0 E2 C9 C7 D5 40 D6 D5 00*152 1D F0 E4 E2 C5 D9 00",
        "00*64 1D F0 C4 C5 D7 E3 00",
        f"00*1588 1D F8 {message} 00*65",
    )
    return f"{aid} {cursor} {texts[0]} {user} {texts[1]} {dept} {texts[2]}"


@check
def what_is_typed_in_the_wait_is_written_over():
    """Of a field that wasn't returned each cell is written too, since something may have been typed
    there in the wait."""
    with at_the_sign_on() as client:
        client.sends(ENTER_A)
        goes_on(client)


@check
def what_is_typed_in_the_wait_is_gone_from_a_panel_that_is_shown_again():
    """It has what the host was told, whatever is in its fields: here nothing."""
    with at_the_sign_on() as client:
        client.sends(ENTER)
        # BOB is typed into `user` before this comes, and written over by it.
        client.is_shown(AGAIN.format(NOBODY, REQUIRED_USER))
        client.sends(ENTER_A)
        goes_on(client, HELLO_OVER_SIGN_ON + NO_MESSAGE + TO_ORIGIN)


@check
def what_is_typed_in_the_wait_never_counts():
    """ANN is told by Enter. Reset, Home and BOB, before HELLO is there, aren't told: the host
    doesn't read the screen."""
    with at_the_sign_on() as client:
        client.sends(ENTER)
        client.is_shown(AGAIN.format(NOBODY, REQUIRED_USER))
        client.sends("7D C2 EA 11 C2 E7 C1 D5 D5" + NO_DEPT)
        hello_ann = HELLO_OVER_SIGN_ON.replace("1D F0 C1", "1D F0 C1 D5 D5")
        client.is_shown(hello_ann + NO_MESSAGE + TO_ORIGIN)


@check
def what_is_typed_in_the_wait_never_counts_for_who_verifies():
    """The same with --verify: after each Enter the host reads the screen, which has BOB by then. It
    verifies that no rule was broken, and says HELLO ANN."""
    with at_the_sign_on("--verify") as client:
        client.sends(ENTER)
        client.is_sent(READ_BUFFER, response=1)
        client.sends(screen_read("7D", "00*8", cursor="C2 E7"))
        client.is_shown(AGAIN.format(NOBODY, REQUIRED_USER))
        client.sends("7D C2 EA 11 C2 E7 C1 D5 D5" + NO_DEPT)
        client.is_sent(READ_BUFFER, response=1)
        message = REQUIRED_USER.removeprefix(" 11 5C F1 ")
        client.sends(screen_read("7D", "C2 D6 C2 00*5", message=message, cursor="C2 EA"))
        hello_ann = HELLO_OVER_SIGN_ON.replace("1D F0 C1", "1D F0 C1 D5 D5")
        client.is_shown(hello_ann + NO_MESSAGE + TO_ORIGIN)


@check
def a_key_in_the_hosts_turn_is_dropped():
    """It comes right behind another: the host answers the first, and the session goes on."""
    for name, second in SECOND_KEYS.items():
        with at_the_sign_on(dropped=[name]) as client:
            client.sends(ENTER_A, second)
            goes_on(client)


@check
def a_key_while_a_write_is_pending_is_dropped():
    """It comes before the response to the write that answers the first key."""
    for name, second in SECOND_KEYS.items():
        with at_the_sign_on(dropped=[name]) as client:
            client.sends(ENTER_A)
            client.is_sent(HELLO_OVER_SIGN_ON + TO_ORIGIN)
            client.sends(second)
            client.takes()
            client.sends(PF3)
            client.is_shown(SIGN_ON_OVER_HELLO)


@check
def a_key_while_a_read_is_pending_is_dropped():
    """The read's answer is still awaited. It has the second key's AID, but the host answers the
    first key, PA1."""
    for name, second in SECOND_KEYS.items():
        with at_the_sign_on(dropped=[name]) as client:
            client.sends(PA1)
            client.is_sent(READ_BUFFER, response=1)
            client.sends(second, screen_read(second[:2], AB))
            client.is_shown(AGAIN.format(AB, KEY_NOT_ACTIVE))
            client.sends(PA1)
            client.is_sent(READ_BUFFER, response=1)
            message = KEY_NOT_ACTIVE.removeprefix(" 11 5C F1 ")
            client.sends(screen_read("6C", AB, message=message))
            # The message is there already.
            client.is_shown(AGAIN.format(AB, ""))


@check
def many_keys_in_one_wait_are_dropped():
    """All but the first are, at each point of the wait."""
    with at_the_sign_on(dropped=[*SECOND_KEYS, *SECOND_KEYS]) as client:
        client.sends(ENTER_A, *SECOND_KEYS.values())
        client.is_sent(HELLO_OVER_SIGN_ON + TO_ORIGIN)
        client.sends(*SECOND_KEYS.values())
        client.takes()
        client.sends(PF3)
        client.is_shown(SIGN_ON_OVER_HELLO)


@check
def dropped_keys_are_counted():
    """The metrics have the number of all of them, without a key or a connection."""
    port = hosts.free_port()
    with at_the_sign_on("--metrics", str(port), dropped=[*SECOND_KEYS]) as client:
        client.sends(ENTER_A, *SECOND_KEYS.values())
        goes_on(client)
        page = hosts.scraped(port, hosts.GET).decode().splitlines()
        expect(
            "the metric",
            [it for it in page if it.startswith("panel3270_dropped_keys")],
            ["panel3270_dropped_keys_total 3"],
        )


def an_application():
    application = applications.Application()
    application.listener.settimeout(SOON)
    return application


@check
def a_question_has_the_first_key_and_what_was_read():
    """Behind PA1 a second key is dropped, whose AID the screen has that is read: asked is PA1, with
    the texts and the cursor of that screen."""
    application = an_application()
    with at_the_sign_on("--application", application.url, text=ASKING, dropped=["enter"]) as client:
        client.sends(PA1)
        client.is_sent(READ_BUFFER, response=1)
        client.sends(SECOND_KEYS["enter"], screen_read("7D", AB, dept="E7 00*3"))
        exchange = application.takes()
        asked = {it: exchange.asked[it] for it in ("key", "cursor", "fields")}
        expect(
            "the question",
            asked,
            {"key": "pa1", "cursor": {"row": 3, "col": 9}, "fields": {"user": "AB", "dept": "X"}},
        )
        exchange.sends({"panel": "HELLO"})
        # Without a reset of MDT, as each answer is shown, and with AB.
        client.is_shown(
            HELLO_OVER_SIGN_ON.replace("F1 C3", "F1 C2").replace("1D F0 C1", "1D F0 C1 C2")
            + TO_ORIGIN
        )


@check
def a_field_is_written_with_its_mdt():
    """An answer that fills `user` has the panel written without a reset: each field's attribute is
    written too, as MDT may be on or off."""
    application = an_application()
    with at_the_sign_on("--application", application.url, text=ASKING) as client:
        client.sends(ENTER_A)
        application.takes().sends({"fields": {"user": "BOB"}})
        client.is_shown(AGAIN.format("C2 D6 C2 00*5", ""))


@check
def clear_in_the_hosts_turn_erases():
    """The host answers the key before it, and takes nothing of the screen for granted: HELLO behind
    an Erase/Write, which leaves nulls."""
    with at_the_sign_on(dropped=["clear"]) as client:
        client.sends(ENTER_A, CLEAR)
        goes_on(
            client,
            "F5 C3 11 40 40 1D F0 C8 C5 D3 D3 D6 11 40 C7 1D F0 C1 11 5C F0 1D F8" + TO_ORIGIN,
        )


# SIGN ON, whole, with SCREEN RESTORED, after data that can't be believed.
RESTORED = "F5 C2 " + SIGN_ON_CELLS.replace(
    "1D F8", "1D F8 E2 C3 D9 C5 C5 D5 40 D9 C5 E2 E3 D6 D9 C5 C4"
)


@check
def what_no_key_in_the_wait_sends_is_painted_over():
    """AID 60 is no key's. With a write pending that doesn't erase, the panel is shown again, whole;
    with a read pending the one that is there, with SCREEN RESTORED."""
    hello = "F5 C2 11 40 40 1D F0 C8 C5 D3 D3 D6 11 40 C7 1D F0 C1 11 5C F0 1D F8" + TO_ORIGIN
    for first, command, response, shown in (
        (ENTER_A, HELLO_OVER_SIGN_ON + TO_ORIGIN, 2, hello), (PA1, READ_BUFFER, 1, RESTORED)
    ):
        with at_the_sign_on(restored=["no-key"]) as client:
            client.sends(first)
            client.is_sent(command, response)
            client.sends("60 C2 E8 11 C2 E7 C1")
            if response == 2:
                client.takes()
            client.is_shown(shown)


@check
def what_cannot_be_believed_is_painted_over():
    """A text for a cell that begins no field, and data without a form: the session goes on."""
    for why, data in (("contradicts", "7D C2 E8 11 40 C1 C1"), ("unreadable", "7D 5E 40")):
        with at_the_sign_on(restored=[why]) as client:
            client.sends(data)
            client.is_shown(RESTORED)
            client.sends(ENTER_A)
            goes_on(client, HELLO_OVER_SIGN_ON + " 11 5C F1 00*15" + TO_ORIGIN)


@check
def a_key_without_a_meaning_is_not_active():
    """CursorSelect (AID 7E), a card reader (E6) and others: the screen is read, whose answer has the
    same AID, and the panel comes again with KEY NOT ACTIVE and what was typed. Out of turn such a
    key is dropped."""
    for aid in ("7E", "7F", "88", "E6", "E7", "F0"):
        with at_the_sign_on(dropped=["other"]) as client:
            client.sends(aid + " C2 E9 11 C2 E7 C1 C2" + NO_DEPT)
            client.is_sent(READ_BUFFER, response=1)
            client.sends(screen_read(aid, "C1 C2 00*6", message="00*14", cursor="C2 E9"))
            client.is_shown(AGAIN.format(AB, KEY_NOT_ACTIVE))
            client.sends(ENTER_A, aid)
            goes_on(client, HELLO_OVER_SIGN_ON + NO_MESSAGE + TO_ORIGIN)


@check
def an_escaped_character_is_one_cell_of_a_screen_that_is_read():
    """PA1 isn't active: the screen is read, and the panel comes again with what is there."""
    with at_the_sign_on(replaced=1) as client:
        client.sends(PA1)
        client.is_sent(READ_BUFFER, response=1)
        client.sends(screen_read("6C", "C1 08 5A 00*6"))
        client.is_shown(AGAIN.format("C1 3F 00*6", KEY_NOT_ACTIVE))


@check
def an_escaped_character_is_one_that_the_application_cannot_name():
    """08 5A, as s3270 sends a euro sign by code page 037: U+FFFD."""
    with asking(MODEL_2, dropped=(), replaced=1) as (application, client):
        client.sends("7D C2 E9 11 C2 E7 C1 08 5A" + NO_DEPT)
        fields = {"user": "A\ufffd", "dept": ""}
        is_asked(application, "enter", fields).sends(MODEL_2.answer)
        hello = MODEL_2.following.replace("1D F0 C1", "1D F0 C1 3F")
        client.is_shown(hello)


@check
def own_terminals_are_relied_on():
    """With --own-terminals no field is marked, so that Enter returns `user` alone, the host writes
    what it doesn't know alone, and a second key closes."""
    enter = ENTER_A.removesuffix(NO_DEPT)
    with at_the_sign_on(OWN) as client:
        client.sends(enter)
        goes_on(client, RELYING + TO_ORIGIN, SIGN_ON_OVER_HELLO.replace("1D C1", "1D 40"))
    with at_the_sign_on(OWN, closed=["BadInbound number=7"]) as client:
        client.sends(enter, enter)
        client.hears_the_end()


# ---- Clear in the wait, with an application


@dataclasses.dataclass(frozen=True)
class Screens:
    """A device, panels that ask about Enter and PA1, and what is sent there: the first panel; Enter
    with an A; by the answer that names the next panel, this over the first, and behind an erase; by
    the answer TAKEN, the first again, and that behind an erase; what Clear leaves to be read; and a
    note."""

    device: str
    text: bytes
    first: str
    enter_a: str
    fields: dict
    answer: dict
    following: str
    following_erased: str
    taken: str
    taken_erased: str
    cleared: str
    note: str


TAKEN = {"fields": {"user": "BOB"}, "message": "TAKEN"}
MODEL_2 = Screens(
    device="IBM-3278-2",
    text=ASKING,
    first="F5 C3 " + SIGN_ON_CELLS,
    enter_a=ENTER_A,
    fields={"user": "A", "dept": ""},
    answer={"panel": "HELLO"},
    # An answer's panel is written without a reset of MDT.
    following=HELLO_OVER_SIGN_ON.replace("F1 C3", "F1 C2") + TO_ORIGIN,
    following_erased=(
        "F5 C2 11 40 40 1D F0 C8 C5 D3 D3 D6 11 40 C7 1D F0 C1 11 5C F0 1D F8" + TO_ORIGIN
    ),
    taken=AGAIN.format("C2 D6 C2 00*5", " 11 5C F1 E3 C1 D2 C5 D5"),
    taken_erased="F5 C2 "
    + SIGN_ON_CELLS.replace("C2 E6 1D C1", "C2 E6 1D C1 C2 D6 C2").replace(
        "1D F8", "1D F8 E3 C1 D2 C5 D5"
    ),
    cleared="6D 40 40 00*1920",
    note="F1 40 11 5C F1 C8 C5 E8 00*76",
)
# 27 by 132: the attributes of `user` are at 132 and 137, its cells at 133 to 136; the last row
# begins at 3432.
WIDE = b"""start = "WIDE"
lus = ["PNL01"]
[[panel]]
name = "WIDE"
model = 5
otherwise = "HOME"
text = [{row = 1, col = 2, text = "W"}]
field = [{name = "user", row = 2, col = 2, length = 4, required = true}]
asks = ["enter", "pa1"]
[[panel]]
name = "BIG"
model = 5
otherwise = "HOME"
text = [{row = 1, col = 2, text = "B"}, {row = 2, col = 2, show = "user", length = 4}]
[[panel]]
name = "HOME"
"""
WIDE_CELLS = "11 40 40 1D F0 E6 11 C2 C4 1D C1{} 11 C2 C9 1D F0 11 F5 E8 1D F8{} 11 C2 C5 13"
MODEL_5 = Screens(
    device="IBM-3278-5",
    text=WIDE,
    first="7E C3 " + WIDE_CELLS.format("", ""),
    enter_a="7D C2 C6 11 C2 C5 C1",
    fields={"user": "A"},
    answer={"panel": "BIG"},
    following="F1 C2 11 40 C1 C2 11 C2 C4 1D F0 C1 00*4" + TO_ORIGIN,
    following_erased="7E C2 11 40 40 1D F0 C2 11 C2 C4 1D F0 C1 11 F5 E8 1D F8" + TO_ORIGIN,
    taken="F1 C2 11 C2 C4 1D C1 C2 D6 C2 00 11 F5 E9 E3 C1 D2 C5 D5 11 C2 C5 13",
    taken_erased="7E C2 " + WIDE_CELLS.format(" C2 D6 C2", " E3 C1 D2 C5 D5"),
    cleared="6D 40 40 00*3564",
    note="F1 40 11 F5 E9 C8 C5 E8 00*128",
)


@contextlib.contextmanager
def asking(screens, *words, dropped=("clear",), keys='"enter", "pa1"', **how):
    """An application, and a client that was shown the first panel, which asks about these keys."""
    application = an_application()
    text = screens.text.replace(b'"enter", "pa1"', keys.encode())
    how |= {"text": text, "device": screens.device, "dropped": dropped}
    with served("--application", application.url, *words, **how) as client:
        client.is_shown(screens.first)
        yield application, client


def is_asked(application, key, fields):
    """The application is asked about this key, with these texts; its exchange."""
    exchange = application.takes()
    asked = {it: exchange.asked[it] for it in ("key", "fields")}
    expect("the question", asked, {"key": key, "fields": fields})
    return exchange


def is_silent(client):
    """The host sends nothing but IAC NOP for a while."""
    client.socket.settimeout(0.2)
    expect("what the host sends", client.came(1), b"")
    client.socket.settimeout(SOON)
    client.is_silent = False


@check
def clear_while_a_question_is_open_has_its_answer_erase():
    """Whether the answer names a panel, or has the same one shown again. The application isn't
    asked again."""
    for screens in (MODEL_2, MODEL_5):
        for answer, shown in (
            (screens.answer, screens.following_erased), (TAKEN, screens.taken_erased)
        ):
            with asking(screens) as (application, client):
                client.sends(screens.enter_a)
                exchange = is_asked(application, "enter", screens.fields)
                client.sends(CLEAR)
                exchange.sends(answer)
                client.is_shown(shown)
                application.has_no_other()
                is_silent(client)


@check
def clear_while_an_answer_that_erases_is_under_way_changes_nothing():
    """Clear came before, too, so that the answer is shown behind an erase. What that wrote is
    there, whatever was cleared before it: nothing is sent again, and nothing is asked."""
    for screens in (MODEL_2, MODEL_5):
        with asking(screens, dropped=["clear", "clear"]) as (application, client):
            client.sends(screens.enter_a)
            exchange = is_asked(application, "enter", screens.fields)
            client.sends(CLEAR)
            exchange.sends(TAKEN)
            client.is_sent(screens.taken_erased)
            client.sends(CLEAR)
            client.takes()
            is_silent(client)
            # The next key asks.
            client.sends(screens.enter_a)
            is_asked(application, "enter", screens.fields).sends(screens.answer)
            # Over TAKEN, which becomes null.
            row = screens.taken.partition(" E3 C1 D2 C5 D5")[0][-9:]
            client.is_shown(screens.following.removesuffix(TO_ORIGIN) + row + " 00*5" + TO_ORIGIN)


@check
def clear_while_an_answer_is_under_way_has_it_shown_again():
    """The answer comes once more, behind an erase, with its panel or with its texts and its
    message. The application isn't asked again."""
    for screens in (MODEL_2, MODEL_5):
        for answer, shown, again in (
            (screens.answer, screens.following, screens.following_erased),
            (TAKEN, screens.taken, screens.taken_erased),
        ):
            with asking(screens) as (application, client):
                client.sends(screens.enter_a)
                is_asked(application, "enter", screens.fields).sends(answer)
                client.is_sent(shown)
                client.sends(CLEAR)
                client.takes()
                client.is_shown(again)
                application.has_no_other()
                is_silent(client)


@check
def clear_while_the_screen_is_read_to_be_verified_has_the_answer_erase():
    """The key was Enter with an A, which is asked with the texts that it returned."""
    for screens in (MODEL_2, MODEL_5):
        with asking(screens, "--verify") as (application, client):
            client.sends(screens.enter_a)
            client.is_sent(READ_BUFFER, response=1)
            client.sends(CLEAR, screens.cleared)
            is_asked(application, "enter", screens.fields).sends(screens.answer)
            client.is_shown(screens.following_erased)
            application.has_no_other()


@check
def clear_while_the_screen_is_read_after_pa_counts_in_its_place():
    """The panel that was read is gone. Clear leads nowhere: the first panel comes, fresh, and PA1
    is never asked. A panel that asks about Clear has that asked, once, without texts."""
    for screens in (MODEL_2, MODEL_5):
        with asking(screens, dropped=()) as (application, client):
            client.sends(PA1)
            client.is_sent(READ_BUFFER, response=1)
            client.sends(CLEAR, screens.cleared)
            client.is_shown(screens.first)
            application.has_no_other()
        with asking(screens, dropped=(), keys='"clear", "pa1"') as (application, client):
            client.sends(PA1)
            client.is_sent(READ_BUFFER, response=1)
            client.sends(CLEAR, screens.cleared)
            is_asked(application, "clear", {}).sends({"message": "TAKEN"})
            client.is_shown(screens.taken_erased.replace(" C2 D6 C2", ""))
            application.has_no_other()


@check
def pa_and_clear_in_one_piece_are_clear():
    """The host reads nothing, and asks about Clear alone."""
    for screens in (MODEL_2, MODEL_5):
        with asking(screens, dropped=(), keys='"clear", "pa1"') as (application, client):
            client.sends(PA1, CLEAR)
            is_asked(application, "clear", {}).sends({"message": "TAKEN"})
            client.is_shown(screens.taken_erased.replace(" C2 D6 C2", ""))
            application.has_no_other()


@check
def clear_while_a_note_is_under_way_has_the_answer_erase():
    """The note was sent before Enter came, and is answered behind Clear."""
    for screens in (MODEL_2, MODEL_5):
        with tempfile.TemporaryDirectory() as folder, asking(
            screens, "--control", f"{folder}/control"
        ) as (application, client):
            hosts.run(["tell", f"{folder}/control", "note", "PNL01", "HEY"], b"")
            client.is_sent(screens.note)
            client.sends(screens.enter_a, CLEAR)
            client.takes()
            is_asked(application, "enter", screens.fields).sends(screens.answer)
            client.is_shown(screens.following_erased)
            application.has_no_other()
