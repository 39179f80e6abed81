"""Keys of s3270 that a host of panels has no meaning for, and characters that its code page lacks:
none ends the session."""
import re

from harness import hosts
from harness.case import Checks, Difference, expect
from harness.s3270 import S3270, is_wanted

check = Checks()
cases = check.cases

# A field, and a bright text that a light pen marks. The row for messages is bright, too.
PANELS = b"""start = "DESK"
lus = ["DESK01"]
[[panel]]
name = "DESK"
text = [{row = 1, col = 2, text = "NAME"}, {row = 3, col = 2, text = "?PRINT", bright = true}]
field = [{name = "name", row = 1, col = 8, length = 8}]
keys = {enter = "NEXT"}
[[panel]]
name = "NEXT"
text = [{row = 1, col = 2, text = "NEXT"}, {row = 1, col = 8, show = "name", length = 8}]
keys = {pf3 = "DESK"}
"""
SOON = 10


class Session:
    """s3270 at `serve`, which has shown its first panel, with a text typed into its field."""

    def __init__(self, text):
        is_wanted("s3270")
        self.host, self.terminal, self.text = hosts.Server("serve", text=PANELS), S3270(2), text

    def __enter__(self):
        self.host.__enter__()
        self.terminal.__enter__()
        self.does(f"Connect({hosts.LOCALHOST}:{self.host.port})", f"Wait({SOON},InputField)")
        self.does(f'String("{self.text}")')
        return self

    def __exit__(self, *fault):
        self.terminal.__exit__(*fault)
        self.host.__exit__(*fault)

    def does(self, *actions):
        self.terminal.does(*actions)

    def rows(self):
        """The rows that have text, without blanks at their ends."""
        return [it.strip() for it in self.terminal.shows() if it.strip()]

    def comes_to(self, *rows):
        """The screen soon has these rows."""
        hosts.until(f"the screen has {rows}", lambda: self.rows() == list(rows))

    def logs(self, *events):
        """The session is there still, and its log has these events behind the first two."""
        expect("whether it is connected", self.terminal.is_connected(), True)

        def logged():
            return re.findall(r"event=(.*)", self.host.logged())[2:]

        try:
            hosts.until("its log", lambda: logged() == list(events))
        except Difference:
            expect("the log", logged(), list(events))


@check
def a_character_that_the_code_page_lacks_is_one():
    """s3270 sends it by Graphic Escape. The host shows SUB in its place, which s3270 displays as a
    block, and the texts behind it are where they belong."""
    with Session("A€B") as it:
        it.does("Enter()")
        it.comes_to("NEXT  A■B")
        it.logs("character-replaced")


@check
def a_light_pen_on_the_row_of_messages_is_a_key_that_is_not_active():
    """On bright text that begins with a null CursorSelect sends AID 7E. What was typed stays."""
    with Session("ANN") as it:
        it.does("MoveCursor1(24,5)", "CursorSelect()")
        it.comes_to("NAME  ANN", "?PRINT", "KEY NOT ACTIVE")
        it.does("Enter()")
        it.comes_to("NEXT  ANN")
        it.logs()


@check
def a_text_that_a_light_pen_changed_is_restored():
    """On bright text that begins with `?` CursorSelect makes that `>`, and marks the protected field
    as modified: Enter returns it. The panel comes again as the host knows it."""
    with Session("ANN") as it:
        it.does("MoveCursor1(3,2)", "CursorSelect()")
        it.comes_to("NAME  ANN", ">PRINT")
        it.does("Enter()")
        it.comes_to("NAME", "?PRINT", "SCREEN RESTORED")
        it.does("Home()", 'String("BOB")', "Enter()")
        it.comes_to("NEXT  BOB")
        it.logs("screen-restored reason=contradicts")


@check
def clear_in_the_wait_of_a_panel_ends_nothing():
    """Clear, SYSREQ and ATTN after Enter, before the panel is there: it is whole in the end."""
    with Session("ANN") as it:
        it.does("Enter()", "Reset()", "Clear()", "SysReq()", "Attn()")
        hosts.until("a panel", lambda: it.rows() in (["NEXT  ANN"], ["NAME", "?PRINT"]))
        expect("whether it is connected", it.terminal.is_connected(), True)


NUMBER = b"""start = "DESK"
lus = ["DESK01"]
[[panel]]
name = "DESK"
field = [{name = "number", row = 1, col = 2, length = 4, numeric = true}]
"""


@check
def numeric_fields_are_as_the_page_for_users_says():
    """In a numeric field s3270 takes any character, with numericLock only digits, `.` and `,`, and so
    no `-`; this project's terminal takes only digits, `.` and `-`."""
    is_wanted("s3270")
    lock = ("-xrm", "s3270.numericLock: true")
    with hosts.Server("serve", text=NUMBER) as host:
        for more, taken in (((), "07.,-A+"), (lock, "07.,")):
            with S3270(2, *more) as other:
                other.does(f"Connect({hosts.LOCALHOST}:{host.port})", f"Wait({SOON},InputField)")
                for letter in "07.,-A+":
                    other.does("Reset()", "EraseInput()", "Home()")
                    if letter in taken:
                        other.does(f'String("{letter}")')
                    else:
                        other.fails(f'String("{letter}")')
                    shown = [letter] if letter in taken else []
                    expect(f"{more} {letter}", [it.strip() for it in other.shows() if it.strip()], shown)
        for letter in "07.,-A+":
            words = ["term", "--port", host.port]
            said = hosts.run(words, f"wait\ntype {letter}\n".encode())[1]
            expect(f"term: {letter}", said, "" if letter in "07.-" else "refused 3\n")
