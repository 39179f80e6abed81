"""The talks of TN3270E: the stories of tests/cases/talks.blocks, and each item in each state.

What is wanted in a state is written here as RFC 1647, section 7, and our profile have it.
"""
import functools
from collections.abc import Iterator

from harness.case import CASES, Case, Place, same
from harness.probe import Probe
from harness.tables import blocks, hexadecimal, named

TYPE, OFFER = hexadecimal(b"IBM-3278-2"), "280307000204"
# Messages, by what they are.
MESSAGES = {
    "SEND DEVICE-TYPE": "sub 280802",
    "DEVICE-TYPE REQUEST": f"sub 280207{TYPE}",
    "DEVICE-TYPE IS": f"sub 280204{TYPE}0141",
    "DEVICE-TYPE REJECT": "sub 2802060503",
    "FUNCTIONS REQUEST {2}": "sub 28030702",
    "FUNCTIONS REQUEST {2, others}": f"sub {OFFER}",
    "FUNCTIONS REQUEST {}": "sub 280307",
    "FUNCTIONS REQUEST without 2": "sub 2803070004",
    "FUNCTIONS IS {2}": "sub 28030402",
    "FUNCTIONS IS {2, others}": "sub 2803040200",
    "FUNCTIONS IS {}": "sub 280304",
    "a malformed message": "sub 28",
}
# Items that say the same to each end, and how it answers: what is sent, and the reply.
OTHERS = {
    "Do 18": "FFFC18; Opt(Wont, 24)",
    "Will 18": "FFFE18; Opt(Dont, 24)",
    "Wont 18": "-; Nothing",
    "Dont 18": "-; Nothing",
    "record 00": "-; Nothing",
    "other F1": "-; Nothing",
    "sub -": "-; Nothing",
    "sub 180802": "-; Nothing",
}
# With those about TN3270E itself, of which one closes.
HOST_ITEMS = OTHERS | {
    "Wont 28": None,
    "Dont 28": "-; Nothing",
    "Do 28": "FFFC28; Opt(Wont, 40)",
    "Will 28": "-; Nothing",
}
TERMINAL_ITEMS = OTHERS | {
    "Dont 28": None,
    "Wont 28": "-; Nothing",
    "Will 28": "FFFE28; Opt(Dont, 40)",
    "Do 28": "-; Nothing",
}


def closes(cause: str) -> str:
    return f"-; Close({cause}); closes {cause}; Closed({cause})"


def asks_for_functions(countered: str, agreed: str) -> dict[str, str]:
    """How an end answers FUNCTIONS REQUEST: the state if it counters, and the one if it agrees."""
    return {
        "FUNCTIONS REQUEST {2}": f"FFFA28030402FFF0; Sub(FunIs, Agreed); {agreed}",
        "FUNCTIONS REQUEST {2, others}": f"FFFA28030702FFF0; Sub(FunRequest, Going); {countered}",
        "FUNCTIONS REQUEST {}": closes("NoResponses"),
        "FUNCTIONS REQUEST without 2": closes("NoResponses"),
    }


GRANTED = asks_for_functions("Countered(Model2, A)", "Agreed(Model2, A)")
# Of each state the commands that lead there from the state above, and the items with a meaning
# there.
HOST = {
    "Offered": ([], {"Will 28": "FFFA280802FFF0; Sub(SendType, Going); Asked"}),
    "Asked": (["hears Will 28"], {"DEVICE-TYPE REQUEST": "-; AskPool(None); Asking(Model2)"}),
    "Asking(Model2)": ([f"hears sub 280207{TYPE}"], {}),
    "Named(Model2, A)": (["granted 41"], GRANTED),
    "Countered(Model2, A)": (
        [f"hears sub {OFFER}"], {**GRANTED, "FUNCTIONS IS {2}": "-; Agreed; Agreed(Model2, A)"}
    ),
    "Agreed(Model2, A)": (["hears sub 28030402"], {}),
}
TERMINAL = {
    "Waiting": ([], {"Do 28": "FFFB28; Opt(Will, 40); Willing"}),
    "Willing": (["takes Do 28"], {
        "SEND DEVICE-TYPE": f"FFFA280207{TYPE}FFF0; Sub(TypeRequest(M2, None), Going); TypeAsked",
    }),
    "TypeAsked": (["takes sub 280802"], {
        "DEVICE-TYPE IS": "FFFA28030702FFF0; Sub(FunRequest, Going); FunctionsAsked(A)",
        "DEVICE-TYPE REJECT": "-; Refused(Reason(3)); Refused(Reason(3))",
    }),
    "FunctionsAsked(A)": ([f"takes sub 280204{TYPE}0141"], {
        **asks_for_functions("FunctionsAsked(A)", "Agreed(A)"),
        "FUNCTIONS IS {2}": "-; Agreed; Agreed(A)",
        "FUNCTIONS IS {2, others}": closes("NoResponses"),
        "FUNCTIONS IS {}": closes("NoResponses"),
    }),
    "Agreed(A)": (["takes sub 28030402"], {}),
}


def answers(
    state: str, meanings: dict[str, str], items: dict[str, str | None]
) -> Iterator[tuple[str, str]]:
    """Each item, and the answer to it in this state, which no message has a meaning in but
    these."""
    for item, reply in items.items():
        yield item, meanings.get(item) or (f"{reply}; {state}" if reply else closes("NoTn3270e"))
    for message, item in MESSAGES.items():
        yield item, meanings.get(message, closes("BadTalk"))


def as_printed(wanted: str) -> str:
    """An answer, with the cause if it closes, as the probe prints it."""
    sends, reply, *closing, state = wanted.split("; ")
    cause = f"Some({closing[0].removeprefix('closes ')})" if closing else "None"
    return f"({sends}, {reply}, {cause}, {state})"


def check_item(before: list[str], command: str, wanted: str) -> None:
    with Probe("messages") as probe:
        for step in before:
            probe.ask(step)
        same(as_printed(wanted), named("; ".join(probe.ask(command))))


def items_in_states() -> Iterator[tuple[str, list[str], str, str]]:
    """Each state, the commands that lead there, a command on an item, and what is wanted."""
    ends = (HOST, "host", "hears", HOST_ITEMS), (TERMINAL, "terminal 2", "takes", TERMINAL_ITEMS)
    for states, start, call, items in ends:
        before = [start]
        for state, (steps, meanings) in states.items():
            before = before + steps
            yield from (
                (state, before, f"{call} {item}", wanted)
                for item, wanted in answers(state, meanings, items)
            )
        closing = [start, f"{call} sub 28"]
        yield from (
            ("Closed", closing, f"{call} {item}", closes("BadTalk"))
            for item in (*items, *MESSAGES.values())
        )
    refused = ["terminal 2", "takes Do 28", "takes sub 280802", "takes sub 2802060503"]
    dropped = "-; Nothing; Refused(Reason(3))"
    yield from (
        ("Refused", refused, f"takes {item}", dropped)
        for item in (*TERMINAL_ITEMS, *MESSAGES.values())
    )


def cases() -> Iterator[Case]:
    yield from blocks(CASES / "talks.blocks", "messages", named)
    at = Place("tests/suites/talks.py", items_in_states.__code__.co_firstlineno)
    for state, before, command, wanted in items_in_states():
        yield Case(
            f"{state}: {command}", at, functools.partial(check_item, before, command, wanted)
        )
