"""The codes of the 3270 data stream: the rows of tests/cases/codes.rows, and each value of each
table.

What is wanted of each value is computed here from the rules and tables of GA23-0059-07, and of code
page 037.
"""
import re
from collections.abc import Iterable, Iterator

from harness.case import CASES, Case, of_functions, same
from harness.cells import DISPLAYS, GRAPHIC, plainly
from harness.probe import Probe
from harness.tables import named, rows

# The rows and columns of each model's alternate size.
SIZES = {2: (24, 80), 3: (32, 80), 4: (43, 80), 5: (27, 132)}
CELLS = {model: height * width for model, (height, width) in SIZES.items()}
PF = dict(
    enumerate([*range(0xF1, 0xFA), *range(0x7A, 0x7D), *range(0xC1, 0xCA), *range(0x4A, 0x4D)], 1)
)
PA = {1: 0x6C, 2: 0x6E, 3: 0x6B}
KEYS = {0x60: "NoAid", 0x7D: "Enter", 0x6D: "Clear"}
KEYS |= {code: f"PF{number}" for number, code in PF.items()}
KEYS |= {code: f"PA{number}" for number, code in PA.items()}
# The control codes that a cell can hold; FF is one.
STORED_CONTROLS = {0x00, 0x0C, 0x0D, 0x15, 0x19, 0x1C, 0x1E, 0x3F, 0xFF}
# Code page 037 from 40 on, sixteen codes to a row.
CODE_PAGE_037 = "".join((
    " \u00A0âäàáãåçñ¢.<(+|",
    "&éêëèíîïìß!$*);¬",
    "-/ÂÄÀÁÃÅÇÑ¦,%_>?",
    "øÉÊËÈÍÎÏÌ`:#@'=\"",
    "Øabcdefghi«»ðýþ±",
    "°jklmnopqrªºæ¸Æ¤",
    "µ~stuvwxyz¡¿ÐÝÞ®",
    "^£¥·©§¶¼½¾[]¯¨´×",
    "{ABCDEFGHI\u00ADôöòóõ",
    "}JKLMNOPQR¹ûüùúÿ",
    "\\÷STUVWXYZ²ÔÖÒÓÕ",
    "0123456789³ÛÜÙÚ",
))
LATIN = dict(zip(range(0x40, 0xFF), CODE_PAGE_037))


def in_words(answer: str) -> str:
    """What is printed by Debug, as the rows say it."""
    keys = re.sub(r"P[fa]\((P.)No { number: (\d+) }\)", lambda it: it[1].upper() + it[2], answer)
    return re.sub(r"\bSome\b|[(),]", "", plainly([named(keys)])[0])


def check(wanted: Iterable[tuple[str, str]]) -> None:
    """Asks each command, and compares the first line of its answer."""
    pairs = list(wanted)
    with Probe("codes") as probe:
        for start in range(0, len(pairs), 500):
            part = pairs[start : start + 500]
            for (command, answer), came in zip(
                part, probe.ask_each([command for command, _ in part])
            ):
                same(f"{command} = {answer}", f"{command} = {in_words(came[0])}")


def of_bytes(command: str, answer) -> Iterator[tuple[str, str]]:
    return ((f"{command} {byte:02X}", answer(byte)) for byte in range(256))


def truths(*parts: object) -> str:
    return "".join(f" {str(bool(part)).lower()}" for part in parts)


def each_six_bit_value_has_its_code() -> None:
    same(64, len(set(GRAPHIC)))
    check((f"address 5 {value}", f"{value} 40{code:02X}") for value, code in enumerate(GRAPHIC))
    high = ((value * 64, code) for value, code in enumerate(GRAPHIC) if value * 64 < CELLS[5])
    check((f"address 5 {at}", f"{at} {code:02X}40") for at, code in high)


def each_address_is_written_in_twelve_bits() -> None:
    with Probe("codes") as probe:
        for model, cells in CELLS.items():
            wanted = " ".join(map(str, ["each", *range(cells)]))
            same([wanted], plainly(probe.ask(f"addresses {model}")))
    check(
        (f"address {model} {at}", f"{at} {GRAPHIC[at // 64]:02X}{GRAPHIC[at % 64]:02X}")
        for model, cells in CELLS.items()
        for at in range(cells)
    )
    check(
        (f"address {model} {at}", "none")
        for model, cells in CELLS.items()
        for at in range(cells, 4200)
    )


def read_address(high: int, low: int, cells: int) -> str:
    """Fourteen bits if the two highest bits are zeros, else the six low bits of each byte."""
    address = high * 256 + low if high < 64 else high % 64 * 64 + low % 64
    return str(address) if address < cells else "address beyond the screen"


def each_two_bytes_are_read_as_an_address() -> None:
    with Probe("codes") as probe:
        for model, cells in CELLS.items():
            for high in range(256):
                pairs = "".join(f"{high:02X}{low:02X}" for low in range(256))
                wanted = [read_address(high, low, cells) for low in range(256)]
                came = plainly(probe.ask(f"read {model} {pairs}"))
                same((model, high, wanted), (model, high, came))


def walks_go_round_the_screen() -> None:
    def walk(at: int, count: int, cells: int) -> str:
        return f"{(at + 1) % cells} {(at + count) % cells} {(at - count) % cells} {cells - at}"

    for model, cells in CELLS.items():
        counts = (0, 1, SIZES[model][1], cells - 1, cells)
        check(
            (f"walk {model} {at} {count}", walk(at, count, cells))
            for at in range(cells)
            for count in counts
        )


def attribute(byte: int) -> str:
    display, protected, numeric = DISPLAYS[byte >> 2 & 3], byte & 0x20, byte & 0x10
    without = byte & 0x3C
    codes = f"{GRAPHIC[without | byte & 1]:02X}{GRAPHIC[without]:02X}{GRAPHIC[without | 1]:02X}"
    codes += f" {display}"
    return codes + truths(
        protected,
        numeric,
        protected and numeric,
        display == "Bright",
        display == "Hidden",
        byte & 1,
    )


def each_byte_is_read_as_an_attribute() -> None:
    check(of_bytes("attr", attribute))
    check(
        of_bytes(
            "cell", lambda byte: f"{GRAPHIC[byte & 0x3D]:02X}" + truths(False, not byte & 0x20)
        )
    )


def each_byte_is_read_as_a_write_control_character() -> None:
    check(
        of_bytes(
            "wcc", lambda byte: f"{GRAPHIC[byte & 7]:02X}" + truths(byte & 4, byte & 2, byte & 1)
        )
    )


def key(byte: int) -> str:
    name = KEYS.get(byte)
    return f"{name} {byte:02X}" + truths(name == "Clear" or name[:2] == "PA") if name else "none"


def each_byte_is_read_as_an_attention_identifier() -> None:
    same(30, len(KEYS))
    check(of_bytes("aid", key))
    check((f"pf {number}", key(PF[number]) if number in PF else "none") for number in range(256))
    check((f"pa {number}", key(PA[number]) if number in PA else "none") for number in range(256))


def cells_hold_the_listed_bytes() -> None:
    held = STORED_CONTROLS | set(range(0x40, 0xFF))
    same(200, len(held))
    check(of_bytes("storable", lambda byte: "true" if byte in held else "false"))


def the_code_page_is_the_published_one() -> None:
    same(191, len(set(CODE_PAGE_037)))
    same(bytes(LATIN).decode("cp037"), CODE_PAGE_037)
    check(of_bytes("latin", lambda byte: str(ord(LATIN[byte])) if byte in LATIN else "none"))
    code_of = {ord(character): str(code) for code, character in LATIN.items()}
    numbers = (*range(0x3000), 0xD7FF, 0xE000, 0xFFFF, 0x10FFFF)
    check((f"code {number}", code_of.get(number, "none")) for number in numbers)


def cases() -> Iterator[Case]:
    yield from rows(CASES / "codes.rows", "codes", in_words)
    yield from of_functions(
        (
            each_six_bit_value_has_its_code,
            each_address_is_written_in_twelve_bits,
            each_two_bytes_are_read_as_an_address,
            walks_go_round_the_screen,
            each_byte_is_read_as_an_attribute,
            each_byte_is_read_as_a_write_control_character,
            each_byte_is_read_as_an_attention_identifier,
            cells_hold_the_listed_bytes,
            the_code_page_is_the_published_one,
        )
    )
