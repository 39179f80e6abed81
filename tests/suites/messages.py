"""Headers, names and messages of TN3270E: the rows of tests/cases/messages.rows, and each value of
what is small.

What is wanted of each value is computed here from RFC 1647, and from our profile's names of LUs.
"""
import string
from collections.abc import Iterable, Iterator

from harness.case import CASES, Case, of_functions, same
from harness.data import lines_of
from harness.probe import Probe
from harness.tables import hexadecimal, named, row_of, rows

TYPES = (
    "Data3270", "ScsData", "Response", "BindImage", "Unbind", "NvtData", "Request", "SscpLuData"
)
# The highest RESPONSE-FLAG of the types that haven't each.
HIGHEST = {0: 2, 2: 1}
FIRSTS = set((string.ascii_letters + "@#$").encode())
LETTERS = FIRSTS | set(string.digits.encode())
MALFORMED, NOT_OURS = "no message of TN3270E", "subnegotiation of another option"


def check(wanted: Iterable[tuple[str, str]]) -> None:
    """Asks each command, and compares the begin of its answer."""
    pairs = list(wanted)
    with Probe("messages") as probe:
        for start in range(0, len(pairs), 200):
            part = pairs[start : start + 200]
            for (command, answer), came in zip(
                part, probe.ask_each([command for command, _ in part])
            ):
                came = named("; ".join(came))
                same(f"{command} = {answer}", f"{command} = {came[: len(answer) or None]}")


def header(kind: int, flag: int) -> tuple[str, str]:
    spelling = bytes([kind, 9, flag, 128, kind])
    name = TYPES[kind] if kind < 8 else f"Unnamed({kind})"
    if flag > HIGHEST.get(kind, 255):
        return f"header {hexadecimal(spelling)}F1", "response flag out of range"
    fields = f"kind: {name}, request: 9, flag: {flag}, seq: {128 * 256 + kind}"
    spelt = hexadecimal(spelling)
    return f"header {spelt}F1", f"(Header {{ {fields} }}, F1); {spelt}"


def each_type_takes_its_flags() -> None:
    check(header(kind, flag) for kind in range(256) for flag in (0, 1, 2, 3, 255))


def each_number_has_its_next() -> None:
    check((f"next {number}", str(number + 1 if number < 32767 else 0)) for number in range(65536))


def each_byte_is_a_letter_of_a_name_or_none() -> None:
    def name(text: bytes, is_name: bool) -> tuple[str, str]:
        kept = text.upper()
        printed = f"{kept.decode('latin-1')} {hexadecimal(kept)}"
        return f"lu {hexadecimal(text)}", printed if is_name else ""

    check(name(bytes([byte]), byte in FIRSTS) for byte in range(256))
    for length in (1, 7, 8):
        check(
            name(b"A" * length + bytes([byte]), byte in LETTERS and length < 8)
            for byte in range(256)
        )


def each_byte_may_be_in_a_text_from_21_to_7e() -> None:
    def request(byte: int) -> str:
        return (
            f"TypeRequest {{ device: 58{byte:02X}, name: None }}"
            if 0x21 <= byte <= 0x7E
            else MALFORMED
        )

    check((f"sub 28020758{byte:02X}", request(byte)) for byte in range(256))
    named = {True: "TypeIs {{ device: 58, name: {:02X} }}", False: MALFORMED}
    check(
        (f"sub 2802045801{byte:02X}", named[0x21 <= byte <= 0x7E].format(byte))
        for byte in range(256)
    )


def each_option_but_ours_is_dropped() -> None:
    check((f"sub {byte:02X}0802", "SendType" if byte == 0x28 else NOT_OURS) for byte in range(256))


def each_other_word_is_malformed() -> None:
    """SEND, DEVICE-TYPE and FUNCTIONS are followed by what RFC 1647 lists, and nothing else begins
    a message."""
    known = {0x0802: "SendType", 0x0304: "FunIs(-)", 0x0307: "FunRequest(-)"}
    check((f"sub 28{words:04X}", known.get(words, MALFORMED)) for words in range(65536))


def where_there_is_room_no_memory_is_taken() -> None:
    written = [
        (line, row_of(line))
        for line in lines_of(CASES / "messages.rows") if "; FFFA" in line.text
    ]
    same(True, bool(written))
    with Probe("messages") as probe:
        for line, (command, answer) in written:
            spelling = answer.partition("; ")[2]
            probe.ask(f"vector {len(spelling) // 2} -")
            room = probe.ask("capacity")
            same(spelling, named(probe.ask(command, line.at)[1]), line.at)
            same(room, probe.ask("capacity"), line.at)


def cases() -> Iterator[Case]:
    yield from rows(CASES / "messages.rows", "messages", named)
    yield from of_functions(
        (
            each_type_takes_its_flags,
            each_number_has_its_next,
            each_byte_is_a_letter_of_a_name_or_none,
            each_byte_may_be_in_a_text_from_21_to_7e,
            each_option_but_ours_is_dropped,
            each_other_word_is_malformed,
            where_there_is_room_no_memory_is_taken,
        )
    )
