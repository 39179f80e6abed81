"""What command lines and lines of scripts ask for: tests/cases/*.commands. A line of a file is a
case: a line, in brackets, and its command.

    words [TEXT] = JOB          the words of a command line
    script [TEXT] = COMMAND     a line of a script
    terminal [TEXT] = COMMAND   a line of a terminal's script

A command is spelt as a script would spell it, with all defaults filled in, and the text of a note
in code page 037. An empty line, and one that begins with `#`, is for the reader. Some lines have a
carriage return on purpose.
"""
import functools
import re
from collections.abc import Callable, Iterator

from harness.case import CASES, Case, of_function, same
from harness.cells import text_of
from harness.data import Line, lines_of
from harness.debug import variant
from harness.probe import Probe

FORM = re.compile(r"(words|script|terminal) \[(.*)\] = (.*)", re.DOTALL)


@functools.cache
def probe() -> Probe:
    return Probe("lines")


def hexadecimal(text: str) -> str:
    return text.encode().hex() or "-"


def model(job: dict) -> str:
    return f"model {job['model'].removeprefix('M')}"


def if_any(text: str, value: str | None) -> str:
    """A text with a value, if there is one."""
    return "" if value is None else text.format(value)


# Which terminals connect, by the variant of `Terminals`.
TERMINALS = {"Any": "", "Waiting": ", own terminals", "Verified": ", verified terminals"}


def serve(job: dict) -> str:
    service, application, limits = job["service"], job["application"], job["service"]["limits"]
    seconds = f"{limits['negotiate']} {limits['keepalive']} {limits['idle']} seconds"
    text = f"serve at {service['listen']} {service['port']}, {seconds}"
    text += if_any(", metrics at {}", service["metrics"])
    text += ", behind a proxy" if service["proxy_protocol"] == "true" else ""
    text += TERMINALS[service["terminals"]]
    text += ", quiet" if service["quiet"] == "true" else ""
    limit = f", application [{{}}] in {application['reply_time']} seconds"
    text += if_any(limit, application["url"])
    return text + if_any(" of [{}]", job["panels"])


def term(job: dict) -> str:
    return f"term{if_any(' of {}', job['lu'])} at {job['port']}, {model(job)}"


def operate(job: dict) -> str:
    tty = job["tty"]
    text = f"operate at {job['host']}, {term(job)}"
    text += f", {tty['rows']} rows of {tty['columns']}" if tty else ""
    colors = job["colors"].lower()
    return text + ("" if colors == "dark" else f", in {colors}")


# The job of a command line, by the variant of `Job` that the probe prints.
JOBS: dict[str, Callable[[dict], str]] = {
    "Script": lambda it: f"script{'' if it['terminals'] == 'Waiting' else ', any terminal'}",
    "Show": lambda it: f"show, {model(it)}",
    "Selfrun": lambda it: f"selfrun, {it['turns']} turns",
    "Host": lambda it: f"host at {it['port']}, {it['turns']} turns",
    "Check": lambda it: f"check{if_any(' of [{}]', it['file'])}",
    "Serve": serve,
    "Term": term,
    "Operate": lambda it: operate(it["0"]),
    "Help": lambda it: f"help of {it['0'].lower().replace('program', 'the program')}",
}


def job(answer: list[str]) -> str:
    """A job in the words of a case."""
    outcome, value = re.fullmatch(r"(Ok|Err)\((.*)\)", answer[0]).groups()
    name, parts = variant(value)
    if outcome == "Err":
        return "no memory" if name == "Memory" else "refused"
    return JOBS[name](parts) if name in JOBS else name.lower()


def script(text: str, answer: list[str]) -> str:
    """A command of a script in the words of a case."""
    first, *more = answer
    if first.startswith(("type ", "answer ")):
        typed = probe().ask(f"typed {hexadecimal(text)}")
        return f"{first} [{typed[0]}]"
    if note := re.fullmatch(r"note (\d+) \[(.*)\]", first):
        return f"note {note[1]} [{text_of(note[2]).replace('-', '')}]"
    return " ".join([first, *more])


def terminal(answer: list[str]) -> str:
    """A command of a terminal's script in the words of a case."""
    if key := re.fullmatch(r"Some\(Press\((\w+).*?(\d*)\W*\)\)", answer[0]):
        return f"key {key[1]}{key[2]}".lower()
    found = re.fullmatch(r"Some\((\w+)\)", answer[0])
    return found[1].lower().removesuffix("text") if found else "not understood"


def check_line(line: Line) -> None:
    found = FORM.fullmatch(line.text)
    if not found:
        raise line.bad("needs KIND [LINE] = COMMAND")
    kind, text, wanted = found.groups()
    answer = probe().ask(f"{kind} {hexadecimal(text)}", line.at)
    spell = {"words": job, "script": functools.partial(script, text), "terminal": terminal}
    same(wanted, spell[kind](answer))


def a_line_without_a_second_word_has_no_typed_text() -> None:
    same([""], probe().ask(f"typed {hexadecimal('type')}"))


def cases() -> Iterator[Case]:
    for path in sorted(CASES.glob("*.commands")):
        for line in lines_of(path):
            if line.text and not line.text.startswith("#"):
                yield Case(line.text, line.at, functools.partial(check_line, line))
    yield of_function(a_line_without_a_second_word_has_no_typed_text)
