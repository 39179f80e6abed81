"""Runs suites side by side, each in a process of its own, and says what failed."""
import argparse
import collections
import concurrent.futures
import contextlib
import dataclasses
import importlib
import json
import os
import pathlib
import queue
import signal
import subprocess
import sys
import tempfile
import traceback
from collections.abc import Iterator

from harness import programs
from harness.case import TOP, BadCase, Case, Difference, NotHere, Place, relative

SUITES = TOP / "tests/suites"
RUN = TOP / "tests/run"
# No part of a suite takes longer, unless the suite says so by `SECONDS`.
MOST_SECONDS = 900
# The suites that run only if they are named, for as long as asked.
SOAK = "soak"
DAY = "day"
# The processes of the parts that run now.
RUNNING: set[subprocess.Popen[str]] = set()
# Set in the environment of the parts if the programs that run aren't the proved ones.
UNPROVED = "TESTS_UNPROVED"
# A value of one line that is longer is cut before and behind the first difference.
MOST_SHOWN = 400


@dataclasses.dataclass(frozen=True)
class Part:
    """Each `of`th case of a suite, from the case `index` on."""

    suite: str
    index: int = 0
    of: int = 1


@dataclasses.dataclass
class Failure:
    suite: str
    case: str
    at: str
    wanted: str
    came: str


@dataclasses.dataclass
class Outcome:
    """What came of a part. Cases that need the proved programs are left out if others run."""

    passed: int = 0
    left_out: int = 0
    failures: list[Failure] = dataclasses.field(default_factory=list)
    notes: list[str] = dataclasses.field(default_factory=list)


def suite_names() -> list[str]:
    return sorted(it.stem for it in SUITES.glob("*.py") if it.stem != "__init__")


def module_of(suite: str):
    return importlib.import_module(f"suites.{suite}")


def is_chosen(suite: str, case: Case, words: list[str]) -> bool:
    """Whether suite, name and file have each of the words, and none that begins with `!`."""
    text = f"{suite}: {case.name} {case.at.file}"
    return all(word[1:] not in text if word.startswith("!") else word in text for word in words)


def chosen(part: Part, words: list[str]) -> Iterator[Case]:
    """The part's cases that the words choose."""
    return (it for it in own_cases(part) if is_chosen(part.suite, it, words))


def own_cases(part: Part) -> Iterator[Case]:
    """A part's cases. Those of one file stay together if the suite says `BY_FILE`."""
    module = module_of(part.suite)
    files: dict[str, int] = {}
    for place, case in enumerate(module.cases()):
        is_by_file = getattr(module, "BY_FILE", False)
        number = files.setdefault(case.at.file, len(files)) if is_by_file else place
        if number % part.of == part.index:
            yield case


def place_of(at: Place, error: BaseException) -> Place:
    """The place of a case that raised this: for a function the line at which it was left."""
    lines = [
        it.lineno
        for it in traceback.extract_tb(error.__traceback__) if relative(it.filename) == at.file
    ]
    return Place(at.file, lines[-1] or at.line) if lines else at


def failure_of(suite: str, name: str, at: Place, error: BaseException) -> Failure:
    """What a case says that raised this."""
    at = place_of(at, error)
    match error:
        case Difference(wanted=wanted, came=came):
            return Failure(suite, name, str(error.at or at), wanted, came)
        case BadCase(reason=reason):
            return Failure(suite, name, str(error.at or at), "a case that can be run", reason)
        case _:
            return Failure(
                suite,
                name,
                str(at),
                "no exception",
                "".join(traceback.format_exception(error)).rstrip(),
            )


def run_case(suite: str, case: Case) -> Failure | object:
    """What is wrong with a case, or what isn't installed for it, or what it answers: a text is a
    note."""
    try:
        return case.run()
    except NotHere as missing:
        return missing
    except Exception as error:
        return failure_of(suite, case.name, case.at, error)


def run_part(part: Part, words: list[str]) -> Outcome:
    """Runs the cases of a part. A suite without any case fails, unless it says what isn't
    installed."""
    outcome = Outcome()
    try:
        all_cases = list(chosen(part, words))
        cases = [it for it in all_cases if not (it.needs_proved and os.environ.get(UNPROVED))]
        outcome.left_out = len(all_cases) - len(cases)
        getattr(module_of(part.suite), "prepare", lambda _: None)(cases)
        with concurrent.futures.ThreadPoolExecutor(
            getattr(module_of(part.suite), "THREADS", 1)
        ) as pool:
            results = list(pool.map(lambda it: run_case(part.suite, it), cases))
        outcome.failures = [it for it in results if isinstance(it, Failure)]
        outcome.notes = [f"{part.suite}: {it}" for it in results if isinstance(it, str)]
        outcome.notes += [
            f"{part.suite}: {case.name}: not run, since {it}"
            for case, it in zip(cases, results)
            if isinstance(it, NotHere)
        ]
        outcome.passed = len(results) - len(outcome.failures)
        outcome.passed -= sum(isinstance(it, NotHere) for it in results)
        is_empty = not (outcome.passed or outcome.failures or outcome.left_out)
        if is_empty and not (words or part.index):
            raise BadCase("has no case")
    except NotHere as missing:
        outcome.notes.append(f"{part.suite}: not run, since {missing}")
    except Exception as error:
        whole = Place(relative(SUITES / f"{part.suite}.py"), 1)
        outcome.failures.append(failure_of(part.suite, "reading its cases", whole, error))
    return outcome


def list_part(part: Part, words: list[str]) -> None:
    try:
        for case in chosen(part, words):
            print(f"{part.suite}: {case.name} ({case.at})")
    except NotHere as missing:
        print(f"{part.suite}: not run, since {missing}")
    except Exception as error:
        show(
            failure_of(
                part.suite, "reading its cases", Place(f"tests/suites/{part.suite}.py", 1), error
            )
        )


def parts_of(suite: str) -> Iterator[Part]:
    """A suite says by `PARTS` into how many processes its cases are divided, or by `BY_FILE` that
    each file of cases has one."""
    module = module_of(suite)
    parts = getattr(module, "PARTS", 1)
    if getattr(module, "BY_FILE", False):
        parts = len({it.at.file for it in module.cases()})
    return (Part(suite, index, parts) for index in range(parts))


def all_parts(suites: list[str]) -> tuple[list[Part], list[Failure]]:
    """The parts of suites, those first that say they are `LONG`, and the suites that can't be
    loaded."""
    found, failures = [], []
    for suite in suites:
        try:
            found.append((not getattr(module_of(suite), "LONG", False), list(parts_of(suite))))
        except Exception as error:
            failures.append(
                failure_of(suite, "loading it", Place(f"tests/suites/{suite}.py", 1), error)
            )
    return [part for _, parts in sorted(found, key=lambda it: it[0]) for part in parts], failures


def may_have_cases(part: Part, words: list[str]) -> bool:
    """Whether the words choose a case of a part, or reading its cases fails."""
    try:
        return next(chosen(part, words), None) is not None
    except Exception:
        return True


def run_apart(part: Part, words: list[str], slots: queue.SimpleQueue[int]) -> Outcome:
    """Runs a part in a process of its own. What it starts uses the ports of a slot, which no other
    part has meanwhile."""
    command = [
        sys.executable,
        str(RUN),
        "--part",
        part.suite,
        str(part.index),
        str(part.of),
        "-k",
        " ".join(words),
    ]
    slot = slots.get()
    try:
        return read_outcome(
            *run_process(command, slot, getattr(module_of(part.suite), "SECONDS", MOST_SECONDS))
        )
    except subprocess.TimeoutExpired as late:
        came = f"it isn't done in {late.timeout:.0f} seconds"
    except Difference as difference:
        came = difference.came
    finally:
        slots.put(slot)
    return Outcome(
        failures=[
            Failure(
                part.suite, "running it", f"tests/suites/{part.suite}.py:1", "its outcome", came
            )
        ]
    )


def end_group(run: subprocess.Popen[str]) -> None:
    """Ends a process that is the first of a group, and all of that group."""
    with contextlib.suppress(ProcessLookupError):
        os.killpg(run.pid, signal.SIGKILL)
    run.wait()


def end_all(number: int, _: object) -> None:
    """Ends the run at a signal, and all that it started."""
    for run in list(RUNNING):
        end_group(run)
    os._exit(128 + number)


def run_process(command: list[str], slot: int, seconds: float) -> tuple[int, str, str]:
    """The status of a process, and what it wrote. What it leaves behind is ended."""
    environment = {**os.environ, "TESTS_SLOT": str(slot)}
    with tempfile.TemporaryFile("w+") as said, tempfile.TemporaryFile("w+") as out:
        run = subprocess.Popen(
            command,
            stdin=subprocess.DEVNULL,
            stdout=out,
            stderr=said,
            text=True,
            env=environment,
            start_new_session=True,
        )
        RUNNING.add(run)
        try:
            run.wait(seconds)
        finally:
            end_group(run)
            RUNNING.discard(run)
        for file in (out, said):
            file.seek(0)
        return run.returncode, out.read(), said.read()


def read_outcome(status: int, out: str, said: str) -> Outcome:
    try:
        found = json.loads(out)
    except ValueError:
        raise Difference("its outcome", f"status {status}: {out[-500:]}{said[-2000:]}") from None
    return Outcome(**{**found, "failures": [Failure(**it) for it in found["failures"]]})


def first_difference(wanted: str, came: str) -> int:
    return next(
        (place for place, (one, other) in enumerate(zip(wanted, came)) if one != other),
        min(len(wanted), len(came)),
    )


def shortened(text: str, place: int) -> str:
    """A long value of one line, around a place."""
    if "\n" in text or len(text) <= MOST_SHOWN:
        return text
    start = max(0, place - MOST_SHOWN // 4)
    shown = f"{'.. ' if start else ''}{text[start : start + MOST_SHOWN]} .."
    return f"{shown} (differs at character {place} of {len(text)})"


def indented(label: str, text: str) -> str:
    lines = text.split("\n")
    return f"    {label}: {text}" if len(lines) == 1 else "\n".join(
        [f"    {label}:", *(f"        {line}" for line in lines)]
    )


def show(failure: Failure) -> None:
    place = first_difference(failure.wanted, failure.came)
    print(f"{failure.at}: FAILED {failure.suite}: {failure.case}")
    print(indented("wanted", shortened(failure.wanted, place)))
    print(indented("came", shortened(failure.came, place)), flush=True)


def run_all(suites: list[str], words: list[str], jobs: int) -> int:
    """Runs suites. The exit status: 0 if no case failed, and one ran."""
    parts, failures = all_parts(suites)
    parts = [part for part in parts if not words or may_have_cases(part, words)]
    if os.environ.get("TESTS_QUICK"):
        # Each is compiled once, before parts that run side by side ask for it.
        os.environ.update(PROBE=str(programs.probe()), PANEL3270=str(programs.panel3270()))
        if not programs.are_proved():
            os.environ[UNPROVED] = "1"
    passed, failed, left_out = 0, len(failures), collections.Counter()
    for it in failures:
        show(it)
    slots: queue.SimpleQueue[int] = queue.SimpleQueue()
    for slot in range(jobs):
        slots.put(slot)
    with concurrent.futures.ThreadPoolExecutor(jobs) as pool:
        runs = {pool.submit(run_apart, part, words, slots): part for part in parts}
        for done in concurrent.futures.as_completed(runs):
            outcome = done.result()
            passed, failed = passed + outcome.passed, failed + len(outcome.failures)
            left_out[runs[done].suite] += outcome.left_out
            for note in outcome.notes:
                print(note, flush=True)
            for it in outcome.failures:
                show(it)
    if left_out.total():
        print(
            f"{left_out.total()} left out, since they need the proved programs: "
            + ", ".join(f"{suite} {count}" for suite, count in sorted(left_out.items()) if count)
        )
    print(f"{passed} passed, {failed} failed")
    return 0 if passed and not failed else 1


def write_part(part: Part, words: list[str]) -> int:
    """Runs a part, and writes its outcome. What its cases print goes to standard error."""
    out = os.fdopen(os.dup(1), "w")
    os.dup2(2, 1)
    json.dump(dataclasses.asdict(run_part(part, words)), out)
    out.close()
    return 0


def main() -> int:
    parser = argparse.ArgumentParser(
        prog="tests/run", description="Runs the suites of tests/ side by side."
    )
    parser.add_argument(
        "suites",
        nargs="*",
        metavar="SUITE",
        help=f"only these suites; {SOAK} runs only if it is named",
    )
    parser.add_argument(
        "-k",
        metavar="WORDS",
        default="",
        help="only cases whose suite, name and file together have each of these words, and none "
        "that begins with !",
    )
    parser.add_argument(
        "--list", action="store_true", help="print the cases and where they are, and run none"
    )
    parser.add_argument(
        "--jobs",
        type=int,
        default=len(os.sched_getaffinity(0)),
        metavar="N",
        help="processes side by side",
    )
    parser.add_argument(
        "--quick",
        action="store_true",
        help="compile the programs without a proof, and keep them; leaves out cases that need the "
        "proved ones",
    )
    parser.add_argument(
        "--minutes",
        type=float,
        metavar="N",
        help=f"how long {SOAK} runs (1), and each terminal of {DAY} (60 keys)",
    )
    parser.add_argument(
        "--seed", type=int, metavar="N", help=f"of the random keys of {DAY}"
    )
    parser.add_argument("--part", nargs=3, help=argparse.SUPPRESS)
    given = parser.parse_args()
    for it in set(given.suites) - {*suite_names()}:
        parser.error(f"no suite has the name {it}")
    words = given.k.split()
    if given.quick:
        os.environ["TESTS_QUICK"] = "1"
    if given.part:
        suite, index, of = given.part
        return write_part(Part(suite, int(index), int(of)), words)
    for name, value in (("TESTS_MINUTES", given.minutes), ("TESTS_SEED", given.seed)):
        if value is not None:
            os.environ[name] = str(value)
    suites = given.suites or [it for it in suite_names() if it not in (SOAK, DAY)]
    if given.list:
        for suite in suites:
            list_part(Part(suite), words)
        return 0
    for number in (signal.SIGINT, signal.SIGTERM):
        signal.signal(number, end_all)
    return run_all(suites, words, max(1, given.jobs))
