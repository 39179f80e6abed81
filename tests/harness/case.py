"""A case, and what can be wrong with it."""
import dataclasses
import inspect
import pathlib
from collections.abc import Callable, Iterable, Iterator

TOP = pathlib.Path(__file__).resolve().parents[2]
CASES = TOP / "tests/cases"


@dataclasses.dataclass(frozen=True)
class Place:
    """A line of a file of the repository."""

    file: str
    line: int

    def __str__(self) -> str:
        return f"{self.file}:{self.line}"


def relative(path: str | pathlib.Path) -> str:
    """A path as failures print it: from the top of the repository on."""
    whole = pathlib.Path(path).resolve()
    return str(whole.relative_to(TOP)) if whole.is_relative_to(TOP) else str(whole)


class Difference(Exception):
    """A result isn't the wanted one. `at` is the line that says what is wanted, if it isn't the
    case's own."""

    def __init__(self, wanted: object, came: object, at: Place | None = None) -> None:
        super().__init__(wanted, came)
        self.wanted, self.came, self.at = str(wanted), str(came), at


class BadCase(Exception):
    """The test's own data is wrong: an unknown command, an odd digit, a missing file. Such a case
    fails."""

    def __init__(self, reason: str, at: Place | None = None) -> None:
        super().__init__(reason)
        self.reason, self.at = reason, at


class NotHere(Exception):
    """A whole suite can't run, since a program that isn't part of the kit isn't installed. The
    runner says so."""


@dataclasses.dataclass(frozen=True)
class Case:
    """A check with a name, the line at which it is written, and the call that raises a `Difference`
    or `BadCase` if it fails. One that `needs_proved` is of the proved programs alone."""

    name: str
    at: Place
    run: Callable[[], object]
    needs_proved: bool = False


def same(wanted: object, came: object, at: Place | None = None) -> None:
    """Raises a Difference if two values differ."""
    if wanted != came:
        raise Difference(wanted, came, at)


def expect(what: str, came: object, wanted: object) -> None:
    """Raises a Difference, which says of what, if a value isn't the wanted one."""
    if came != wanted:
        raise Difference(f"{what}: {wanted!r}", repr(came))


def needs_proved(check: Callable[[], object]) -> Callable[[], object]:
    """A decorator of a check that needs the proved programs."""
    check.needs_proved = True
    return check


def of_function(check: Callable[[], object], name: str = "") -> Case:
    """The case that a function makes. Its name is the function's, with spaces."""
    file = relative(inspect.getsourcefile(inspect.unwrap(check)) or __file__)
    return Case(
        name or check.__name__.replace("_", " "),
        Place(file, inspect.unwrap(check).__code__.co_firstlineno),
        check,
        getattr(check, "needs_proved", False),
    )


def of_functions(checks: Iterable[Callable[[], object]]) -> Iterator[Case]:
    """The cases that functions make."""
    return map(of_function, checks)


class Checks(list[Callable[[], object]]):
    """The checks of a suite: a decorator of its functions, each of which is a case. The first line
    of its text says what holds."""

    def __call__(self, check: Callable[[], object]) -> Callable[[], object]:
        self.append(check)
        return check

    def cases(self) -> Iterator[Case]:
        return of_functions(self)
