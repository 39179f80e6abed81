"""Tries the wrong bodies of crates/*/must-fail/wrong-bodies.md: the prover has to refuse each, by a
goal of the contract of the function that it is put into.

A contract is proved function by function, from the contracts of what is called and not from bodies.
So the mistakes of a crate are put into a copy of it together, a function's further mistakes in
further functions beside it, and one check of these functions alone tries them all. A wrong body is
refused where the prover says of its function that it isn't proved, and names a goal of its contract
that it couldn't show: such a goal stands on the contracts of what is called, and so on no other
mistake. Where it names nothing, and says that the function calls another which isn't proved, the
mistake is tried again in a next round, without those that were refused. A mistake in a constant or
a table, which functions share, has a round of its own, unless the page says that no other function
reads it. Beside the mistakes one function is asked for that stays as it is, and has to be proved;
so a check that proves nothing at all is no refusal.

Which goals count: an `ensures` of the function or an `invariant` of a type. It counts if the prover
found values at which the goal is false: then no answer proves it. It also counts if no answer is
written for a goal of the same clause (proofs/F/Answers.antt): the prover shows that clause of the
right body alone. It does not count that a written answer no longer fits, that a goal with an answer
has another name now, or that a loop does not keep the
invariant that is written for it (proofs/F/Invariants.antt): a correct body of another shape has the
same effect. A line `    answers: none` has a mistake tried without the answers of its function, so
that the prover looks for values at which their goals are false.

A check proves what the mistakes' functions call, too, and what that calls. So in the first round
each other function of the crate is cut: it has its contract, a body that calls nothing, and no
proof. What isn't refused then is tried again in the crate as it is. The function that stays has to
be one that calls no other of its crate.

Where the clause needs answers, a page may refute a goal of the wrong body. It proves ⊥ from `c`,
which is all that is known there, and `claim`, which is what the goal says of it; or it does so in
some calls, in which a further fact `here` about `c` holds. A reader has to see that a call comes
there, with that fact. The suite writes the refutation in place of the function's answers, and the
goal as a hole; it counts if nothing else in that file is refused or has a hole.

`tests/run -k "wrong_bodies CRATE WORD .."` tries those of a crate whose headings have these words.
A page has a line `    stays: FUNCTION`, and for each mistake a heading, a line
`    function: FUNCTION`, and pairs
`    old: TEXT`, `    new: TEXT` behind a line `    file: src/FILE`: each TEXT is one line or a part
                      of it, and the old one stands once in the function, or else in that file.
FUNCTION is a path below the crate. A refutation is
`    refutes: GOAL`,
`    by: TERM`        a term of type ⊥ over `c`, `here` and `claim`, on one line or several,
`    if: FACT`        the fact `here`, if there is one, and
`    with: LINE`      for each line of imports and lemmas above it.
A line `    beside: the others` says of a mistake in a constant that no function reads it but its
own; for `    answers: none` see above. A line `    one of: the classic mistakes` marks those that
docs/TESTING.md lists, which the suite forms compares.

It checks over the libraries in crates/*/out, which `rt ci` builds. A crate's page is tried in one
process.
"""
from __future__ import annotations

import functools
import os
import pathlib
import re
import shutil
import subprocess
import tempfile
from collections import defaultdict
from collections.abc import Iterator
from dataclasses import dataclass, field

from harness.case import TOP, BadCase, Case, Difference, Place

LONG, BY_FILE, SECONDS = True, True, 7200
PAGE = "must-fail/wrong-bodies.md"
# What is put behind the name of a function for one more that has another mistake.
AGAIN = "_again"
# A type, the head of an `impl` without a trait, and a function.
TYPE = re.compile(r"^(?:pub(?:\(\w+\))? )?(?:struct|enum) (\w+)", re.MULTILINE)
INHERENT = re.compile(r"impl(?!.* for )(?:<.*>)? (\w+)(?:<.*>)? \{")
FUNCTION = re.compile(
    r"^(?P<head>(?P<indent> *)(?:pub(?:\(\w+\))? )?fn (?P<name>\w+)\b.*?"
    r"(?:\n(?:(?:(?P=indent)[ )].*)?\n)*?(?P=indent)(?:\).*)?)?)\{\n(?:.*\n)*?(?P=indent)\}\n",
    re.MULTILINE,
)

# The refutation of a goal: `C` is what is known there, `P` what the goal says, `Q` a further fact.
REFUTATION = """
use Rattle.{module}.Goals as goal
{lines}

Refuted : Type 0 → Type 1
Refuted goal =
    (C : Type 0) × (P : C → Type 0) × (goal → (c : C) → P c) × (Q : C → Type 0)
    × ((c : C) → Q c → P c → ⊥)

refuted : Refuted goal.{goal}
unfolding Refuted
refuted = (_, _, (λ the_goal. the_goal), (λ c. {fact}), λ c here claim. {reason})

pub {goal} : goal.{goal}
{goal} c = ?
"""


@dataclass
class Refutation:
    """The refutation of a goal: the goal, a fact about some of the calls that come there, the lines
    above it, and those of its term."""

    goal: str
    fact: str = "Unit {0}"
    lines: list[str] = field(default_factory=list)
    reason: list[str] = field(default_factory=list)

    def is_of_contract(self) -> bool:
        return Goal(self.goal, "", is_false=True).is_of_contract()

    def text(self, crate: str, function: str) -> str:
        """What is written in place of the answers of a function."""
        return REFUTATION.format(
            module=f"{crate}.{proofs_of(function).replace('/', '.')}",
            lines="\n".join(self.lines),
            goal=self.goal,
            fact=self.fact,
            reason="\n    ".join(self.reason),
        )


@dataclass
class Mistake:
    """A wrong body: where it stands, and what it says in place of what."""

    title: str
    at: Place
    function: str = ""
    changes: list[tuple[str, str, str]] = field(default_factory=list)
    is_beside: bool = False
    is_without_answers: bool = False
    is_classic: bool = False
    refutation: Refutation | None = None

    def is_apart(self, crate: str) -> bool:
        """Whether it changes nothing in its function, but what functions share."""
        if self.is_beside:
            return False
        return not any(
            stands_in(
                (TOP / "crates" / crate / file).read_text(encoding="utf-8"), old, self.function
            )
            for file, old, _ in self.changes
        )


def stands_in(text: str, part: str, function: str) -> bool:
    """Whether a part of a source stands in a function: in its text, or, if that isn't found, behind
    its head, and no other one's."""
    heads = re.findall(r"\bfn (\w+)", text.partition(part)[0])
    return part in text_of(function, text) or heads[-1:] == [function.rpartition("::")[2]]


@dataclass
class Page:
    """The wrong bodies of a crate, and a function that stays."""

    crate: str
    stays: str
    mistakes: list[Mistake]


@dataclass
class Goal:
    """A goal that a check left open: its name, what it says, and whether the prover found values at
    which it is false."""

    name: str
    says: str
    is_false: bool

    def is_of_contract(self) -> bool:
        """Whether it is an `ensures` of the function, or the `invariant` of a type."""
        return re.match(r"returns|invariant_of-", self.name) is not None

    def shares_a_clause(self, answered: str) -> bool:
        """Whether it is of the same clause as another goal. One that names no clause covers all."""
        (kind, _, clause), (other_kind, _, other) = (
            it.partition("-clause-") for it in (self.name, answered)
        )
        return kind.partition("-")[0] == other_kind.partition("-")[0] and (
            clause == other or "" in (clause, other)
        )

    def is_evidence(self, answered: list[str]) -> bool:
        """Whether it shows that the body breaks the contract, if these goals of its function have
        written answers."""
        return self.is_of_contract() and (
            self.is_false or not any(self.shares_a_clause(it) for it in answered)
        )


@dataclass
class Verdict:
    """What a check said of a function: its last word, the goals that it left open, the written
    answers that didn't fit, and those that have holes."""

    word: str
    goals: list[Goal] = field(default_factory=list)
    unfit: list[str] = field(default_factory=list)
    holes: list[str] = field(default_factory=list)

    def is_refusal(self, mistake: Mistake, crate: str) -> bool:
        """Whether it shows that the body breaks the contract."""
        if not re.match(r"not proved|no proof|could not tell", self.word):
            return False
        if mistake.refutation:
            return not self.unfit and self.holes == [mistake.refutation.goal]
        return any(it.is_evidence(answered(crate, mistake.function)) for it in self.goals)

    def is_proved(self) -> bool:
        return self.word == "proved"

    def is_settled(self) -> bool:
        """Whether another check says no more: it is proved, or there is something that is named."""
        return bool(self.is_proved() or self.goals or self.unfit or self.holes)

    def without_evidence(self) -> str:
        """What it names, where none of that is evidence."""
        named = [f"`{it.name}`" for it in self.goals] + [
            f"the answer to `{it}`" for it in self.unfit
        ]
        if not named:
            return self.word
        word = self.word.partition(";")[0]
        return f"{word}, but no goal of its contract shows that: {', '.join(named)}"


def refutation_of(page: Page) -> Refutation:
    """The refutation of a page's last mistake, to which a line belongs."""
    refutation = page.mistakes[-1].refutation if page.mistakes else None
    if not refutation:
        raise BadCase("the page refutes no goal there", Place(f"crates/{page.crate}/{PAGE}", 1))
    return refutation


def page_of(crate: str) -> Page:
    """A crate's page."""
    page, file, old = Page(crate, "", []), "", ""
    for number, line in enumerate(
        (TOP / "crates" / crate / PAGE).read_text(encoding="utf-8").splitlines(), 1
    ):
        if line.startswith("## "):
            page.mistakes.append(Mistake(line[3:], Place(f"crates/{crate}/{PAGE}", number)))
        key, _, text = line[4:].partition(": ") if line.startswith("    ") else ("", "", "")
        if key == "stays":
            page.stays = text
        elif key == "function":
            page.mistakes[-1].function = text
        elif key == "beside":
            page.mistakes[-1].is_beside = True
        elif key == "answers":
            page.mistakes[-1].is_without_answers = True
        elif key == "one of":
            page.mistakes[-1].is_classic = True
        elif key == "refutes":
            page.mistakes[-1].refutation = Refutation(text)
        elif key == "if":
            refutation_of(page).fact = text
        elif key in ("with", "with:"):
            refutation_of(page).lines.append(text)
        elif key == "by":
            refutation_of(page).reason.append(text)
        elif key == "file":
            file = text
        elif key == "old":
            old = text
        elif key in ("new", "new:"):
            page.mistakes[-1].changes.append((file, old, text))
    lacking = [
        it.title
        for it in page.mistakes
        if not (it.function and it.changes)
        or (it.refutation and not (it.refutation.is_of_contract() and it.refutation.reason))
    ]
    if lacking or page.stays in ["", *[it.function for it in page.mistakes]] or not page.mistakes:
        raise BadCase(
            f"{', '.join(lacking) or 'the page'} lacks a line", Place(f"crates/{crate}/{PAGE}", 1)
        )
    return page


def changed(text: str, function: str, old: str, new: str) -> str | None:
    """A source with a change in a function, or else outside of it; None if the old text isn't there
    once."""
    own = text_of(function, text)
    part = own if old in own else text
    if part.count(old) != 1 or old == new:
        return None
    return text.replace(part, part.replace(old, new))


def put(mistake: Mistake, crate: str, room: pathlib.Path) -> bool:
    """Puts a mistake into a copy, if all that it changes is still there."""
    texts: dict[str, str] = {}
    for file, old, new in mistake.changes:
        text = texts.get(file) or (room / file).read_text(encoding="utf-8")
        after = changed(text, mistake.function, old, new)
        if after is None:
            return False
        texts[file] = after
    for file, text in texts.items():
        (room / file).write_text(text, encoding="utf-8")
    put_answers(mistake, crate, mistake.function, room)
    return True


def put_answers(mistake: Mistake, crate: str, function: str, room: pathlib.Path) -> None:
    """Leaves out the answers of a function with a mistake in a copy, or puts the refutation of a
    goal in their place, if the page says so."""
    answers = room / proofs_of(function) / "Answers.antt"
    if mistake.is_without_answers:
        answers.unlink(missing_ok=True)
    if mistake.refutation:
        answers.parent.mkdir(parents=True, exist_ok=True)
        answers.write_text(mistake.refutation.text(crate, function), encoding="utf-8")


def proofs_of(function: str) -> str:
    """The folder of what is written for a function's goals: answers, and invariants of its
    loops."""
    return f"proofs/{function.replace('::', '/')}"


def answered(crate: str, function: str) -> list[str]:
    """The goals of a function that have written answers."""
    answers = TOP / "crates" / crate / proofs_of(function) / "Answers.antt"
    if not answers.exists():
        return []
    return re.findall(r"\bgoal\.([\w-]+)", answers.read_text(encoding="utf-8"))


def text_of(function: str, source: str) -> str:
    """The text of a function, with its attributes, its contract and its body: up to the brace that
    stands below its `fn`."""
    owner, _, name = function.rpartition("::")
    head = rf"^(?: *#\[[^\n]*\]\n)*( *)(?:pub(?:\([^)]*\))? )?fn {name}\b.*?^\1\}}\n"
    found = list(re.finditer(head, source, re.MULTILINE | re.DOTALL))
    if len(found) > 1:
        block = re.compile(
            rf"^impl\b.* {owner.rpartition('::')[2]}(<.*>)? \{{\n(?:(?!^\}}).*\n)*\Z", re.MULTILINE
        )
        found = [it for it in found if block.search(source[: it.start()])]
    return found[0][0] if found else ""


def put_beside(mistake: Mistake, crate: str, room: pathlib.Path, again: str) -> bool:
    """Puts a mistake into a copy that has another one in the same function: into a function beside
    that one, of the same name with `again` behind it, with the same contract and with what is
    written in answer to its goals. If all that it changes stands in that function."""
    name, own = mistake.function.rpartition("::")[2], TOP / "crates" / crate
    file, written = mistake.changes[0][0], proofs_of(mistake.function)
    second = text_of(mistake.function, (own / file).read_text(encoding="utf-8")).replace(
        f"fn {name}", f"fn {name}{again}", 1
    )
    for other, old, new in mistake.changes:
        if other != file or second.count(old) != 1 or old == new:
            return False
        second = second.replace(old, new)
    text = (room / file).read_text(encoding="utf-8")
    first = text_of(mistake.function, text)
    (room / file).write_text(text.replace(first, f"{first}\n{second}"), encoding="utf-8")
    if (own / written).is_dir():
        shutil.copytree(own / written, room / f"{written}{again}")
        for it in (room / f"{written}{again}").iterdir():
            its = re.sub(
                rf"\.{name}\.(Goals|Given)\b", rf".{name}{again}.\1", it.read_text(encoding="utf-8")
            )
            it.write_text(its, encoding="utf-8")
    put_answers(mistake, crate, mistake.function + again, room)
    return True


def module_of(path: pathlib.Path, source: pathlib.Path) -> list[str]:
    """The names of a file's module."""
    names = list(path.relative_to(source).with_suffix("").parts)
    return [] if names in (["lib"], ["main"]) else names


def path_of(function: re.Match[str], module: list[str], owners: dict[str, list[str]]) -> str:
    """The path of a function of a module below the crate; none if a trait or its `impl` has it."""
    if not function["indent"]:
        return "::".join([*module, function["name"]])
    items = re.findall(r"^\w.*", function.string[: function.start()], re.MULTILINE)
    of = INHERENT.fullmatch(items[-1])
    return "::".join([*owners[of[1]], function["name"]]) if of else ""


def cut_others(kept: set[str], room: pathlib.Path) -> None:
    """Cuts each function of a copy but these: it gets a body that calls nothing, and a file without
    a proof, so that none is looked for. What the `impl` of a trait has stays, and a `const fn`."""
    source = room / "src"
    texts = {path: path.read_text(encoding="utf-8") for path in source.rglob("*.rt")}
    owners = {
        name: [*module_of(path, source), name]
        for path, text in texts.items()
        for name in TYPE.findall(text)
    }

    def cut(module: list[str], function: re.Match[str]) -> str:
        path = path_of(function, module, owners)
        if not path or path in kept:
            return function[0]
        proof = room / proofs_of(path)
        shutil.rmtree(proof, ignore_errors=True)
        proof.mkdir(parents=True)
        (proof / "Proof.antt").touch()
        return f"{function['head']}{{ unreachable!() }}\n"

    for path, text in texts.items():
        cut_here = functools.partial(cut, module_of(path, source))
        path.write_text(FUNCTION.sub(cut_here, text), encoding="utf-8")


def uses() -> dict[str, list[str]]:
    """What each crate uses, by crates.txt."""
    lines = [
        it.partition("#")[0].partition(":")
        for it in (TOP / "crates.txt").read_text(encoding="utf-8").splitlines()
    ]
    return {name.split()[0]: used.split() for name, _, used in lines if name.strip()}


def check_words(crate: str, functions: list[str]) -> list[str]:
    """The words of a check of these functions of a crate, over the libraries that are built."""
    page = subprocess.run(["rt", "doc"], check=True, capture_output=True, text=True).stdout
    kit = pathlib.Path(page.strip()).parent
    own, root = uses(), TOP / "crates" / crate / "src/main.rt"
    words = [
        str(kit / "bin/rattle"),
        "check",
        "--crate-name",
        crate,
        "src/main.rt" if root.exists() else "src/lib.rt",
    ]
    for name in ["std", *own[crate]]:
        rlib = (
            TOP / f"crates/{name}/out/rlib/{name}.rlib"
            if name in own
            else kit / f"rlibs/{name}.rlib"
        )
        if not rlib.is_dir():
            raise BadCase(f"the library {name} isn't built: `rt ci` does that")
        words += ["--extern", f"{name}={rlib}"]
    for name in own:
        rlib = TOP / f"crates/{name}/out/rlib"
        if name != crate and rlib.is_dir():
            words += ["-L", f"dependency={rlib}"]
    words += [
        "-L",
        f"dependency={kit}/rlibs",
        "--antt-project",
        f"{kit}/rattle/logic/antt-project.json",
        "--logic-built",
        f"{kit}/logic_built",
        "--jobs",
        "1",
    ]
    return words + [word for it in functions for word in ("--only", it)]


def verdicts(crate: str, said: str) -> dict[str, Verdict]:
    """What a check said, by function. The goals that it left open stand in front of a function's
    last word; what is wrong with answers that were written comes before all of these."""
    found, unfit, holes, goals = {}, defaultdict(list), defaultdict(list), []
    for line in said.splitlines():
        answer = re.match(r"\./proofs/(\S+)/\w+\.antt:\d+:\d+: error: (?:`([^`]*)`|(.*))", line)
        hole = re.match(r"\./proofs/(\S+)/\w+\.antt:\d+:\d+: `([^`]*)` is not admitted", line)
        note = re.match(r"note: src/\S+: it is not proved that (.*) \(`([^`]*)`\)(; .*)?$", line)
        word = re.match(rf"fn {crate}::(\S+): (.*)", line)
        if answer:
            unfit[answer[1].replace("/", "::")].append(answer[2] or answer[3])
        elif hole:
            holes[hole[1].replace("/", "::")].append(hole[2])
        elif note:
            goals.append(
                Goal(
                    note[2], note[1], "allow values at which this goal is false" in (note[3] or "")
                )
            )
        elif word:
            found[word[1]] = Verdict(word[2], goals, unfit[word[1]], holes[word[1]])
            goals = []
    return found


def said_of(crate: str, functions: list[str], room: pathlib.Path) -> str:
    """What a check says of functions of a crate. It is ended once it has said a last word of
    each."""
    wanted, said = set(functions), []
    with subprocess.Popen(
        check_words(crate, functions),
        cwd=room,
        stdin=subprocess.DEVNULL,
        stdout=subprocess.PIPE,
        stderr=subprocess.STDOUT,
        text=True,
        errors="replace",
    ) as check:
        for line in check.stdout or []:
            said.append(line)
            wanted.discard(line.removeprefix(f"fn {crate}::").partition(": ")[0])
            if not wanted:
                check.terminate()
                break
    return "".join(said)


def tried(
    page: Page, mistakes: list[Mistake], is_cut: bool, room: pathlib.Path
) -> tuple[dict[str, Mistake], dict[str, Verdict], str]:
    """Checks a copy of the crate with those of these mistakes that go together; if it is cut, then
    without its other functions. Which went, by the function that each was put into, what was said
    by function, and all that was said."""
    together: dict[str, Mistake] = {}
    for part in ("src", "specs", "proofs"):
        shutil.rmtree(room / part, ignore_errors=True)
        if (TOP / "crates" / page.crate / part).is_dir():
            shutil.copytree(TOP / "crates" / page.crate / part, room / part)
    for mistake in mistakes:
        if together and any(it.is_apart(page.crate) for it in [mistake, *together.values()]):
            continue
        again = AGAIN * sum(it.function == mistake.function for it in together.values())
        if (
            put_beside(mistake, page.crate, room, again)
            if again
            else put(mistake, page.crate, room)
        ):
            together[mistake.function + again] = mistake
    if is_cut:
        cut_others({page.stays, *together}, room)
    text = said_of(page.crate, [page.stays, *together], room)
    return together, verdicts(page.crate, text), text


def faults_of(page: Page) -> dict[Place, str]:
    """Tries a crate's mistakes, in a folder of their own: what is wrong with those that aren't
    refused."""
    with tempfile.TemporaryDirectory(prefix=f"rt-edit-{os.getpid()}-") as name:
        return faults_in(page, pathlib.Path(name))


def faults_in(page: Page, room: pathlib.Path) -> dict[Place, str]:
    """Tries a crate's mistakes in a folder: what is wrong with those that aren't refused."""
    left, is_cut, faults, at_once = page.mistakes, True, {}, None
    while left:
        together, said, text = tried(page, left[:at_once], is_cut, room)
        if not together:
            return faults | {
                left[0].at: "an old text isn't there once, or is the new one"
            } | dict.fromkeys((it.at for it in left[1:]), "not tried")
        if page.stays not in said or not said[page.stays].is_proved():
            lines = "\n".join(it[:200] for it in text.splitlines()[:20])
            return faults | dict.fromkeys(
                (it.at for it in left), f"{page.stays} stays as it is, and isn't proved:\n{lines}"
            )
        settled = []
        for function, mistake in together.items():
            verdict = said.get(function, Verdict("it wasn't checked"))
            if verdict.is_refusal(mistake, page.crate):
                settled.append(mistake)
            elif verdict.is_settled() or at_once:
                faults[mistake.at] = f"{mistake.function}: {verdict.without_evidence()}"
                settled.append(mistake)
        left = [it for it in left if it not in settled]
        at_once = None if settled or is_cut else 1
        is_cut = False
    return faults


# What is wrong with the mistakes that were tried and aren't refused, and all that were tried.
FAULTS: dict[Place, str] = {}
TRIED: set[Place] = set()


def prepare(chosen: list[Case]) -> None:
    """Tries the mistakes of these cases, those of a crate together."""
    places = {it.at for it in chosen}
    for crate in sorted({place.file.split("/")[1] for place in places}):
        page = page_of(crate)
        page.mistakes = [it for it in page.mistakes if it.at in places]
        FAULTS.update(faults_of(page))
    TRIED.update(places)


def check_refused(mistake: Mistake) -> None:
    if mistake.at not in TRIED or mistake.at in FAULTS:
        raise Difference(
            "refused, by a goal of its function's contract", FAULTS.get(mistake.at, "not tried")
        )


def cases() -> Iterator[Case]:
    for crate in uses():
        if (TOP / "crates" / crate / PAGE).exists():
            for mistake in page_of(crate).mistakes:
                yield Case(
                    f"{crate}: {mistake.title}",
                    mistake.at,
                    functools.partial(check_refused, mistake),
                )
