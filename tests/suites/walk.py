"""Walks through the README and the pages for users as a new user would: runs their commands on a
fresh clone, without the proved program.

A command is a line `$ COMMAND` of an indented block, with the lines below it, which it prints; or a
whole block without such a line. The table STEPS says by a command's beginning what is done with it,
or why it isn't run, so that a new one isn't forgotten. `bin/quick` takes the program's place, and
free ports that of 3270 and 8080. What the suites examples and printed compare is left to them; they
are run at the end. Files and jobs that a sentence names have to be there.

The clone has what is committed. A page is a case, since its commands build on each other. It takes
two to three minutes, mostly of the compiler.
"""
import atexit
import functools
import contextlib
import dataclasses
import fcntl
import os
import pathlib
import pty
import re
import select
import shutil
import signal
import socket
import struct
import subprocess
import tempfile
import termios
import time
from collections.abc import Iterator

from harness.browser import TEXT, Page
from harness.case import TOP, Case, Difference, Place, of_function
from harness.hosts import free_port
from harness.programs import quick

LONG = True
PAGES = [
    "README.md",
    "examples/README.md",
    *(f"docs/{it}.md" for it in ("USING", "OPERATING", "APPLICATIONS", "PROTOCOL")),
]
# Seconds to wait for the compiler, and for anything else.
COMPILING, PATIENCE = 600, 60
PROVED = "crates/panel3270/out/panel3270"
# The ports of the pages.
HOST, APPLICATION = "3270", "8080"
LISTENS = "listening on 127.0.0.1:3270"
COMPILED = f"quick: {quick().UNPROVED}\n"
SIGN_ON = "wait\ntype 4711\nkey tab\ntype SECRET\nkey enter\nwait\nshow\n"


@dataclasses.dataclass
class Command:
    """A command or a text of a page, and what the page says that it prints."""

    page: str
    line: int
    lines: list[str]

    @property
    def is_prompted(self):
        return self.lines[0].startswith("$ ")

    @property
    def length(self):
        """How many lines it has: those behind a backslash are part of it."""
        if not self.is_prompted:
            return len(self.lines)
        return next(
            (at for at, line in enumerate(self.lines, 1) if not line.endswith("\\")),
            len(self.lines),
        )

    @property
    def text(self):
        return "\n".join(self.lines[: self.length]).removeprefix("$ ").rstrip()

    @property
    def prints(self):
        return "\n".join(self.lines[self.length :]).rstrip()

    @property
    def at(self):
        return Place(self.page, self.line)

    def fails(self, wanted, came):
        raise Difference(wanted, came, self.at)

    def expects(self, what, actual, wanted):
        if actual != wanted:
            self.fails(f"{what}: {wanted!r}", repr(actual))

    def expects_in(self, what, actual, wanted):
        if wanted not in actual:
            self.fails(f"{what} has {wanted!r}", actual)


def commands(page, text):
    """The commands of a page."""
    found, inside = [], False
    for number, line in enumerate(text.splitlines(), 1):
        begins = line.startswith("    $ ") or not inside
        inside = line.startswith("    ") or inside and not line
        if inside and begins:
            found.append(Command(page, number, []))
        if inside:
            found[-1].lines.append(line[4:])
    return found


def is_listening(port):
    with socket.socket() as it:
        return not it.connect_ex(("127.0.0.1", int(port)))


def end_group(run):
    """Ends a shell that was started as the first of a group, and all that it started."""
    with contextlib.suppress(ProcessLookupError):
        os.killpg(run.pid, signal.SIGTERM)
    run.wait(PATIENCE)


class Walk:
    """A clone, and what runs there."""

    def __init__(self, place):
        self.place, self.clone = place, place / "clone"
        self.env = {**os.environ, "XDG_CACHE_HOME": str(place / "cache"), "TMPDIR": str(place)}
        self.env.pop("PANEL3270", None)
        self.ports = {HOST: str(free_port()), APPLICATION: str(free_port())}
        # What listens at each of these ports.
        self.running = {}
        subprocess.run(["git", "clone", "-q", str(TOP), str(self.clone)], check=True)

    def read(self, name):
        return (self.clone / name).read_text(encoding="utf-8")

    def here(self, text):
        """A command or its output, with bin/quick and the ports of this walk."""
        text = re.sub(r"^panel3270 ", "bin/quick ", text.replace(PROVED, "bin/quick"))
        return re.sub(r"\b(3270|8080)\b", lambda it: self.ports[it[0]], text)

    def ran(self, text, stdin="", folder=".", patience=PATIENCE):
        """What a shell's command printed on its two outputs, and its status."""
        pipes = dict.fromkeys(("stdin", "stdout", "stderr"), subprocess.PIPE)
        run = subprocess.Popen(
            ["sh", "-c", text],
            cwd=self.clone / folder,
            env=self.env,
            text=True,
            start_new_session=True,
            **pipes,
        )
        try:
            out, said = run.communicate(stdin, patience)
        except subprocess.TimeoutExpired:
            out, said = "", f"`{text}` takes more than {patience} s"
        finally:
            end_group(run)
        return out, said, run.returncode

    def prints(self, command, text, wanted, stdin=""):
        """A shell's command prints these texts, and its status is 0."""
        out, said, status = self.ran(text, stdin)
        if status:
            command.fails(f"`{text}` ends with status 0", f"status {status}:\n{out}{said}")
        for it in wanted:
            command.expects_in(f"what `{text}` prints", out, it)

    def shows(self, command, script, *wanted):
        """The screen of a terminal has these texts after a script."""
        self.prints(command, self.here("panel3270 term --port 3270"), wanted, script)

    def start(self, command, text, port, says, log=None, patience=PATIENCE):
        """Starts what listens at a port, in place of what did, and waits until it listens and says
        so."""
        self.end(port)
        log = log or self.place / f"said-{port}"
        with open(self.place / f"said-{port}", "w") as said:
            words = f"{text} wait" if text.endswith("&") else f"exec {text}"
            self.running[port] = run = subprocess.Popen(
                ["sh", "-c", words],
                cwd=self.clone,
                env=self.env,
                stdin=subprocess.DEVNULL,
                stdout=said,
                stderr=said,
                start_new_session=True,
            )
        end = time.monotonic() + patience
        while not is_listening(self.ports[port]) or self.here(says) not in log.read_text():
            if run.poll() is not None or time.monotonic() > end:
                command.fails(
                    f"`{text}` listens and says {self.here(says)!r}",
                    f"status {run.poll()}:\n{log.read_text()}",
                )
            time.sleep(0.05)

    def end(self, *ports):
        """Ends what listens at these ports, or at all."""
        for port in ports or [*self.running]:
            if run := self.running.pop(port, None):
                end_group(run)
                end = time.monotonic() + PATIENCE
                while is_listening(self.ports[port]) and time.monotonic() < end:
                    time.sleep(0.05)

    def operate(self, command, text, wanted, rows=25):
        """An operator's terminal shows this on a tty with so many rows, and ends at Ctrl-]."""
        child, tty = pty.fork()
        if not child:
            fcntl.ioctl(0, termios.TIOCSWINSZ, struct.pack("HHHH", rows, 80, 0, 0))
            os.chdir(self.clone)
            os.execve("/bin/sh", ["sh", "-c", self.here(text)], {**self.env, "TERM": "xterm"})
        seen = b""
        # The read fails at the end.
        with contextlib.suppress(OSError):
            while select.select([tty], [], [], PATIENCE)[0]:
                seen += os.read(tty, 65536)
                if wanted.encode() in seen:
                    os.write(tty, b"\x1d")
        os.close(tty)
        status = os.waitstatus_to_exitcode(os.waitpid(child, 0)[1])
        command.expects_in(f"the tty of `{text}`", seen.decode(errors="replace"), wanted)
        command.expects(f"the status of `{text}` at Ctrl-]", status, 0)


# ---- what is done with a command


def is_there(walk, command, path):
    if not (walk.clone / path).exists():
        command.fails(path, "there is no such file")


def refuses_first(walk, command):
    """A port that is taken and a file that isn't there are told before anything is compiled."""
    with socket.create_server(("127.0.0.1", 0)) as taken:
        port = str(taken.getsockname()[1])
        wanted = "", f"quick: port {port} of 127.0.0.1: Address already in use\n", 4
        for words in (f"--port {port}", f"--port={port}", f"--port {free_port()} --metrics {port}"):
            text = f"bin/quick serve {words} --panels examples/bank.toml"
            command.expects(f"`{text}` at a port that is taken", walk.ran(text), wanted)
    text = f"bin/quick serve --port {free_port()} --panels none.toml"
    command.expects(
        f"`{text}`", walk.ran(text), ("", "quick: none.toml: No such file or directory\n", 1)
    )


def passes_all_on(walk, command):
    """Once the program is there: a path of another folder, the status, a signal."""
    got = walk.ran("../bin/quick check first.toml", folder="examples")
    command.expects(
        "bin/quick in another folder", got, ("ok: 2 panels, 1 field, 2 LUs\n", COMPILED, 0)
    )
    command.expects("the status of a wrong word", walk.ran("bin/quick nonsense")[2], 2)
    host = walk.running[HOST]
    host.terminate()
    command.expects("the status of a host that is stopped", host.wait(PATIENCE), -signal.SIGTERM)


def prefers_the_proved(walk, command):
    """bin/quick runs the proved program if it is there, unless it is older than the sources."""
    compiled, proved = walk.ran("bin/quick --which")[0], walk.clone / PROVED
    proved.parent.mkdir()
    shutil.copy(compiled.strip(), proved)
    command.expects(
        "bin/quick with a proved program", walk.ran("bin/quick --which")[0], f"{proved}\n"
    )
    os.utime(proved, (0, 0))
    command.expects("bin/quick with an older one", walk.ran("bin/quick --which")[0], compiled)
    shutil.rmtree(proved.parent)


def first_screen(walk, command):
    refuses_first(walk, command)
    serves(walk, command, patience=COMPILING)
    walk.shows(command, SIGN_ON, "TRANSFER OF FUNDS")
    walk.operate(command, "bin/operate 3270", "FIRST NATIONAL BANK")
    passes_all_on(walk, command)
    prefers_the_proved(walk, command)


def serves(walk, command, **how):
    walk.start(command, walk.here(command.text), HOST, command.prints or LISTENS, **how)


def serves_with_a_log(walk, command):
    serves(walk, command, log=walk.clone / "serve.log")
    walk.shows(command, SIGN_ON, "TRANSFER OF FUNDS")


def serves_with_a_socket(walk, command):
    serves(walk, command, log=walk.clone / "serve.log")


def tells(walk, command):
    out, said, status = walk.ran(walk.here(command.text))
    command.expects("what `tell` prints", out.rstrip(), command.prints)
    command.expects("its status", status, int(out.startswith("error")))


def asks_for_an_lu(walk, command):
    """The page's file of commands is the reader's own."""
    (walk.clone / "commands").write_text("wait\nstatus\n")
    walk.prints(command, walk.here(command.text), ["bound BANK02"])


def operates(walk, command):
    walk.operate(command, command.text, "BANK02" if "BANK02" in command.text else "BANK01", rows=44)


def serves_pages(walk, command):
    """A page at its port shows the host's panel."""
    walk.start(command, walk.here(command.text), APPLICATION, "listening on http://127.0.0.1:8080/")
    page = Page(int(walk.ports[APPLICATION]))
    page.send(TEXT, b"open 2")
    if not any(b"TELLER" in it for _, it in page.messages()):
        command.fails("a page with TELLER", "another")
    page.close()


def application(walk, command):
    """Starts the program of an application, which has its port in its text."""
    text = walk.read(command.text.split()[1])
    (walk.place / "application.py").write_text(text.replace(APPLICATION, walk.ports[APPLICATION]))
    walk.start(command, f"python3 {walk.place}/application.py", APPLICATION, command.prints)


def greets(walk, command):
    if APPLICATION not in walk.running:
        application(walk, dataclasses.replace(command, lines=["$ python3 examples/greeting.py"]))
    serves(walk, command)
    walk.shows(command, "wait\ntype ADA\nkey enter\nwait\nshow\n", "GOOD MORNING, ADA")
    walk.end()


def signs_on(walk, command):
    serves(walk, command)
    walk.shows(command, SIGN_ON, "WELCOME, ANN MILLER")
    is_there(walk, command, "bank.db")


def answers_by_script(walk, command):
    script = f"{walk.read('examples/greeting.toml')}%%\n{command.text}\n"
    walk.prints(command, "bin/quick", ['\nvisitor="ADA"\n', "\n GOOD MORNING, ADA\n"], script)


def own_script(walk, command):
    (walk.clone / "MINE").write_text("connect 0\nsettle\nshow 0\n")
    walk.prints(command, walk.here(command.text), ["FIRST NATIONAL BANK"])


def sign_on_script(walk, command):
    walk.prints(command, walk.here(command.text), [walk.read("examples/sign-on.screens")])


def installs(walk, command):
    """As root would, in a folder of its own in place of the root; then what the unit for systemd
    starts listens."""
    root = walk.place / "root"
    for folder in ("usr/local/bin", "run/panel3270"):
        (root / folder).mkdir(parents=True)
    lines = re.sub("^# ", "", command.text, flags=re.M).replace(PROVED, '"$(bin/quick --which)"')
    unit = walk.read("examples/panel3270.service").replace("\\\n", "")
    says = dict(re.findall("^(Environment|ExecStart)=(.*)", unit, re.M))
    start = f"env {says['Environment']} {says['ExecStart']}"
    install, start = (
        re.sub("(^|[ =])(?=/(usr|etc|run)/)", rf"\1{root}", it) for it in (lines, start)
    )
    walk.ran("bin/quick --which", patience=COMPILING)
    walk.prints(command, f"set -e\n{install}", [])
    walk.start(command, walk.here(start), HOST, LISTENS)


def packs(walk, command):
    """The package of the program without a proof."""
    text = f'PANEL3270="$(bin/quick --which)" {command.text} --unproved'
    out, said, status = walk.ran(text, patience=COMPILING)
    command.expects(f"the status of `{text}` ({said})", status, 0)
    is_there(walk, command, out.strip())


def has_the_toolchain(walk, command):
    """The command itself takes an hour, and `rt ci` does the same."""
    named = re.search(r"`rt version` must end with `(.*)`", walk.read(command.page))[1]
    command.expects(
        "the end of `rt version`", walk.ran("rt version")[0].strip()[-len(named) :], named
    )


def same_as_ci(walk, command):
    ran = [
        it.removesuffix(" > /dev/null")
        for it in walk.read(".ci/run").splitlines() if re.match(r"(rt|[a-z-]+/[a-z]+)\b", it)
    ]
    command.expects(
        "the test command is that of .ci/run",
        re.sub(r"^RT_JOBS=\S+ ", "", command.text).split(" && "),
        ran,
    )


def lines_of(name):
    """The text's lines are in a file, in their order."""

    def are_there(walk, command):
        left = iter(walk.read(name).splitlines())
        for line in command.text.splitlines():
            if line not in left:
                command.fails(f"the line `{line}` in {name}", "it isn't there")

    return are_there


WINDOW = "needs x3270 and a window"
S3270 = "needs s3270: the suite s3270_sessions"
PRINTED = "is output or a request: the suite printed"
LOG = "time=2026-11-27T05:41:14Z conn=0 session=5d8c01f3a7be9042-0 peer=127.0.0.1:36532"
# What a command begins with, and what is done with it, or why it isn't run.
STEPS = {
    # README.md
    "bin/quick serve": first_screen,
    "x3270 ": WINDOW,
    "(cd crates/panel3270 && rt run < stdin)": has_the_toolchain,
    "RT_JOBS=2 rt ci": same_as_ci,
    "import json": lines_of("examples/greeting.py"),
    "panel3270 serve --port 3270 --panels examples/greeting.toml": greets,
    # examples/README.md
    f"{PROVED} < examples/sign-on.script": sign_on_script,
    "(cat examples/bank.toml; echo %%; cat MINE) |": own_script,
    # docs/USING.md
    'start = "ASK"': lines_of("examples/first.toml"),
    "[[panel.text]]": lines_of("examples/first.toml"),
    "[[panel.field]]": lines_of("examples/first.toml"),
    "[panel.keys]": lines_of("examples/first.toml"),
    '[[panel]]\nname = "ITINERARY"': lines_of("examples/airline.toml"),
    # docs/OPERATING.md
    "# install ": installs,
    "bin/package": packs,
    "rule_files:": "is a configuration of Prometheus: the suite package",
    "panel3270 serve --port 3270 --panels examples/bank.toml": serves_with_a_log,
    "panel3270 serve --port 3270 --control control": serves_with_a_socket,
    "panel3270 tell ": tells,
    "s3270 ": S3270,
    "c3270 ": "needs c3270",
    "panel3270 term --port 3270 --lu BANK02": asks_for_an_lu,
    "echo 'Connect(NOSUCH": S3270,
    "bin/operate ": operates,
    "# A line that begins with # is a comment.": "is a keymap: the suite operate",
    "# The hosts of this office.": "is a list of hosts: the suite operate",
    "panel3270 web --port 8080": serves_pages,
    "listening on 127.0.0.1:3270\ntime=": "is the log of s3270: the suite s3270_sessions",
    "warning: other machines": PRINTED,
    "[tn3270]\n": "is a text for stunnel: the suite s3270_sessions",
    "[operate]\n": "is a text for stunnel: the suite operate",
    "printf 'Connect(L:BANK04": "needs s3270 and stunnel: the suite s3270_sessions",
    "bin/serve --processes": "needs HAProxy: the suite processes",
    "first$ panel3270-serve --share 1/2": "needs several machines: the suite processes",
    "time=2026-11-27T09:42:27Z process=2": "is the log of processes: the suite processes",
    # docs/APPLICATIONS.md
    "python3 examples/": application,
    "panel3270 serve --port 3270 --panels examples/bank-asks.toml": signs_on,
    "POST /bank": PRINTED,
    '{"client":': PRINTED,
    '{"event":"ended"': "is a request: the suite applications",
    '{"panel": "MENU"': PRINTED,
    f"{LOG} event=application-replaced": "is a line of the log: the suite applications",
    f"{LOG} event=application-error": PRINTED,
    "connect 0\nsettle\ntype 0 ADA": answers_by_script,
}


def step_of(command):
    """The beginning of the entry of STEPS for a command; None if its output is compared elsewhere,
    "" if there is no entry."""
    if command.is_prompted and PROVED in command.lines[0]:
        return None
    return next((it for it in STEPS if command.text.startswith(it)), "")


def take_step(walk, command):
    """Does what the table says of a command. Its files are there, also if it isn't run."""
    for path in re.findall(r"\bexamples/[\w.-]+", command.text):
        is_there(walk, command, path)
    begins = step_of(command)
    if begins == "":
        command.fails("an entry of STEPS for this command", command.text.splitlines()[0])
    if begins and callable(STEPS[begins]):
        STEPS[begins](walk, command)


def sentences(walk, page):
    """Files and jobs that the sentences of a page name are there."""
    jobs = re.findall(r"^  ([a-z]+) ", walk.ran("bin/quick help", patience=COMPILING)[0], re.M)
    for number, line in enumerate(walk.read(page).splitlines(), 1):
        for first, second in re.findall(r"`([^` ]+) ?([^` ]*)[^`]*`", line):
            command = Command(page, number, [])
            if re.match(r"(bin|bench|docs|examples|tests)/", first):
                is_there(walk, command, first)
            elif first == "panel3270" and second:
                command.expects_in("`panel3270 help`", jobs, second)


# ---- the cases


@functools.cache
def the_walk():
    """The clone, until the process ends."""
    folder = tempfile.TemporaryDirectory(prefix="walk-")
    walk = Walk(pathlib.Path(folder.name))
    atexit.register(folder.cleanup)
    atexit.register(walk.end)
    return walk


def walk_through(page):
    walk = the_walk()
    try:
        for it in commands(page, walk.read(page)):
            take_step(walk, it)
    finally:
        walk.end()
    sentences(walk, page)


def each_step_is_of_a_page():
    """A command of a page begins as each entry of STEPS says."""
    found = {
        step_of(it)
        for page in PAGES
        for it in commands(page, (TOP / page).read_text(encoding="utf-8"))
    }
    unused = sorted(set(STEPS) - found)
    if unused:
        raise Difference("a command of the pages for each entry of STEPS", f"none for {unused}")


def the_other_output_is_that_of_quick():
    """The suites of what the pages print pass with the program of bin/quick, too."""
    for suite in ("examples:", "printed:"):
        out, said, status = the_walk().ran(
            f'PANEL3270="$(bin/quick --which)" tests/run -k "{suite}"', patience=COMPILING
        )
        if status:
            raise Difference(
                f"tests/run -k {suite} passes with the program of bin/quick", f"{out}{said}"
            )


def cases() -> Iterator[Case]:
    yield of_function(each_step_is_of_a_page)
    for page in PAGES:
        yield Case(page, Place(page, 1), functools.partial(walk_through, page))
    yield of_function(the_other_output_is_that_of_quick)
