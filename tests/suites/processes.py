"""`bin/serve --processes`: four processes behind HAProxy, with 200 sessions of s3270 at once.

The LUs of a text are dealt out in its order, so that each fourth one is of the same process."""
import contextlib
import json
import os
import pathlib
import re
import shutil
import signal
import socket
import subprocess
import sys
import tempfile
import threading
import time
import tomllib

from harness import hosts, programs
from harness.case import TOP, Checks, Difference, expect
from harness.s3270 import S3270, is_wanted

LONG = True
PROCESSES, SESSIONS, AT_ONCE = 4, 200, 16
LUS = [f"LU{it:03}" for it in range(SESSIONS)]
PANELS = f"""start = "WORD"
lus = [
    {', '.join(f'"{it}"' for it in LUS)},
]
[[panel]]
name = "WORD"
text = [{{row = 1, col = 2, text = "WORD"}}, {{row = 5, col = 2, show = "word", length = 8}}]
field = [{{name = "word", row = 3, col = 8, length = 8}}]
keys = {{enter = "WORD"}}
"""

check = Checks()


def panels_with(*lus, word="WORD"):
    """The panels with these LUs, and this text in the first row."""
    text = re.sub(r"(?s)lus = \[.*?\]", f"lus = {json.dumps(lus)}", PANELS)
    return text.replace('text = "WORD"', f'text = "{word}"')


class Service:
    """bin/serve with the panels, at a port, in a folder of its own, until the check is over."""

    def __init__(self, folder, *words, panels=PANELS, program=None, errors=None, port=None):
        self.folder, self.port = pathlib.Path(folder), port or hosts.free_port()
        (self.folder / "panels.toml").write_text(panels)
        words = ["--port", str(self.port), "--folder", folder, "--panels", f"{folder}/panels.toml", *words]
        words = [sys.executable, TOP / "bin/serve", *words]
        self.environment = {**os.environ, "PANEL3270": str(program or programs.panel3270())}
        how = {"env": self.environment, "start_new_session": True}
        with open(self.folder / "said", "wb") as said, open(self.folder / "out", "wb") as out:
            self.process = subprocess.Popen(words, stderr=errors or said, stdout=out, **how)

    def __enter__(self):
        return self

    def __exit__(self, *_):
        with contextlib.suppress(ProcessLookupError):
            os.killpg(self.process.pid, signal.SIGKILL)
        self.process.wait()

    def process_of(self, number):
        """The process that serves the panels of this number."""
        children = pathlib.Path(f"/proc/{self.process.pid}/task/{self.process.pid}/children")
        for child in children.read_text().split():
            if f"{self.folder}/{number}.toml" in pathlib.Path(f"/proc/{child}/cmdline").read_text():
                return int(child)
        raise Difference(f"process {number}", "it doesn't run")

    def reloads(self, panels, says, times=1):
        """Gets HUP after the panels were written again, and says this so many times."""
        said = (self.folder / "said").read_text()
        (self.folder / "panels.toml").write_text(panels)
        self.process.send_signal(signal.SIGHUP)
        hosts.until(
            f"it says {says!r}",
            lambda: (self.folder / "said").read_text()[len(said) :].count(says) == times,
        )

    def says(self, text, times=1):
        """It has said this so many times."""
        hosts.until(f"it says {text!r}", lambda: (self.folder / "said").read_text().count(text) >= times)

    def tells(self, *words):
        """What `bin/serve tell` prints, and its status."""
        words = [sys.executable, TOP / "bin/serve", "tell", self.folder, *words]
        run = subprocess.run(words, env=self.environment, check=False, stdout=subprocess.PIPE, text=True)
        return run.stdout.splitlines(), run.returncode

    def lus_of(self, number):
        """The LUs of the process with this number."""
        return tomllib.loads((self.folder / f"{number}.toml").read_text())["lus"]

    def connects(self, terminal, name="", port=None, word="WORD"):
        """A terminal is bound to an LU, and shown the panel; the name of the LU."""

        def is_bound():
            with contextlib.suppress(Difference):
                terminal.is_connected() or terminal.does(
                    f"Connect({name}{hosts.LOCALHOST}:{port or self.port})", "Wait(5,InputField)"
                )
            return terminal.is_connected() and terminal.shows()[0] == f" {word}"

        hosts.until("a terminal is shown the panel", is_bound)
        return terminal.does("Query(LuName)")[0]


def all_at_once(acts):
    """Runs calls, some of them at once, and raises what one of them raised."""
    left, wrong = list(acts), []

    def works():
        while left and not wrong:
            try:
                left.pop()()
            except Exception as error:
                wrong.append(error)

    threads = [threading.Thread(target=works) for _ in range(AT_ONCE)]
    for it in threads:
        it.start()
    for it in threads:
        it.join()
    for it in wrong:
        raise it


def works_on(terminal, text):
    """Types a text and presses Enter, and sees it in the row that shows it."""
    terminal.does("Home", "EraseEOF", f'String("{text}")', "Enter", "Wait(Unlock)")
    hosts.until(f"{text} is shown", lambda: terminal.shows()[4] == f" {text}")


@check
def a_killed_process_disturbs_no_other():
    """With 200 sessions one process is killed: the sessions of the others go on; its own operators
    connect again, and all LUs are granted, each once. A port of a process has its names."""
    with tempfile.TemporaryDirectory() as folder, Service(
        folder, "--processes", str(PROCESSES)
    ) as service, contextlib.ExitStack() as stack:
        config = service.folder / "haproxy.cfg"
        hosts.until("HAProxy's configuration", config.exists)
        terminals, lus = [stack.enter_context(S3270(2)) for _ in LUS], {}
        all_at_once(
            lambda it=it: lus.update({it: service.connects(it)}) for it in terminals
        )
        expect("the LUs granted", sorted(lus.values()), LUS)
        expect("what is printed", (service.folder / "out").read_text(), config.read_text())
        os.kill(service.process_of(2), signal.SIGKILL)
        others = [it for it in terminals if LUS.index(lus[it]) % PROCESSES != 1]
        all_at_once(lambda it=it: works_on(it, lus[it]) for it in others)
        lost = [it for it in terminals if it not in others]
        for it in lost:
            hosts.until("a session of the killed process ends", lambda it=it: not it.is_connected())
        all_at_once(lambda it=it: lus.update({it: service.connects(it)}) for it in lost)
        expect("the LUs granted", sorted(lus.values()), LUS)
        expect("sessions of other processes that went on", all(it.is_connected() for it in others), True)
        first = next(it for it in terminals if lus[it] == "LU002")
        first.does("Disconnect")
        expect("its LU by name", service.connects(first, "LU002@", service.port + 3), "LU002")


@check
def signals_reach_all_processes():
    """HUP: each process shows new sessions the new panels; old sessions keep theirs. An LU that a
    text has lost and a later one has again goes to the process in which it may have a session. A
    wrong text changes nothing. TERM: all end with the last session."""
    first = panels_with("LUA", "LUB", "LUC", "LUD")
    with tempfile.TemporaryDirectory() as folder, Service(
        folder, "--processes", "2", panels=first
    ) as service, contextlib.ExitStack() as stack:
        terminals = [stack.enter_context(S3270(2)) for _ in range(4)]
        ports = (service.port + 1, service.port + 2)
        olds = [
            service.connects(it, f"{lu}@", port)
            for it, lu, port in zip(terminals, ("LUA", "LUB"), ports)
        ]
        expect("the LUs granted", olds, ["LUA", "LUB"])
        service.reloads(panels_with("LUC", "LUD", word="NEW"), "ok reloaded: panels=1 lus=1", 2)
        news = [
            service.connects(it, f"{lu}@", port, "NEW")
            for it, lu, port in zip(terminals[2:], ("LUC", "LUD"), ports)
        ]
        expect("the LUs granted", news, ["LUC", "LUD"])
        service.reloads(panels_with("LUC", "LUD", "LUB"), "ok reloaded", 2)
        dealt = [["LUC"], ["LUD", "LUB"]]
        expect("the LUs of the processes", [service.lus_of(1), service.lus_of(2)], dealt)
        service.reloads("lus = [", "panels.toml: ")
        service.reloads(first.replace("length = 8", "length = 0"), "panels.toml:6: ")
        expect("the LUs of the processes", [service.lus_of(1), service.lus_of(2)], dealt)
        for it in terminals:
            works_on(it, "OLD")
        service.process.send_signal(signal.SIGTERM)
        hosts.until("it drains", lambda: (service.folder / "said").read_text().count("ok draining") == 2)
        for it in terminals:
            works_on(it, "LAST")
            expect("it runs", service.process.poll(), None)
            it.does("Disconnect")
        expect("its status", service.process.wait(hosts.PATIENCE), 0)


@check
def a_text_that_cannot_be_dealt_out_is_refused():
    """Three processes can't have 200 LUs: 64 each."""
    with tempfile.TemporaryDirectory() as folder, Service(folder, "--processes", "3") as service:
        expect("its status", service.process.wait(hosts.PATIENCE), 1)
        said = (service.folder / "said").read_text()
        expect("what it says", bool(re.search(r"1 to 64 LUs for each of 3 processes", said)), True)


@contextlib.contextmanager
def two_processes(*words, **given):
    """Two processes, each with one LU, once they listen."""
    with tempfile.TemporaryDirectory() as folder, Service(
        folder, "--processes", "2", *words, panels=panels_with("LUA", "LUB"), **given
    ) as service:
        for port in (service.port + 2, service.port + 101, service.port + 102):
            hosts.until("they listen", lambda port=port: hosts.listens(port))
        yield service


@check
def a_stopped_process_holds_up_no_other():
    """While one process is stopped, and doesn't answer HUP, another that is killed is started again."""
    with two_processes() as service, S3270(2) as terminal:
        stopped, killed = service.process_of(1), service.process_of(2)
        os.kill(stopped, signal.SIGSTOP)
        service.process.send_signal(signal.SIGHUP)
        os.kill(killed, signal.SIGKILL)
        begin = time.monotonic()
        expect("the LU granted", service.connects(terminal, port=service.port + 2), "LUB")
        expect("in time", time.monotonic() - begin < 8, True)
        os.kill(stopped, signal.SIGCONT)
        service.says("ok reloaded", 1)


@check
def many_signals_are_one():
    """300 HUPs at once are a few reloads, and the service goes on."""
    with two_processes() as service:
        for _ in range(300):
            service.process.send_signal(signal.SIGHUP)
        service.says("ok reloaded", 2)
        service.process.send_signal(signal.SIGTERM)
        expect("its status", service.process.wait(hosts.PATIENCE), 0)


@check
def panels_that_cannot_be_written_change_nothing():
    """If the new panels can't be written to its folder, the service says so, and goes on as it is."""
    with two_processes() as service, S3270(2) as terminal:
        (service.folder / "2.toml.new").mkdir()
        service.reloads(panels_with("LUA", "LUB", "LUC"), "2.toml.new")
        expect("the LUs of process 1", service.lus_of(1), ["LUA"])
        expect("the LU granted", service.connects(terminal, port=service.port + 1), "LUA")
        (service.folder / "2.toml.new").rmdir()
        service.reloads(panels_with("LUA", "LUB", "LUC"), "ok reloaded", 2)
        expect("the LUs of process 1", service.lus_of(1), ["LUA", "LUC"])


@check
def an_upgrade_loses_no_session():
    """USR1: process 1 drains, while process 2 serves; once its session has ended it is started from the
    new program, and then process 2 in the same way. A program that doesn't start ends the upgrade."""
    with tempfile.TemporaryDirectory() as place, contextlib.ExitStack() as stack:
        program, log = pathlib.Path(place) / "program", pathlib.Path(place) / "log"

        def installs(name, line):
            new = program.with_suffix(".new")
            new.write_text(f"#!/bin/sh\n[ $1 = serve ] && echo {name} >> {log}\n{line}\n")
            new.chmod(0o755)
            new.replace(program)

        installs("old", f'exec {programs.panel3270()} "$@"')
        service = stack.enter_context(two_processes(program=program))
        first, second, other = (stack.enter_context(S3270(2)) for _ in range(3))
        for terminal, port, lu in ((first, 1, "LUA"), (second, 2, "LUB")):
            expect("the LU granted", service.connects(terminal, port=service.port + port), lu)
        installs("broken", f'[ $1 = serve ] && exit 2\nexec {programs.panel3270()} "$@"')
        service.process.send_signal(signal.SIGUSR1)
        service.says("ok draining")
        works_on(first, "ONE")
        works_on(second, "TWO")
        first.does("Disconnect")
        service.says("process 1 ended with status 2: the upgrade ends")
        works_on(second, "GOES ON")
        installs("new", f'exec {programs.panel3270()} "$@"')
        service.process.send_signal(signal.SIGUSR1)
        service.says("process 1 is upgraded")
        works_on(second, "STILL")
        expect("the LU granted", service.connects(other, port=service.port), "LUA")
        second.does("Disconnect")
        service.says("process 2 is upgraded")
        works_on(other, "THREE")
        expect("what was started", log.read_text().split(), ["old", "old", "broken", "new", "new"])


@check
def an_upgrade_without_a_program_changes_nothing():
    """USR1 while the program is missing: the service says so, and goes on. A process that ends meanwhile
    is started again once the program is there."""
    with tempfile.TemporaryDirectory() as place, contextlib.ExitStack() as stack:
        program = pathlib.Path(place) / "program"
        program.symlink_to(programs.panel3270())
        service = stack.enter_context(two_processes(program=program))
        first, second = (stack.enter_context(S3270(2)) for _ in range(2))
        expect("the LU granted", service.connects(first, port=service.port + 2), "LUB")
        program.unlink()
        service.process.send_signal(signal.SIGUSR1)
        service.says(f"No such file or directory: '{program}'")
        works_on(first, "STILL")
        os.kill(service.process_of(1), signal.SIGKILL)
        service.says(f"No such file or directory: '{program}'", 2)
        program.symlink_to(programs.panel3270())
        expect("the LU granted", service.connects(second, port=service.port + 1), "LUA")
        works_on(first, "AFTER")


@check
def each_process_is_told():
    """`tell FOLDER` gives each process a command, and prints what each answers."""
    with two_processes() as service, S3270(2) as terminal:
        service.connects(terminal, "LUB@", service.port + 2)
        said, status = service.tells("sessions")
        expect("its status", status, 0)
        expect("lines", [it.split(" 127.")[0] for it in said], [
            "process 1: ok sessions=0", "process 2: ok sessions=1: LUB"])
        expect("a note", service.tells("note", "LUB", "HELLO"), (
            ["process 1: error no session has this LU", "process 2: ok shown, or as soon as the operator may type"], 1))


@check
def a_fault_of_its_own_has_a_status():
    """A folder that can't be made is told in one line, with the status that says whose fault it is."""
    with tempfile.NamedTemporaryFile() as file, tempfile.TemporaryDirectory() as folder:
        with Service(folder, "--processes", "2", "--folder", f"{file.name}/no") as service:
            expect("its status", service.process.wait(hosts.PATIENCE), 70)
            said = (service.folder / "said").read_text()
            expect("what it says", (said.count("\n"), f"{file.name}/no" in said), (1, True))


@check
def an_installed_script_finds_the_program():
    """Outside of the repository the program on the path is run."""
    with tempfile.TemporaryDirectory() as folder:
        place = pathlib.Path(folder) / "bin"
        place.mkdir()
        shutil.copy(TOP / "bin/serve", place / "panel3270-serve")
        (place / "panel3270").symlink_to(programs.panel3270())
        environment = {**os.environ, "PATH": f"{place}:{os.environ['PATH']}"}
        environment.pop("PANEL3270", None)
        words = [place / "panel3270-serve", "--port", "1", "--panels", f"{folder}/none"]
        run = subprocess.run(words, env=environment, check=False, stderr=subprocess.PIPE, text=True)
        expect("its status and what it says", (run.returncode, f"{folder}/none" in run.stderr), (1, True))


@check
def a_dead_process_is_told_in_its_turn():
    """A socket that nobody listens at is reported with its process; the others do what they are told. A
    service that starts removes such sockets, and has its folder alone."""
    with two_processes() as service:
        with socket.socket(socket.AF_UNIX) as dead:
            dead.bind(f"{service.folder}/3.control")
        said, status = service.tells("sessions")
        expect("what the others say", said[:2], ["process 1: ok sessions=0", "process 2: ok sessions=0"])
        expect("the third and the status", (said[2].split(": ")[0], len(said), status), ("process 3", 3, 4))
        words = [sys.executable, TOP / "bin/serve", "--processes", "2", "--folder", service.folder]
        words += ["--panels", service.folder / "panels.toml", "--port", str(hosts.free_port())]
        run = subprocess.run(words, env=service.environment, stderr=subprocess.PIPE, check=False)
        expect("the status of another in its folder", run.returncode, 4)
        expect("what it says", b"another bin/serve has this folder" in run.stderr, True)
    with tempfile.TemporaryDirectory() as folder:
        with socket.socket(socket.AF_UNIX) as dead:
            dead.bind(f"{folder}/3.control")
        with Service(folder, "--processes", "2", panels=panels_with("LUA", "LUB")) as service:
            service.says("listening", 2)
            expect("a socket of a former process", (service.folder / "3.control").exists(), False)


# ---- several machines


@contextlib.contextmanager
def machines(*processes, lus=("LUA", "LUB", "LUC", "LUD")):
    """Machines with these numbers of processes, which share these LUs, behind a proxy. Ten ports are
    between those of two of them."""
    with contextlib.ExitStack() as stack:
        services, port = [], hosts.free_port()
        for place, count in enumerate(processes, 1):
            folder = stack.enter_context(tempfile.TemporaryDirectory())
            words = ["--share", f"{place}/{len(processes)}", "--processes", str(count), "--proxy-protocol"]
            it = Service(folder, *words, panels=panels_with(*lus), port=port + 10 * place)
            services.append(stack.enter_context(it))
        for it, count in zip(services, processes):
            it.says("listening", count)
        yield services


@check
def machines_share_the_lus():
    """Each of two machines has each second LU of the same text, one process too; after HUP as well. A
    text by which an LU would move to the other machine is refused."""
    with machines(1, 2, lus=("LUA", "LUB", "LUC", "LUD", "LUE")) as (first, second):
        expect("the LUs of machine 1", first.lus_of(1), ["LUA", "LUC", "LUE"])
        expect("the LUs of machine 2", (second.lus_of(1), second.lus_of(2)), (["LUB"], ["LUD"]))
        expect("its port for any LU takes headers", (first.folder / "haproxy.cfg").read_text().count(
            f"bind 127.0.0.1:{first.port} accept-proxy"), 1)
        more = panels_with("LUA", "LUB", "LUC", "LUD", "LUE", "LUF", "LUG")
        first.reloads(more, "ok reloaded: panels=1 lus=4")
        second.reloads(more, "ok reloaded", 2)
        expect("the LUs of machine 1", first.lus_of(1), ["LUA", "LUC", "LUE", "LUG"])
        expect("the LUs of machine 2", (second.lus_of(1), second.lus_of(2)), (["LUB", "LUF"], ["LUD"]))
        for it in (first, second):
            moved = panels_with("LUB", "LUC", "LUD", "LUE", "LUF", "LUG")
            it.reloads(moved, "LUB would move to another machine: add LUs at the end of the list")
        expect("the LUs of machine 1", first.lus_of(1), ["LUA", "LUC", "LUE", "LUG"])
    for share in ("0/2", "3/2", "1/65", "1"):
        with tempfile.TemporaryDirectory() as folder, Service(folder, "--share", share) as it:
            expect(f"the status of {share}", it.process.wait(hosts.PATIENCE), 2)


def front_of(services, folder, port):
    """The file of an HAProxy before these machines of two processes each, as bin/serve prints it; its
    page of statistics is at another port, since other checks may have one, too."""
    addresses = ",".join(f"127.0.0.1:{it.port}" for it in services)
    words = [TOP / "bin/serve", "--front", addresses, "--panels", services[0].folder / "panels.toml"]
    words = [sys.executable, *words, "--processes", "2", "--port", str(port)]
    text = subprocess.run(words, check=True, stdout=subprocess.PIPE, text=True).stdout
    path = pathlib.Path(folder) / "front.cfg"
    path.write_text(text.replace("127.0.0.1:8404", f"127.0.0.1:{hosts.free_port()}"))
    return path


@check
def a_front_reaches_all_machines():
    """Through HAProxy before two machines all LUs are granted at one port, and those of each process at
    its own, which the file lists. A machine that drains gets nobody new, while its session goes on. No
    host logs a check."""
    with machines(2, 2) as services, tempfile.TemporaryDirectory() as folder, contextlib.ExitStack() as stack:
        port = services[-1].port + 10
        path = front_of(services, folder, port)
        for it in (path, *(it.folder / "haproxy.cfg" for it in services)):
            checked = subprocess.run(["haproxy", "-c", "-f", it], check=False, capture_output=True)
            expect(f"haproxy -c of {it.name}", (checked.returncode, checked.stderr), (0, b""))
        table = re.findall(r"# (LU.)\nlisten machine(.)-process(.)\n    bind 127.0.0.1:(.*)\n", path.read_text())
        places = [("LUA", "1", "1"), ("LUC", "1", "2"), ("LUB", "2", "1"), ("LUD", "2", "2")]
        expect("the table", table, [(*it, str(port + at)) for at, it in enumerate(places, 1)])
        proxy = subprocess.Popen(["haproxy", "-f", path], stdout=subprocess.DEVNULL)
        stack.callback(proxy.wait)
        stack.callback(proxy.kill)
        terminals = [stack.enter_context(S3270(2)) for _ in range(4)]
        granted = {services[0].connects(it, port=port): it for it in terminals}
        expect("the LUs granted", sorted(granted), ["LUA", "LUB", "LUC", "LUD"])
        granted["LUD"].does("Disconnect")
        expect("the LU by name", services[0].connects(granted["LUD"], "LUD@", port + 4), "LUD")
        time.sleep(5)
        logs = "".join((it.folder / "said").read_text() for it in services)
        expect("the sessions that began", logs.count("event=connected"), 5)
        expect("wrong headers", logs.count("event=bad-proxy-header"), 0)
        services[0].process.send_signal(signal.SIGTERM)
        services[0].says("ok draining", 2)
        for lu in ("LUC", "LUB", "LUD"):
            granted[lu].does("Disconnect")
        for lu in ("LUB", "LUD"):
            expect("of the machine that goes on", services[0].connects(granted[lu], port=port) in "LUB LUD", True)
        works_on(granted["LUA"], "STILL")
        granted["LUA"].does("Disconnect")
        expect("the status of the drained", services[0].process.wait(hosts.PATIENCE), 0)


@check
def health_is_that_of_the_processes():
    """/health is 200 while a process answers with its metrics, and 503 while none does; no host logs
    these checks."""
    port = hosts.free_port()
    request = b"GET /health HTTP/1.1\r\nHost: localhost\r\nConnection: close\r\n\r\n"
    words = ["--share", "1/1", "--proxy-protocol", "--metrics", str(port + 50)]
    with tempfile.TemporaryDirectory() as folder, Service(
        folder, *words, panels=panels_with("LUA"), port=port
    ) as service:
        service.says("listening")

        def status():
            with contextlib.suppress(OSError):
                return hosts.scraped(port + 100, request)[9:12]

        hosts.until("200", lambda: status() == b"200")
        os.kill(service.process_of(1), signal.SIGSTOP)
        hosts.until("503", lambda: status() == b"503")
        os.kill(service.process_of(1), signal.SIGCONT)
        hosts.until("200", lambda: status() == b"200")
        expect("events", (service.folder / "said").read_text().count("event="), 0)
        service.process.send_signal(signal.SIGTERM)
        hosts.until("nobody listens", lambda: not hosts.listens(port + 100) and not hosts.listens(port))


# ---- metrics and the log of several processes


@check
def one_page_has_the_metrics_of_all():
    """Each series with its process, those of a metric together, and HELP and TYPE once. A process that
    is stopped is missing within two seconds. Other requests are answered as the program's own port does."""
    port = hosts.free_port()
    metrics = port + 50
    with two_processes("--metrics", str(metrics), port=port) as service, S3270(2) as terminal:
        service.connects(terminal, port=service.port + 2)

        def page(request=hosts.GET):
            return hosts.scraped(metrics, request)

        def sessions():
            return re.findall(r'(?m)^panel3270_(sessions|process_up)\{process="(.)"\} (\d)$', page().decode())

        hosts.until("a page of both", lambda: len(sessions()) == 4)
        up = [("process_up", "1", "1"), ("process_up", "2", "1")]
        expect("the page", sessions(), [("sessions", "1", "0"), ("sessions", "2", "1"), *up])
        head, _, text = page().decode().partition("\r\n\r\n")
        own = hosts.scraped(metrics + 1, hosts.GET).decode().partition("\r\n\r\n")[0]
        fields = [it for it in own.splitlines() if "Content-Length" not in it]
        expect("the header", [it for it in head.splitlines() if "Content-Length" not in it], fields)
        kinds = re.findall(r"(?m)^# TYPE (\S+)", text)
        expect("metrics twice", [it for it in set(kinds) if kinds.count(it) != 1], [])
        names = [re.sub(r"_(bucket|sum|count)$", "", it) for it in re.findall(r"(?m)^(?!#)(\w+)\{", text)]
        expect("the order of the series", list(dict.fromkeys(names)), kinds)
        runs = [it for place, it in enumerate(names) if names[place - 1 : place] != [it]]
        expect("series apart", len(runs), len(kinds))
        if shutil.which("promtool"):
            done = subprocess.run(
                ["promtool", "check", "metrics"], input=text.encode(), capture_output=True, check=False
            )
            expect("promtool", (done.returncode, done.stdout, done.stderr), (0, b"", b""))
        for request in (
            b"HEAD /metrics HTTP/1.1\r\nHost: [::1]:80\r\n\r\n",
            b"GET /metrics HTTP/1.1\r\nHost: example.com\r\n\r\n",
            b"GET /metrics HTTP/1.1\r\n\r\n",
            b"GET /metrics HTTP/1.0\r\n\r\n",
            b"GET /none HTTP/1.1\r\nHost: localhost\r\n\r\n",
            b"POST /metrics HTTP/1.1\r\nHost: localhost\r\n\r\n",
            b"GET\r\n\r\n",
            b"GET /metrics HTTP/1.1\r\nHost: localhost\r\nA: " + 4096 * b"a" + b"\r\n\r\n",
            b"GET /metrics HTTP/1.1\r\nHost: localhost\r\nHost: localhost\r\n\r\n",
        ):
            answers = [hosts.scraped(it, request).partition(b"\r\n\r\n") for it in (metrics, metrics + 1)]
            heads = [[it for it in head.splitlines() if b"Content-Length" not in it] for head, *_ in answers]
            expect(f"the answer to {request[:60]}", heads[0], heads[1])
            expect("has a body", *(bool(it[2]) for it in answers))
        stopped = service.process_of(1)
        os.kill(stopped, signal.SIGSTOP)
        silent = [socket.create_connection((hosts.LOCALHOST, metrics)) for _ in range(3)]
        hosts.in_seconds(
            0.5, 3, "a page", lambda: expect("the page", sessions(), [
                ("sessions", "2", "1"), ("process_up", "1", "0"), ("process_up", "2", "1")])
        )
        os.kill(stopped, signal.SIGCONT)
        for it in silent:
            it.close()


@check
def one_log_has_the_lines_of_all():
    """With --log each line goes to the file with its process, behind the time. At HUP the file is opened
    by its name again, also if its panels are wrong."""
    with tempfile.TemporaryDirectory() as place:
        log = pathlib.Path(place) / "log"
        with two_processes("--log", str(log)) as service, S3270(2) as terminal:
            service.connects(terminal, "LUB@", service.port + 2)

            def lines():
                return log.read_text().splitlines()

            wanted = r"time=\S+ process=2 conn=0 session=\S+ peer=\S+ event=bound lu=LUB"
            hosts.until("the line of the session", lambda: any(re.fullmatch(wanted, it) for it in lines()))
            listening = [f"process={it} listening on 127.0.0.1:{service.port + 100 + it}" for it in (1, 2)]
            expect("they listen", [it for it in sorted(lines()) if "listening" in it], listening)
            log.rename(f"{log}.1")
            (service.folder / "panels.toml").write_text("lus = [")
            service.process.send_signal(signal.SIGHUP)
            hosts.until("a new file", log.exists)
            hosts.until("what is wrong", lambda: any("panels.toml" in it for it in lines()))
            terminal.does("Disconnect")
            hosts.until("the end", lambda: any("process=2 conn=0" in it and "event=lost" in it for it in lines()))
            expect("on standard error", (service.folder / "said").read_text(), "")
            service.process.send_signal(signal.SIGTERM)
            expect("its status", service.process.wait(hosts.PATIENCE), 0)
            expect("its last line", any("ok draining" in it for it in lines()), True)


@check
def a_log_that_nobody_reads_holds_up_nothing():
    """While nobody reads standard error, sessions go on and signals are heeded; then the log says how
    many lines are missing."""
    reads, writes = os.pipe()
    with open(reads, "rb") as unread, open(writes, "wb") as errors, two_processes(errors=errors) as service:
        errors.close()
        for _ in range(1500):
            socket.create_connection((hosts.LOCALHOST, service.port + 101)).close()
        with S3270(2) as terminal:
            service.connects(terminal, port=service.port + 2)
            works_on(terminal, "ON")
        os.kill(service.process_of(2), signal.SIGKILL)
        with S3270(2) as terminal:
            service.connects(terminal, port=service.port + 2)
        os.set_blocking(unread.fileno(), False)
        came = b""

        def says_it():
            nonlocal came
            came += unread.read() or b""
            return b"process=serve event=log-lines-dropped lines=" in came

        hosts.until("how many lines are missing", says_it)
        whole = rb"(time=\S+ )?process=\S+ .*|serve: .*|"
        expect("cut lines", [it for it in came.split(b"\n")[:-1] if not re.fullmatch(whole, it)], [])


def cases():
    is_wanted("s3270", "haproxy")
    return check.cases()
