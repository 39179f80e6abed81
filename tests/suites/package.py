"""bin/package: the Debian package that it makes of the suite's program, what it installs, and how
that runs; the alert rules and the dashboard of examples/monitoring; the runbook of
docs/OPERATING.md.

A program that isn't the proved one is packaged by --unproved. Nothing is installed on this machine:
dpkg unpacks into folders of the suite. Checks by lintian, promtool and systemd-analyze are left out
where these aren't installed, and a line says so."""
import contextlib
import dataclasses
import functools
import json
import os
import pathlib
import re
import shutil
import signal
import subprocess
import sys
import tempfile
from collections.abc import Iterator

from harness import hosts, programs
from harness.case import TOP, Case, Checks, Difference, NotHere, Place, expect, same
from harness.hosts import DO, GET, PATIENCE, Client, free_port, metered, scraped, until

LONG = True
NAME, DOC = "panel3270", "usr/share/doc/panel3270"
ALERTS = "examples/monitoring/panel3270-alerts.yaml"
DASHBOARD = "examples/monitoring/panel3270-dashboard.json"
OPERATING = "docs/OPERATING.md"
UNPROVED = "PROGRAM HAS NO PROOF"
# The most that `systemd-analyze security` may find: 0 is a service that can do nothing, 10 one that
# can do all.
MOST_EXPOSED = 1.5
# Each file of the package but the examples, with its mode.
FILES = {
    "etc/default/panel3270": "-rw-r--r--",
    "etc/panel3270/panels.toml": "-rw-r--r--",
    "lib/systemd/system/panel3270.service": "-rw-r--r--",
    "usr/bin/panel3270": "-rwxr-xr-x",
    "usr/bin/panel3270-operate": "-rwxr-xr-x",
    "usr/bin/panel3270-serve": "-rwxr-xr-x",
    f"{DOC}/APPLICATIONS.md": "-rw-r--r--",
    f"{DOC}/OPERATING.md": "-rw-r--r--",
    f"{DOC}/PROTOCOL.md": "-rw-r--r--",
    f"{DOC}/USING.md": "-rw-r--r--",
    f"{DOC}/changelog.gz": "-rw-r--r--",
    f"{DOC}/copyright": "-rw-r--r--",
    "usr/share/man/man1/panel3270-operate.1.gz": "-rw-r--r--",
    "usr/share/man/man1/panel3270-serve.1.gz": "-rw-r--r--",
    "usr/share/man/man1/panel3270.1.gz": "-rw-r--r--",
}
CONFIGURATION = ["etc/default/panel3270", "etc/panel3270/panels.toml"]
# For dpkg in a folder in place of the root, in which there is no other package and no shell.
IN_A_FOLDER = ("--force-not-root", "--force-script-chrootless", "--force-depends")

# What bin/package and these checks can't do without.
TOOLS = ("dpkg-deb", "strip", "objdump", "git")

check = Checks()


def needs(program: str, package: str = "") -> None:
    """Leaves a check out if this isn't installed."""
    if not shutil.which(program):
        raise NotHere(f"{program} isn't installed (apt-get install {package or program})")


def run(*words: object, **how: object) -> subprocess.CompletedProcess[str]:
    how = {"capture_output": True, "text": True, "timeout": 300, "check": False, **how}
    return subprocess.run([*map(str, words)], **how)


def ran(*words: object, **how: object) -> str:
    """What a command prints, which ends with status 0."""
    done = run(*words, **how)
    expect(f"the status of {words[0]} ({done.stdout}{done.stderr})", done.returncode, 0)
    return done.stdout


# ---- the package


def packs(folder: str, *words: str, **environment: str) -> subprocess.CompletedProcess[str]:
    """A run of bin/package, which writes to the folder."""
    program = {"PANEL3270": str(programs.panel3270())}
    environment = {**os.environ, **program, **environment}
    return run(sys.executable, TOP / "bin/package", "--to", folder, *words, env=environment)


@functools.cache
def kept() -> tempfile.TemporaryDirectory:
    return tempfile.TemporaryDirectory(prefix="package-")


@functools.cache
def package() -> pathlib.Path:
    """The package of the suite's program."""
    done = packs(kept().name)
    if done.returncode and "--unproved" in done.stderr:
        done = packs(kept().name, "--unproved")
    expect(f"the status of bin/package ({done.stderr})", done.returncode, 0)
    return pathlib.Path(done.stdout.strip())


def is_unproved() -> bool:
    return "~unproved" in package().name


@contextlib.contextmanager
def unpacked() -> Iterator[pathlib.Path]:
    """A folder with the files of the package."""
    with tempfile.TemporaryDirectory(prefix="package-") as folder:
        ran("dpkg-deb", "-x", package(), folder)
        yield pathlib.Path(folder)


@check
def a_program_without_a_proof_is_refused():
    """Without --unproved, and nothing is written; with it version and description say so."""
    with tempfile.TemporaryDirectory() as folder:
        other = pathlib.Path(folder) / "panel3270"
        other.write_bytes(pathlib.Path("/bin/true").read_bytes())
        other.chmod(0o755)
        done = packs(folder, PANEL3270=str(other))
        why = "isn't the proved program of these sources (--unproved takes it)"
        wanted = f"package: {other} {why}\n"
        expect("bin/package", (done.stdout, done.stderr, done.returncode), ("", wanted, 1))
        expect("what is written", os.listdir(folder), ["panel3270"])
        done = packs(folder, "--unproved", PANEL3270=str(other))
        expect("another program", (done.stdout, done.returncode), ("", 1))
    said = UNPROVED in fields()["Description"]
    expect("the description says that it has no proof", said, is_unproved())


def fields() -> dict[str, str]:
    """The control fields; lines behind the first of one are part of it."""
    said = ran("dpkg-deb", "-f", package())
    return dict(re.findall(r"(?ms)^(\S+): (.*?)\n(?=\S|\Z)", said))


@check
def the_built_program_is_the_proved_one_unless_its_sources_are_newer():
    """In a clone, with the suite's program in the place of the one that `rt run` builds."""
    with tempfile.TemporaryDirectory(prefix="package-") as folder:
        clone = pathlib.Path(folder) / "clone"
        ran("git", "clone", "-q", TOP, clone)
        built = clone / "crates/panel3270/out/panel3270"
        without = {it: text for it, text in os.environ.items() if it != "PANEL3270"}
        words = [sys.executable, clone / "bin/package", "--to", folder]
        done = run(*words, env=without)
        hint = "(cd crates/panel3270 && rt run < stdin) builds it"
        wanted = f"package: {built} isn't there: {hint}\n"
        expect("without a program", (done.stderr, done.returncode), (wanted, 1))
        built.parent.mkdir()
        shutil.copy(programs.panel3270(), built)
        packed = pathlib.Path(ran(*words, env=without).strip())
        if "unproved" in packed.name or ".changed" in packed.name:
            raise Difference("a version without `~unproved` and `.changed`", packed.name)
        expect("it says that it has no proof", UNPROVED in ran("dpkg-deb", "-f", packed), False)
        os.utime(built, (0, 0))
        done = run(*words, env=without)
        expect("with newer sources", (done.stdout, done.returncode), ("", 1))


@check
def the_control_fields_are_those_of_the_program():
    """The version is that of the program, with the commit unless the version is released; the
    package needs the C library and Python."""
    came = fields()
    program = run(programs.panel3270(), "--version").stdout.split()[1]
    version = rf"{re.escape(program)}(\+git\d{{14}}\.[0-9a-f]{{8}}(\.changed)?)?(~unproved)?"
    if not re.fullmatch(version, came["Version"]):
        raise Difference(f"Version: {version}", came["Version"])
    architecture = ran("dpkg", "--print-architecture").strip()
    expect("the file's name", package().name, f"{NAME}_{came['Version']}_{architecture}.deb")
    wanted = {"Package": NAME, "Architecture": architecture, "Section": "net"}
    same(wanted, {it: came.get(it) for it in wanted})
    for it in (r"libc6 \(>= 2\.\d+\)", r"python3 \(>= 3\.11\)"):
        if not re.search(rf"(^|, ){it}(,|$)", came["Depends"]):
            raise Difference(f"Depends: {it}", came["Depends"])
    order = ["dpkg", "--compare-versions", came["Version"], "lt", f"{program}.1"]
    expect("a later version is newer", run(*order).returncode, 0)


@check
def the_files_are_those_that_the_page_names():
    """All of root, with these modes, and no other; examples are those that are committed."""
    lines = [it.split(maxsplit=5) for it in ran("dpkg-deb", "-c", package()).splitlines()]
    committed = ran("git", "-C", TOP, "ls-files", "examples").split()
    wanted = {**FILES, **{f"{DOC}/{it}": "-rw-r--r--" for it in committed}}
    came = {path.removeprefix("./"): mode for mode, *_, path in lines if not mode.startswith("d")}
    same("\n".join(map(str, sorted(wanted.items()))), "\n".join(map(str, sorted(came.items()))))
    expect("the owners", {it[1] for it in lines}, {"root/root"})
    expect("the modes of folders", {it[0] for it in lines if it[0][0] == "d"}, {"drwxr-xr-x"})
    conffiles = ran("dpkg-deb", "-I", package(), "conffiles").split()
    expect("the files of configuration", conffiles, [f"/{it}" for it in reversed(CONFIGURATION)])


@check
def the_same_commit_makes_the_same_bytes():
    """In another folder, at another time, in another time zone, with another mask."""
    with tempfile.TemporaryDirectory() as folder:
        mask = os.umask(0o077)
        try:
            flag = ("--unproved",) if is_unproved() else ()
            done = packs(folder, *flag, TZ="Pacific/Auckland", LC_ALL="C")
        finally:
            os.umask(mask)
        again = pathlib.Path(done.stdout.strip())
        expect("the name", again.name, package().name)
        expect("the bytes are equal", again.read_bytes() == package().read_bytes(), True)


@check
def the_man_page_has_each_option():
    """Of the help of each job; and the scripts by their installed names."""
    with unpacked() as root:
        page = ran("gzip", "-dc", root / "usr/share/man/man1/panel3270.1.gz").replace("\\-", "-")
    helped = run(programs.panel3270(), "help").stdout
    jobs = re.findall(r"^  ([a-z]+)  ", helped[: helped.index("options:")], re.M)
    expect("there are jobs", len(jobs) > 5, True)
    for job in jobs:
        said = run(programs.panel3270(), "help", job).stdout
        wanted = [f".SS {job}", *re.findall(r"(?m)^  (--.*?) {2,}", said)]
        for it in wanted:
            if it not in page:
                raise Difference(f"{it!r} in panel3270(1)", "it isn't there")
    for it in ("bin/serve", "bin/operate"):
        expect(f"{it} in the page", it in page, False)


# ---- what it installs


@dataclasses.dataclass
class Running:
    """A service that was started from an unpacked package."""

    process: subprocess.Popen
    port: int
    said: pathlib.Path

    def says(self, text: str) -> None:
        until(f"it says {text!r}", lambda: text in self.said.read_text())


def below(root: pathlib.Path, text: str) -> str:
    """A text in which installed paths are those below a folder."""
    return re.sub(r"(^|[ =])(?=/(usr|etc|run)/)", rf"\g<1>{root}", text)


def path_of(root: pathlib.Path) -> dict[str, str]:
    """The environment of an installed program: only what is installed is on the path, and the
    system's own."""
    environment = {it: text for it, text in os.environ.items() if it != "PANEL3270"}
    return {**environment, "PATH": f"{root}/usr/bin:{os.environ['PATH']}"}


@contextlib.contextmanager
def started(root: pathlib.Path, words: list[str]) -> Iterator[Running]:
    """A service with these words, at a free port in place of 3270."""
    port = free_port()
    words = [str(port) if it == "3270" else it for it in words]
    with open(root / "said", "wb") as said:
        process = subprocess.Popen(
            words, stderr=said, cwd=root, env=path_of(root), start_new_session=True
        )
    try:
        yield Running(process, port, root / "said")
    finally:
        with contextlib.suppress(ProcessLookupError):
            os.killpg(process.pid, signal.SIGKILL)
        process.wait()


def serves_reloads_and_ends(root: pathlib.Path, words: list[str]) -> None:
    """It asks a client for its terminal; HUP has the panels read again, TERM ends it."""
    panels = root / "etc/panel3270/panels.toml"
    with started(root, words) as service:
        service.says(f":{service.port}\n")
        client = Client(service.port)
        client.hears(DO)
        client.leaves()
        panels.write_text(panels.read_text().replace("LU04", "LU05"))
        service.process.send_signal(signal.SIGHUP)
        service.says("panels=2 lus=4")
        service.process.terminate()
        expect("its status at TERM", service.process.wait(PATIENCE), 0)
        with contextlib.suppress(ProcessLookupError):
            os.killpg(service.process.pid, 0)
            raise Difference("no process is left of it", "one is")


@check
def what_the_unit_starts_serves():
    """The words of ExecStart, as systemd would start them."""
    with unpacked() as root:
        text = (root / f"lib/systemd/system/{NAME}.service").read_text().replace("\\\n", "")
        (root / "run/panel3270").mkdir(parents=True)
        start = re.search("^ExecStart=(.*) \\$OPTIONS$", text, re.M)[1]
        serves_reloads_and_ends(root, below(root, start).split())


@check
def what_the_container_starts_serves():
    """The words of ENTRYPOINT of examples/Containerfile, with the program on the path."""
    text = (TOP / "examples/Containerfile").read_text().replace("\\\n", "")
    words = json.loads(re.search("^ENTRYPOINT (.*)", text, re.M)[1])
    with unpacked() as root:
        serves_reloads_and_ends(root, [below(root, it) for it in words])


@check
def an_installed_script_takes_the_program_on_the_path():
    """Both scripts say so if there is none."""
    with unpacked() as root:
        operate, serve = (root / f"usr/bin/panel3270-{it}" for it in ("operate", "serve"))
        said = ran(operate, "--help", env=path_of(root))
        for it in ("usage: panel3270-operate ", "--colors COLORS"):
            expect(f"{it!r} in the help", it in said, True)
        (root / "usr/bin/panel3270").unlink()
        # The folder that is empty by now, and the system's own.
        none = {**path_of(root), "PATH": f"{root}/usr/bin:/usr/bin:/bin"}
        if shutil.which("panel3270", path=none["PATH"]):
            return
        missing = "panel3270 isn't on the path: set PANEL3270 to its file\n"
        for script, words, wanted in (
            (operate, ["3270"], missing),
            (serve, ["--port", str(free_port())], f"serve: {missing}"),
        ):
            done = run(script, *words, env=none, stdin=subprocess.DEVNULL)
            expect(script.name, (done.stderr, done.returncode), (wanted, 2))


@check
def installing_enables_the_service_and_purging_leaves_nothing():
    """Removing keeps the configuration; an edited one, and a file beside it, go at --purge."""
    with tempfile.TemporaryDirectory(prefix="package-") as folder:
        root = pathlib.Path(folder)
        for it in ("info", "updates"):
            (root / "var/lib/dpkg" / it).mkdir(parents=True)
        (root / "var/lib/dpkg/status").touch()

        def dpkg(*words: object) -> None:
            ran("dpkg", f"--root={root}", *IN_A_FOLDER, f"--log={root}/log", *words)

        def files() -> list[str]:
            found = (it for it in root.rglob("*") if not it.is_dir() or it.is_symlink())
            paths = (str(it.relative_to(root)) for it in found)
            return sorted(it for it in paths if it != "log" and not it.startswith("var/lib/dpkg/"))

        dpkg("-i", package())
        enabled = root / "etc/systemd/system/multi-user.target.wants/panel3270.service"
        has_helper = shutil.which("deb-systemd-helper") is not None
        expect("the service is enabled", enabled.is_symlink(), has_helper)
        expect("the files", set(FILES) <= set(files()), True)
        panels = root / "etc/panel3270/panels.toml"
        panels.write_text(panels.read_text() + "# edited\n")
        dpkg("-i", package())
        expect("an edited file", panels.read_text().endswith("# edited\n"), True)
        dpkg("-r", NAME)
        left = [it for it in files() if "systemd" not in it]
        expect("the files after removal", left, CONFIGURATION)
        (panels.parent / "other.toml").touch()
        dpkg("-P", NAME)
        expect("the files after purging", files(), [])
        expect("its folder of configuration", panels.parent.exists(), False)


@check
def lintian_has_no_complaint():
    """No error, and no warning."""
    needs("lintian")
    done = run("lintian", "--fail-on", "error,warning", package())
    expect("lintian", (done.stdout, done.returncode), ("", 0))


@check
def systemd_takes_the_unit():
    """`systemd-analyze verify` has no complaint, and `security` finds little exposed."""
    needs("systemd-analyze", "systemd")
    with unpacked() as root:
        path = root / f"lib/systemd/system/{NAME}.service"
        path.write_text(below(root, path.read_text()))
        done = run("systemd-analyze", "verify", "--man=no", path)
        said = [it for it in done.stderr.splitlines() if NAME in it]
        expect("systemd-analyze verify", said, [])
        said = ran("systemd-analyze", "security", "--offline=true", "--no-pager", path)
        exposed = float(re.search(r"exposure level for panel3270\.service: ([\d.]+)", said)[1])
        if exposed > MOST_EXPOSED:
            raise Difference(f"an exposure of {MOST_EXPOSED} at most", exposed)


# ---- alerts and dashboard


@dataclasses.dataclass(frozen=True)
class Query:
    """A query of Prometheus, and where it is."""

    text: str
    at: Place


def alerts() -> dict[str, dict[str, str]]:
    """What each rule says, with the number of its line. The file has a key a line, and after `>-`
    a text of the lines below."""
    found: dict[str, dict[str, str]] = {}
    folded = None
    for number, line in enumerate((TOP / ALERTS).read_text().splitlines(), 1):
        pair = re.fullmatch(r" *(?:- )?([a-z]+):(?: (.*))?", line)
        key, value = pair.groups("") if pair else ("", "")
        if key == "alert":
            rule = found[value] = {"line": str(number)}
        elif key and found:
            folded = key if value == ">-" else None
            rule[key] = "" if folded else value.strip('"')
        elif folded and line.strip():
            rule[folded] = f"{rule[folded]} {line.strip()}".strip()
    return found


def queries() -> Iterator[Query]:
    """Those of the rules and of the dashboard."""
    for rule in alerts().values():
        yield Query(rule["expr"], Place(ALERTS, int(rule["line"])))
    lines = (TOP / DASHBOARD).read_text().splitlines()
    for number, line in enumerate(lines, 1):
        if found := re.fullmatch(r'\s*"(?:expr|query)": (".*"),?', line):
            text = json.loads(found[1])
            # The values of a label, which isn't of Prometheus' language.
            text = re.sub(r"label_values\((\w+), (\w+)\)", r"sum by (\2) (\1)", text)
            if text != "prometheus":
                yield Query(text, Place(DASHBOARD, number))


# Labels that Prometheus itself gives to what it reads, and the metric that it makes.
GIVEN, UP = {"job", "instance"}, "up"
WORDS = {"by", "without", "on", "ignoring", "and", "or", "unless", "bool", "offset"}
# A name that isn't of a function, with what its labels are to be.
SELECTOR = re.compile(r"\b([a-zA-Z_]\w*)\b(?!\s*\()(?:\{([^}]*)\})?")


def series_of(page: str) -> dict[str, list[dict[str, str]]]:
    """The labels of each series of a metrics page, by the metric's name."""
    found: dict[str, list[dict[str, str]]] = {UP: [{}]}
    for name, labels in re.findall(r"(?m)^(\w+)(?:\{(.*)\})? \S+$", page):
        found.setdefault(name, []).append(dict(re.findall(r'(\w+)="([^"]*)"', labels)))
    return found


def check_query(query: Query, series: dict[str, list[dict[str, str]]]) -> None:
    """Each name in it is that of a metric, and each label and its value one of that metric."""
    names = 0
    text = re.sub(r"\[\w+\]", "", query.text)
    groups = re.findall(r"\b(?:by|without) \(([^)]*)\)", text)
    text = re.sub(r"\b(by|without) \([^)]*\)", "", text)
    for name, labels in SELECTOR.findall(text):
        if name in WORDS:
            continue
        names += 1
        if name not in series:
            raise Difference(f"a metric of `serve --metrics` in {query.text}", name, query.at)
        for label, value in re.findall(r'(\w+)(?:=~|!=|=)"([^"]*)"', labels):
            if label not in GIVEN and value not in {it.get(label) for it in series[name]}:
                raise Difference(f"a label of {name} in {query.text}", f"{label}={value}", query.at)
    had = GIVEN.union(*(it for name in series if name in query.text for it in series[name]))
    for label in re.findall(r"\w+", " ".join(groups)):
        if label not in had:
            raise Difference(f"a label in {query.text}", label, query.at)
    expect(f"there is a metric in {query.text}", names > 0, True)


@check
def each_query_names_metrics_that_serve_prints():
    """With labels and values that it prints."""
    with metered() as host:
        page = scraped(host.metrics, GET).partition(b"\r\n\r\n")[2].decode()
    found = list(queries())
    expect("there are queries", len(found) > 20, True)
    for it in found:
        check_query(it, series_of(page))


@check
def each_alert_is_in_the_runbook():
    """An alert has a summary, and the runbook a heading of its name; the dashboard's parts have
    numbers of their own."""
    runbook = (TOP / OPERATING).read_text().partition("\n## Runbook\n")[2].partition("\n## ")[0]
    headings = re.findall(r"^### (.*)", runbook, re.M)
    expect("the headings of the runbook", headings, list(alerts()))
    for name, rule in alerts().items():
        at = Place(ALERTS, int(rule["line"]))
        same(f"docs/OPERATING.md, {name}", rule.get("runbook"), at)
        same(True, bool(rule.get("summary")), at)
    panels = json.loads((TOP / DASHBOARD).read_text())["panels"]
    expect("the numbers", [it["id"] for it in panels], list(range(1, len(panels) + 1)))


# What happens in 20 minutes, a value a minute, by the name of the one alert that there is at their
# end; "" is none.
HAPPENS = {
    "Panel3270Down": 'up{job="panel3270",instance="a"}: 1x10 0x10',
    "Panel3270Restarts": 'process_start_time_seconds{job="panel3270"}: 100x9 700 760 820 880x8',
    "Panel3270TurnedAway": 'panel3270_turned_away_total{instance="a"}: 0x17 5x3',
    "Panel3270LuInUse": 'panel3270_rejections_total{instance="a",reason="DEVICE-IN-USE"}: 0x17 1x3',
    "Panel3270ApplicationFails": 'panel3270_question_failures_total{reason="timeout"}: 0x17 1x3',
    "Panel3270ApplicationSlow": 'panel3270_answer_seconds_bucket{instance="a",le="5"}: 0+9x20'
    ' | panel3270_answer_seconds_bucket{instance="a",le="2.5"}: 0+1x20'
    ' | panel3270_answer_seconds_bucket{instance="a",le="+Inf"}: 0+9x20',
    "Panel3270ScreensRestored": 'panel3270_restored_screens_total{instance="a"}: 0x12 1x8',
    "Panel3270RuleBroken": 'panel3270_rule_breaks_total{instance="a"}: 0x12 1x8',
    "Panel3270LogLinesDropped": 'panel3270_log_lines_dropped_total{instance="a"}: 0x17 40x3',
    "": 'up{job="panel3270",instance="a"}: 1x20 | panel3270_turned_away_total{instance="a"}: 5x20'
    ' | panel3270_rejections_total{instance="a",reason="INV-NAME"}: 0+1x20'
    ' | panel3270_question_failures_total{instance="a",reason="left"}: 0+1x20',
}


def values_of(spelt: str) -> str:
    """The values of a series as promtool has them; `1x10` are ten, `0+9x20` twenty that rise."""

    def more(part: str) -> str:
        value, _, times = part.partition("x")
        if not times:
            return part
        begin, _, step = value.partition("+")
        return f"{begin}+{step or 0}x{int(times) - 1}"

    return " ".join(map(more, spelt.split()))


def a_test_of(name: str, happens: str) -> dict[str, object]:
    """A test of promtool's: which alerts there are at the end."""
    series = [it.rsplit(": ", 1) for it in happens.split(" | ")]
    one = [{"labels": "{}", "value": 1}]
    return {
        "interval": "1m",
        "input_series": [{"series": it, "values": values_of(spelt)} for it, spelt in series],
        "promql_expr_test": [
            {
                "expr": f'count(ALERTS{{alertname="{it}",alertstate="firing"}})',
                "eval_time": "19m",
                "exp_samples": one if it == name else [],
            }
            for it in alerts()
        ],
    }


@check
def promtool_takes_the_rules():
    """`promtool check rules` has no complaint."""
    needs("promtool", "prometheus")
    done = run("promtool", "check", "rules", TOP / ALERTS)
    expect(f"promtool ({done.stdout}{done.stderr})", done.returncode, 0)


@check
def each_alert_follows_what_it_is_for():
    """And no other does, by `promtool test rules`."""
    needs("promtool", "prometheus")
    expect("the alerts", [it for it in HAPPENS if it], list(alerts()))
    tests = [a_test_of(name, happens) for name, happens in HAPPENS.items()]
    with tempfile.TemporaryDirectory() as folder:
        file = pathlib.Path(folder) / "tests.yaml"
        rules = {"rule_files": [str(TOP / ALERTS)], "evaluation_interval": "1m", "tests": tests}
        file.write_text(json.dumps(rules))
        done = run("promtool", "test", "rules", file)
        expect(f"promtool ({done.stdout}{done.stderr})", done.returncode, 0)


@check
def prometheus_takes_the_lines_of_the_page():
    """Those of docs/OPERATING.md, with the rules of this repository."""
    needs("promtool", "prometheus")
    text = (TOP / OPERATING).read_text()
    lines = re.search(r"(?m)^    rule_files:\n(?:    .*\n)+", text)[0]
    lines = re.sub("(?m)^    ", "", lines.replace(f"/{DOC}", str(TOP)))
    with tempfile.TemporaryDirectory() as folder:
        file = pathlib.Path(folder) / "prometheus.yml"
        file.write_text(lines)
        done = run("promtool", "check", "config", file)
        expect(f"promtool ({done.stdout}{done.stderr})", done.returncode, 0)
        expect("the rules", f"SUCCESS: {len(alerts())} rules found" in done.stdout, True)


def cases() -> Iterator[Case]:
    if missing := [it for it in TOOLS if not shutil.which(it)]:
        raise NotHere(f"{', '.join(missing)} isn't installed (apt-get install dpkg binutils git)")
    yield from check.cases()
