"""The sessions of s3270 that the documents print, and the log of a host.

A document shows a session as a run (harness/documents): a line `$ COMMAND` of an indented block,
and then what it prints. A command goes on after a backslash at a line's end, and after <<'END' up
to a line END. Each command is run by sh in a temporary folder, which has copies of
examples/*.s3270. In these and in the command the address 127.0.0.1:3270 is replaced by that of the
host, at a free port. A date that a document prints means today's."""
import contextlib
import dataclasses
import datetime
import functools
import json
import pathlib
import re
import shutil
import subprocess
import tempfile
from collections.abc import Iterator

from harness import applications, hosts, bank, documents
from harness.case import TOP, BadCase, Case, Difference, NotHere, Place, of_function, same
from harness.s3270 import S3270

OPERATING, EXAMPLES = "docs/OPERATING.md", TOP / "examples"
ADDRESS = "127.0.0.1:3270"
# The panels of the host for the commands that have this word. For bank-asks.toml its application is
# started, too.
HOSTS = {
    "examples/bank-asks.s3270": "bank-asks.toml",
    "examples/bank.s3270": "bank.toml",
    "NOSUCH@": "bank.toml",
    "examples/airline.s3270": "airline.toml",
    "sizes.s3270": "airline.toml",
}
# The session over TLS, which has stunnel before its host, is run if that is installed.
TLS, TLS_ADDRESS = "-cafile", "localhost:992"
if all(map(shutil.which, ("stunnel", "openssl"))):
    HOSTS[TLS] = "bank.toml"
DATE = re.compile(r"\b\d{4}-\d\d-\d\d\b")


@dataclasses.dataclass(frozen=True)
class Session:
    """A session that a document prints, and the word of its command by which HOSTS names its
    host."""

    at: Place
    command: str
    prints: list[str]
    word: str | None


def sessions() -> Iterator[Session]:
    """The commands with s3270 that documents show as run."""
    for document in documents.DOCUMENTS:
        for at, command, behind in documents.runs(document):
            lines = 0
            while [command, *behind][lines].endswith("\\"):
                lines += 1
            command = "\n".join([command, *behind[:lines]])
            if "s3270" in command and (TLS not in command or TLS in HOSTS):
                yield Session(
                    at, command, behind[lines:], next((it for it in HOSTS if it in command), None)
                )


@contextlib.contextmanager
def host_with(panels: str) -> Iterator[hosts.Server]:
    """A host with the panels of an example, and their application."""
    if panels == "bank-asks.toml":
        with bank.a_bank() as (_, _, host):
            yield host
    else:
        with hosts.Server("serve", text=(EXAMPLES / panels).read_bytes()) as host:
            yield host


@contextlib.contextmanager
def tunnel(folder: pathlib.Path, port: int, lines: str) -> Iterator[None]:
    """stunnel in a folder, which by these lines of its configuration listens at a port."""
    name = f"stunnel-{port}.conf"
    (folder / name).write_text(f"foreground = yes\npid =\n{lines}\n")
    process = subprocess.Popen(
        ["stunnel", name], cwd=folder, stdout=subprocess.DEVNULL, stderr=subprocess.DEVNULL
    )
    try:
        hosts.until("stunnel listens", lambda: bank.is_listening(port))
        yield
    finally:
        process.kill()
        process.wait()


@contextlib.contextmanager
def encrypted(command: str, port: int, folder: pathlib.Path) -> Iterator[str]:
    """The command at the port of an stunnel before a host, whose certificate is the folder's
    cert.pem."""
    made = [
        "openssl",
        "req",
        "-x509",
        "-newkey",
        "rsa:2048",
        "-nodes",
        "-days",
        "2",
        "-subj",
        "/CN=localhost",
    ]
    subprocess.run(
        [*made, "-keyout", "key.pem", "-out", "cert.pem"],
        cwd=folder,
        check=True,
        stderr=subprocess.DEVNULL,
    )
    front = hosts.free_port()
    lines = f"[tn3270]\naccept = 127.0.0.1:{front}\nconnect = 127.0.0.1:{port}\n"
    with tunnel(folder, front, lines + "cert = cert.pem\nkey = key.pem"):
        yield command.replace(TLS_ADDRESS, f"localhost:{front}")


def log(text: str) -> str:
    """The lines of a host's log, without what differs between runs. A host sends IAC NOP more or
    less often."""
    return re.sub(r"\b(duration|sent)=\d+", r"\1=N", documents.same(text.strip()))


def ran(command: str, port: int, folder: pathlib.Path) -> tuple[str, int]:
    """What a command prints in a folder with the host at a port, and its status; today's date is
    TODAY."""
    (folder / "examples").mkdir(exist_ok=True)
    for path in EXAMPLES.glob("*.s3270"):
        (folder / "examples" / path.name).write_text(
            path.read_text().replace(ADDRESS, f"127.0.0.1:{port}")
        )
    days = [datetime.date.today().isoformat()]
    words = ["timeout", "60", "sh", "-c", command.replace(ADDRESS, f"127.0.0.1:{port}")]
    done = subprocess.run(
        words,
        cwd=folder,
        stdin=subprocess.DEVNULL,
        stdout=subprocess.PIPE,
        stderr=subprocess.STDOUT,
        check=False,
    )
    days.append(datetime.date.today().isoformat())
    return DATE.sub(
        lambda it: "TODAY" if it[0] in days else it[0], done.stdout.decode()
    ), done.returncode


def write_files(session: Session, port: int, folder: pathlib.Path) -> None:
    """Writes the files that a document writes before a session, for the host at a port."""
    for it in sessions():
        if it.at.file == session.at.file and it.at.line < session.at.line and it.command.startswith(
            "cat > "
        ):
            ran(it.command, port, folder)


def check_at(session: Session, host: hosts.Server) -> None:
    """Raises a Difference if a session at a host isn't as the document prints it."""
    with tempfile.TemporaryDirectory() as name:
        folder = pathlib.Path(name)
        write_files(session, host.port, folder)
        made = contextlib.nullcontext(session.command)
        if session.word == TLS:
            made = encrypted(session.command, host.port, folder)
        with made as command:
            came = ran(command, host.port, folder)
    text, status = documents.printed(session.prints)
    documents.same_output(session.at, (DATE.sub("TODAY", text), status), came)


def check_session(session: Session) -> None:
    if session.word is None:
        raise BadCase("HOSTS names no host for this session", session.at)
    with host_with(HOSTS[session.word]) as host:
        check_at(session, host)


def the_host_logs_the_printed_lines() -> None:
    """After the sessions at the bank without an application its log is the one that OPERATING
    prints."""
    wanted = log(documents.block(OPERATING, "that asks for NOSUCH"))
    with host_with("bank.toml") as host:
        for session in sessions():
            if session.word in ("examples/bank.s3270", "NOSUCH@"):
                check_at(session, host)
        with contextlib.suppress(Difference):
            hosts.until("the log", lambda: log(host.logged()) == wanted)
        same(wanted, log(host.logged()))


def brackets_arrive_by_code_page_037() -> None:
    """What is typed at an s3270 that has the code page of the documents arrives at the application,
    with the characters that s3270's default code page would replace; a reply is shown with them."""
    text = "a[b]^!|"
    application = applications.Application()
    with application.listener, hosts.Server(
        "serve",
        "--application",
        f"http://127.0.0.1:{application.port}/",
        text=(EXAMPLES / "greeting.toml").read_bytes(),
    ) as host, S3270(2) as terminal:
        terminal.does(f"Connect(127.0.0.1:{host.port})", "Wait(InputField)", f'String("{text}")')
        terminal.does("Enter")
        question = application.takes()
        same({"visitor": text}, json.loads(question.body)["fields"])
        question.sends({"message": text})
        terminal.does("Wait(Unlock)")
        same([f" {text}"], terminal.does("Ascii(23,0,1,20)"))


def each_host_has_a_session() -> None:
    """A document has a session with each word of HOSTS."""
    same([], sorted(set(HOSTS) - {it.word for it in sessions()}))


def cases() -> Iterator[Case]:
    if not shutil.which("s3270"):
        raise NotHere("s3270 isn't installed (apt-get install s3270)")
    for session in sessions():
        yield Case(
            session.command.splitlines()[0], session.at, functools.partial(check_session, session)
        )
    yield of_function(the_host_logs_the_printed_lines)
    yield of_function(brackets_arrive_by_code_page_037)
    yield of_function(each_host_has_a_session)
