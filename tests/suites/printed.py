"""What the documents print beside the runs of the suite examples: screens, a request, lines of the
log, names of metrics.

Times and ports are replaced on both sides."""
import json
import re
import socket
import subprocess
import sys

from harness import hosts, programs, tty, applications, bank, documents
from harness.case import Checks, expect

check = Checks()
cases = check.cases

OPERATING, APPLICATIONS = "docs/OPERATING.md", "docs/APPLICATIONS.md"


def terminal(host, *does):
    """The process of a terminal of a host that does these lines."""
    term = subprocess.Popen(
        [programs.panel3270(), "term", "--port", str(host.port)],
        stdin=subprocess.PIPE,
        stdout=subprocess.PIPE,
        text=True,
    )
    term.stdin.write("\n".join(["wait", *does, ""]))
    term.stdin.close()
    return term


FILLED_IN = """\
                             TRANSFER OF FUNDS
                                                           TELLER  4711
         FROM ACCOUNT        1234567890
         TO ACCOUNT          9876543210
         AMOUNT              150.00
         REFERENCE
 ENTER TRANSFER   PF3 SIGN OFF   CLEAR SIGN OFF
 KEY NOT ACTIVE
connected                               BANK01         ESC ? shows keys 009/036
"""
HOST_ENDED = """\
                             TRANSFER DONE
         FROM      1234567890
         TO        9876543210
         AMOUNT    150.00
not connected   X SYSTEM                Enter connects ESC ? shows keys 001/001
"""


@check
def an_operator_sees_the_printed_screens():
    """A session of bin/operate shows these rows, of which empty ones are left out: those that
    the page prints, and then those below."""

    def shows(what, text):
        wanted = [it for it in text.splitlines() if it and not it.startswith("$ ")]
        operator.until(
            what,
            lambda screen: [it for it in screen.text().splitlines() if it] == wanted,
        )

    with tty.serve_bank() as host, tty.Operator(host.port) as operator:
        operator.sees("FIRST NATIONAL BANK")
        operator.types("A")
        before = "`tmux capture-pane -p` printed"
        shows(f"the block after {before!r}", documents.block(OPERATING, before))
        operator.types(tty.RESET, "4711", tty.TAB, "SECRET", tty.ENTER)
        operator.sees("TRANSFER OF FUNDS")
        operator.types(b"\x1b[15~")
        operator.sees("KEY NOT ACTIVE")
        operator.types(tty.HOME, "1234567890", "9876543210", "150.00")
        shows("three fields that are filled in", FILLED_IN)
        operator.types(tty.ENTER)
        operator.sees("TRANSFER DONE")
        host.__exit__()
        shows("a host that ended", HOST_ENDED)
        with tty.serve_bank(host.port):
            operator.types(tty.ENTER)
            operator.sees("FIRST NATIONAL BANK")


@check
def an_application_gets_the_printed_request():
    """So it is, the printed reply leads to the menu, and the log has the printed line on a field
    that the panel hasn't."""
    application = applications.Application()
    url = f"http://127.0.0.1:{application.port}/bank"
    does = (
        "type 4711",
        "key tab",
        "type SECRET",
        "key enter",
        "wait",
        "show",
        "type 2",
        "key enter",
        "wait",
        "show",
    )
    with application.listener, hosts.Server(
        "serve", "--application", url, text=bank.PANELS
    ) as host, terminal(host, *does) as term:
        question = application.takes()
        head = question.head.decode().replace("\r\n", "\n")
        expect(
            "the head",
            documents.same(head),
            documents.same(
                documents.block(APPLICATIONS, "A request for\n`http://127.0.0.1:8080/bank` begins")
            ),
        )
        expect(
            "the body",
            documents.same(question.body.decode()),
            documents.same(
                re.sub(r"\n *", "", documents.block(APPLICATIONS, "SECRET and pressed Enter:"))
            ),
        )
        question.sends(
            json.loads(documents.block(APPLICATIONS, "its content is a JSON object in UTF-8:"))
        )
        application.takes().sends({"fields": {"balanse": "12.00"}})
        shown = term.stdout.read().splitlines()
        expect(
            "two screens",
            (shown[0].strip(), shown[23], shown[48]),
            ("MENU", " WELCOME", " APPLICATION ERROR"),
        )
        hosts.until("the log has the error", lambda: "event=application" in host.logged())
        log = [documents.same(it) for it in host.logged().splitlines() if "event=application" in it]
        expect(
            "the log",
            log,
            [documents.same(documents.block(APPLICATIONS, "quoted, with `?` for quotes"))],
        )


@check
def the_application_greets():
    """Who types ADA and presses Enter at examples/greeting.py sees the message that two documents
    name."""
    port = hosts.free_port()
    words = [
        sys.executable, "-c", documents.read("examples/greeting.py").replace("8080", str(port))
    ]
    greeting = subprocess.Popen(words, stderr=subprocess.DEVNULL)
    try:
        url, panels = f"http://127.0.0.1:{port}/", documents.read("examples/greeting.toml").encode()
        hosts.until(
            "the application listens", lambda: not socket.socket().connect_ex(("127.0.0.1", port))
        )
        does = ("type ADA", "key enter", "wait", "show")
        with hosts.Server("serve", "--application", url, text=panels) as host, terminal(
            host, *does
        ) as term:
            shown = term.stdout.read().splitlines()
    finally:
        greeting.kill()
        greeting.wait()
    for document in ("README.md", APPLICATIONS):
        expect(
            f"{document} names {shown[23]!r}",
            f"`{shown[23].strip()}`" in documents.read(document),
            True,
        )
    expect(
        "README has the application",
        documents.block("README.md", "examples/greeting.py](") + "\n",
        documents.read("examples/greeting.py"),
    )


@check
def each_says_where_it_listens():
    """The bank and serve print the lines of the pages when they listen, and serve its warning, and
    its line on an address in use."""
    with bank.a_bank() as (_, application, host):
        wanted = [
            documents.same(lines[-1])
            for _, _, lines in documents.runs(APPLICATIONS)
            if lines and lines[-1].startswith("listening")
        ]
        host.has_logged()
        expect(
            "they print",
            [
                documents.same(f"listening on {application.url}"),
                documents.same(host.logged().strip()),
            ],
            wanted,
        )
        panels = documents.read("examples/bank.toml").encode()
        refused = documents.same(hosts.run(["serve", "--port", host.port], panels)[2].strip())
        expect(
            f"{OPERATING} has {refused}",
            f"(`{refused}`)" in documents.same(documents.read(OPERATING)),
            True,
        )
    with hosts.Server("serve", "--listen", "0.0.0.0", text=panels) as host:
        wanted = documents.same(documents.block(OPERATING, "so when it starts:"))
        hosts.until(
            f"a log has {wanted!r}", lambda: wanted in documents.same(host.logged()).splitlines()
        )


def clients(text):
    """The commands of a document that start x3270, c3270 or s3270: in indented blocks, and in code
    spans with words."""
    for line in text.replace("\\\n", " ").splitlines():
        block = line.startswith("    ")
        form = r"(?:^|[$|] )([xcs]3270 [^|]*)" if block else r"`([xcs]3270 [^`]*)`"
        yield from re.findall(form, line.strip())


@check
def each_client_has_the_code_page_of_the_host():
    """Each command of a document that starts a client names code page 037; the document says once
    what arrives for `[` otherwise."""
    found = 0
    for document in documents.DOCUMENTS:
        text = documents.read(document)
        commands = list(clients(text))
        found += len(commands)
        without = [it for it in commands if "-codepage cp037" not in it]
        expect(f"{document}: clients without the code page", without, [])
        expect(f"{document}: how often it says why", text.count("as `Ý`"), int(bool(commands)))
    expect("commands of clients", found >= 12, True)


@check
def the_table_of_metrics_has_each():
    """The table has the names of the metrics page, and the page the values of the label `end`, in
    their order."""
    table = "\n".join(
        it
        for it in documents.read(OPERATING).splitlines()
        if re.match(r"\| `(panel3270|process)_", it)
    )
    with hosts.metered() as host:
        page = hosts.scraped(host.metrics, hosts.GET).decode()
    expect(
        "the names",
        re.findall(r"^# TYPE (\w+)", page, re.M),
        re.findall(r"`((?:panel3270|process)_\w+)`", table),
    )
    ends = list(dict.fromkeys(re.findall(r'end="([\w-]+)"', page)))
    named = re.search(r"`end` \((.*?)\)", documents.read(OPERATING))[1]
    expect("the ends", ", ".join(f"`{it}`" for it in ends), named)
