"""The metrics page of `serve`, read by Prometheus' own promtool."""
import shutil
import subprocess
from collections.abc import Iterator

from harness.case import Case, NotHere, expect, of_function
from harness.hosts import GET, metered, scraped


def promtool_has_no_complaint() -> None:
    """`promtool check metrics` parses the page, and prints nothing about its names and texts."""
    with metered() as host:
        page = scraped(host.metrics, GET).partition(b"\r\n\r\n")[2]
    done = subprocess.run(
        ["promtool", "check", "metrics"], input=page, capture_output=True, check=False
    )
    expect("promtool", (done.returncode, done.stdout, done.stderr), (0, b"", b""))


def cases() -> Iterator[Case]:
    if not shutil.which("promtool"):
        raise NotHere("promtool isn't installed (apt-get install prometheus)")
    yield of_function(promtool_has_no_complaint)
