"""Sessions of s3270, and of the other programs of Debian that a suite may need."""
import shutil
import subprocess

from harness.case import Difference, NotHere

PACKAGES = {"stunnel": "stunnel4", "promtool": "prometheus"}


def is_wanted(*programs):
    """Says which of the programs that a suite can't do without isn't installed."""
    for it in programs:
        if not shutil.which(it):
            raise NotHere(f"{it} isn't installed (apt-get install {PACKAGES.get(it, it)})")


class S3270:
    """An s3270 of a model, which doesn't wait for the host by itself, until the check is over; `more`
    are further options."""

    def __init__(self, model, *more):
        words = ["s3270", "-utf8", "-codepage", "cp037", "-model", f"3278-{model}"]
        words += ["-clear", "aidWait", "-clear", "unlockDelay", *more]
        pipe = subprocess.PIPE
        self.process = subprocess.Popen(
            words,
            stdin=pipe,
            stdout=pipe,
            stderr=subprocess.DEVNULL,
            text=True,
            # Of a port that refuses its connection it prints bytes that are no text.
            errors="replace",
        )

    def __enter__(self):
        return self

    def __exit__(self, *_):
        self.process.kill()
        self.process.communicate()

    def answers(self, action):
        """The lines of its answer to an action; the last is `ok` or `error`."""
        self.process.stdin.write(action + "\n")
        self.process.stdin.flush()
        lines = [self.process.stdout.readline().rstrip("\n")]
        while lines[-1] not in ("ok", "error", ""):
            lines.append(self.process.stdout.readline().rstrip("\n"))
        return lines

    def does(self, *actions):
        """The lines of data that the last one of these actions prints."""
        for action in actions:
            lines = self.answers(action)
            if lines[-1] != "ok":
                raise Difference(f"s3270 answers ok to {action}", str(lines))
        return [it.removeprefix("data: ").rstrip() for it in lines[:-2]]

    def fails(self, action):
        """It refuses the action."""
        lines = self.answers(action)
        if lines[-1] != "error":
            raise Difference(f"s3270 answers error to {action}", str(lines))

    def is_connected(self):
        """Whether it is connected, and TN3270E agreed."""
        return self.does("Query(ConnectionState)")[0].startswith("connected-tn3270e")

    def shows(self):
        """The rows of its screen."""
        return self.does("Ascii()")
