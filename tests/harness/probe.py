"""Talks to the probe, which makes public calls of the libraries, and to no other program."""
import subprocess
from collections.abc import Mapping

from harness import programs
from harness.case import BadCase, Difference, Place
from harness.data import in_digits

# How many short commands are written at once: neither these nor their answers fill a pipe.
MOST_COMMANDS = 400


class Probe:
    """A run of `probe SUBJECT`. It ends with the `with` block."""

    def __init__(self, subject: str, environment: Mapping[str, str] | None = None) -> None:
        self.process = subprocess.Popen(
            [programs.probe(), subject],
            stdin=subprocess.PIPE,
            stdout=subprocess.PIPE,
            stderr=subprocess.PIPE,
            env=environment,
        )

    def __enter__(self) -> "Probe":
        return self

    def __exit__(self, *_: object) -> None:
        self.close()

    def ask(self, command: str, at: Place | None = None) -> list[str]:
        """The lines of the answer to a command. One that the probe doesn't understand is an error
        of the test's data, `at` a line."""
        return self.ask_each([command], at)[0]

    def ask_each(self, commands: list[str], at: Place | None = None) -> list[list[str]]:
        """The answers to some commands, which are written at once: no more than the pipe takes (64
        KiB) unless they are few."""
        for command in commands:
            if "\n" in command:
                raise BadCase(f"a command is one line: {command!r}", at)
        assert self.process.stdin is not None
        try:
            lines = "".join(f"{in_digits(command)}\n" for command in commands)
            self.process.stdin.write(lines.encode())
            self.process.stdin.flush()
        except BrokenPipeError:
            raise self.ended() from None
        return [self.read_answer(command, at) for command in commands]

    def ask_all(self, commands: list[str], at: Place | None = None) -> list[list[str]]:
        """The answers to any number of commands that are short, as their answers are."""
        return [
            answer
            for start in range(0, len(commands), MOST_COMMANDS)
            for answer in self.ask_each(commands[start : start + MOST_COMMANDS], at)
        ]

    def read_answer(self, command: str, at: Place | None) -> list[str]:
        assert self.process.stdout is not None
        answer: list[str] = []
        while (line := self.process.stdout.readline().decode()) != ".\n":
            if not line.endswith("\n"):
                raise self.ended()
            answer.append(line[:-1])
        if answer and answer[0].startswith("? "):
            raise BadCase(f"the probe {answer[0][2:]}: {command}", at)
        return answer

    def ended(self) -> Exception:
        """What to raise if the probe ended before it had answered."""
        _, said = self.process.communicate()
        text = said.decode(errors="replace").strip()
        if text.startswith("Error: no subject"):
            return BadCase(text)
        return Difference(
            "an answer of the probe", f"it ended with status {self.process.returncode}: {text}"
        )

    def close(self) -> None:
        """Ends the probe."""
        if self.process.returncode is None:
            self.process.kill()
            self.process.communicate()
