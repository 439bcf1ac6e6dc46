"""The stage: a process that reads a line, does one call, and answers with a line. README.md says which."""
from __future__ import annotations

import os
import select
import subprocess
import sys
from typing import IO, Iterable, Sequence

# at most so many bytes are sent before their answers are read: what a pipe holds
MOST_SENT = 32768


class Broke(Exception):
    """The stage has ended, or was silent for too long."""


class Stage:
    """A stage, which is started with the first line. With `shows` each line and its answer are printed."""

    def __init__(self, command: Sequence[str], seconds: float = 600, shows: bool = False, environment: dict[str, str] | None = None) -> None:
        self.command, self.seconds, self.shows = list(command), seconds, shows
        self.environment = dict(os.environ, **(environment or {}))
        # what a stage says on standard error is let go where its memory is refused
        self.told = subprocess.DEVNULL if environment else None
        self.running: subprocess.Popen[bytes] | None = None
        self.rest = b""

    @property
    def process(self) -> subprocess.Popen[bytes]:
        """The process."""
        if self.running is None:
            self.running = subprocess.Popen(self.command, stdin=subprocess.PIPE, stdout=subprocess.PIPE, stderr=self.told,
                                            env=self.environment)
            self.rest = b""
        return self.running

    def ask(self, line: str) -> str:
        """Sends a line, and gives its answer."""
        return self.ask_all([line])[0]

    def ask_all(self, lines: Iterable[str]) -> list[str]:
        """Sends lines one after another, and gives their answers in order."""
        answers: list[str] = []
        waiting: list[str] = []
        length = 0
        for line in lines:
            if waiting and length + len(line) >= MOST_SENT:
                answers += self.send(waiting)
                waiting, length = [], 0
            waiting.append(line)
            length += len(line) + 1
        return answers + self.send(waiting)

    def send(self, lines: list[str]) -> list[str]:
        """Sends lines that a pipe holds together, and reads their answers."""
        if not lines:
            return []
        try:
            stdin = pipe(self.process.stdin)
            stdin.write("".join(it + "\n" for it in lines).encode("ascii"))
            stdin.flush()
        except OSError as why:
            self.stop()
            raise Broke("the stage has ended before %s" % lines[0][:80]) from why
        answers = [self.next_line(line) for line in lines]
        if self.shows:
            for line, answer in zip(lines, answers):
                print("%s\n    %s" % (line, answer), file=sys.stderr)
        return answers

    def next_line(self, asked: str) -> str:
        """The next line that the stage prints."""
        while b"\n" not in self.rest:
            out = pipe(self.process.stdout).fileno()
            ready, _, _ = select.select([out], [], [], self.seconds)
            data = os.read(out, 1 << 16) if ready else b""
            if not data:
                self.stop()
                raise Broke("the stage %s at %s" % ("ended" if ready else "was silent for %g s" % self.seconds, asked[:80]))
            self.rest += data
        line, _, self.rest = self.rest.partition(b"\n")
        return line.decode("ascii")

    def end(self) -> None:
        """Ends the process as its input ends."""
        if self.running is None:
            return
        try:
            pipe(self.running.stdin).close()
            self.running.wait(self.seconds)
        except (OSError, subprocess.TimeoutExpired):
            pass
        self.stop()

    def stop(self) -> None:
        """Ends the process at once; the next line starts another."""
        if self.running is None:
            return
        process, self.running = self.running, None
        process.kill()
        process.wait()
        for it in (process.stdin, process.stdout):
            try:
                pipe(it).close()
            except OSError:
                pass


def pipe(end: IO[bytes] | None) -> IO[bytes]:
    """An end of a pipe, which is there."""
    if end is None:
        raise ValueError("no pipe")
    return end
