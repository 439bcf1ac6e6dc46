"""How far a scan is, for whoever waits: on one line of a terminal that is written again, or, where there is none, on a line now and then."""

from __future__ import annotations

import time
from typing import TextIO

#: Seconds between two lines, on a terminal and elsewhere.
ON_TERMINAL, ELSEWHERE = 0.2, 30.0
CLEAR = "\r\x1b[K"


class Progress:
    """A count of what is done of so many, with its rate."""

    def __init__(self, stream: TextIO, whole: int, is_silent: bool) -> None:
        self.stream, self.whole, self.is_silent = stream, whole, is_silent
        self.is_terminal = stream.isatty()
        self.done = 0
        self.began = self.told = time.monotonic()

    @property
    def seconds(self) -> float:
        """How long it has taken."""
        return time.monotonic() - self.began

    def step(self) -> None:
        """One more is done."""
        self.done += 1
        now = time.monotonic()
        if not self.is_silent and now - self.told >= (ON_TERMINAL if self.is_terminal else ELSEWHERE):
            self.told = now
            self._tell()

    def _tell(self) -> None:
        text = f"{self.done} done, {self.whole - self.done} left, {self.done / max(self.seconds, 1e-9):.1f} a second"
        self.stream.write(f"{CLEAR}{text}" if self.is_terminal else f"{text}\n")
        self.stream.flush()

    def end(self) -> None:
        """Leaves the terminal's line empty."""
        if self.is_terminal and not self.is_silent:
            self.stream.write(CLEAR)
            self.stream.flush()
