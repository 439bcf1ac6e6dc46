"""How a row of files starts `dasd`: the lines that say it, and the decks that write a record."""
from __future__ import annotations

import os
import subprocess
from contextlib import ExitStack
from dataclasses import dataclass, field
from pathlib import Path
from typing import IO

from .beside import traced

NOBODY = 65534
# Searches record 0 of cylinder 0, head 0, and formats record 1 of four bytes after it.
WRITE = """STORE 48 00000400
STORE 400 3100050040000005 0800040000000000 1D0006000000000C
STORE 500 0000000000
STORE 600 0000000001000004 {data}
SIO {unit}
"""
ENDS = {"writes": "STEP 100\nINT\n", "stops": "STEP 17\n"}
# Lines about the calls of a command, as words of strace.
CALLS = {"inject": ["-e", "inject={}"], "of": ["-P", "{}"], "calls": ["-o", "wanted.calls", "-e", "trace={}"]}
# What a run with such a deck prints.
WROTE = ["STORE OK"] * 4 + ["SIO {unit} CC 0", "STEP 20", "INT {unit} 00000418 0C000000"]


def deck_of(word: str, rest: str) -> bytes:
    """The deck of a line `writes` or `stops`."""
    data, unit = rest.split()
    return (WRITE.format(data=data, unit=unit) + ENDS[word]).encode("ascii")


@dataclass
class How:
    """How a command is run: the files of its streams, what new files are not to allow, kilobytes of memory, and whose it is."""

    given: str | None = None
    out: str | None = None
    told: str | None = None
    umask: int = -1
    memory: int | None = None
    is_nobodys: bool = False
    is_broken: bool = False
    seconds: int = 120
    most: float = 1000
    calls: list[str] = field(default_factory=list)

    def takes(self, word: str, rest: str) -> bool:
        """Takes what a line says; whether it is of these."""
        if word in ("in", "out"):
            setattr(self, "given" if word == "in" else "out", rest)
        elif word == "told":
            self.told = rest.removeprefix("to ")
        elif word == "umask":
            self.umask = int(rest, 8)
        elif word == "memory":
            self.memory = int(rest)
        elif word == "seconds":
            self.most = float(rest)
        elif word in CALLS:
            self.calls += [it.replace("{}", rest) for it in CALLS[word]]
        elif word == "within":
            self.seconds = int(rest)
        elif word == "nobody":
            self.is_nobodys = os.geteuid() == 0
        elif word == "broken":
            self.is_broken = True
        else:
            return False
        return True

    def start(self, words: list[str], folder: Path) -> subprocess.Popen[bytes]:
        """Begins a command in a folder."""
        before = ["sh", "-c", 'ulimit -v %d; exec "$0" "$@"' % self.memory] if self.memory else []
        before += traced(self.calls) if self.calls else []
        user, groups = (NOBODY, no_groups()) if self.is_nobodys else (None, None)
        with ExitStack() as kept:
            def stream(name: str | None, mode: str) -> IO[bytes] | int:
                return kept.enter_context((folder / name).open(mode)) if name else subprocess.PIPE
            out = kept.enter_context(unread()) if self.is_broken else stream(self.out, "wb")
            running = subprocess.Popen([*before, *words], cwd=folder, umask=self.umask, user=user, group=user, extra_groups=groups,
                                       stdin=stream(self.given, "rb"), stdout=out, stderr=stream(self.told, "wb"))
        return running


def no_groups() -> list[int]:
    """The groups that nobody is in beside his own."""
    return []


def unread() -> IO[bytes]:
    """The end of a pipe that nobody reads."""
    ours, theirs = os.pipe()
    os.close(ours)
    return os.fdopen(theirs, "wb", buffering=0)
