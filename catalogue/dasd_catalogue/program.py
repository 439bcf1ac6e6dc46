"""The program `dasd`: its commands over one volume, the objects that they print, and their faults."""

from __future__ import annotations

import json
import os
import resource
import select
import shutil
import signal
import subprocess
from collections.abc import Iterator
from dataclasses import dataclass
from typing import Any

Object = dict[str, Any]
#: The environment's word for the program's file.
VARIABLE = "DASD_PROGRAM"
LINES, FAULTS = b"lines", b"faults"
MOST_MILLISECONDS = (1 << 31) - 1
MOST_FAULT = 2000
#: How faults begin that may be gone another time: the first five are said here, the others by the program.
PASSING = ("it took", "it wrote", "it was ended", "it ended", "it printed", "read fault", "write fault", "no memory")
NO_MEMORY = "no memory"
#: What the file of a volume is called where it is asked; those of one in several files have a number after it.
NAME = "volume"


class NoProgram(Exception):
    """There is no program `dasd`; the text says where it was looked for."""


def find_program(asked: str = "") -> str:
    """The file of the program: the one that is asked for, or that of the environment, or `dasd` of the path."""
    named = asked or os.environ.get(VARIABLE, "")
    found = shutil.which(named or "dasd")
    if found is None:
        raise NoProgram(f"there is no program {named}" if named else f"there is no dasd on the path; --dasd or {VARIABLE} names it")
    return os.path.abspath(found)


def version_of(program: str) -> str:
    """What the program says its version is."""
    try:
        done = subprocess.run([program, "--version"], capture_output=True, text=True, timeout=60, check=True)
    except (OSError, subprocess.SubprocessError) as fault:
        raise NoProgram(f"{program} can't be run: {fault}") from fault
    return done.stdout.split()[-1] if done.stdout.split() else ""


@dataclass(frozen=True)
class Way:
    """How volumes are asked: the file of the program, how many seconds one of its commands may take, how many bytes a packed file may hold, the folder
    for what is unloaded, if not one of memory or the system's, how many bytes of addresses a command may have, and by how many a file that it writes
    may be longer than its volume."""

    program: str
    patience: float = 120.0
    most: int = 16 << 30
    scratch: str = ""
    memory: int = 1 << 30
    spare: int = 16 << 20


@dataclass(frozen=True)
class Volume:
    """A volume that is asked: how, a folder with its files, their names there, and how many bytes they have."""

    way: Way
    folder: bytes
    names: tuple[str, ...]
    size: int

    def ask(self, *words: str) -> Iterator[Object]:
        """The objects that a command prints with `--json`; at the end a Fault is raised where it had one. Words in front of the volume's names."""
        lines, faults = os.path.join(self.folder, LINES), os.path.join(self.folder, FAULTS)
        with open(lines, "wb") as out, open(faults, "wb") as told:
            status = self._run([*words, "--json", "--verbose", *self.names], out, told)
        fault = status or self._within_limits(text_of_fault(faults))
        with open(lines, "rb") as held:
            for line in held:
                try:
                    yield json.loads(line)
                except (ValueError, RecursionError):
                    fault = fault or "it printed a line that is no JSON"
        if fault:
            raise Fault(fault)

    def _run(self, words: list[str], out: Any, told: Any) -> str:
        """Runs a command; how it ended otherwise than by itself, or an empty text."""
        line = [self.way.program, *words]
        with subprocess.Popen(line, cwd=self.folder, stdin=subprocess.DEVNULL, stdout=out, stderr=told) as process:
            self._limit(process.pid)
            try:
                is_over = ends_within(process.pid, self.way.patience)
            except BaseException:
                process.kill()
                raise
            if not is_over:
                process.kill()
                return f"it took more than {self.way.patience:g} seconds"
            status = process.wait()
        if status == -signal.SIGXFSZ:
            return f"it wrote more than {self.most_written} bytes to a file"
        if status < 0:
            return f"it was ended by signal {-status}"
        return "" if status in (0, 1) else f"it ended with status {status}"

    @property
    def most_written(self) -> int:
        """How many bytes a file may have that a command writes. A character of a text has three bytes at most."""
        return 3 * self.size + self.way.spare

    def _limit(self, process: int) -> None:
        """Gives a command that has just begun its limits. They count what it took before, and cost no further program and no fork of this process."""
        limits = {resource.RLIMIT_AS: self.way.memory, resource.RLIMIT_FSIZE: self.most_written, resource.RLIMIT_CORE: 0}
        try:
            for limit, most in limits.items():
                hard = resource.prlimit(process, limit)[1]
                least = most if hard == resource.RLIM_INFINITY else min(most, hard)
                resource.prlimit(process, limit, (least, least))
        except ProcessLookupError:  # it is over
            pass

    def _within_limits(self, fault: str) -> str:
        """What a command said, with its limit where that may be why."""
        return f"{fault} within {self.way.memory} bytes" if fault.startswith(NO_MEMORY) else fault


def ends_within(process: int, seconds: float) -> bool:
    """Whether a child of this process ends within so many seconds. Waits for its end itself, where `Popen.wait` would sleep and look again."""
    file = os.pidfd_open(process)
    try:
        end = select.poll()
        end.register(file, select.POLLIN)
        return bool(end.poll(min(seconds * 1000, MOST_MILLISECONDS)))
    finally:
        os.close(file)


class Fault(Exception):
    """Why a command of the program came to no end: its own words."""

    @property
    def is_of_volume(self) -> bool:
        """Whether it is the volume's, and will be there another time too; if not, it is that of the machine at this time."""
        return not str(self).startswith(PASSING)


def text_of_fault(path: bytes) -> str:
    """What a command said on standard error, in one line: its one line for scripts, and after it what `--verbose` adds. A volume of one file is not
    named, since its name here is none of its own."""
    with open(path, "rb") as held:
        text = held.read(MOST_FAULT).decode("utf-8", "replace")
    lines = [it.strip().removeprefix(f"{NAME}: ") for it in text.removeprefix("dasd: ").splitlines()]
    return ": ".join(dict.fromkeys(it for it in lines if it))
