"""Lines of rows about the system calls of a command, about commands that go on beside others, and values that only the host knows.
rows/data/files/README.md has each line."""
from __future__ import annotations

import hashlib
import os
import re
import shutil
import signal
import subprocess
import tempfile
import time
from pathlib import Path
from typing import Callable

from .preload import TOP
from .text import Skipped, Wrong, bytes_of, same

CALL = re.compile(r"(\w+)\(")
SECONDS = 60
READ = "a save of it was cut off"


def traced(words: list[str]) -> list[str]:
    """The words of strace before those of a command."""
    if not shutil.which("strace"):
        raise Skipped("there is no strace")
    return ["strace", "--quiet=all", *([] if "-o" in words else ["-o", "/dev/null"]), *words]


def calls_of(words: list[str], folder: Path, deck: bytes, chosen: list[str]) -> list[list[str]]:
    """The calls of these names that a command makes in a copy of the folder, after those of its loader, each as `name:when=number`. It tells nothing;
    `recover` tells what it has done."""
    with tempfile.TemporaryDirectory() as room:
        shutil.copytree(folder, Path(room, "folder"), symlinks=True)
        ran = subprocess.run([*traced(["-o", "../trace"]), *words], cwd=Path(room, "folder"), input=deck, capture_output=True, timeout=SECONDS, check=False)
        same(" ".join(words), (0, b""), (ran.returncode, b"" if words[1] == "recover" else ran.stderr))
        lines = Path(room, "trace").read_text(encoding="utf-8", errors="replace").splitlines()
    counts, found, is_own = dict.fromkeys(chosen, 0), [], False
    for call in filter(None, map(CALL.search, lines)):
        is_own |= call[1] == "munmap"
        if call[1] in counts:
            counts[call[1]] += 1
            found += [["%s:when=%d" % (call[1], counts[call[1]])]] * is_own
    return found


def matching(folder: Path, name: str) -> list[str]:
    """The files of a name, or of a pattern."""
    return sorted(str(it.relative_to(folder)) for it in folder.glob(name))


def put_journal(path: Path, new: bytes, old: bytes) -> None:
    """Makes the journal of a file: what is saved, and by which bits the old bytes differ from that."""
    journal = path.with_name(".dasd+%d" % path.stat().st_ino)
    journal.write_bytes(new + bytes(one ^ other for one, other in zip(new, old, strict=True)))


class Beside:
    """The commands of a row that go on, by their names, and what is waited for."""

    def __init__(self, program: str, folder: Path) -> None:
        self.program, self.folder = program, folder
        self.running: dict[str, subprocess.Popen[bytes]] = {}
        self.hashes: dict[bytes, str] = {}
        self.tally: list[str] = []
        self.lines: dict[str, Callable[..., object]] = {
            "kill": self.kill, "opens": self.opens, "until": self.until, "grows": self.grows, "wait": lambda it: time.sleep(float(it)),
            "tally": lambda *words: self.tally.append(" ".join(words)), "tallied": self.tallied, "one": self.is_one_of}
        self.kinds: dict[str, Callable[..., object]] = {
            "number": lambda name: (folder / name).stat().st_ino, "name": self.only, "pid": lambda name: self.running[name].pid,
            "own": os.getpid, "top": lambda: TOP, "ended": ended, "begin": self.count,
            "digest": lambda name: hashlib.sha256((folder / name).read_bytes()).hexdigest(), "read": self.read}

    def start(self, name: str, running: subprocess.Popen[bytes], deck: bytes) -> None:
        """Has a command go on that has its deck."""
        self.running[name] = running
        assert running.stdin is not None
        try:
            running.stdin.write(deck)
            running.stdin.close()
        except BrokenPipeError:  # it was refused before it read
            pass
        running.stdin = None

    # --- what is waited for ---

    def kill(self, name: str, sent: str, turn: str = "0") -> None:
        """Sends a signal to a command, a little later in each turn."""
        time.sleep(int(turn) ** 2 * 0.0004)
        self.running[name].send_signal(signal.Signals["SIG" + sent])

    def wait_for(self, name: str, what: str, is_so: Callable[[], bool]) -> None:
        """Waits until something is so, which must be while a command goes on."""
        end = time.monotonic() + SECONDS
        while not is_so():
            if self.running[name].poll() is not None or time.monotonic() > end:
                raise Wrong(what, "it, while %s goes on" % name, "its end, or none")
            time.sleep(0.001)

    def opens(self, name: str, file: str) -> None:
        """Waits until a command that strace looks at has a file open."""
        self.wait_for(name, "opens " + file, lambda: file in opened_below(self.running[name].pid))

    def until(self, name: str, file: str, begins: str) -> None:
        """Waits until a file begins with these bytes."""
        self.wait_for(name, "until " + file, lambda: (self.folder / file).read_bytes().startswith(bytes_of(begins)))

    def grows(self, name: str, pattern: str, length: str) -> None:
        """Waits until a file is longer."""
        self.wait_for(name, "grows " + pattern, lambda: any(it.stat().st_size > int(length) for it in self.folder.glob(pattern)))

    # --- what is found ---

    def tallied(self, least: str, *words: str) -> None:
        """That this was tallied so often at least, or never."""
        count = self.tally.count(" ".join(words))
        same("tallied %s, which is at least %s, or none" % (" ".join(words), least), True, count >= int(least) if int(least) else not count)

    def is_one_of(self, _: str, name: str, *patterns: str) -> None:
        """That a file is the same as one of these."""
        others = [(self.folder / it).read_bytes() for pattern in patterns for it in matching(self.folder, pattern)]
        same("%s is one of %s" % (name, " ".join(patterns)), True, (self.folder / name).read_bytes() in others)

    def only(self, pattern: str) -> str:
        """The only file with a name like this."""
        (found,) = matching(self.folder, pattern)
        return found

    def count(self, begins: str, *names: str) -> int:
        """How many files begin with these bytes."""
        return sum((self.folder / it).read_bytes().startswith(bytes_of(begins)) for it in names)

    def hash_of(self, name: str) -> str:
        """The hash of a volume that is read, perhaps in its journal."""
        ran = subprocess.run([self.program, "hash", name], cwd=self.folder, capture_output=True, timeout=SECONDS, check=False)
        told = ran.stderr.decode()
        same("hash %s" % name, (0, True), (ran.returncode, all(READ in it for it in told.splitlines())))
        return ran.stdout.decode().split()[0]

    def read(self, names: str, *others: str) -> str:
        """Which of the other files a reader finds in each of these."""
        for it in others:
            held = (self.folder / it).read_bytes()
            self.hashes[held] = self.hashes.get(held) or self.hash_of(it)
        known = {self.hashes[(self.folder / it).read_bytes()]: it for it in others}
        found = {known.get(self.hash_of(it), "neither") for it in names.split(",")}
        same("what is read of %s" % names, True, len(found) == 1 and found <= set(others))
        return found.pop()


def ended() -> int:
    """The number of a program that no longer runs."""
    with subprocess.Popen(["true"]) as program:
        program.wait()
    return program.pid


def opened_below(tracer: int) -> list[str]:
    """The names of the files that the children of a process have open."""
    found: list[str] = []
    try:
        for child in Path("/proc/%d/task/%d/children" % (tracer, tracer)).read_text(encoding="ascii").split():
            found += [os.path.basename(os.readlink(it)) for it in Path("/proc/%s/fd" % child).iterdir()]
    except OSError:  # it ended, or closed a file, meanwhile
        pass
    return found
