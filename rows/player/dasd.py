"""Rows of the program `dasd`, run over real files in a folder of each row's own.

| Line | Means |
|---|---|
| `file a 2311 1` | a file with a new volume |
| `file a`, `text a 4D49` | a file without bytes, with these bytes |
| `patch a 5 43`, `cut a 511` | bytes over those of a file; its end is taken away |
| `copy b a 0 41472` | bytes of a file after those of another |
| `> SIO 190`, `>bytes 0A` | a line, or bytes, of the deck on standard input of the next command |
| `reader` | standard input can't be read |
| `writer 12`, `flush` | a write to standard output fails, after so many bytes, or as it is flushed |
| `short 7` | a read gives at most so many bytes |
| `tracer 40`, `once 40` | a write to the trace fails after so many bytes, and each after it; that write alone |
| `put a` | the file can't be put in its place |
| `dasd list a` | a command |
| `< line`, `< ...` | a line that it prints; all that are left |
| `~ line`, `~ ...` | a line that it shows on a terminal while it goes on |
| `trace line`, `trace ...` | a line of its trace; all that are left. A trace of which a line is looked at has no others |
| `keep`, `kept` | what it prints is kept; is what was kept |
| `! dasd: read fault`, `usage`, `says X` | what it tells on standard error; a text of its words; which has this |
| `remark text` | what it says of it where it is asked for more |
| `status 1`, `replaced x y` | its status; the files that it has put in place, in order |
| `same a b`, `length a 512`, `holds a 5 43` | what files hold |
| `reads list b` | each read of the file fails in turn, and all after it: a front of what it prints, a store fault, and which file it was and where |
| `memory list a` | each taking of memory is refused in turn: no memory |

A file whose name begins with `locked` may not be written, and one whose name begins with `busy` is another program's."""
from __future__ import annotations

import fcntl
import os
import pty
import re
import select
import subprocess
import tempfile
import tty
from contextlib import ExitStack
from functools import partial
from pathlib import Path
from typing import Iterator

from conformance.suite.volumes import Volume

from .preload import library
from .stage import Stage
from .text import BadRow, Block, Case, Wrong, bytes_of, is_next, read_blocks, same, words_of

JOURNAL = ".dasd-journal"
SHOWN = re.compile(rb"\r([^\r\x1b]*)\x1b\[K")
TRACE = "trace.of.the.row"
# lines that let calls of the next command fail, and what failing_calls.c knows them by
FAILING = {"writer": "FAIL_OUTPUT", "flush": "FAIL_FLUSH", "short": "SHORT_READS", "tracer": "FAIL_FILE", "put": "FAIL_PUT"}
# what is reported where a file can't be read on: the fault, and the file with the place and the host's words
UNREAD = re.compile(r"dasd: (?:store|read) fault\n  (?P<path>\S+): at byte \d+: Input/output error\n")
MOST_REFUSED = 400
# how long the program may be silent before it is ended
SECONDS = 600


class DasdRow:
    """A row, as it is played in a folder."""

    def __init__(self, program: str, folder: Path) -> None:
        self.program, self.folder = program, folder
        self.printed: list[str] = []
        self.shown: list[str] = []
        self.traced: list[str] = []
        self.looks_at_trace = False
        self.kept: list[str] = []
        self.told, self.status = "", 0
        self.remarks: list[str] = []
        self.replaced: list[str] = []
        self.next_command()

    def next_command(self) -> None:
        """Nothing is asked of the next command beside its words."""
        self.deck, self.deck_fails = b"", False
        self.environment: dict[str, str] = {}

    def path(self, name: str) -> Path:
        return self.folder / name

    def held(self, name: str) -> bytes:
        return self.path(name).read_bytes()

    # --- lines ---

    def play(self, line: str) -> None:
        """Does what a line says, and looks at what it must come to."""
        word, _, rest = line.partition(" ")
        if self.asks(word, rest) or self.files(word, words_of(rest)):
            return
        if word == "dasd":
            self.is_said(line)
            self.command(line.split(" ")[1:])
        elif word == "reads":
            self.each_read_fails(rest.split(" "))
        elif word == "memory":
            self.each_taking_is_refused(rest.split(" "))
        elif not self.looks(line, word, rest):
            raise BadRow(line)

    def is_said(self, line: str) -> None:
        """That nothing came of the last command that no line said."""
        more = self.printed + self.shown + ([self.told] if self.told else [])
        more += self.traced if self.looks_at_trace else []
        if more:
            raise Wrong(line, "nothing more before it", " | ".join(more))

    def asks(self, word: str, rest: str) -> bool:
        """Takes what is asked of the next command beside its words; whether the line asks that."""
        if word == ">":
            self.deck += rest.encode("ascii") + b"\n"
        elif word == ">bytes":
            self.deck += bytes_of(rest)
        elif word == "reader":
            self.deck_fails = True
        elif word in FAILING:
            self.environment[FAILING[word]] = rest or "1"
        elif word == "once":
            self.environment.update(FAIL_FILE=rest, FAIL_ONCE="1")
        else:
            return False
        return True

    def files(self, word: str, words: list[str]) -> bool:
        """Makes a file or changes it; whether the line asks that."""
        if word == "file":
            data = Volume.new(words[1], int(words[2])).bytes() if len(words) > 1 else b""
        elif word == "text":
            data = bytes_of(words[1])
        elif word == "patch":
            at, new, old = int(words[1]), bytes_of(words[2]), self.held(words[0])
            data = (old[:at] + new + old[at + len(new):])[:len(old)]
        elif word == "cut":
            data = self.held(words[0])[:int(words[1])]
        elif word == "copy":
            data = self.held(words[0]) if self.path(words[0]).exists() else b""
            data += self.held(words[1])[int(words[2]):][:int(words[3])]
        else:
            return False
        self.path(words[0]).write_bytes(data)
        return True

    def looks(self, line: str, word: str, rest: str) -> bool:
        """Looks at what came of the last command, or what files hold; whether the line asks that."""
        if word in ("<", "~", "trace", "remark"):
            came = {"<": self.printed, "~": self.shown, "trace": self.traced, "remark": self.remarks}[word]
            self.looks_at_trace |= word == "trace"
            if rest == "...":
                came.clear()
            else:
                is_next(line, rest, came.pop(0) if came else "nothing")
        elif word == "keep":
            self.kept, self.printed = self.printed, []
        elif word == "kept":
            same(line, self.kept, self.printed)
            self.printed = []
        elif word == "!":
            same(line, rest, self.told)
            self.told = ""
        elif word == "says":
            same(line, True, rest in self.told)
        elif word == "usage":
            same(line, True, bool(self.told) and not self.told.startswith("dasd: "))
            self.told = ""
        elif word == "status":
            same(line, int(rest), self.status)
        elif word == "replaced":
            same(line, rest.split(), self.replaced)
        else:
            return self.holds(line, word, words_of(rest))
        return True

    def holds(self, line: str, word: str, words: list[str]) -> bool:
        """Looks at what files hold; whether the line asks that."""
        if word == "same":
            same(line, True, self.held(words[0]) == self.held(words[1]))
        elif word == "length":
            same(line, int(words[1]), len(self.held(words[0])))
        elif word == "holds":
            data = bytes_of(words[2])
            same(line, data.hex(), self.held(words[0])[int(words[1]):][:len(data)].hex())
        else:
            return False
        return True

    def saved(self, names: list[str]) -> list[str]:
        """The files that were saved as these came: themselves, or those with a journal, whose first one comes last."""
        files = [it.removeprefix(".").removesuffix(JOURNAL) if it.endswith(JOURNAL) else it for it in names]
        return [*files[-1:], *files[:-1]] if names and names[-1].endswith(JOURNAL) else files

    # --- commands ---

    def command(self, words: list[str]) -> None:
        """Runs a command, with a terminal at its standard error; a trace goes to a file."""
        if "--trace" in words:
            at = words.index("--trace")
            words = [*words[:at], "--trace-to", TRACE, *words[at + 1:]]
        traces = words[words.index("--trace-to") + 1] if "--trace-to" in words else ""
        with ExitStack() as kept:
            for word in words:
                self.prepare(word.rpartition("=")[2], word == traces, kept)
            puts = Path(kept.enter_context(tempfile.TemporaryDirectory())) / "puts"
            before = self.stamps()
            out, told = self.run(words, dict(self.environment, FAIL_NAME=traces, PUTS=str(puts)))
            behind = self.stamps()
            order = self.saved([Path(it).name for it in puts.read_text().splitlines()])
        others = [it for it in behind if it != traces and it not in order and behind[it] != before.get(it)]
        self.replaced = [it for it in order if it in behind] + sorted(others)
        self.shown = [it.decode("ascii") for it in SHOWN.findall(told)]
        if self.shown and self.shown[-1] == "":
            self.shown = [it for it in self.shown if it]
        elif self.shown:
            self.shown.append("is still shown")
        self.says(SHOWN.sub(b"", told).decode("utf-8"), out)
        self.traced = self.held(traces).decode("latin1").splitlines() if traces and self.path(traces).is_file() else []
        self.looks_at_trace = False
        self.next_command()

    def says(self, told: str, out: str) -> None:
        """Takes what a command printed and told. Help goes to standard output, and is a text of words too; remarks, which a terminal
        gets, are indented."""
        if self.status == 2 and out and not told:
            told, out = out, ""
        self.printed = out.splitlines()
        is_usage = bool(told) and not told.startswith(("dasd: ", "  "))
        lines = told.splitlines()
        self.remarks = [it[2:] for it in lines if it.startswith("  ") and not is_usage]
        self.told = told.rstrip("\n") if is_usage else "\n".join(it for it in lines if not it.startswith("  "))

    def prepare(self, name: str, is_trace: bool, kept: ExitStack) -> None:
        """Locks a file, or takes the leave to write it away, as its name says; in the place of a trace stands a folder then."""
        path = self.path(name)
        if name.startswith("locked") and is_trace:
            path.mkdir()
            kept.callback(path.rmdir)
            return
        if name.startswith(("locked", "busy")) and not path.exists():
            path.write_bytes(b"")
            kept.callback(path.unlink)
        if name.startswith("locked"):
            path.chmod(0o444)
        elif name.startswith("busy"):
            file = kept.enter_context(open(path, "rb"))
            fcntl.flock(file, fcntl.LOCK_EX)

    def stamps(self) -> dict[str, tuple[int, int]]:
        """For each file its number and when it was changed; two changes within a tick of the clock have the same time."""
        return {it.name: (it.stat().st_ino, it.stat().st_ctime_ns) for it in self.folder.iterdir()}

    def run(self, words: list[str], environment: dict[str, str], loaded: str = "failing") -> tuple[str, bytes]:
        """Runs the program; what it printed, and what it told on a terminal."""
        ours, theirs = pty.openpty()
        tty.setraw(theirs)
        with tempfile.TemporaryFile() as out, tempfile.TemporaryFile() as deck:
            deck.write(self.deck)
            deck.seek(0)
            stdin = os.open(self.folder, os.O_RDONLY) if self.deck_fails else os.dup(deck.fileno())
            given = dict(os.environ, LD_PRELOAD=library(loaded), **environment)
            running = subprocess.Popen([self.program, *words], cwd=self.folder, env=given, stdin=stdin, stdout=out, stderr=theirs)
            os.close(theirs)
            os.close(stdin)
            told = read_all(ours, running)
            self.status = running.wait(timeout=SECONDS)
            out.seek(0)
            return out.read().decode("utf-8"), told

    # --- sweeps ---

    def each_read_fails(self, words: list[str]) -> None:
        """Lets each read of a file fail in turn, and all after it: what is printed is a front of what is printed otherwise."""
        log = self.path("reads.of.the.row")
        whole, _ = self.run(words, {"FAIL_READS": str(log)})
        number = log.stat().st_size
        for at in range(1, number + 1):
            out, told = self.run(words, {"FAIL_READ": str(at)})
            told = SHOWN.sub(b"", told)
            is_told = UNREAD.fullmatch(told.decode("ascii"))
            same("read %d of %d fails" % (at, number), (1, True), (self.status, is_told is not None and is_told["path"] in words))
            same("read %d of %d fails: a front is printed" % (at, number), True, whole.startswith(out) and (not out or out.endswith("\n")))
        log.unlink()

    def all_held(self, traces: str) -> dict[str, bytes]:
        """What all files hold, but a trace."""
        return {it.name: it.read_bytes() for it in self.folder.iterdir() if it.name != traces}

    def each_taking_is_refused(self, words: list[str]) -> None:
        """Refuses each taking of memory in turn; whatever was printed, it is reported, and no file is another."""
        traces = words[words.index("--trace-to") + 1] if "--trace-to" in words else ""
        before = self.all_held(traces)
        for at in range(1, MOST_REFUSED):
            _, told = self.run(words, {"REFUSE_AT": str(at)}, "refusing")
            if self.status == 0:
                same("the first taking", True, at > 1)
                return
            same("taking %d is refused" % at, (1, b"dasd: out of memory\n"), (self.status, SHOWN.sub(b"", told)))
            same("taking %d is refused: the files" % at, True, before == self.all_held(traces))
        raise Wrong("takings of memory", "fewer than %d" % MOST_REFUSED, "more")


def read_all(end: int, running: subprocess.Popen[bytes]) -> bytes:
    """All that is written at the other end of a terminal, which is closed then; a program that does not end is ended."""
    told = b""
    while True:
        if not select.select([end], [], [], SECONDS)[0]:
            running.kill()
            break
        try:
            piece = os.read(end, 65536)
        except OSError:
            break
        if not piece:
            break
        told += piece
    os.close(end)
    return told


def play_row(program: str, block: Block, _: Stage) -> None:
    """Plays a row in a folder of its own."""
    with tempfile.TemporaryDirectory() as folder:
        row = DasdRow(program, Path(folder))
        for line in block.lines[1:]:
            row.play(line)
        row.is_said("the end")


def cases(program: str) -> Iterator[Case]:
    for block in read_blocks("dasd.rows"):
        yield Case(block.name, partial(play_row, program, block))
