"""Rows of the program `dasd` over real files: volumes with data sets, links, pipes, modes, owners, locks, full disks.

They have the lines of dasd.py that make files and look at them, those of spelled_packs.py, host_lines.py and started.py, and some of their own. No
call is made to fail, and standard error is a pipe. Each line that is printed or told is looked at, in order, and so is a status other than 0.
rows/data/files/README.md has each line."""
from __future__ import annotations

import json
import os
import re
import resource
import subprocess
import sys
import tempfile
import time
from contextlib import ExitStack
from functools import partial
from itertools import dropwhile, takewhile
from pathlib import Path
from typing import IO, Callable, Iterator

from tools.common.images import Image
from tools.common.said_sets import blocks_hash, library_hash
from tools.common.volume_layouts import ebcdic

from .beside import SECONDS, Beside, calls_of, matching, put_journal
from .dasd import DasdRow
from .host_lines import KINDS, HostFiles, needs
from .preload import TOP
from .refusals import Refused
from .spelled_packs import Packs, blocks_of
from .stage import Stage
from .started import WROTE, How, deck_of
from .text import DATA, BadRow, Block, Case, Skipped, Wrong, bytes_of, read_blocks, same, words_of

VALUE = re.compile(r"\{(?P<name>[A-Z][A-Z0-9]*)(?P<works>(?:[*/%+-]\d+)*)(?::(?P<form>[0-9A-Zd]+))?\}")
WORK = re.compile(r"([*/%+-])(\d+)")
QUOTED = re.compile(r"""'[^']*'|"(?:[^"\\]|\\.)*\"""")
MOST = 1 << 16
Setups = dict[str, tuple[str, ...]]


class FileRow(DasdRow):
    """A row, as it is played in a folder."""

    def __init__(self, program: str, folder: Path, setups: Setups) -> None:
        super().__init__(program, folder)
        self.setups, self.packs, self.kept_open = setups, Packs(folder), ExitStack()
        self.host = HostFiles(self.kept_open)
        self.values: dict[str, str] = {}
        self.beside = Beside(program, folder)
        self.errors: list[str] = []
        self.begun = ""
        self.waiting: tuple[subprocess.Popen[bytes], IO[bytes]] | None = None
        self.before = self.after = self.stamps()

    def next_command(self) -> None:
        super().next_command()
        self.how = How()

    def path(self, name: str) -> Path:
        return self.folder / bare(name)

    # --- lines ---

    def play_lines(self, lines: list[str]) -> None:
        """Plays lines, those of a table once for each of its lines."""
        at = 0
        while at < len(lines):
            line = self.filled(lines[at])
            if line.startswith(("each ", "when ")):
                words, end = line.split()[1:], end_of(lines, at)
                if line.startswith("each "):
                    self.play_each(words, lines[at + 1:end])
                elif words[0] == words[1]:
                    self.play_lines(lines[at + 1:end])
                at = end
            else:
                self.play(line)
            at += 1

    def play_each(self, names: list[str], lines: list[str]) -> None:
        """Plays lines once for each call of a command, for each number of a range, or for each line of the table before them."""
        if names[1:2] == ["calls"]:
            table, body = calls_of([self.program, *names[3:]], self.folder, self.deck, names[2].split(",")), lines
            self.next_command()
        elif ".." in names[-1]:
            first, last = (int(it) for it in names[1].split(".."))
            table, body = [[str(it)] for it in range(first, last + 1)], lines
        else:
            spelled = list(takewhile(lambda it: it.startswith("|"), lines))
            table, body = [[cell.strip() for cell in self.filled(it)[1:].split("|")] for it in spelled], lines[len(spelled):]
        for values in table:
            self.values.update(zip(names, values))
            self.play_lines(body)

    def filled(self, line: str) -> str:
        """A line with its values."""
        return VALUE.sub(lambda it: value_of(it, self.values[it["name"]]) if it["name"] in self.values else it[0], line)

    def play(self, line: str) -> None:
        word, _, rest = line.partition(" ")
        if word == "setup":
            self.play_lines(list(self.setups[rest]))
        elif word == "let":
            self.let(*rest.split(" ", 2))
        elif word == "needs":
            needs(rest)
        elif word in ("begin", "goes", "tool", "can", "check", "refused", "start", "finish"):
            self.packs.save()
            self.is_said(line)
            run = {"begin": self.begin_run, "goes": self.go_on, "tool": self.run_tool, "can": self.can, "check": self.check, "refused": self.refuse,
                   "start": self.start, "finish": self.finish}[word]
            run([bare(it) for it in words_of(rest)])
        elif word in self.beside.lines:
            self.packs.save()
            self.beside.lines[word](*words_of(rest))
        elif not self.packs.makes(word, words_of(rest)):
            self.packs.save()
            super().play(line)

    def let(self, name: str, kind: str, spelled: str = "") -> None:
        """Gives a value its name."""
        is_whole, words = not spelled.startswith("not whole"), words_of(spelled.removeprefix("not whole"))
        if kind == "status":
            same("status %s" % spelled, True, str(self.status) in words)
            self.values[name] = str(self.status)
        elif kind in self.beside.kinds:
            self.packs.save()
            self.values[name] = str(self.beside.kinds[kind](*words))
        elif kind == "hash":
            self.values[name] = blocks_hash(blocks_of(words), is_whole)
        elif kind == "library":
            members = [it.split("=") for it in words]
            self.values[name] = library_hash([(bytes_of(key) if "'" in key else ebcdic(key, 8), digest) for key, digest in members], is_whole)
        else:
            self.values[name] = bare(spelled) if kind == "word" else spelled

    def asks(self, word: str, rest: str) -> bool:
        if word == ":":
            with self.path(self.begun).open("a", encoding="utf-8") as file:
                file.write(rest + "\n")
            return True
        if word in ("writes", "stops"):
            self.deck += deck_of(word, rest)
        elif word == ">file":
            self.deck += self.held(rest)
        elif word == "drain":
            self.drained = self.kept_open.enter_context(open(os.open(self.path(rest), os.O_RDONLY | os.O_NONBLOCK), "rb", buffering=0))
        else:
            return self.how.takes(word, bare(rest)) or super().asks(word, rest)
        return True

    def files(self, word: str, words: list[str]) -> bool:
        if word == "text" and len(words) == 1:
            self.begun = words[0]
            self.path(self.begun).parent.mkdir(parents=True, exist_ok=True)
            self.path(self.begun).write_bytes(b"")
        elif word == "more":
            self.path(words[0]).write_bytes(self.held(words[0]) + bytes_of(words[1]))
        elif word == "edit":
            held, old = self.held(words[0]), bytes_of(words[1])
            same("%s has it" % words[0], True, old in held)
            self.path(words[0]).write_bytes(held.replace(old, bytes_of(words[2])))
        elif word == "journal":
            put_journal(self.path(words[0]), self.held(words[1]), self.held(words[2]))
        else:
            return bool(words) and self.host.makes(word, self.path(words[0]), [bare(it) for it in words[1:]]) or super().files(word, words)
        return True

    # --- looks at what came ---

    def is_said(self, line: str) -> None:
        if self.printed or self.errors or self.status:
            raise Wrong(line, "nothing more before it", " | ".join([*self.printed, *self.errors, "status %d" % self.status]))

    def looks(self, line: str, word: str, rest: str) -> bool:
        if word == "<" and rest != "...":
            is_line(line, rest, self.next_printed())
        elif word == "!":
            self.is_told(line, rest)
        elif word == "may":
            self.errors = self.errors[bool(self.errors) and self.errors[0].startswith(rest):]
        elif word == "next":
            self.next_printed()
        elif word == "kept":
            for it in (it for it in self.kept if it != rest.removeprefix("but ")):
                same(line, it, self.next_printed())
        elif word == "status":
            same(line, int(rest), self.status)
            self.status = 0
        elif word == "wrote":
            for it in WROTE:
                same(line, it.format(unit=rest), self.next_printed())
        elif word == "usage":
            same(line, (2, True), (self.status, bool(self.errors)))
            self.errors, self.status = [], 0
        else:
            return self.finds(line, word, rest) or super().looks(line, word, rest)
        return True

    def finds(self, line: str, word: str, rest: str) -> bool:
        """Looks at some of what came; whether the line asks that."""
        if word in ("last", "first"):
            is_line(line, rest, (self.printed or ["nothing"])[-1 if word == "last" else 0])
        elif word == "ends":
            same(line, rest, self.next_printed()[-len(rest):])
        elif word in ("once", "begun"):
            same(line, 1, sum(rest in it if word == "once" else it.startswith("  %s " % rest) for it in self.printed))
        elif word == "skip":
            self.printed = list(dropwhile(lambda it: it != rest, self.printed))
        elif word == "often":
            least, text = rest.split(" ", 1)
            same(line, True, sum(text in it for it in self.printed) >= int(least))
        elif word in ("has", "hasn't"):
            same(line, word == "has", rest in self.printed)
        elif word == "found":
            same(line, (["finding " + rest], 1), ([it for it in self.printed if it.startswith("finding")], self.status))
            self.printed, self.status = [], 0
        elif word == "events":
            for wanted, came in zip([it.strip() for it in rest.split("|")] + [""], [it for it in self.errors if it[:1] != " "] + [""]):
                is_line(line, wanted, came)
            self.errors = []
        elif word == "no":
            same(line, False, any("\x1b" in it for it in self.errors))
        else:
            return False
        return True

    def next_printed(self) -> str:
        """The next line that was printed."""
        return self.printed.pop(0) if self.printed else "nothing"

    def is_told(self, line: str, wanted: str) -> None:
        """That this line is reported next, by a run while it waits or by the last command, with the status of such a line."""
        if wanted.strip() in ("", "..."):
            self.errors = [] if wanted == "..." else self.errors
        elif not self.errors and self.waiting:
            told = self.waiting[0].stderr
            is_line(line, wanted, told.readline().decode("utf-8").rstrip("\n") if told else "nothing")
        else:
            is_line(line, wanted, self.errors.pop(0) if self.errors else "nothing")
            ends = 1 if wanted.startswith("dasd: ") else 2 if wanted.startswith("error: ") else 0
            if ends:
                same(line + ": the status", True, self.status >= ends)
                self.status = 0 if self.status == ends else self.status

    # --- looks at what files hold ---

    def holds(self, line: str, word: str, words: list[str]) -> bool:
        if word == "is":
            same(line, bytes_of(words[1]).hex(), self.held(words[0]).hex())
        elif word == "lines":
            self.is_said(line)
            self.printed = lines_of(line, self.held(words[0]))
        elif word == "names":
            folder = words[0] if words and words[0].endswith("/") else ""
            found = [it for it in os.listdir(self.path(folder)) if not it.startswith("wanted")]
            same(line, sorted(bare(it) for it in words[bool(folder):]), sorted(found))
        elif word == "changed":
            ours, theirs = (Image(self.path(it)).volume.slots for it in words[:2])
            same(line, [int(it) for it in words[2:]], [at for at, it in enumerate(ours) if it != theirs[at]])
        elif word in ("shows", "keyed"):
            key, data = Image(self.path(words[0])).block((int(words[1]), int(words[2])))
            wanted = bytes_of(words[4])
            same(line, wanted.hex(), (key if word == "keyed" else data)[int(words[3]):][:len(wanted)].hex())
        elif word in ("differ", "alike"):
            same(line, len(words) if word == "differ" else 1, len({self.values[it] for it in words}))
        elif word == "drained":
            same(line, self.held(words[1]), self.drained.read(MOST))
        else:
            return self.has_state(line, word, words) or super().holds(line, word, words)
        return True

    def has_state(self, line: str, word: str, words: list[str]) -> bool:
        """Looks at a file's mode, owner and kind, and whether it is the file that it was; whether the line asks that."""
        path = self.path(words[0]) if words else self.folder
        if word == "mode":
            same(line, words[1], "%o" % (path.stat().st_mode & 0o7777))
        elif word == "owner":
            same(line, words[1:], [str(path.stat().st_uid), str(path.stat().st_gid)])
        elif word == "kind":
            same(line, True, KINDS[words[1]](path.lstat().st_mode))
        elif word == "missing":
            same(line, [], matching(self.folder, words[0]) if "*" in words[0] else [words[0]] * os.path.lexists(path))
        elif word == "untouched":
            same(line, self.before[words[0]], self.after[words[0]])
        else:
            return False
        return True

    # --- commands ---

    def stamps(self) -> dict[str, tuple[int, int]]:
        """For each file its number and when it was written."""
        return {it.name: (it.lstat().st_ino, it.lstat().st_mtime_ns) for it in self.folder.iterdir()}

    def command(self, words: list[str]) -> None:
        """Runs a command to its end. What a format says of a file that it replaced is looked at here, for all rows."""
        self.before = self.stamps()
        over = self.formatted_over([bare(it) for it in words_of(" ".join(words))])
        running = self.how.start([self.program, *(bare(it) for it in words_of(" ".join(words)))], self.folder)
        used = processor_time()
        try:
            self.ends(running, *running.communicate(None if self.how.given else self.deck, timeout=self.how.seconds))
        except subprocess.TimeoutExpired as why:
            running.kill()
            raise Wrong(" ".join(words), "an end within %d seconds" % self.how.seconds, "none") from why
        same("%s: seconds of the processor" % " ".join(words[:1]), True, processor_time() - used <= self.how.most)
        self.after = self.stamps()
        self.replaced = sorted(it for it in self.before if it in self.after and self.before[it][0] != self.after[it][0])
        self.next_command()
        if over and self.status == 0:
            same(" ".join(words), 1, self.errors.count(over))
            self.errors.remove(over)

    def formatted_over(self, words: list[str]) -> str:
        """The line that a format of these words tells of the file that is there; none where it replaces none."""
        if words[:1] != ["format"]:
            return ""
        paths = [it for it in words[1:] if not it.startswith("-") and self.path(it).is_file()]
        return "  %s: a file of %d bytes was replaced" % (paths[0], self.path(paths[0]).stat().st_size) if paths else ""

    def ends(self, running: subprocess.Popen[bytes], out: bytes | None, told: bytes | None) -> None:
        """Takes what a command printed and told, and its status."""
        self.printed, self.errors = (lines_of("what came", it or b"") for it in (out, told))
        self.status = running.returncode

    def start(self, words: list[str]) -> None:
        """Starts a command that goes on beside others."""
        running = self.how.start([self.program, *words[1:]], self.folder)
        self.kept_open.callback(running.kill)
        self.beside.start(words[0], running, self.deck)
        self.next_command()

    def finish(self, words: list[str]) -> None:
        """Waits for the end of a command that was started."""
        running = self.beside.running.pop(words[0])
        self.ends(running, *running.communicate(timeout=SECONDS))

    def begin_run(self, words: list[str]) -> None:
        """Begins a run that waits for its deck; it has its images as soon as it opens that."""
        os.mkfifo(self.path("deck"))
        self.path("deck").chmod(0o666)
        running = self.how.start([self.program, *words], self.folder)
        self.beside.running["begun"] = running
        self.waiting = running, self.kept_open.enter_context(open(self.path("deck"), "wb", buffering=0))
        self.next_command()

    def go_on(self, words: list[str]) -> None:
        """Has the run that waits go on to its end."""
        assert self.waiting is not None
        running, deck = self.waiting
        for piece in self.deck.splitlines(keepends=True) if "lines" in words else [self.deck]:
            deck.write(piece)
            time.sleep(0.01 if "lines" in words else 0)
        deck.close()
        self.waiting = None
        self.path("deck").unlink()
        self.ends(running, *running.communicate(timeout=self.how.seconds))
        self.next_command()

    def refuse(self, words: list[str]) -> None:
        """Refuses each taking of memory of a command: so many of these change nothing."""
        same("refusals without effect", int(words[0]), Refused(self.program, self.folder, words[1:], self.deck).without_effect())
        self.next_command()

    def can(self, words: list[str]) -> None:
        """Runs another program that may be missing, or can do nothing here."""
        needs(words[0])
        if subprocess.run(words, cwd=self.folder, capture_output=True, check=False).returncode:
            raise Skipped("%s can do nothing in this file system" % words[0])

    def check(self, words: list[str]) -> None:
        """Runs a tool of tools/ over the folder, as over a repository."""
        given = dict(os.environ, TOOLS_TOP=str(self.folder), PYTHONPATH=str(TOP), PYTHONSAFEPATH="1", PYTHONDONTWRITEBYTECODE="1")
        tool = [sys.executable, "-m", "tools." + words[0].replace("/", "."), *words[1:]]
        ran = subprocess.run(tool, cwd=self.folder, env=given, capture_output=True, timeout=self.how.seconds, check=False)
        self.printed, self.errors, self.status = lines_of(words[0], ran.stdout), lines_of(words[0], ran.stderr), ran.returncode

    def run_tool(self, words: list[str]) -> None:
        """Runs another program."""
        ran = subprocess.run(words, cwd=self.folder, capture_output=True, text=True, timeout=self.how.seconds, check=False)
        same(" ".join(words), 0, ran.returncode)
        self.printed, self.errors = (ran.stdout + ran.stderr).split(), []


def is_line(line: str, wanted: str, came: str) -> None:
    """That this line came; where `...` ends or begins what is wanted, one that begins or ends so."""
    if not (wanted.endswith("...") and came.startswith(wanted[:-3])) and not (wanted.startswith("...") and came.endswith(wanted[3:])):
        same(line, wanted, came)


def processor_time() -> float:
    """The seconds of processor time of all commands that have ended, with the system's."""
    used = resource.getrusage(resource.RUSAGE_CHILDREN)
    return used.ru_utime + used.ru_stime


def lines_of(line: str, held: bytes) -> list[str]:
    """The lines of a text, each of which has its end."""
    same(line, True, not held or held.endswith(b"\n"))
    return held.decode("utf-8").split("\n")[:-1]


def value_of(part: re.Match[str], value: str) -> str:
    """A value as a line asks for it."""
    if part["form"] and part["form"].startswith("L"):
        return int(value).to_bytes(int(part["form"][1:]), "little").hex()
    for work, number in WORK.findall(part["works"]):
        works = {"*": int.__mul__, "/": int.__floordiv__, "%": int.__mod__, "+": int.__add__, "-": int.__sub__}
        value = str(works[work](int(value), int(number)))
    return format(int(value), part["form"]) if part["form"] else value


def bare(word: str) -> str:
    """A word without its quotes; within double ones the escapes of JSON are characters."""
    return QUOTED.sub(lambda it: str(json.loads(it[0])) if it[0][0] == '"' else it[0][1:-1], word)


def end_of(lines: list[str], at: int) -> int:
    """Where the lines end that `each` has here."""
    depth = 0
    for number in range(at, len(lines)):
        depth += lines[number].startswith(("each ", "when ")) - (lines[number] == "end")
        if not depth:
            return number
    raise BadRow(lines[at])


def setups_of(blocks: list[Block]) -> Setups:
    """The setups among blocks."""
    return {it.name.removeprefix("setup "): it.lines[1:] for it in blocks if it.name.startswith("setup ")}


def put_setup(folder: Path, name: str) -> None:
    """Plays a setup of setups.rows in a folder."""
    row = FileRow("", folder, setups_of(read_blocks("files/setups.rows")))
    row.play_lines(list(row.setups[name]))
    row.packs.save()


def made(name: str) -> bytes:
    """The file pack.ckd of a setup of setups.rows."""
    with tempfile.TemporaryDirectory() as folder:
        put_setup(Path(folder), name)
        return Path(folder, "pack.ckd").read_bytes()


def play_row(program: str, setups: Setups, block: Block) -> None:
    """Plays a row in a folder of its own."""
    with tempfile.TemporaryDirectory() as folder:
        row = FileRow(program, Path(folder), setups)
        with row.kept_open:
            row.play_lines(list(block.lines[1:]))
            row.packs.save()
            row.is_said("the end")


def all_rows(program: str, folder: str = "files") -> Iterator[tuple[str, Callable[[], None]]]:
    """Each row of a folder of data: its name, and what plays it."""
    shared = setups_of(read_blocks(folder + "/setups.rows"))
    for path in sorted((DATA / folder).glob("*.rows")):
        blocks = read_blocks("%s/%s" % (folder, path.name))
        setups = shared | setups_of(blocks)
        for block in blocks:
            if not block.name.startswith("setup "):
                yield block.name, partial(play_row, program, setups, block)


def without_stage(play: Callable[[], None], _: Stage) -> None:
    """Plays what asks for no stage."""
    play()


def cases(program: str) -> Iterator[Case]:
    return (Case(name, partial(without_stage, play)) for name, play in all_rows(program))
