"""Lets each call of the system fail in turn, for each command of the built `dasd`, and looks at what it says and leaves.

    tools/run gate/fail_calls [--built FILE] [--jobs N] [COMMAND..]

A command is run once as it is; then once for each of its calls that works with files, and each way in which that call may fail, once or from there on (by
Debian's `strace --inject`), and once more for each, killed there; where it writes files, by each signal that ends programs. Wanted is:

- With status 0 the command printed and left what it does where nothing fails. No command succeeds where a sync failed.
- With another status it reports a fault, and after it the host's words, with the file and, of a read at a place, that place. What was printed is the beginning
  of what it prints, and each file is the old one or the new one, whole; no other stays but one whose hidden name could not be taken away.
- A program that is killed leaves each file old or new, and files that keep their places all old or all new. A name that begins with `.dasd-` may stay: the
  next command that writes a file into that folder removes it, and says so.
- A file is synced before it takes its place, and its folder after it, or after the others of its save.
- Files that keep their places are old until the journal has its name, `.NAME.dasd-journal` beside the first. Then they count as new: a reader finds what the
  journal says, and the next run ends what was begun, says so and leaves no journal. The journal is synced before it gets its name, its folder before a file
  is written, the files before the journal goes, and the folder once more. So it is where a command takes up a save that was cut off.

It runs crates/dasd_cmd/out/dasd_cmd, as `rt ci` leaves it; with --built FILE that program; with words behind, the commands whose names have one of them.
The last line is 'N failures of N commands, M wrong', and the status 1 where M is not 0.
"""

import errno
import io
import os
import re
import shutil
import subprocess
import sys
import tempfile
from collections.abc import Callable, Iterable
from concurrent.futures import ThreadPoolExecutor
from dataclasses import dataclass, field
from pathlib import Path
from typing import NamedTuple

from conformance.suite.volumes import Volume
from rows.player.started import deck_of
from tools.gate import parser, told
from tools.gate.lost_power import DRAFT
from tools.gate.made_packs import put_made

# How a call may fail, beside being killed there; with `on` behind it all calls of that name fail from there on, as those of a disk that has gone do: what
# was read ahead in vain is read once more, just as much as is wanted.
ERRORS = {
    "openat": ["EACCES", "EMFILE"],
    "write": ["EIO", "ENOSPC", "ENOSPC on", "EINTR"],
    **dict.fromkeys(("read", "pread64"), ["EIO", "EIO on", "EINTR"]),
    **dict.fromkeys(("statx", "getdents64", "ftruncate", "fsync", "fdatasync", "flock"), ["EIO"]),
    **dict.fromkeys(("rename", "link", "unlink", "mkdir"), ["EACCES"]),
    **dict.fromkeys(("fchmod", "fchown"), ["EPERM"]),
}
# What a fault of a read is called: that of a command's own file, that of a volume, and that of a file which a text loads.
READ_FAULTS = ("read fault", "no file of this name could be read")
SAVE_FAULTS = ("write fault",)  # what a read is called that a save in place needs
# The signals by which a command is ended: that of `kill -9`; where it writes files, also those of `kill`, of Ctrl-C, and of a terminal that is gone.
KILLED = "killed by "
CHANGES = ("rename", "delete", "relabel", "load")  # the commands that change a volume
SIGNALS = ["KILL", "TERM", "INT", "HUP"]
CALL = re.compile(r"^(?P<name>\w+)\((?P<words>.*)\)\s+= (?P<answer>-?\d+)")
PATH = re.compile(r'"((?:[^"\\]|\\.)*)"')
# The end of the name of a journal, and of a marker that leads to one; and what a journal begins with.
JOURNAL = ".dasd-journal"
HALF = "write:signal=KILL:when=2"  # a run that is killed so leaves one.ckd half saved
WHOLE = b"dasdsav\1"


@dataclass
class Command:
    """A command of `dasd`, by its words behind the program's name."""

    name: str
    words: list[str]
    given: bytes = b""  # on standard input
    begun: str = ""  # the call at which a run over one.ckd is killed before

    def saves(self) -> bool:
        """Whether it writes volumes in place, or takes up a save."""
        return self.words[0] in ("run", *CHANGES) and "--replace" not in self.words or self.words[0] in ("format", "recover")

    def reports(self) -> bool:
        """Whether it has something to report where nothing fails: a save that had begun, a file that another one replaces, or what it did not look at."""
        return bool(self.begun) or {"--replace", "--strict"} & {*self.words} != set() or self.words[:2] == ["format", "one.ckd"]

    def read_faults(self) -> tuple[str, ...]:
        """What a fault of a read is called."""
        return READ_FAULTS + SAVE_FAULTS if self.saves() else READ_FAULTS

    def signals(self) -> list[str]:
        """The signals by which it is ended at each call."""
        writes = self.words[0] in ("format", "run", "recover", *CHANGES) or "--to" in self.words or "--all" in self.words
        return SIGNALS if writes else SIGNALS[:1]


def deck_for(unit: str) -> bytes:
    """A deck that writes a record of the volume of this unit."""
    return deck_of("writes", f"D5D6D7D8 {unit}")


# The words that say what a data set is loaded from.
CARDS = ["--from", "cards", "--record-format", "FB", "--record-length", "80", "--block-length", "800"]

# The files of a folder whose data sets are loaded.
FOLDER = {
    "data_sets.txt": "data set NEW.CARDS PS FB 80 800 0 - -\ndata set NEW.LIB PO FB 80 800 0 - - directory 1\nmember ALPHA\n",
    "NEW.CARDS": "A CARD\n",
    "NEW.LIB(ALPHA)": "IN ALPHA\n",
}

COMMANDS = [
    Command("format a new file", ["format", "new.ckd", "--cylinders", "1"]),
    Command("format over a file", ["format", "one.ckd", "--cylinders", "2"]),
    Command("format in place", ["format", "one.ckd", "--cylinders", "1"]),
    Command("format a new file with a label", ["format", "new.ckd", "--cylinders", "1", "--label", "ABC123"]),
    Command("format in place with a label", ["format", "one.ckd", "--cylinders", "1", "--label", "ABC123"]),
    Command("format over a file with a label", ["format", "one.ckd", "--cylinders", "2", "--label", "ABC123"]),
    Command("run over two volumes", ["run", "90=one.ckd", "91=two.ckd"], deck_for("190") + deck_for("191")),
    Command("run with a trace", ["run", "--trace-to", "trace", "90=one.ckd"], deck_for("190")),
    Command("run --replace over two volumes", ["run", "--replace", "90=one.ckd", "91=two.ckd"], deck_for("190") + deck_for("191")),
    Command("list", ["list", "pack.ckd"]),
    Command("list a pipe", ["list", "/dev/stdin"], Volume.new("2311", 2).bytes()),
    Command("check", ["check", "pack.ckd"]),
    Command("check --strict", ["check", "--strict", "pack.ckd"]),
    Command("check --contents", ["check", "--contents", "pack.ckd"]),
    Command("dump", ["dump", "pack.ckd", "0", "2"]),
    Command("vtoc", ["vtoc", "pack.ckd"]),
    Command("hash", ["hash", "pack.ckd"]),
    Command("hash --members", ["hash", "--members", "pack.ckd"]),
    Command("compare", ["compare", "one.ckd", "same.ckd"]),
    Command("extract", ["extract", "pack.ckd", "PAY.CARDS", "--text"]),
    Command("extract to a file", ["extract", "pack.ckd", "SYS1.MACLIB(BETA)", "--to", "beta"]),
    Command("extract --all", ["extract", "--all", "out", "pack.ckd"]),
    Command("rename", ["rename", "pack.ckd", "PAY.CARDS", "PAY.OLD"]),
    Command("rename --replace", ["rename", "--replace", "pack.ckd", "PAY.CARDS", "PAY.OLD"]),
    Command("rename a member", ["rename", "pack.ckd", "SYS1.MACLIB(BETA)", "SYS1.MACLIB(ZETA)"]),
    Command("delete", ["delete", "pack.ckd", "PAY.CARDS"]),
    Command("delete a member", ["delete", "pack.ckd", "SYS1.MACLIB(BETA)"]),
    Command("load", ["load", "pack.ckd", "NEW.CARDS", *CARDS]),
    Command("load --replace", ["load", "--replace", "pack.ckd", "NEW.CARDS", *CARDS]),
    Command("load --member", ["load", "pack.ckd", "SYS1.MACLIB", "--member", "NEW", "--from", "cards"]),
    Command("load --all", ["load", "--all", "in", "--text", "pack.ckd"]),
    Command("relabel", ["relabel", "pack.ckd", "--label", "ABC124", "--owner", "SIXAMBRA"]),
    Command("recover", ["recover", "one.ckd"], begun=HALF),
    Command("recover --drop", ["recover", "--drop", "one.ckd"], begun="fsync:signal=KILL"),
    Command("run after a cut-off save", ["run", "90=one.ckd"], b"TIO 190\n", HALF),
    Command("format after a cut-off save", ["format", "one.ckd", "--cylinders", "2"], begun=HALF),
    Command("format in place after a cut-off save", ["format", "one.ckd", "--cylinders", "1"], begun=HALF),
    Command("hash after a cut-off save", ["hash", "one.ckd"], begun=HALF),
    Command("explain", ["explain", "csw", "00000428", "0E000320"]),
    Command("assemble", ["assemble"], b" ORG X'48'\n DC A(START)\nSTART TIC START\n SIO 190\n"),
    Command("assemble with a file", ["assemble"], b" LOAD C'core'\n SHOW 0 4\n"),
    Command("disassemble", ["disassemble"], deck_for("190")),
]


class Came(NamedTuple):
    """What became of a command: status, output, what it said, the files by their paths, and what of drafts the next command left or did not tell."""

    status: int
    printed: bytes
    told: bytes
    files: dict[str, bytes]
    kept: list[str]
    unread: list[str]  # files with journals that readers do not find whole, and journals that the next run does not end


class Failure(NamedTuple):
    """Which call fails, by its name and its number among those of that name, and how."""

    call: str
    number: int
    how: str

    def words(self) -> list[str]:
        """The words of strace for it."""
        if self.is_killed():
            return ["-e", f"inject={self.call}:signal={self.how.removeprefix(KILLED)}:when={self.number}"]
        error, _, on = self.how.partition(" ")
        return ["-e", f"inject={self.call}:error={error}:when={self.number}{'+' if on else ''}"]

    def is_killed(self) -> bool:
        """Whether the program is ended there."""
        return self.how.startswith(KILLED)


def cut_off(dasd: Path, folder: Path, begun: str) -> None:
    """Has a run that saves one.ckd killed at a call, if one is given."""
    if begun:
        words = ["strace", "--quiet=all", "-o", "/dev/null", "-P", "one.ckd", "-e", f"inject={begun}", str(dasd), "run", "90=one.ckd"]
        done = subprocess.run(words, cwd=folder, input=deck_for("190"), capture_output=True, timeout=60, check=False)
        assert done.returncode and (folder / f".one.ckd{JOURNAL}").exists(), done.stderr


def fill(folder: Path) -> None:
    """The files that each command begins with."""
    put_made(folder / "one.ckd", "one record")
    put_made(folder / "same.ckd", "one record")
    (folder / "two.ckd").write_bytes(Volume.new("2311", 2).bytes())
    put_made(folder / "pack.ckd", "three data sets")  # those of which there is no finding
    with open(folder / "pack.ckd", "r+b") as pack:  # a reserved byte of the header, which a strict check tells
        pack.seek(20)
        pack.write(b"\1")
    (folder / "core").write_bytes(bytes(range(200)))
    (folder / "cards").write_bytes(b"\x40" * 160)
    (folder / "out").mkdir()
    (folder / "in").mkdir()
    for name, held in FOLDER.items():
        (folder / "in" / name).write_text(held, encoding="ascii")


def files_in(folder: Path) -> dict[str, bytes]:
    """All files below a folder."""
    return {str(it.relative_to(folder)): it.read_bytes() for it in sorted(folder.rglob("*")) if it.is_file()}


def kept_drafts(dasd: Path, folder: Path) -> list[str]:
    """The drafts that stay, or go without a word, where the next command formats a file beside them."""
    kept, drafts = [], sorted(folder.rglob(f"{DRAFT}*"))
    for room in {it.parent for it in drafts}:
        words = [str(dasd), "format", "--verbose", "--cylinders", "1", "after.ckd"]
        done = subprocess.run(words, cwd=room, capture_output=True, timeout=60, check=False)
        kept += [it.name for it in drafts if it.parent == room and (done.returncode or it.exists() or it.name.encode() not in done.stderr)]
    return kept


def is_journal(path: str | Path) -> bool:
    """Whether a name is a journal's, or a marker's."""
    return os.path.basename(path).startswith(".") and str(path).endswith(JOURNAL)


def whole_files(journal: Path) -> dict[str, bytes]:
    """The files that a journal names, each with what is saved of it."""
    body = io.BytesIO(journal.read_bytes()[48:])

    def number() -> int:
        return int.from_bytes(body.read(8), "big")

    def string() -> bytes:
        return body.read(number())

    names = []
    for _ in range(number()):
        names.append(string().decode())
        for _ in range(4):
            number()
    held = {name: bytearray((journal.parent / name).read_bytes()) for name in names}
    for _ in range(number()):
        name, at, saved = names[number()], number(), string()
        held[name][at : at + len(saved)] = saved
    return {name: bytes(it) for name, it in held.items()}


def ended_saves(dasd: Path, folder: Path) -> list[str]:
    """Has the next commands read and write the files of journals; what was wrong with that."""
    wrong = []
    left = [it for it in folder.iterdir() if is_journal(it)]
    for journal in [it for it in left if it.read_bytes().startswith(WHOLE)]:
        files = whole_files(journal)
        for name, held in files.items():
            (folder / "whole").write_bytes(held)
            wrong += said_of(dasd, folder, ["compare", "--verbose", name, "whole"], "is read over it")
            wrong += said_of(dasd, folder, ["run", "--verbose", "--no-save", f"90={name}"], "is read over it")
            (folder / "whole").unlink()
        last = list(files)[-1]
        wrong += said_of(dasd, folder, ["run", "--verbose", f"90={last}"], "a save of it was cut off, and is ended")
        wrong += [f"{name} is not what its journal held" for name, held in files.items() if (folder / name).read_bytes() != held]
    for it in left:
        if it.exists():
            wrong += said_of(dasd, folder, ["run", f"90={it.name.removesuffix(JOURNAL)[1:]}"], "")
    return wrong + [f"{it.name} stays" for it in left if it.exists()]


def said_of(dasd: Path, folder: Path, words: list[str], said: str) -> list[str]:
    """What is wrong with a command that should succeed, and say this."""
    done = subprocess.run([str(dasd), *words], cwd=folder, input=b"", capture_output=True, timeout=60, check=False)
    if done.returncode or said not in done.stderr.decode():
        return [f"{words}: status {done.returncode}, {done.stdout!r}, {done.stderr!r}"]
    return []


def play(dasd: Path, command: Command, tracing: list[str]) -> Came:
    """Runs a command under strace in a folder of its own, and asks it for all that it has to say. A save in place that is begun is ended."""
    with tempfile.TemporaryDirectory(prefix="fail_calls-") as room:
        folder = Path(room)
        fill(folder)
        cut_off(dasd, folder, command.begun)
        words = ["strace", "-qq", *tracing, str(dasd), *command.words, "--verbose"]
        done = subprocess.run(words, cwd=folder, input=command.given, capture_output=True, timeout=60, check=False)
        stays = done.returncode == 0 and command.saves() and b"is read over it" not in done.stderr and any(map(is_journal, folder.iterdir()))
        unread = ["a journal stays, and no fault is told"] if stays else ended_saves(dasd, folder)
        return Came(done.returncode, done.stdout, done.stderr, files_in(folder), kept_drafts(dasd, folder), unread)


def old_files(dasd: Path, begun: str) -> dict[str, bytes]:
    """The files before any command; a save that was cut off is ended."""
    return play(dasd, Command("", ["explain", "csw", "00000428", "0E000320"], begun=begun), ["-o", "/dev/null"]).files


def traced(dasd: Path, command: Command) -> tuple[Came, list[str]]:
    """A command as it is, and the lines of its calls."""
    with tempfile.NamedTemporaryFile(prefix="fail_calls-") as trace:
        came = play(dasd, command, ["-o", trace.name, "-s", "200"])
        return came, Path(trace.name).read_text(encoding="utf-8", errors="replace").splitlines()


def failures_of(lines: list[str], signals: list[str]) -> list[Failure]:
    """Each failure of each call behind those of the loader, whose last one unmaps its list of libraries: the first such call of all."""
    own = 1 + min((at for at, line in enumerate(lines) if line.startswith("munmap(")), default=-1)
    counts: dict[str, int] = {}
    found = []
    for at, line in enumerate(lines):
        call = CALL.match(line)
        if not call or call["name"] not in ERRORS:
            continue
        number = counts[call["name"]] = counts.get(call["name"], 0) + 1
        if at >= own:
            found += [Failure(call["name"], number, how) for how in [*ERRORS[call["name"]], *(KILLED + it for it in signals)]]
    return found


def is_old_or_new(came: Came, old: dict[str, bytes], new: dict[str, bytes], killed: bool, parts: bool) -> str | None:
    """What is wrong with the files that were left, if anything is; where they are replaced, a kill may part them."""
    for name, held in came.files.items():
        if killed and Path(name).name.startswith(DRAFT):
            continue
        if held not in (old.get(name), new.get(name)):
            if name == "trace" and new.get(name, b"").startswith(held):
                continue  # a trace is written as it comes
            return f"{name} is neither the old file nor the new one" if name in new else f"{name} is left behind"
    missing = [name for name in old if name not in came.files]
    if missing:
        return f"{missing[0]} is gone"
    news = {came.files[name] == new.get(name) for name in old if old[name] != new.get(name)}
    return "one file is old and another new" if len(news) > 1 and not parts else None


def untold(failure: Failure, came: Came, command: Command) -> str | None:
    """What is wrong with what a command says that ended with a fault; where all writes fail it can't say anything. `recover` need not say at which place
    it read, and says in its own words that a file may not be written."""
    error, _, on = failure.how.partition(" ")
    if on and failure.call == "write":
        return None
    first, *more = came.told.decode(errors="replace").splitlines() or [""]
    if not first.startswith("dasd: ") or on and not any(it in first for it in command.read_faults()):
        return f"status {came.status}, and no fault{' of a read' if on else ''} is told"
    why = f": {os.strerror(getattr(errno, error))}"
    is_asked = command.words[0] == "recover"
    if failure.call == "pread64":  # the place in a journal is left out
        why = rf"(: at byte [0-9]+|(?<=\{JOURNAL})){'?' if is_asked else ''}{why}"
    elif command.begun and error == "EACCES":
        why = f"({why}|: a file of its save may not be written|: something is at the name of its journal)"
    return None if any(re.fullmatch(rf"  \S.*{why}", line) for line in more) else f"status {came.status}, and it is not told which file it was and why"


def judge(command: Command, failure: Failure, came: Came, good: Came, old: dict[str, bytes]) -> str | None:
    """What is wrong with what came of a failure of a command, if anything is."""
    if came.unread:
        return f"what is left of a save in place is not taken up: {came.unread[0]}"
    killed = failure.is_killed()
    if not killed and came.status == 0:
        if failure.call in ("fsync", "fdatasync"):
            return "a sync failed, and it ends as if all were well"
        if came.printed != good.printed:
            return "it ends as if all were well, and printed something else"
        left = {name: held for name, held in came.files.items() if failure.call != "unlink" or not Path(name).name.startswith(DRAFT)}
        return None if left == good.files else "it ends as if all were well, and left something else"
    if not killed and (fault := untold(failure, came, command)):
        return fault
    if came.kept and killed:
        return f"{came.kept[0]} stays behind the next command, or goes without a word"
    if not good.printed.startswith(came.printed):
        return "it printed what it does not print"
    return is_old_or_new(came, old, good.files, killed, killed and "--replace" in command.words)


@dataclass
class Syncs:
    """Which files and folders were synced, and which folders have names that are not."""

    synced: set[str] = field(default_factory=set)
    owed: dict[str, str] = field(default_factory=dict)  # the folder of each file that took its place, or of a journal that went
    replaced: set[str] = field(default_factory=set)  # files that replaced others, or the journal that came or went, until their folder is synced
    written: set[str] = field(default_factory=set)  # files that were written since they were synced
    over: set[str] = field(default_factory=set)  # those that were written since the last journal came
    wrong: list[str] = field(default_factory=list)

    def sync(self, path: str) -> None:
        """A file or a folder is synced."""
        self.synced.add(path)
        self.written.discard(path)
        self.owed = {file: folder for file, folder in self.owed.items() if folder != path}
        self.replaced &= self.owed.keys()

    def write(self, path: str) -> None:
        """Bytes are written into a file."""
        self.synced.discard(path)
        self.written.add(path)
        self.over.add(path)

    def end(self, journal: str) -> None:
        """A journal is taken away, so its file has what it held."""
        self.wrong += [f"{journal} was taken away before {file} was synced" for file in sorted(self.written & self.over)]
        self.owed[journal] = os.path.normpath(os.path.dirname(journal) or ".")
        self.replaced.add(journal)

    def go_on(self) -> None:
        """Something is written or named behind what was done."""
        self.wrong += [f"the folder of {file} is not synced right behind it" for file in sorted(self.replaced)]
        self.replaced.clear()

    def place(self, hidden: str, path: str, replaces: bool) -> None:
        """A file that was written under a hidden name takes its place."""
        folder = os.path.normpath(os.path.dirname(path) or ".")
        if os.path.normpath(hidden) not in self.synced:
            self.wrong.append(f"{path} took its place before it was synced")
        if not replaces and folder in self.synced:
            self.wrong.append(f"{folder} was synced before {path} came to it")
        self.owed[path] = folder
        if replaces:
            self.replaced.add(path)
        self.over.clear()


def unsynced(lines: list[str]) -> list[str]:
    """Which files took a place without being synced before, or without their folder being synced when it must be."""
    opened: dict[str, str] = {}
    seen = Syncs()
    for call in filter(None, map(CALL.match, lines)):
        name, words = call["name"], call["words"]
        paths = PATH.findall(words)
        file = opened.get(words.split(",")[0], "")
        if name == "openat" and paths and int(call["answer"]) >= 0:
            opened[call["answer"]] = os.path.normpath(paths[0])
        elif name == "fcntl" and "F_DUPFD" in words:
            opened[call["answer"]] = file
        elif name in ("fsync", "fdatasync"):
            seen.sync(file)
        elif name in ("write", "ftruncate"):
            seen.go_on()
            seen.write(file)
        elif name == "link" and os.path.basename(paths[1]).startswith(DRAFT):
            continue  # a second name of an old file, from which that is put back
        elif name in ("rename", "link"):
            if name == "link" or is_journal(paths[1]):  # several files replace others in a row
                seen.go_on()
            if call["answer"] == "0":
                seen.place(paths[0], paths[1], name == "rename")
        elif name == "unlink" and is_journal(paths[0]):
            seen.end(paths[0])
    return seen.wrong + [f"the folder of {file} is not synced behind it" for file in seen.owed]


def try_command(dasd: Path, command: Command, pool: ThreadPoolExecutor) -> tuple[int, list[str]]:
    """How many failures of a command were tried, and what came out wrong."""
    old = old_files(dasd, command.begun)
    good, lines = traced(dasd, command)
    wrong = [f"{command.name}: {it}" for it in unsynced(lines)]
    if good.status or bool(good.told) != command.reports():
        return 0, [f"{command.name}: status {good.status} where nothing fails: {good.told!r}"]
    failures = failures_of(lines, command.signals())

    def tried(failure: Failure) -> str | None:
        came = play(dasd, command, ["-o", "/dev/null", *failure.words()])
        said = judge(command, failure, came, good, old)
        return said and f"{command.name}: {failure.call} {failure.number}, {failure.how}: {said} (status {came.status}, {came.told!r})"

    wrong += filter(None, pool.map(tried, failures))
    return len(failures), wrong


# Has a pool try commands of a program: of each how much was tried, and what came out wrong.
Trying = Callable[[Path, list[Command], ThreadPoolExecutor], Iterable[tuple[int, list[str]]]]


def try_all(doc: str | None, commands: list[Command], what: str, trying: Trying) -> int:
    """Tries each command that the words of a tool ask for, and counts what was tried; the status."""
    words = parser(doc)
    words.add_argument("--jobs", type=int, default=os.cpu_count() or 1)
    words.add_argument("names", nargs="*", metavar="COMMAND")
    given = words.parse_args()
    if not shutil.which("strace"):
        sys.exit("no strace here: apt-get install strace")
    count, wrong = 0, list[str]()
    chosen = [it for it in commands if not given.names or any(name in it.name for name in given.names)]
    with ThreadPoolExecutor(given.jobs) as pool:
        for command, (tried, found) in zip(chosen, trying(given.built, chosen, pool)):
            print(f"{command.name}: {tried} {what}, {len(found)} wrong", flush=True)
            count += tried
            wrong += found
    return told(wrong, f"{count} {what} of {len(chosen)} commands")


if __name__ == "__main__":
    sys.exit(try_all(__doc__, COMMANDS, "failures", lambda dasd, chosen, pool: (try_command(dasd, it, pool) for it in chosen)))
