"""What a disk may hold after a loss of power, by the calls of the system that a program made.

Of a file each write since its last sync is there, is not, or is there in part, cut between two sectors. Of a folder each name that was given, moved or taken
away since its last sync is as it is now or as it was. So say `fsync(2)`, and `MayLeave` in crates/atomic_save/specs/Calls.antt. A sync promises what it names,
and what a failed one should have put there no later one promises."""

import itertools
import os
import random
import re
from collections.abc import Iterable, Iterator
from dataclasses import dataclass, field
from pathlib import Path

SECTOR = 512
DRAFT = ".dasd-"
# With so many parts that are not synced, or fewer, all states are looked at; with more, some and these many by chance.
ALL_UP_TO = 12
BY_CHANCE = 1000
TRACED = "open,openat,close,read,write,pwrite64,lseek,ftruncate,fsync,fdatasync,fcntl,rename,link,unlink"
CALL = re.compile(r"^(\w+)\((.*)\)\s+= (\d+)")
TEXT = re.compile(r'"((?:\\x[0-9a-f]{2})*)"')

Node = int  # a file by its number, whatever its names are


@dataclass(frozen=True)
class Write:
    """Bytes that are written at a place of a file."""

    node: Node
    at: int
    held: bytes

    def on(self, held: bytes) -> bytes:
        """What the file holds after it."""
        return held[: self.at].ljust(self.at, b"\0") + self.held + held[self.at + len(self.held) :]

    def torn(self) -> Iterator["Write"]:
        """Its first sectors alone, and its last ones: all but one, and half of them."""
        sectors = len(self.held) // SECTOR
        for cut in sorted({1, sectors // 2, sectors - 1} & set(range(1, sectors))):
            yield Write(self.node, self.at, self.held[: cut * SECTOR])
            yield Write(self.node, self.at + cut * SECTOR, self.held[cut * SECTOR :])


@dataclass(frozen=True)
class Resize:
    """A file that gets another length."""

    node: Node
    length: int

    def on(self, held: bytes) -> bytes:
        """What the file holds after it."""
        return held[: self.length].ljust(self.length, b"\0")


@dataclass(frozen=True)
class Lead:
    """A name that leads to a file now, or to none; and the name that the file had before, where it was moved."""

    path: str
    node: Node | None
    before: str | None = None


@dataclass(frozen=True)
class Sync:
    """A sync of a file, or of a folder by its path."""

    what: Node | str


Part = Write | Resize | Lead
Call = Part | Sync


@dataclass
class State:
    """A disk: the files by their names, and what each holds."""

    names: dict[str, Node]
    held: dict[Node, bytes]

    def after(self, parts: list[Part]) -> "State":
        """The disk after these parts."""
        names, held = dict(self.names), dict(self.held)
        for part in parts:
            if not isinstance(part, Lead):
                held[part.node] = part.on(held.get(part.node, b""))
                continue
            if part.before is not None and names.get(part.before) == part.node:
                del names[part.before]
            names.pop(part.path, None)
            if part.node is not None:
                names[part.path] = part.node
        return State(names, held)

    def key(self) -> tuple[tuple[str, Node, int], ...]:
        """What tells it from another one. What is in a hidden draft nobody reads."""
        shown = {path: b"" if Path(path).name.startswith(DRAFT) else self.held.get(node, b"") for path, node in self.names.items()}
        return tuple(sorted((path, self.names[path], hash(held)) for path, held in shown.items()))


@dataclass
class Traced:
    """The calls of a program as they are read from strace's lines, in a folder whose files have numbers."""

    folder: Path
    names: dict[str, Node]
    free: Node  # the number of the next new file
    calls: list[Call] = field(default_factory=list)
    opened: dict[int, tuple[Node | str, list[int]]] = field(default_factory=dict)  # a file or a folder, and the place in it

    def path(self, text: str) -> str | None:
        """A path within the folder."""
        there = os.path.relpath(os.path.join(self.folder, bytes.fromhex(text.replace("\\x", "")).decode()), self.folder)
        return None if there.startswith("..") else there

    def read(self, lines: list[str]) -> list[Call]:
        """The calls that change a disk, and the syncs."""
        for call in filter(None, map(CALL.match, lines)):
            name, words, answer = call[1], call[2], int(call[3])
            texts = [self.path(it) for it in TEXT.findall(words)] if name in ("open", "openat", "rename", "link", "unlink") else []
            if name in ("open", "openat"):
                self.open(texts[0], words, answer)
            elif None not in texts and name in ("rename", "link", "unlink"):
                self.name(name, [str(it) for it in texts])
            elif words.split(",")[0].isdigit():
                self.use(name, words, answer)
        return self.calls

    def open(self, path: str | None, words: str, number: int) -> None:
        """A file is opened, and perhaps made."""
        self.opened.pop(number, None)
        if path is None:
            return
        if (self.folder / path).is_dir():
            self.opened[number] = (path, [0])
            return
        if path not in self.names:
            if "O_CREAT" not in words:
                return
            self.lead(Lead(path, self.free))
            self.free += 1
        if "O_TRUNC" in words:
            self.calls.append(Resize(self.names[path], 0))
        self.opened[number] = (self.names[path], [0])

    def lead(self, lead: Lead) -> None:
        """A name leads to another file, or to none."""
        self.calls.append(lead)
        self.names = State(self.names, {}).after([lead]).names

    def name(self, name: str, paths: list[str]) -> None:
        """A name is given, moved or taken away."""
        if name == "unlink":
            self.lead(Lead(paths[0], None))
        elif paths[0] in self.names:
            self.lead(Lead(paths[1], self.names[paths[0]], paths[0] if name == "rename" else None))

    def use(self, name: str, words: str, answer: int) -> None:
        """Something is done with an open file."""
        number = int(words.split(",")[0])
        if number not in self.opened:
            return
        what, place = self.opened[number]
        if name == "close":
            del self.opened[number]
        elif name == "fcntl" and "F_DUPFD" in words:
            self.opened[answer] = self.opened[number]
        elif name in ("fsync", "fdatasync"):
            self.calls.append(Sync(what))
        elif name == "lseek":
            place[0] = answer
        elif name == "read":
            place[0] += answer
        elif name == "ftruncate" and isinstance(what, Node):
            self.calls.append(Resize(what, int(words.split(",")[1])))
        elif name in ("write", "pwrite64") and isinstance(what, Node):
            text = TEXT.search(words)
            assert text is not None
            at = place[0] if name == "write" else int(words.rsplit(",", 1)[1])
            self.calls.append(Write(what, at, bytes.fromhex(text[1].replace("\\x", ""))[:answer]))
            place[0] += answer if name == "write" else 0


def is_synced(part: Part, sync: Sync) -> bool:
    """Whether a sync has a part on the disk: of a name, that of its folder."""
    return (os.path.dirname(part.path) or "." if isinstance(part, Lead) else part.node) == sync.what


def extremes(parts: list[Part]) -> Iterator[list[Part]]:
    """None of these parts, all, each alone, and all but one."""
    yield []
    yield parts
    for at, part in enumerate(parts):
        yield [part]
        yield parts[:at] + parts[at + 1 :]


def choices(parts: list[Part], chance: random.Random) -> Iterator[list[Part]]:
    """Which of the parts that are not synced a disk may have."""
    if len(parts) <= ALL_UP_TO:
        for chosen in itertools.product((False, True), repeat=len(parts)):
            yield list(itertools.compress(parts, chosen))
    else:
        yield from extremes(parts)
        for _ in range(BY_CHANCE):
            yield [it for it in parts if chance.random() < 0.5]
    for at, part in enumerate(parts):
        for torn in part.torn() if isinstance(part, Write) else ():
            yield [torn]
            yield parts[:at] + [torn]
            yield parts[:at] + [torn] + parts[at + 1 :]


def step(disk: State, parts: list[Part], call: Call) -> tuple[State, list[Part]]:
    """What is on the disk after one more call, and what is not synced."""
    if not isinstance(call, Sync):
        return disk, [*parts, call]
    return disk.after([it for it in parts if is_synced(it, call)]), [it for it in parts if not is_synced(it, call)]


def left_after(begun: State, calls: list[Call]) -> Iterator[State]:
    """The disks that have none, all, one and all but one of what is not synced after these calls."""
    disk, parts = begun, list[Part]()
    for call in calls:
        disk, parts = step(disk, parts, call)
    yield from map(disk.after, extremes(parts))


def states(begun: State, calls: list[Call]) -> Iterator[State]:
    """Each disk that a loss of power may leave, at each moment of these calls."""
    chance, disk, parts = random.Random(5), begun, list[Part]()
    for call in [None, *calls]:
        if call is not None:
            disk, parts = step(disk, parts, call)
        yield from map(disk.after, choices(parts, chance))


def once(disks: Iterable[State]) -> Iterator[State]:
    """Each of these disks once."""
    seen = set[object]()
    for disk in disks:
        if disk.key() not in seen:
            seen.add(disk.key())
            yield disk
