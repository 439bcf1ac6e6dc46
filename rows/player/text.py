"""The text of rows: blocks of lines with an empty line between, bytes, and the volumes that blocks spell."""
from __future__ import annotations

import json
import re
from dataclasses import dataclass, field
from functools import lru_cache
from pathlib import Path
from typing import Callable, Iterable, NamedTuple, Sequence

from conformance.suite.volumes import HEADER, MODELS, Volume, parse_bytes

from .stage import Stage

DATA = Path(__file__).resolve().parent.parent / "data"
RUN = re.compile(rb"(.)\1*", re.S)
TOKEN = re.compile(r"""(?:[^ "']|"(?:[^"\\]|\\.)*"|'[^']*')+""")
PART = re.compile(r"""(?P<text>"(?:[^"\\]|\\.)*"|'[^']*'|(?:[0-9A-Fa-f]{2})+)(?::(?P<length>\d+))?(?:\*(?P<times>\d+))?(?:\+|$)""")
WORD = re.compile(r"(?<![^ ])(?:[0-9A-F]{2})+(?:\*\d+)?(?:\+(?:[0-9A-F]{2})+(?:\*\d+)?)*(?![^ ;])")


class Wrong(Exception):
    """What came is not what a line wants."""

    def __init__(self, line: str, wanted: str, came: str) -> None:
        super().__init__(line)
        self.line, self.wanted, self.came = line, wanted, came


class Skipped(Exception):
    """A row that can't be played here, and why."""


class BadRow(ValueError):
    """A line of a row says nothing."""


class Case(NamedTuple):
    """Something to be played: its name, and what plays it, which raises Wrong."""
    name: str
    play: Callable[[Stage], None]


@dataclass(frozen=True)
class Block:
    """Lines without an empty one between, the first of which is their name, and its number in the file."""
    number: int
    lines: tuple[str, ...]

    @property
    def name(self) -> str:
        return self.lines[0]

    def behind(self, prefix: str) -> list[str]:
        """What is after a prefix in the lines that begin with it."""
        return [it[len(prefix):] for it in self.lines if it.startswith(prefix)]


def read_blocks(name: str) -> list[Block]:
    """The blocks of a file of rows."""
    blocks: list[Block] = []
    lines: list[str] = []
    for number, line in enumerate((DATA / name).read_text(encoding="utf-8").split("\n") + [""], 1):
        if line:
            lines.append(line)
        elif lines:
            blocks.append(Block(number - len(lines), tuple(lines)))
            lines = []
    return blocks


def same(line: str, wanted: object, came: object) -> None:
    """That these are the same; otherwise the line is wrong."""
    if wanted != came:
        raise Wrong(line, str(wanted), str(came))


def words_of(text: str) -> list[str]:
    """The words of a line; a blank within quotes parts none."""
    return TOKEN.findall(text)


def bytes_of(word: str) -> bytes:
    """The bytes of a word as `0000+C1*80`; `-` is none. `'CARD'` is EBCDIC and `"text\\n"` UTF-8, with the escapes of JSON; `'CARD':80` has
    blanks after it up to a length, and other parts have zeros."""
    if word == "-":
        return b""
    if not any(it in word for it in "'\":"):
        return parse_bytes(word)
    made, at = b"", 0
    while at < len(word):
        part = PART.match(word, at)
        if part is None:
            raise BadRow(word)
        made += part_of(part)
        at = part.end()
    return made


def part_of(part: re.Match[str]) -> bytes:
    """The bytes of a part of a word."""
    text, fill = part["text"], b"\x40" if part["text"][0] == "'" else b"\0"
    if text[0] == "'":
        one = text[1:-1].encode("cp037")
    else:
        one = json.loads(text).encode("utf-8") if text[0] == '"' else bytes.fromhex(text)
    return one.ljust(int(part["length"] or 0), fill) * int(part["times"] or 1)


@lru_cache(maxsize=256)
def spelled(data: bytes) -> str:
    """The word of bytes as the stage spells it: each byte, and where it stands several times their number, joined by `+`."""
    runs = ((it[0][0], it.end() - it.start()) for it in RUN.finditer(data))
    return "+".join("%02X" % byte if length == 1 else "%02X*%d" % (byte, length) for byte, length in runs) or "-"


def plain(text: str) -> str:
    """A text with each word of bytes spelled in one way."""
    return WORD.sub(lambda it: spelled(bytes_of(it[0])), text)


def is_next(line: str, wanted: str, came: str) -> None:
    """That this came, however its bytes are spelled; where `...` ends what is wanted, anything may stand in its place."""
    if wanted.endswith("...") and came.startswith(wanted[:-3]):
        return
    same(line, plain(wanted), plain(came))


def answered(answer: str, verb: str) -> bytes:
    """The bytes that an answer as `PEEK C1*80` tells."""
    word, _, rest = answer.partition(" ")
    if word != verb:
        raise Wrong(verb, "bytes", answer)
    return bytes_of(rest)


@dataclass(frozen=True)
class Disk:
    """What a volume holds: a new one, with bytes put into the slots of tracks; in two files where the second begins with a cylinder."""
    model: str
    cylinders: int
    puts: tuple[tuple[int, int, bytes], ...] = field(default=())
    split: int | None = None

    def files(self) -> list[bytes]:
        """The bytes of each file."""
        whole = bytearray(Volume.new(self.model, self.cylinders).bytes())
        for track, at, data in self.puts:
            place = HEADER + track * MODELS[self.model].slot + at
            whole[place:place + len(data)] = data
        if self.split is None:
            return [bytes(whole)]
        return Volume.read([bytes(whole)]).split(self.split).files()

    def with_puts(self, lines: Iterable[str]) -> Disk:
        """The same, with bytes put by lines as `0 21 C1*80`: a track, a place in its slot, and bytes."""
        more = tuple((int(track), int(at), bytes_of(data)) for track, at, data in (it.split() for it in lines))
        return Disk(self.model, self.cylinders, self.puts + more, self.split) if more else self


@lru_cache(maxsize=256)
def files_of(disk: Disk) -> Sequence[bytes]:
    """The bytes of each file of a volume."""
    return tuple(disk.files())


def disk_of(block: Block) -> Disk:
    """The volume of a block that begins with `volume X 2311 2` or `volume 2311 2`."""
    words = block.lines[0].split()
    split = [int(it) for it in block.behind("split ")]
    return Disk(words[-2], int(words[-1]), (), split[0] if split else None).with_puts(block.behind("track "))


def put_files(stage: Stage, files: Sequence[bytes], name: str) -> list[str]:
    """Has the stage hold files, and gives their names."""
    names = []
    for number, data in enumerate(files, 1):
        names.append("%s.%d" % (name, number))
        lines = ["FILE %s %s" % (names[-1], spelled(data)), "FAIL %s 0" % names[-1]]
        same("FILE %s" % names[-1], ["OK", "OK"], stage.ask_all(lines))
    return names


class Failing(NamedTuple):
    """A call that fails of the store of a file, of those that hold the volume of a drive: counted from 1 on; and whether each later one
    does."""
    device: int
    file: int
    at: int
    for_good: bool


def failing_of(block: Block) -> Failing | None:
    """The call that fails of the first file's store by a line as `failing 3 once` or `failing 3 on`."""
    for words in (it.split() for it in block.behind("failing ")):
        return Failing(0, 0, int(words[0]), words[1] == "on")
    return None


def let_fail(stage: Stage, names: Sequence[str], failing: Failing) -> None:
    """Lets a call fail of the store that comes to hold one of these files."""
    if failing.file < len(names):
        line = "FAIL %s %d%s" % (names[failing.file], failing.at, " ON" if failing.for_good else "")
        same(line, "OK", stage.ask(line))


def content(stage: Stage, name: str) -> bytes:
    """What a file holds."""
    return answered(stage.ask("CONTENT %s" % name), "CONTENT")


@dataclass(frozen=True)
class Calls:
    """How often a kind of call was made, and where and how long the last was."""
    number: int
    at: int
    length: int

    def __str__(self) -> str:
        return "%d %d %d" % (self.number, self.at, self.length)


@dataclass(frozen=True)
class StoreCalls:
    """The calls of a store: reads and writes, and those of each that failed."""
    reads: Calls
    writes: Calls
    failed_reads: Calls
    failed_writes: Calls

    @property
    def count(self) -> int:
        return self.reads.number + self.writes.number

    @property
    def failed(self) -> int:
        return self.failed_reads.number + self.failed_writes.number


CALLS = re.compile(r"CALLS READ (\d+) (\d+) (\d+) WRITE (\d+) (\d+) (\d+) FAILED READ (\d+) (\d+) (\d+) WRITE (\d+) (\d+) (\d+)$")


def calls_told(answer: str) -> StoreCalls:
    """What the answer to `CALLS` tells."""
    found = CALLS.match(answer)
    if found is None:
        raise Wrong("CALLS", "counts", answer)
    numbers = [int(it) for it in found.groups()]
    return StoreCalls(*(Calls(*numbers[at:at + 3]) for at in (0, 3, 6, 9)))


def calls_of(stage: Stage, name: str) -> StoreCalls:
    """How often the last store of a file was called."""
    return calls_told(stage.ask("CALLS %s" % name))


def first_difference(wanted: bytes, came: bytes) -> tuple[str, str]:
    """The first bytes in which two files differ, with their place."""
    at = next((it for it, (left, right) in enumerate(zip(wanted, came)) if left != right), min(len(wanted), len(came)))
    left, right = ("%s at %d of %d bytes" % (it[at:at + 16].hex().upper(), at, len(it)) for it in (wanted, came))
    return left, right
