"""Rows of what `dasd` takes out of a volume, and volumes with bytes replaced.

A row is its name, a volume, and what is asked of it. `track 3 21 C1*80` puts bytes into the slot of a track of a new 2311 of two
cylinders, or of as many as a line `volume 60` says. The first rows are the volume SMALL1 of tools/make/hercules_volumes.py, whose label, volume
table of contents and sequential data set Hercules' `dasdload` wrote: what is wanted is what was put into them. Where a row has a line
`set`, a label and a volume table of contents are there too (System Control Blocks, GC28-6628, 'Volume Label' and 'Data Set Control Block'):

| Line | Means |
|---|---|
| `set PS FB 80 0:1-0:3 0:5-0:5` | the data set X: organisation, record format, record length, extents |
| `member 0 4`, `member 0 3 EIGHTLET` | its member M, or one of another name, begins there; its directory is the first block |
| `take X`, `take X(M) --text`, `take --all out` | `dasd extract`; `out` is an empty folder |
| `bytes C1C1`, `< line` | what is printed, as bytes and as text |
| `! track 0 of the data set: no block 9`, `status 1` | the fault that is reported, with status 1; a status without one |
| `listed 0 213 92` | each of so many bytes of a slot replaced in turn by three others: `dasd vtoc` reads the volume |
| `taken 1 29 26 X --text`, `taken 1 37 256 --all out` | the same with `dasd extract`, of a block of variable length, or of a directory |
| `ends 36 -` | how often that ended in which way |

In a sweep with `taken` the command must end as a reading of the block here does."""
from __future__ import annotations

import shutil
import subprocess
import tempfile
from collections import Counter
from dataclasses import dataclass, field
from functools import partial
from pathlib import Path
from typing import Iterable, Iterator

from conformance.suite.volumes import HEADER, Record, Track, address

from .stage import Stage
from .text import BadRow, Block, Case, Disk, Wrong, bytes_of, read_blocks, same

HEADS, SLOT, TABLE = 10, 4096, 18
# the bits that are turned of a byte
PATTERNS = (0x01, 0x80, 0xFF)
FORMATS = {"F": 0x80, "V": 0x40, "U": 0xC0, "FB": 0x90, "VB": 0x50, "VBS": 0x58}
ORGANISATIONS = {"PS": b"\x40\0", "PO": b"\2\0"}
CHARACTERISTICS = bytes.fromhex("0E29511414010219100A")


def ebcdic(text: str, length: int) -> bytes:
    return text.ljust(length).encode("cp037")


def extent(number: int, word: str) -> bytes:
    """An extent of a control block, of a word as `0:1-0:3`."""
    places = [int(it) for end in word.split("-") for it in end.split(":")]
    return bytes([1, number]) + b"".join(it.to_bytes(2, "big") for it in places)


def track_of(number: int, blocks: Iterable[tuple[bytes, bytes]]) -> bytes:
    """The bytes of a track with these keys and data after the usual record 0."""
    place = address(*divmod(number, HEADS))
    records = [Record(place + bytes([at]), key, data) for at, (key, data) in enumerate(blocks, 1)]
    return Track(b"\0" + place, [Record(place + b"\0", b"", bytes(8)), *records]).spelled()


def label() -> bytes:
    """Track 0, with the volume label as record 3."""
    volume = ebcdic("VOL1ROWS01", 11) + (TABLE // HEADS).to_bytes(2, "big") + (TABLE % HEADS).to_bytes(2, "big") + b"\1"
    loader = [(ebcdic("IPL1", 4), bytes(24)), (ebcdic("IPL2", 4), bytes(144))]
    return track_of(0, [*loader, (ebcdic("VOL1", 4), volume.ljust(80, b"\x40"))])


def table(organisation: str, form: str, length: int, extents: list[str]) -> bytes:
    """The volume table of contents: the blocks of formats 4 and 5, and that of the data set X."""
    own = b"\xf4".ljust(1, b"\0") + address(TABLE // HEADS, TABLE % HEADS) + b"\3" + bytes(8) + b"\x80\1\0\0" + bytes([0, 2, 0, HEADS])
    own = (own + CHARACTERISTICS).ljust(61, b"\0") + extent(0, "%d:%d-%d:%d" % (*divmod(TABLE, HEADS), *divmod(TABLE, HEADS)))
    first = b"\xf1" + ebcdic("ROWS01", 6) + b"\0\1" + bytes([74, 1, 109, 99, 1, 109, len(extents), 0, 0]) + ebcdic("SCRIPT", 13) + bytes(7)
    first += ORGANISATIONS[organisation] + bytes([FORMATS[form], 0]) + (3000).to_bytes(2, "big") + length.to_bytes(2, "big")
    first = first.ljust(61, b"\0") + b"".join(extent(*it) for it in enumerate(extents))
    space = (b"\5" * 4).ljust(44, b"\0"), b"\xf5".ljust(96, b"\0")
    return track_of(TABLE, [(b"\4" * 44, own.ljust(96, b"\0")), space, (ebcdic("X", 44), first.ljust(96, b"\0"))])


def directory(name: str, track: int, number: int) -> bytes:
    """The data of a directory's only block, which has one member."""
    entries = ebcdic(name, 8) + track.to_bytes(2, "big") + bytes([number, 0]) + b"\xff" * 8 + bytes(4)
    return ((len(entries) + 2).to_bytes(2, "big") + entries).ljust(256, b"\0")


@dataclass
class ExtractRow:
    """A row, as it is played in a folder."""
    program: str
    folder: Path
    puts: list[tuple[int, int, bytes]] = field(default_factory=list)
    cylinders: int = 2
    printed: bytes = b""
    told: str = ""
    status: int = 0
    tally: Counter[str] = field(default_factory=Counter)

    def play(self, line: str) -> None:
        """Does what a line says, and looks at what it must come to."""
        word, _, rest = line.partition(" ")
        words = rest.split()
        if word == "track":
            self.puts.append((int(words[0]), int(words[1]), bytes_of(words[2])))
        elif word == "volume":
            self.cylinders = int(rest)
        elif word == "set":
            self.puts += [(0, 0, label()), (TABLE, 0, table(words[0], words[1], int(words[2]), words[3:]))]
        elif word == "member":
            blocks = [(b"\xff" * 8, directory((words[2:] or ["M"])[0], int(words[0]), int(words[1]))), (b"", b"")]
            self.puts.append((1, 0, track_of(1, blocks)))
        elif word in ("listed", "taken"):
            self.sweep(word, words)
        elif word == "ends":
            number, _, how = rest.partition(" ")
            same(line, int(number), self.tally.pop(how, 0))
        else:
            self.asks_or_looks(line, word, words, rest)

    def asks_or_looks(self, line: str, word: str, words: list[str], rest: str) -> None:
        """Runs a command, or looks at what the last one printed and told."""
        if word == "take":
            self.is_said(line)
            self.printed, self.told, self.status = self.run(self.volume(), "extract", *words)
        elif word == "bytes":
            same(line, rest if rest != "-" else "", self.printed.hex().upper())
            self.printed = b""
        elif word == "<":
            came, _, self.printed = self.printed.partition(b"\n")
            same(line, rest, came.decode("utf-8"))
        elif word == "!":
            same(line, ("dasd: %s\n" % rest, 1), (self.told, self.status))
            self.told, self.status = "", 0
        elif word == "status":
            same(line, int(rest), self.status)
            self.status = 0
        else:
            raise BadRow(line)

    def is_said(self, line: str) -> None:
        """That nothing came of the last command that no line said."""
        if self.printed or self.told or self.status or self.tally:
            raise Wrong(line, "nothing more before it", "%r %s %d %s" % (self.printed, self.told, self.status, dict(self.tally)))

    def volume(self) -> bytes:
        """The file of the volume."""
        return Disk("2311", self.cylinders, tuple(self.puts)).files()[0]

    def run(self, volume: bytes, *words: str) -> tuple[bytes, str, int]:
        """Runs a command over a volume; what it printed, what it told, and its status."""
        (self.folder / "a.ckd").write_bytes(volume)
        shutil.rmtree(self.folder / "out", ignore_errors=True)
        (self.folder / "out").mkdir()
        words = (words[0], *words[1:], "a.ckd") if "--all" in words else (words[0], "a.ckd", *words[1:])
        ran = subprocess.run([self.program, *words], cwd=self.folder, capture_output=True, timeout=600, check=False)
        return ran.stdout, ran.stderr.decode("utf-8"), ran.returncode

    def sweep(self, word: str, words: list[str]) -> None:
        """Replaces each byte of a part of a slot in turn, and counts how the command ends."""
        self.is_said(word)
        track, first, number = (int(it) for it in words[:3])
        volume = bytearray(self.volume())
        for at in range(HEADER + track * SLOT + first, HEADER + track * SLOT + first + number):
            for bits in PATTERNS:
                volume[at] ^= bits
                block = bytes(volume[HEADER + track * SLOT + first:][:number])
                wanted = directory_end(block) if "--all" in words else block_end(block)
                printed, told, status = self.run(bytes(volume), *(["vtoc"] if word == "listed" else ["extract", *words[3:]]))
                volume[at] ^= bits
                same("byte %d of the volume, with the bits %02X turned: the status" % (at, bits), True, status in (0, 1))
                if word == "taken":
                    came = end_told(printed, told) or "-"
                    same("byte %d of the volume, with the bits %02X turned" % (at, bits), wanted, came)
                    self.tally[came] += 1
                else:
                    same("byte %d of the volume, with the bits %02X turned: faults" % (at, bits), "", told)


def directory_end(block: bytes) -> str:
    """What is wrong with a directory of one block (System Control Blocks, 'Partitioned Data Set Directory')."""
    used, at = int.from_bytes(block[:2], "big"), 2
    if not 2 <= used <= 256:
        return "a directory block has a count of bytes that can't be"
    while at < used:
        if at + 12 <= used and block[at:at + 8] == b"\xff" * 8:
            return "-"
        at += 12 + (block[at + 11] & 31) * 2 if at + 12 <= used else 256
        if at > used:
            return "an entry of the directory ends after its block"
    return "-"


def block_end(block: bytes) -> str:
    """What is wrong with block 1 of records of variable length that do not span blocks."""
    if int.from_bytes(block[:2], "big") != len(block):
        return "block 1 has a block descriptor word of another length"
    at = 4
    while at < len(block):
        if len(block) - at < 4:
            return "block 1 has no descriptor word where there must be one"
        length = int.from_bytes(block[at:at + 2], "big")
        if not 4 <= length <= len(block) - at:
            return "block 1 has a record descriptor word of a length that can't be"
        if block[at + 2]:
            return "block 1 has a segment code that its format has not"
        at += length
    return "-"


def end_told(printed: bytes, told: str) -> str:
    """What ended a data set, by the fault of a command that took it, or by its first line of what `--all` prints; nothing where it has
    its end."""
    first = printed.split(b"\n")[0].decode("utf-8")
    text = told.strip().removeprefix("dasd: ") or (first[3:] if first.startswith("X: ") else "")
    return text.removeprefix("track 0 of the data set: ")


def play_row(program: str, block: Block, _: Stage) -> None:
    """Plays a row in a folder of its own."""
    with tempfile.TemporaryDirectory() as folder:
        row = ExtractRow(program, Path(folder))
        for line in block.lines[1:]:
            row.play(line)
        row.is_said("the end")


def cases(program: str) -> Iterator[Case]:
    for block in read_blocks("extracts.rows"):
        yield Case(block.name, partial(play_row, program, block))
