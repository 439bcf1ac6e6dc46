"""Rows of channel programs at a drive and a storage of 65,536 bytes.

| Line | Means |
|---|---|
| `at 400 C1*80`, `key 600 3` | the processor stores bytes, or sets a key |
| `start 400` | a start with this channel address word, which is accepted |
| `start 404 bad`, `.. rejected`, `.. immediate 0C` | or what it answers; with `interruption` after it where one is asked for |
| `goes 10` | so many units, and the program goes on |
| `ends 81 00000408 0C000000` | units until it ends, and its channel status word |
| `cut 00000408 0C000014`, `cut .. unsaved 0 3` | a cut; the track that can not be saved |
| `interruption none`, `interruption 00000408 00800028` | the interruption that a word asked for |
| `stored` | the channel status word of the last ending is stored |
| `outside FFFF 2` | these bytes lie outside storage |
| `seen 00000400 00000408 40` | where the last and next words are, and the residual count |
| `sense 80 10` | the sense bytes |
| `track`, `failing`, `left`, `holds`, `reads`, `writes` | what the volume holds, which call fails, and what is left |

A row is played in steps of several sizes; and with each call of its store failing in turn, which must be told."""
from __future__ import annotations

import re
from typing import NamedTuple, Sequence

from .answers import Csw
from .drives import EQUIPMENT_CHECK, MOST_CALLS, DriveRow, are_left, were_called
from .stage import Stage
from .text import BadRow, Block, Disk, Failing, StoreCalls, Wrong, answered, bytes_of, content, failing_of, first_difference, same

STEPS = (1, 2, 7, 65535)
SIZE = 65536
MOVING, UNIT_CHECK, INCORRECT_LENGTH = 0x08, 0x02, 0x40
NOTHING = ("track", "left", "holds", "failing", "reads", "writes")
ENDED = re.compile(r"DONE (\d+)(?: ENDED ([0-9A-F]{16}) (still|moves))?$")
SEEN = re.compile(r"VIEW KEY [0-9A-F]+ LAST ([0-9A-F]+) NEXT ([0-9A-F]+) LEFT (\d+) ASKS (?:YES|NO) AT .*$")


class Ended(NamedTuple):
    """How a program ended: after so many units, with this channel status word, and whether the arm still moves."""
    units: int
    csw: str
    motion: bool

    def __str__(self) -> str:
        return "%d units, %s %s, %s" % (self.units, self.csw[:8], self.csw[8:], "moves" if self.motion else "still")


def ended_so(units: int, csw: str) -> Ended:
    """An end with this channel status word: the arm moves where it has channel end alone."""
    return Ended(units, csw, int(csw[8:10], 16) == MOVING)


class ProgramRow:
    """A storage, a drive, and the program that runs, as a row plays them in steps of a size."""

    def __init__(self, stage: Stage, disk: Disk, failing: Failing | None, step: int) -> None:
        self.stage, self.step = stage, step
        self.drive = DriveRow(stage, disk, failing, 1)
        self.last: Ended | None = None
        same("STORAGE NEW", "OK", stage.ask("STORAGE NEW %d" % SIZE))

    def advance(self, units: int) -> tuple[int, Ended | None]:
        """So many units at most; how many were done, and how the program ended, if it did."""
        answer = self.stage.ask("PROGRAM ADVANCE %d" % units)
        found = ENDED.match(answer)
        if found is None:
            raise Wrong("PROGRAM ADVANCE %d" % units, "a program that runs", answer)
        done = int(found[1])
        return done, Ended(done, found[2], found[3] == "moves") if found[2] else None

    def runs(self, units: int) -> tuple[int, Ended | None]:
        """Units in steps, so many at most, until the program ends."""
        done = 0
        while done < units:
            asked = min(self.step, units - done)
            count, ended = self.advance(asked)
            done += count
            if ended:
                self.last = Ended(done, ended.csw, ended.motion)
                return done, self.last
            same("PROGRAM ADVANCE %d, and the program goes on" % asked, asked, count)
        return done, None

    def play(self, line: str) -> None:
        """Does what a line says, and looks at what it comes to."""
        words = line.split()
        if words[0] == "start":
            self.starts(line, words)
        elif words[0] == "goes":
            same(line, (int(words[1]), None), self.runs(int(words[1])))
        elif words[0] == "ends":
            _, ended = self.runs(SIZE - 1)
            same(line, ended_so(int(words[1]), words[2] + words[3]), ended)
        elif words[0] == "cut":
            self.is_cut(line, words)
        elif words[0] == "interruption":
            self.interrupts(line, words)
        else:
            self.processor(line, words)

    def starts(self, line: str, words: Sequence[str]) -> None:
        wanted = words[2].upper() if len(words) > 2 else "ACCEPTED"
        if wanted == "IMMEDIATE":
            motion = "moves" if int(words[3], 16) == MOVING else "still"
            wanted = "IMMEDIATE %s %s %s" % (words[3], motion, "asks" if len(words) > 4 else "quiet")
        same(line, wanted, self.stage.ask("PROGRAM START %s" % words[1]))

    def is_cut(self, line: str, words: Sequence[str]) -> None:
        answer = self.stage.ask("PROGRAM CUT").split()
        if answer[0] != "CUT":
            raise Wrong(line, "a cut", " ".join(answer))
        self.last = Ended(0, answer[1], answer[2] == "moves")
        same(line, ended_so(0, words[1] + words[2]), self.last)
        same(line, words[3:] or ["unsaved", "none"], [it.lower() for it in answer[3:]])

    def interrupts(self, line: str, words: Sequence[str]) -> None:
        asked, taken = self.stage.ask_all(["PROGRAM ASKED", "PROGRAM TAKE"])
        wanted = "PCI NONE" if words[1] == "none" else "PCI %s%s" % (words[1], words[2])
        same(line, (wanted, "ASKED %s" % ("NO" if words[1] == "none" else "YES")), (taken, asked))

    def processor(self, line: str, words: Sequence[str]) -> None:
        """What the processor stores and finds in storage, what is seen of the program that runs, and the sense bytes."""
        if words[0] == "at":
            same(line, "OK", self.stage.ask("STORAGE PUT %s %s" % (words[1], words[2])))
        elif words[0] == "key":
            same(line, "OK", self.stage.ask("STORAGE KEY %s %X" % (words[1], int(words[2], 16) % 16)))
        elif words[0] == "stored":
            same(line, "OK", self.stage.ask("STORAGE CSW %s" % self.last.csw) if self.last else "no end")
        elif words[0] == "outside":
            same(line, "OUTSIDE", self.stage.ask("STORAGE PEEK %s %s" % (words[1], words[2])))
        elif words[0] == "seen":
            answer = self.stage.ask("PROGRAM VIEW")
            found = SEEN.match(answer)
            came = (int(found[1], 16), int(found[2], 16), int(found[3])) if found else answer
            same(line, (int(words[1], 16), int(words[2], 16), int(words[3])), came)
        elif words[0] == "sense":
            same(line, words[1] + words[2] + "00000000", self.drive.state()[0])
        else:
            raise BadRow(line)

    def release(self) -> tuple[bytes, list[StoreCalls]]:
        """Storage, and how the store was called, where no program runs and nothing waits to be saved."""
        return answered(self.stage.ask("STORAGE PEEK 0 %d" % SIZE), "PEEK"), self.drive.release()


def storage_left(block: Block) -> bytes:
    """The storage that a row leaves: what the processor stored, and in the lines' order what the program must have."""
    storage = bytearray(SIZE)
    for words in (it.split() for it in block.lines[1:]):
        if words[0] in ("at", "holds"):
            at, data = int(words[1], 16), bytes_of(words[2])
            storage[at:at + len(data)] = data
    return bytes(storage)


def row_lines(block: Block) -> list[str]:
    """The lines of a row that do something."""
    return [it for it in block.lines[1:] if it.split()[0] not in NOTHING]


def play_row(stage: Stage, disk: Disk, block: Block) -> None:
    """Plays a row in steps of several sizes, and then with each call of its store failing."""
    disk, failing = disk.with_puts(block.behind("track ")), failing_of(block)
    for step in STEPS:
        try:
            play_in_steps(stage, disk, block, failing, step)
        except Wrong as wrong:
            raise Wrong("in steps of %d: %s" % (step, wrong.line), wrong.wanted, wrong.came) from None
    if failing is None:
        sweep(stage, disk, block)


def play_in_steps(stage: Stage, disk: Disk, block: Block, failing: Failing | None, step: int) -> None:
    """Plays a row in steps of a size."""
    row = ProgramRow(stage, disk, failing, step)
    for line in row_lines(block):
        row.play(line)
    storage, calls = row.release()
    were_called(block, calls)
    wanted = storage_left(block)
    if storage != wanted:
        raise Wrong("storage", *first_difference(wanted, storage))
    are_left(block, disk, [content(stage, it) for it in row.drive.names])


def sweep(stage: Stage, disk: Disk, block: Block) -> None:
    """Plays a row with each call of its store failing, once and for good, which must be told. The first call reads the header, as the
    image is mounted."""
    for at in range(2, MOST_CALLS):
        for for_good in (False, True):
            why = silent(stage, disk, block, Failing(0, 0, at, for_good))
            if why == "no such call":
                return
            if why:
                raise Wrong("call %d fails%s" % (at, " for good" if for_good else ""), "that it is told", why)
    raise Wrong("the sweep", "fewer than %d calls" % MOST_CALLS, "more")


def silent(stage: Stage, disk: Disk, block: Block, failing: Failing) -> str | None:
    """Why a call that fails is not told: the program must be over with unit check and without incorrect length, and the sense bytes
    have equipment check. None where it is reported."""
    row = ProgramRow(stage, disk, failing, SIZE - 1)
    comes_out = True
    try:
        for line in row_lines(block):
            row.play(line)
    except Wrong:
        comes_out = False
    sense = int(row.drive.state()[0][:2], 16)
    _, calls = row.release()
    if calls[0].count < failing.at:
        return "no such call"
    csw = Csw.of(row.last.csw) if row.last else Csw(0, 0, 0, 0, 0)
    if comes_out or not csw.unit & UNIT_CHECK or csw.channel & INCORRECT_LENGTH:
        return "all is as it must be without it" if comes_out else "no unit check, or incorrect length"
    return None if sense & EQUIPMENT_CHECK else "no equipment check"
