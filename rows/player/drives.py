"""Rows of calls at a drive by someone who knows of it what its phase reports, and nothing else.

A line has calls, with `;` between:

| Call | Must come to |
|---|---|
| `program`, `clear` | a program begins; the sense bytes are made zero |
| `87 rejected`, `06 started`, `03 immediate 0C` | what the begin answers; an immediate command ends with this unit status |
| `06 1 found`, `29 1 fails` | the command finds its area, or fails, after so many index passes |
| `06 0 gives C1*80 0C`, `05 0 takes D7*80 0C`, `1D 0 takes .. only 8 0E` | a whole command, with its bytes, and its unit status |
| `look passed`, `look failed`, `look 80`, `give C1*80`, `take D7*80`, `end 0C` | one call |
| `whole none`, `whole C1*80 0C` | the read that is lent whole, if it is one of the commonest |
| `once none`, `once C1*80 0C` | the same, whatever read it is |
| `settle`, `settle fails` | the drive settles, or its store fails |
| `sense 80 10`, `saved`, `written`, `unsaved 0 3` | what the drive tells |

Other lines say what the volume holds (`track`, `failing`), and what is left (`left`, `reads`, `writes`). `split 2` among the lines of a volume
puts it into two files, the second of which begins with that cylinder: `reads` is then of the second store, `first reads` of the first. A row is
played with its bytes in pieces of several sizes; and with each call of each store failing in turn, which must be told."""
from __future__ import annotations

import re
from typing import Sequence

from .stage import Stage
from .text import (BadRow, Block, Disk, Failing, StoreCalls, Wrong, answered, bytes_of, calls_of, content, failing_of, files_of,
                   first_difference, let_fail, put_files, same)

PIECES = (1, 2, 7, 100)
MOVING, END_WITH_UNIT_CHECK, EQUIPMENT_CHECK = "08", "0E", 0x10
NO_CALLS = ("track", "left", "failing", "reads", "writes", "first")
MOST_CALLS = 100
STATE = re.compile(r"DRIVE AT (\d+) (\d+) SENSE ([0-9A-F]{12}) WRITTEN (YES|NO) UNSAVED (.*)$")


class DriveRow:
    """A drive over the volume of a row, and its calls, their bytes in pieces of a size."""

    def __init__(self, stage: Stage, disk: Disk, failing: Failing | None, piece: int) -> None:
        self.stage, self.piece = stage, piece
        self.names = put_files(stage, files_of(disk), "d")
        if failing:
            let_fail(stage, self.names, failing)
        for line in ("DRIVE MOUNT %s" % " ".join(self.names), "DRIVE PROGRAM"):
            same(line, "OK", stage.ask(line))

    def must(self, call: str, line: str, wanted: str) -> None:
        """That a line is answered so; `call` is what the row has."""
        same(call, wanted, self.stage.ask(line))

    def phase(self) -> list[str]:
        """The words of the phase."""
        return self.stage.ask("DRIVE PHASE").split()[1:]

    def state(self) -> tuple[str, str, str]:
        """The sense bytes, whether a track waits to be saved, and the track that could not be saved."""
        answer = self.stage.ask("DRIVE STATE")
        found = STATE.match(answer)
        if found is None:
            raise Wrong("DRIVE STATE", "a state", answer)
        return found[3], found[4], found[5]

    # --- calls ---

    def does(self, call: str) -> None:
        """Does a call, and looks at what it must come to."""
        words = call.split()
        if not (self.tells(call, words) or self.calls(call, words) or self.transfers(call, words)):
            self.commands(call, words)

    def tells(self, call: str, words: Sequence[str]) -> bool:
        """Looks at what the drive tells; whether the call asks that."""
        if words[0] not in ("sense", "saved", "written", "unsaved"):
            return False
        sense, written, unsaved = self.state()
        if words[0] == "sense":
            same(call, words[1] + words[2] + "00000000", sense)
        elif words[0] == "written":
            same(call, "YES", written)
        else:
            same(call, ("NO", "NONE" if words[0] == "saved" else " ".join(words[1:])), (written, unsaved))
        return True

    def calls(self, call: str, words: Sequence[str]) -> bool:
        """Makes one call that is no command from its beginning to its end; whether it is one."""
        plain = {"program": ("DRIVE PROGRAM", "OK"), "clear": ("DRIVE CLEAR", "OK"), "settle": ("DRIVE SETTLE", "OK")}
        looks = {"passed": "PASSED", "failed": "FAILED"}
        if words[0] == "settle" and len(words) == 2:
            same(call, "REFUSED", self.stage.ask("DRIVE SETTLE").split()[0])
        elif words[0] in plain:
            self.must(call, *plain[words[0]])
        elif words[0] == "look":
            self.must(call, "DRIVE LOOK", looks.get(words[1]) or "READY %s" % words[1])
        elif words[0] == "give":
            self.gives(call, bytes_of(words[1]))
        elif words[0] == "take":
            same(call, len(bytes_of(words[1])), self.take(bytes_of(words[1])))
        elif words[0] in ("whole", "once"):
            self.whole(call, words)
        elif words[0] == "end":
            self.ends(call, words[1])
        else:
            return False
        return True

    def whole(self, call: str, words: Sequence[str]) -> None:
        verb = words[0].upper()
        answer = self.stage.ask("DRIVE %s" % verb).split()
        if words[1] == "none":
            same(call, [verb, "NONE"], answer)
            return
        same(call, (bytes_of(words[1]), ["ENDED", words[2], "still"]), (bytes_of(answer[1]), answer[2:]) if len(answer) == 5 else answer)

    def transfers(self, call: str, words: Sequence[str]) -> bool:
        """Does a command that gives or takes bytes, from its beginning to its end; whether the call is one."""
        if len(words) < 5 or words[2] not in ("gives", "takes"):
            return False
        self.finds(call, words[0], int(words[1]))
        data = bytes_of(words[3])
        if words[2] == "gives":
            for at in range(0, len(data), self.piece):
                self.gives(call, data[at:at + self.piece])
        else:
            same(call, int(words[5]) if words[4] == "only" else len(data), self.takes(data))
        self.ends(call, words[-1])
        return True

    def commands(self, call: str, words: Sequence[str]) -> None:
        """Does another command, as far as it comes."""
        if words[1] in ("rejected", "started"):
            self.must(call, "DRIVE BEGIN %s" % words[0], words[1].upper())
        elif words[1] == "immediate":
            self.must(call, "DRIVE BEGIN %s" % words[0], "IMMEDIATE")
            self.ends(call, words[2])
        elif len(words) == 3 and words[2] in ("found", "fails"):
            self.finds(call, words[0], int(words[1]))
            same(call, words[2] == "fails", self.phase() == ["over"])
            if words[2] == "fails":
                self.ends(call, END_WITH_UNIT_CHECK)
        else:
            raise BadRow(call)

    def finds(self, call: str, code: str, passed: int) -> None:
        """That a command finds its area, or fails, after so many index passes."""
        self.must(call, "DRIVE BEGIN %s" % code, "STARTED")
        for number in range(100):
            if self.stage.ask("DRIVE LOOK") != "PASSED":
                same(call, "%d index passes" % passed, "%d index passes" % number)
                return
        raise Wrong(call, "an end of its looks", "none")

    def gives(self, call: str, data: bytes) -> None:
        """That the drive gives these bytes next, and so many at least are left; by either of its calls, in turn."""
        phase = self.phase()
        if phase[0] != "gives" or len(data) > int(phase[2]):
            raise Wrong(call, "%d bytes at least" % len(data), " ".join(phase))
        answer = self.stage.ask("DRIVE %s %d" % ("GIVE" if int(phase[1]) % 2 else "NEXT", len(data)))
        same(call, data.hex().upper(), answered(answer, "GIVEN").hex().upper())

    def take(self, data: bytes) -> int:
        """How many of these bytes the drive takes."""
        answer = self.stage.ask("DRIVE TAKE %s" % (data.hex().upper() or "-")).split()
        return int(answer[1]) if answer[0] == "TAKEN" else 0

    def takes(self, data: bytes) -> int:
        """The same in pieces, with a look after each: a formatting write wants key and data once the count area came."""
        taken = 0
        for at in range(0, len(data), self.piece):
            part = data[at:at + self.piece]
            count = self.take(part)
            self.stage.ask("DRIVE LOOK")
            taken += count
            # a piece of no byte makes a record that is due, and so would hide what the command's end makes of it
            if count < len(part):
                taken += self.take(part[count:])
        return taken

    def ends(self, call: str, status: str) -> None:
        """That the command ends with this unit status; the arm moves where it has channel end alone."""
        self.must(call, "DRIVE END", "ENDED %s %s" % (status, "moves" if status == MOVING else "still"))

    # --- the end ---

    def release(self) -> list[StoreCalls]:
        """Takes the stores out of a drive that has no command open and nothing to save; how they were called."""
        same("the end", (["idle"], "NO"), (self.phase(), self.state()[1]))
        same("DRIVE RELEASE", "OK", self.stage.ask("DRIVE RELEASE"))
        return [calls_of(self.stage, it) for it in self.names]


def row_calls(block: Block) -> list[str]:
    """The calls of a row, line by line."""
    lines = (it for it in block.lines[1:] if it.split()[0] not in NO_CALLS)
    return [call.strip() for line in lines for call in line.split(";") if call.strip()]


def were_called(block: Block, calls: Sequence[StoreCalls]) -> None:
    """That the last file's store, or the first one's, was called as lines of a row say."""
    for words in (it.split() for it in block.lines[1:]):
        store = calls[-1]
        if words[0] == "first":
            words, store = words[1:], calls[0]
        if words[0] in ("reads", "writes"):
            told = store.reads if words[0] == "reads" else store.writes
            same(" ".join(words), " ".join(words[1:]), str(told))


def are_left(block: Block, disk: Disk, came: Sequence[bytes]) -> None:
    """That files hold what a row leaves."""
    for number, (wanted, held) in enumerate(zip(files_of(disk.with_puts(block.behind("left "))), came), 1):
        if wanted != held:
            raise Wrong("left, file %d" % number, *first_difference(wanted, held))


def play_row(stage: Stage, disk: Disk, block: Block) -> None:
    """Plays a row, its bytes in pieces of several sizes, and then with each call of each store failing."""
    disk, failing = disk.with_puts(block.behind("track ")), failing_of(block)
    files = 0
    for piece in PIECES:
        try:
            files = play_in_pieces(stage, disk, block, failing, piece)
        except Wrong as wrong:
            raise Wrong("in pieces of %d: %s" % (piece, wrong.line), wrong.wanted, wrong.came) from None
    if failing is None:
        for file in range(files):
            sweep(stage, disk, block, file)


def play_in_pieces(stage: Stage, disk: Disk, block: Block, failing: Failing | None, piece: int) -> int:
    """Plays a row, its bytes in pieces of a size; how many files its volume has."""
    drive = DriveRow(stage, disk, failing, piece)
    for call in row_calls(block):
        drive.does(call)
    stage.ask("DRIVE SETTLE")
    were_called(block, drive.release())
    if block.behind("left "):
        are_left(block, disk, [content(stage, it) for it in drive.names])
    return len(drive.names)


def is_of_memory(block: Block) -> bool:
    """Whether a row can be played at a drive over one file in memory, of which no call fails and none is counted; nor are reads lent whole
    there."""
    return not block.behind("failing ") and all(call.split()[0] not in ("whole", "once") for call in row_calls(block))


def play_in_memory(stage: Stage, disk: Disk, block: Block) -> None:
    """Plays a row at a drive over a file in memory, its bytes in pieces of several sizes."""
    disk = disk.with_puts(block.behind("track "))
    for piece in PIECES:
        drive = DriveRow(stage, disk, None, piece)
        for call in row_calls(block):
            drive.does(call)
        stage.ask("DRIVE SETTLE")
        same("the end", (["idle"], "NO"), (drive.phase(), drive.state()[1]))
        same("DRIVE RELEASE", "OK", stage.ask("DRIVE RELEASE"))
        if block.behind("left "):
            are_left(block, disk, [content(stage, it) for it in drive.names])


def sweep(stage: Stage, disk: Disk, block: Block, file: int) -> None:
    """Plays a row with each call of a store failing, once and for good, which must be told. The first call reads the header, as the
    image is mounted."""
    for at in range(2, MOST_CALLS):
        for for_good in (False, True):
            why = silent(stage, disk, block, Failing(0, file, at, for_good))
            if why == "no such call":
                return
            if why:
                raise Wrong("call %d of file %d fails%s" % (at, file + 1, " for good" if for_good else ""), "that it is told", why)
    raise Wrong("the sweep", "fewer than %d calls" % MOST_CALLS, "more")


def silent(stage: Stage, disk: Disk, block: Block, failing: Failing) -> str | None:
    """Why a call that fails is not told: the command in which it fails must be over or not begun, and the sense bytes have equipment
    check. None where it is reported."""
    drive = DriveRow(stage, disk, failing, PIECES[-1])
    comes_out = True
    try:
        for call in row_calls(block):
            drive.does(call)
    except Wrong:
        comes_out = False
    is_over = drive.phase() in (["idle"], ["over"])
    settles = stage.ask("DRIVE SETTLE") == "OK"
    sense = int(drive.state()[0][:2], 16)
    calls = drive.release()
    if calls[failing.file].count < failing.at:
        return "no such call"
    if not sense & EQUIPMENT_CHECK:
        return "no equipment check"
    if not is_over:
        return "the command goes on"
    return "all calls come to what they must" if comes_out and settles else None
