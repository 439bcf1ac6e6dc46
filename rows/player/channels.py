"""Rows of a channel: decks, and calls that a deck has no words for, over stores of which a call may fail.

A row is its name, and lines that are played in their order:

| Line | Means |
|---|---|
| `channel 6 4096` | another channel, with so much storage, in the place of channel 1 with 65,536 bytes |
| `attach 90 X` | a drive with the volume of a block `volume X` |
| `attach 90 X failing 3 on` | the same, where call 3 of its store fails, and each later one (or `once`) |
| `at 400 C1*80+00` | the processor stores bytes |
| `> SIO 190`, `>bytes 0A` | a line, or bytes, of a deck. Lines without others between are one deck |
| `reader fails`, `writer 12`, `flush fails` | the read after the deck fails; the write after so many bytes; the flush |
| `counted` | the deck is run with counts |
| `: STATE` | a line for the stage |
| `< INT NONE` | a line that is printed, or what the stage answers; `...` at its end passes what may stand there |
| `! read fault` | what is reported of a refusal |
| `sense 190 100000000000` | a Sense starts, runs to its end, and gives these bytes |
| `holds 600 C1*80` | what storage holds in the end |
| `left 90 0 29 E7*30` | what a track of the volume has from a place of its slot on; all else is as it was |
| `calls 90 3` | how often the stores were called in all |
| `reads 90 2 512 4096`, `writes ..` | how often the last file's was, and where and how much at last |
| `unsaved 190 0000 0000` | a track that the last reset can not save |
| `sweep 90`, `limits 90` | each call of each store of the drive fails in turn; how often each event may call its store (sweeps.py) |
| `serial`, `cuts` | lists of events and their serial lists (serial.py) |
"""
from __future__ import annotations

from dataclasses import dataclass
from typing import Mapping, Sequence

from .stage import Stage
from .text import (BadRow, Block, Disk, Failing, StoreCalls, Wrong, answered, bytes_of, calls_of, content, files_of, first_difference,
                   is_next, let_fail, put_files, same, spelled)

ENDS = ("left", "holds", "calls", "reads", "writes", "unsaved")
SWEEPS = ("sweep", "limits", "serial", "cuts", "=", "~")


@dataclass
class LeftDrive:
    """What came out of a drive: the bytes of its files, and the calls of their stores."""
    files: list[bytes]
    calls: list[StoreCalls]


@dataclass
class Left:
    """What came out of a channel: storage, what its last reset answered, and the drives in the order of attachment."""
    storage: bytes
    reset: str
    drives: dict[int, LeftDrive]

    def same_as(self, other: Left) -> str | None:
        """What the other has otherwise; None where it is the same."""
        if self.storage != other.storage:
            return "storage"
        if self.reset != other.reset:
            return "the last reset"
        files = {device: it.files for device, it in self.drives.items()}
        return None if files == {device: it.files for device, it in other.drives.items()} else "images"


class ChannelRow:
    """A row, as it is played."""

    def __init__(self, stage: Stage, disks: Mapping[str, Disk], failing: Failing | None = None) -> None:
        self.stage, self.disks, self.failing = stage, disks, failing
        self.files: dict[int, list[str]] = {}
        self.at: dict[int, Disk] = {}
        self.size = 65536
        self.made = 0
        # the deck that is not yet run; what was printed and told and no line has said
        self.is_deck = self.has_lines = self.reader_fails = self.is_counted = False
        self.printed: list[str] = []
        self.told = ""
        self.do("BEGIN 1 65536")

    def do(self, line: str) -> None:
        """Sends a line that must be answered by OK."""
        same(line, "OK", self.stage.ask(line))

    # --- lines ---

    def play(self, line: str) -> None:
        """Does what a line says, and looks at what it must come to."""
        word, _, rest = line.partition(" ")
        if self.takes(word, rest) or word in ENDS or word in SWEEPS:
            return
        if self.is_deck:
            self.is_said(line)
            self.run()
        if word == "<":
            is_next(line, rest, self.printed.pop(0) if self.printed else "nothing")
        elif word == "!":
            same(line, rest, self.told)
            self.told = ""
        else:
            self.is_said(line)
            self.acts(line, word, rest)

    def is_said(self, line: str) -> None:
        """That nothing was printed or told that no line said."""
        if self.printed or self.told:
            raise Wrong(line, "nothing more before it", " | ".join(self.printed + [self.told] if self.told else self.printed))

    def takes(self, word: str, rest: str) -> bool:
        """Takes a line of the deck, or a word on its reader or writer; whether it is one."""
        if word in (">", ">bytes"):
            self.do("DECK LINE %s" % rest if word == ">" else "DECK BYTES %s" % rest)
            self.has_lines = self.has_lines or rest != "-"
        elif word == "reader":
            self.reader_fails = True
        elif word == "writer":
            self.do("DECK WRITES 0 %s NONE" % rest)
        elif word == "flush":
            self.do("DECK FLUSH")
        elif word == "counted":
            self.is_counted = True
        else:
            return False
        self.is_deck = True
        return True

    def run(self) -> None:
        """Runs the deck."""
        if self.reader_fails:
            self.do("DECK READS 0 %d" % (2 if self.has_lines else 1))
        answer = self.stage.ask("DECK COUNTED" if self.is_counted else "DECK RUN")
        word, _, rest = answer.partition(" ")
        if word == "REFUSED":
            self.told = rest
            word, _, rest = self.stage.ask("DECK WRITTEN").partition(" ")
        if word not in ("RAN", "WRITTEN"):
            raise Wrong("DECK RUN", "a run", answer)
        self.printed = lines_of(rest)
        self.is_deck = self.has_lines = self.reader_fails = self.is_counted = False

    def acts(self, line: str, word: str, rest: str) -> None:
        if word == ":":
            self.printed = [self.stage.ask(rest)]
        elif word == "sense":
            address, _, wanted = rest.partition(" ")
            same(line, wanted, start_sense(self.stage, int(address, 16)))
        elif not self.makes(word, rest):
            raise BadRow(line)

    def makes(self, word: str, rest: str) -> bool:
        """Does what a line asks that makes a channel or a drive, or stores bytes; whether it asks that."""
        if word == "channel":
            self.told = refusal(self.stage.ask("BEGIN %s" % rest))
            self.size = self.size if self.told else int(rest.split()[1])
        elif word == "attach":
            self.attach(rest.split())
        elif word == "at":
            same("at %s" % rest, "STORE OK", self.stage.ask("POKE %s" % rest))
        else:
            return False
        return True

    def attach(self, words: list[str]) -> None:
        """Attaches a drive with a volume by its name, of whose store a call may fail: `90 X failing 3 on`."""
        device, disk = int(words[0], 16), self.disks[words[1]]
        failing = self.failing if self.failing and self.failing.device == device else None
        if len(words) > 2:
            failing = Failing(device, 0, int(words[3]), words[4] == "on")
        self.attach_files(device, disk.model, files_of(disk), failing)
        if not self.told:
            self.at[device] = disk

    def attach_files(self, device: int, model: str, held: Sequence[bytes], failing: Failing | None = None) -> None:
        """Attaches a drive over files that hold these bytes, or keeps why it is refused; they must then be as they were."""
        self.made += 1
        names = put_files(self.stage, held, "%02X.%d" % (device, self.made))
        if failing:
            let_fail(self.stage, names, failing)
        self.told = refusal(self.stage.ask("VOLUME %02X %s %s" % (device, model, " ".join(names))))
        if self.told:
            same("attach %02X, and the files that come back" % device, True, [content(self.stage, it) for it in names] == list(held))
        else:
            self.files[device] = names

    # --- sweeps ---

    def follows(self, line: str) -> list[str]:
        """Does what a line asks that makes something, or takes a line of the deck, and gives what is printed, whatever it must be."""
        word, _, rest = line.partition(" ")
        if self.takes(word, rest):
            return []
        printed: list[str] = []
        if self.is_deck:
            self.run()
            printed, self.printed = self.printed, []
        self.makes(word, rest)
        return printed

    # --- what is left ---

    def finish(self) -> Left:
        """Ends the channel, and gives what it leaves."""
        reset = self.stage.ask("FINISH")
        storage = answered(self.stage.ask("STORAGE PEEK 0 %d" % self.size), "PEEK")
        drives = {}
        for device, names in self.files.items():
            drives[device] = LeftDrive([content(self.stage, it) for it in names], [calls_of(self.stage, it) for it in names])
        return Left(storage, reset, drives)

    def ends(self, block: Block) -> None:
        """Runs what is left of the deck, ends the channel, and looks at what it leaves."""
        if self.is_deck:
            self.run()
        self.is_said("the end")
        left = self.finish()
        reset = ["RESET UNSAVED %s" % it for it in block.behind("unsaved ")] or ["RESET CLEAN"]
        same("the last reset", reset[0], left.reset)
        for line in block.lines:
            looks_at(line, left)
        for device, drive in left.drives.items():
            wanted = files_of(self.at[device].with_puts(block.behind("left %02X " % device)))
            for number, (before, after) in enumerate(zip(wanted, drive.files), 1):
                if before != after:
                    raise Wrong("left %02X, file %d" % (device, number), *first_difference(before, after))


def looks_at(line: str, left: Left) -> None:
    """That storage and calls of stores are as a line says."""
    words = line.split()
    if words[0] == "holds":
        at, data = int(words[1], 16), bytes_of(words[2])
        same(line, spelled(data), spelled(left.storage[at:at + len(data)]))
    elif words[0] in ("calls", "reads", "writes"):
        calls = left.drives[int(words[1], 16)].calls
        told = str(calls[-1].reads if words[0] == "reads" else calls[-1].writes)
        same(line, " ".join(words[2:]), str(sum(it.count for it in calls)) if words[0] == "calls" else told)


def refusal(answer: str) -> str:
    """Why a call was refused; nothing where it was not."""
    if answer == "OK":
        return ""
    word, _, rest = answer.partition(" ")
    return rest if word == "REFUSED" else answer


def lines_of(text: str) -> list[str]:
    """The lines of a text as the stage tells it."""
    lines = text.split("|")
    return lines if lines[-1] else lines[:-1]


def start_sense(stage: Stage, address: int) -> str:
    """The six bytes that a Sense gives, whose word is at 700; or what came instead. It leaves the channel address word there."""
    lines = ["POKE 700 0400071000000006", "POKE 48 00000700", "CALL SIO %X" % address, "STEP 65535", "INT"]
    wanted = ["STORE OK", "STORE OK", "SIO %03X CC 0" % address, "STEP 7", "INT %03X 00000708 0C000000" % address]
    for line, want in zip(lines, wanted):
        came = stage.ask(line)
        if came != want:
            return came
    return answered(stage.ask("PEEK 710 6"), "PEEK").hex().upper()


def play_row(stage: Stage, disks: Mapping[str, Disk], block: Block) -> None:
    """Plays the lines of a row, and looks at what they leave."""
    row = ChannelRow(stage, disks)
    for line in block.lines[1:]:
        row.play(line)
    row.ends(block)
