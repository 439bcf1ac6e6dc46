"""The suites by name: the cases of each."""
from __future__ import annotations

from dataclasses import dataclass
from functools import partial
from typing import Callable, Iterator, NamedTuple

from . import (channels, cut_programs, dasd, drives, extracts, files, hashes, hostile_decks, hostile_slots, images, lines, lists, memory, programs, serial,
               sweeps, traces, words)
from .stage import Stage
from .text import Block, Case, Disk, disk_of, read_blocks


class Programs(NamedTuple):
    """The paths of the built programs: the stage, and `dasd` where it is there."""
    stage: str
    dasd: str = ""


def channel_rows() -> Iterator[Case]:
    """Rows of a channel, and what they ask for beside: sweeps, limits, serial lists, cuts."""
    disks: dict[str, Disk] = {}
    blocks = read_blocks("channel.rows")
    for block in blocks:
        if block.name.startswith("volume "):
            disks[block.name.split()[1]] = disk_of(block)
    for block in blocks:
        if block.name.startswith("volume "):
            continue
        if "serial" in block.lines:
            yield Case(block.name, play(serial.play_serial, disks, block))
        elif block.lines[-1] == "cuts":
            yield Case(block.name, play(serial.play_cuts, disks, block))
        else:
            yield Case(block.name, play(channels.play_row, disks, block))
        for line in block.lines:
            if line.startswith(("sweep ", "limits ")):
                again = sweeps.sweep if line.startswith("sweep") else sweeps.limits
                yield Case("%s: %s" % (block.name, line), play(again, disks, block, int(line.split()[1], 16)))


def play(function: Callable[..., object], *given: object) -> Callable[[Stage], None]:
    """What plays a case by a function that takes the stage and these."""
    def plays(stage: Stage) -> None:
        function(stage, *given)
    return plays


def rows_behind_volumes(name: str, function: Callable[[Stage, Disk, Block], None]) -> Iterator[Case]:
    """Rows of which each has the volume of the block `volume` that stands last before it."""
    disk = Disk("2311", 1)
    for block in read_blocks(name):
        if block.name.startswith("volume "):
            disk = disk_of(block)
        else:
            yield Case(block.name, play(function, disk, block))


def drives_in_memory() -> Iterator[Case]:
    """The rows of a drive that want one file in memory, and nothing of its store: what c/tests/drive_stage.c can play, too."""
    disk = Disk("2311", 1)
    for block in read_blocks("drives.rows"):
        if block.name.startswith("volume "):
            disk = disk_of(block)
        elif drives.is_of_memory(block) and disk.split is None:
            yield Case(block.name, play(drives.play_in_memory, disk, block))


@dataclass(frozen=True)
class Suite:
    """A suite: what gives its cases, at the stage; or those at the program `dasd` with this path."""
    cases: Callable[[], Iterator[Case]] = lambda: iter(())
    dasd_cases: Callable[[str], Iterator[Case]] | None = None
    # whether it wants the libraries of preload.py
    wants_libraries: bool = False
    # whether it is played where it is named alone: `gate/real_files` plays it
    is_asked_for: bool = False

    @property
    def wants_dasd(self) -> bool:
        return self.dasd_cases is not None


SUITES = {
    "channel": Suite(channel_rows),
    "traces": Suite(traces.cases),
    "cut_programs": Suite(cut_programs.cases),
    "hostile_decks": Suite(hostile_decks.cases),
    "lists": Suite(lists.cases),
    "failing_lists": Suite(lists.failing_cases),
    "drives": Suite(partial(rows_behind_volumes, "drives.rows", drives.play_row)),
    "drives_in_memory": Suite(drives_in_memory),
    "programs": Suite(partial(rows_behind_volumes, "programs.rows", programs.play_row)),
    "images": Suite(images.cases),
    "tracks": Suite(partial(lines.cases, "tracks.rows")),
    "tables": Suite(partial(lines.cases, "tables.rows")),
    "memory": Suite(memory.cases, wants_libraries=True),
    "hostile_slots": Suite(hostile_slots.cases),
    "hostile_checks": Suite(dasd_cases=hostile_slots.dasd_cases),
    "dasd": Suite(dasd_cases=dasd.cases, wants_libraries=True),
    "files": Suite(dasd_cases=files.cases, wants_libraries=True, is_asked_for=True),
    "extracts": Suite(dasd_cases=extracts.cases),
    "hashes": Suite(dasd_cases=hashes.cases),
    "words": Suite(dasd_cases=words.cases, wants_libraries=True),
}


def cases_of(suite: str, programs_given: Programs) -> Iterator[Case]:
    """The cases of a suite."""
    found = SUITES[suite]
    return found.dasd_cases(programs_given.dasd) if found.dasd_cases else found.cases()
