"""Rows of traces: a deck, and the lines of its trace, each worked out by hand from the Principles of Operation and the component
descriptions of the 2841 and the 2314.

The first block, `volume 2311 2`, says what the volumes of the drives 190 and 191 hold. Of a row, `track 0 21 C1*80` puts bytes into
both; `failing 2 once` or `failing 2 on` lets call 2 of each drive's store fail; `> SIO 190` is a line of the deck, and
`| SIO 190 CC 0, started` one of the trace. Any other line is a remark."""
from __future__ import annotations

from functools import partial
from typing import Iterator

from .channels import ChannelRow, lines_of
from .stage import Stage
from .text import Block, Case, Disk, Failing, Wrong, disk_of, failing_of, read_blocks

DRIVES = ("90", "91")


def traced(stage: Stage, disk: Disk, block: Block) -> list[str]:
    """The lines of the trace of a row's deck."""
    failing = failing_of(block)
    row = ChannelRow(stage, {"X": disk.with_puts(block.behind("track "))})
    for device in DRIVES:
        row.failing = Failing(int(device, 16), 0, failing.at, failing.for_good) if failing else None
        row.attach([device, "X"])
    for line in block.behind("> "):
        row.do("DECK LINE %s" % line)
    word, _, rest = stage.ask("DECK TRACE").partition(" ")
    if word != "TRACE":
        raise Wrong("DECK TRACE", "a trace", "%s %s" % (word, rest))
    return lines_of(rest)


def play_row(disk: Disk, block: Block, stage: Stage) -> None:
    """Plays a row, and compares each line of its trace."""
    wanted, came = block.behind("| "), traced(stage, disk, block)
    for number, line in enumerate(wanted):
        got = came[number] if number < len(came) else "nothing"
        if line != got:
            raise Wrong("line %d of the trace" % (number + 1), line, got)
    if len(came) > len(wanted):
        raise Wrong("the trace", "%d lines" % len(wanted), "more: %s" % came[len(wanted)])


def cases() -> Iterator[Case]:
    blocks = read_blocks("traces.rows")
    disk = disk_of(blocks[0])
    for block in blocks[1:]:
        yield Case(block.name, partial(play_row, disk, block))
