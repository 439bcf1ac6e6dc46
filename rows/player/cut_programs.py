"""Programs that are cut after each of their units, by a halt and by a reset, with other events between the last units before the cut, and
once between all of them; each list of events is compared with its serial list at a fresh channel, and with the conformance suite's model.

A row is a deck that stores a program, after a remark that says what it is. The arm of another drive is on its way meanwhile."""
from __future__ import annotations

from copy import deepcopy
from functools import partial
from typing import Iterator

from conformance.suite.decks import Event, parse
from conformance.suite.machine import Machine
from conformance.suite.volumes import Volume

from .disks import DISKS, FIRST, SIZE, channel_over
from .model import compare_answers, compare_left
from .serial import compare_with_serial
from .stage import Stage
from .text import Block, Case, Wrong, files_of, read_blocks, same

# a program that does not end is cut after so many units at most
MOST_UNITS = 250
# the bytes after the channel address word stay as they are
BEFORE = ["STORE 4C %s" % ("EE" * 100), "STORE 48 000003F8", "STORE 3F8 1300000000000001", "SIO 191", "STORE 48 00000400"]
BETWEEN = ["STEP 1", "TCH", "TIO 191", "ARRIVE 191"]
# so many units before a cut are done one by one, with other events between
LAST = 3
CUTS = {"halted": ["HIO 190", "INT"], "reset": ["RESET"]}


def begun(block: Block) -> list[str]:
    """The events of a row's deck with those before it, and the start of its program."""
    return BEFORE + [it for it in block.lines if not it.startswith("*")] + ["SIO 190"]


def events_of(lines: list[str]) -> list[Event]:
    """The events of the lines of a deck."""
    return parse("".join(it + "\n" for it in lines).encode("ascii"))


def cut_at_each_unit(block: Block, cut: str, stage: Stage) -> None:
    """Cuts a program after each of its units, that of the start among them; before the last of these it is stepped or run."""
    set_up = partial(channel_over, drives=2)
    set_up(stage)
    done = stage.ask_all(begun(block) + ["STEP %d" % MOST_UNITS])[-1]
    most = int(done.split()[1])
    compare_with_serial(stage, set_up, begun(block) + BETWEEN * most + CUTS[cut])
    volumes = {FIRST + number: Volume.read(list(files_of(DISKS[number]))) for number in range(2)}
    started = Machine(1, SIZE, [(device, it.copy()) for device, it in volumes.items()])
    answers = [started.play(it) for it in events_of(begun(block))]
    for units in range(most + 1):
        last = min(LAST, units)
        first = "%s %d" % ("RUN" if units > LAST and units % 2 else "STEP", units - last)
        behind = [first, *BETWEEN * last, *CUTS[cut]]
        try:
            played = compare_with_serial(stage, set_up, begun(block) + behind)
            same("the program's start, beside the model", answers, played.answers[:len(answers)])
            machine = deepcopy(started)
            compare_answers(machine, events_of(behind), played.answers[len(answers):])
            compare_left(machine, volumes, played.left)
        except Wrong as wrong:
            raise Wrong("behind %d units: %s" % (units, wrong.line), wrong.wanted, wrong.came) from None


def cases() -> Iterator[Case]:
    for block in read_blocks("cut_programs.rows"):
        for cut in CUTS:
            yield Case("%s, %s" % (block.name[2:], cut), partial(cut_at_each_unit, block, cut))
