"""Rows of a channel again: with each call of a drive's stores failing in turn, once and for good, each of which must be told; and
with the calls of a store counted event by event."""
from __future__ import annotations

from dataclasses import dataclass
from typing import Mapping

from conformance.suite.decks import parse_line

from .answers import units_of, word_told
from .channels import ChannelRow, Left, start_sense
from .stage import Stage
from .text import BadRow, Block, Disk, Failing, Wrong, calls_of, files_of

UNIT_CHECK, INCORRECT_LENGTH, EQUIPMENT_CHECK = 0x02, 0x40, 0x10
MOST_CALLS = 100
# what of a file is compared where a store's call failed: its blocks of so many bytes
BLOCK = 512


@dataclass
class Course:
    """What was answered in a row, and what it left; and the first sense byte of the drive, where a Sense can start after the row."""
    answers: list[str]
    sense: int | None
    left: Left


def play_course(stage: Stage, disks: Mapping[str, Disk], block: Block, device: int, failing: Failing | None) -> Course | None:
    """Plays a row. None where an image is not mounted since its store fails."""
    row = ChannelRow(stage, disks, failing)
    answers: list[str] = []
    for line in block.lines[1:]:
        answers += row.follows(line)
        if row.told == "store fault":
            return None
    sense = start_sense(stage, 0x100 | device)
    return Course(answers, int(sense[:2], 16) if len(sense) == 12 and sense.isalnum() else None, row.finish())


def sweep(stage: Stage, disks: Mapping[str, Disk], block: Block, device: int) -> int:
    """Plays a row with each call of each store of a drive failing; how many were tried, each of which was told."""
    sound = play_course(stage, disks, block, device, None)
    if sound is None:
        raise BadRow("no image")
    tried = 0
    for file in range(len(sound.left.drives[device].files)):
        for at in range(1, MOST_CALLS):
            for for_good in (False, True):
                failing = Failing(device, file, at, for_good)
                faulty = play_course(stage, disks, block, device, failing)
                why = silent(block, disks, sound, faulty, failing)
                if why:
                    raise Wrong("call %d of file %d fails%s" % (at, file + 1, " for good" if for_good else ""), "that it is told", why)
                tried += 1
            if sound.left.drives[device].calls[file].count <= at:
                break
        else:
            raise Wrong("sweep %02X" % device, "fewer than %d calls" % MOST_CALLS, "more")
    return tried


def silent(block: Block, disks: Mapping[str, Disk], sound: Course, faulty: Course | None, failing: Failing) -> str | None:
    """Why a call that failed is not told; None where it is."""
    if faulty is None:
        # the first call reads the header, as the image is mounted
        return None if failing.at == 1 else "it is not mounted"
    if faulty.left.drives[failing.device].calls[failing.file].failed == 0:
        return None if faulty.answers == sound.answers else "other answers without a fault"
    if not others_stay(block, disks, sound.left, faulty.left):
        return "another track is changed"
    return not_told(sound, faulty)


def not_told(sound: Course, faulty: Course) -> str | None:
    """The same of the answers: they are those without a fault up to it."""
    same = next((at for at, (left, right) in enumerate(zip(sound.answers, faulty.answers)) if left != right),
                min(len(sound.answers), len(faulty.answers)))
    behind = faulty.answers[same:]
    if not behind:
        # the program may end in this unit as it does without the fault: then the sense bytes tell it
        return None if faulty.left.reset != "RESET CLEAN" else not_told_by_word(sound.answers, faulty)
    if behind[0].startswith("RESET UNSAVED") or behind[0].startswith("STEP") and behind[1:2] == ["RESET CLEAN"]:
        return None if faulty.sense == 0 else "sense bytes behind a reset"
    return not_told_by_word(behind, faulty)


def not_told_by_word(answers: list[str], faulty: Course) -> str | None:
    """The next channel status word must have unit check, and no incorrect length; the sense bytes equipment check, and a program starts."""
    for answer in answers:
        told = word_told(answer)
        if told:
            if not told[1].unit & UNIT_CHECK or told[1].channel & INCORRECT_LENGTH:
                return "no unit check, or incorrect length: %s" % answer
            return None if faulty.sense is not None and faulty.sense & EQUIPMENT_CHECK else "no equipment check"
    return "no channel status word"


def others_stay(block: Block, disks: Mapping[str, Disk], sound: Left, faulty: Left) -> bool:
    """Whether each block of a file that is as it was, where no call fails, is so where one fails."""
    for words in (it.split() for it in block.behind("attach ")):
        device = int(words[0], 16)
        if device not in sound.drives:
            continue
        for first, left, came in zip(files_of(disks[words[1]]), sound.drives[device].files, faulty.drives[device].files):
            for at in range(0, len(first), BLOCK):
                old = first[at:at + BLOCK]
                if old == left[at:at + BLOCK] and old != came[at:at + BLOCK]:
                    return False
    return True


def limits(stage: Stage, disks: Mapping[str, Disk], block: Block, device: int) -> int:
    """Plays the events of a row, each step unit by unit: a unit may call the store of the drive at most twice, a halt and a reset
    once, and every other event never. How many events there were."""
    row = ChannelRow(stage, disks)
    played = 0
    for line in block.lines[1:]:
        if not line.startswith("> "):
            word, _, rest = line.partition(" ")
            row.makes(word, rest)
            continue
        event = parse_line(line[2:].encode("ascii"))
        if event is None:
            continue
        alone = event.name == "STEP"
        for _ in range(event.number if alone else 1):
            before = calls_of(stage, row.files[device][0]).count
            answer = stage.ask("STEP 1" if alone else event.line())
            calls, most = calls_of(stage, row.files[device][0]).count - before, most_calls(answer)
            played += 1
            if calls > most:
                raise Wrong("%s, event %d" % (line, played), "at most %d calls of the store" % most, "%d" % calls)
            if answer == "STEP 0":
                break
    return played


def most_calls(answer: str) -> int:
    """How many calls of stores an event may make: two for each unit, one for a cut."""
    units = units_of(answer)
    if units is not None:
        return 2 * units
    return 1 if answer.startswith(("HIO", "RESET")) else 0
