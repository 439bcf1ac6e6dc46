"""Slots with each of their bytes replaced, and slots that no volume has: each is looked at, read, written and checked. What must come of
it is worked out by the image's layout, the capacity formulas of a 2311 and the commands' own rules.

After the end mark every seventh byte is replaced: what is there is no part of the track."""
from __future__ import annotations

import subprocess
import tempfile
from dataclasses import dataclass
from functools import partial
from pathlib import Path
from typing import Iterable, Iterator, Sequence

from conformance.suite.volumes import END, HEADER, MODELS, Record, Track, Volume, header_of, new_track, read_slot

from .answers import Csw
from .stage import Stage
from .text import Case, answered, same, spelled

MODEL = MODELS["2311"]
OTHERS = (0x00, 0x7F, 0xFF)
READ, NEW_DATA = 80, 20
UNREADABLE, NO_RECORD_FOUND, OVERRUN, NO_SENSE = "0802", "0008", "0040", "0000"
# Search Identifier Equal, a transfer back to it, and Read Data or Write Count, Key and Data
SEARCH = "3100050040000005" + "0800040000000000"
PROGRAMS = {"read": SEARCH + "0600060000000050", "write": SEARCH + "1D0006000000001C"}
NEW_RECORD = Record(bytes([0, 0, 0, 0, 9]), b"", b"\xd5" * NEW_DATA)
# cases are played in groups of so many slots; after each slot so many bytes of the file are looked at, and after a group all
GROUP, LOOKED_AT = 500, HEADER + MODEL.slot + 512


@dataclass(frozen=True)
class Hostile:
    """A slot, and the identifiers of the records that are read, and after which one is written."""
    slot: bytes
    read: bytes
    written: bytes


def identifier(number: int) -> bytes:
    return bytes([0, 0, 0, 0, number])


def slot_of(records: Sequence[Record]) -> bytes:
    """A slot with the usual record 0 and these records."""
    fresh = new_track(0, 0)
    return Track(fresh.home, fresh.records + list(records)).spelled().ljust(MODEL.slot, b"\0")[:MODEL.slot]


def replaced() -> Iterator[Hostile]:
    """Slots with three records, without keys and with one, of which bytes are replaced."""
    for key in (b"", b"KEY2"):
        records = [Record(identifier(number), key if number == 2 else b"", bytes([0xC0 + number]) * 80) for number in (1, 2, 3)]
        slot = slot_of(records)
        end = len(slot.rstrip(b"\0"))
        for at in [*range(end), *range(end, len(slot), 7)]:
            for other in OTHERS:
                yield Hostile(slot[:at] + bytes([other]) + slot[at + 1:], identifier(2), identifier(1))


def odd() -> Iterator[Hostile]:
    """Slots without an end mark, with records that run over their end or reach it, with one that leaves just room for another, without
    records, and with hundreds without data."""
    usual = slot_of([])[:21]
    slots = [bytes([byte]) * MODEL.slot for byte in (0x00, 0x7F, 0xFE, 0xFF)] + [usual.ljust(MODEL.slot, b"\0")]
    for length in (65535, 4068, 4067, 4066, 4060, 4059, 4058, 3625, 3380, 3379):
        slots.append(slot_of([Record(identifier(1), b"", b"\xc4" * length)]))
    # after a key of 4 bytes and 3,356 of data the new record just fits: 81 and 537/512 of 3,360, and 20, are 3,625
    slots += [slot_of([Record(identifier(1), b"KEY4", b"\xc4" * length)]) for length in (3355, 3356, 3357)]
    slots += [slot_of(empty_records(number)) for number in (1, 100, 500, 507, 508, 509)]
    for slot in slots:
        for sought in (identifier(0), identifier(1), bytes([0, 0, 0, 1, 0xF3])):
            yield Hostile(slot, sought, sought)
    for number in range(100):
        yield Hostile(slot_of(empty_records(100)), identifier(number), identifier(number))


def empty_records(number: int) -> list[Record]:
    """So many records without data; their identifiers count on from record 0."""
    return [Record(bytes(3) + at.to_bytes(2, "big"), b"", b"") for at in range(number)]


# --- what must come of it ---


def fault_of(slot: bytes) -> str:
    """Why a slot can't be read, in the words of a check; nothing where it can."""
    at = 5
    while at + 8 <= len(slot):
        count = slot[at:at + 8]
        if count == END:
            return ""
        end = at + 8 + count[5] + int.from_bytes(count[6:8], "big")
        if end > len(slot):
            return "record past end at %d" % at
        at = end
    return "no end at %d" % at


def found(track: Track | None, sought: bytes) -> int | None:
    """The number of the first record with an identifier."""
    records = track.records if track else []
    return next((number for number, it in enumerate(records) if it.identifier == sought), None)


def has_room(track: Track, after: int) -> bool:
    """Whether the new record has room as the last one after this one."""
    kept = track.records[:after + 1]
    taken = sum((MODEL.charge if number else MODEL.r0_charge)(len(it.key), len(it.data)) for number, it in enumerate(kept))
    return taken + MODEL.last_charge(0, NEW_DATA) <= MODEL.capacity


def not_found(track: Track | None) -> tuple[Csw, str]:
    """How a program ends whose search ends it, and its sense bytes."""
    return Csw(0, 0x408, 0x0E, 0, 5), NO_RECORD_FOUND if track else UNREADABLE


def read_of(it: Hostile) -> tuple[Csw, str, bytes]:
    """How the read ends, its sense bytes, and the bytes that it stores."""
    track = read_slot(it.slot)
    number = found(track, it.read)
    if track is None or number is None:
        return (*not_found(track), b"")
    data = track.records[number].data[:READ]
    length = len(track.records[number].data)
    csw = Csw(0, 0x418, 0x0C if length else 0x0D, 0 if length == READ else 0x40, READ - len(data))
    return csw, NO_SENSE, data


def write_of(it: Hostile) -> tuple[Csw, str, bytes]:
    """How the write ends, its sense bytes, and the slot that it leaves."""
    track = read_slot(it.slot)
    after = found(track, it.written)
    if track is None or after is None:
        return (*not_found(track), it.slot)
    if not has_room(track, after):
        return Csw(0, 0x418, 0x0E, 0, NEW_DATA), OVERRUN, it.slot
    left = Track(track.home, track.records[:after + 1] + [NEW_RECORD])
    return Csw(0, 0x418, 0x0C, 0, 0), NO_SENSE, left.spelled().ljust(MODEL.slot, b"\0")


# --- played ---


def lines_of(it: Hostile, what: str) -> list[str]:
    """The lines for the stage that play a program over the volume `v` with a slot, and a Sense after it."""
    area = "00*80" if what == "read" else spelled(NEW_RECORD.spelled())
    sought = it.read if what == "read" else it.written
    begin = ["PUT v %d %s" % (HEADER, spelled(it.slot)), "BEGIN 1 8192", "VOLUME 90 2311 v", "POKE 400 %s" % PROGRAMS[what],
             "POKE 500 %s" % sought.hex(), "POKE 600 %s" % area]
    run = ["POKE 48 00000400", "SIO 190", "STEP 65535", "INT", "POKE 480 0400048800000006", "POKE 48 00000480", "SIO 190", "STEP 7", "INT"]
    return begin + run + ["PEEK 488 2", "PEEK 600 80", "END", "CONTENT v 0 %d" % LOOKED_AT]


def ended(answers: Sequence[str]) -> tuple[str, str]:
    """How a program ended, and the sense bytes after it."""
    return answers[9], answered(answers[15], "PEEK").hex()


def told(csw: Csw) -> str:
    text = csw.to_bytes().hex().upper()
    return "INT 190 %s %s" % (text[:8], text[8:])


def play_slot(stage: Stage, whole: bytes, it: Hostile) -> None:
    """Looks at a slot, reads a record and writes one."""
    track, fault = read_slot(it.slot), fault_of(it.slot)
    same("the fault of a slot", bool(fault), track is None)
    _, parts = stage.ask_all(["SLOT %s" % spelled(it.slot), "PARTS"])
    wanted = "REFUSED %s" % fault if track is None else "PARTS %d" % len(track.records)
    same("PARTS", wanted, parts if track is None else parts.partition(" HOME")[0])
    answers = stage.ask_all(lines_of(it, "read"))
    csw, sense, data = read_of(it)
    same("the read", (told(csw), sense), ended(answers))
    same("what is read", data.ljust(READ, b"\0"), answered(answers[16], "PEEK"))
    same("what the read leaves", "CONTENT %s" % spelled((whole[:HEADER] + it.slot + whole[HEADER + MODEL.slot:])[:LOOKED_AT]), answers[18])
    answers = stage.ask_all(lines_of(it, "write"))
    csw, sense, slot = write_of(it)
    same("the write", (told(csw), sense), ended(answers))
    same("what the write leaves", "CONTENT %s" % spelled((whole[:HEADER] + slot + whole[HEADER + MODEL.slot:])[:LOOKED_AT]), answers[18])


def play_group(group: Sequence[Hostile], stage: Stage) -> None:
    """Plays slots over one volume."""
    whole = Volume.new("2311", 1).bytes()
    same("FILE", "OK", stage.ask("FILE v %s" % spelled(whole)))
    for it in group:
        play_slot(stage, whole, it)
    same("the tracks behind the first", whole[HEADER + MODEL.slot:], answered(stage.ask("CONTENT v"), "CONTENT")[HEADER + MODEL.slot:])


def grouped(slots: Iterable[Hostile]) -> Iterator[list[Hostile]]:
    """Slots in groups."""
    group: list[Hostile] = []
    for it in slots:
        group.append(it)
        if len(group) == GROUP:
            yield group
            group = []
    if group:
        yield group


def cases() -> Iterator[Case]:
    for name, slots in (("bytes of a slot", replaced()), ("odd slots", odd())):
        for number, group in enumerate(grouped(slots)):
            yield Case("%s, from %d on" % (name, number * GROUP), partial(play_group, group))


# --- checked by dasd ---


def check_all(program: str, name: str, _: Stage) -> None:
    """Checks a volume that has all these slots, one a track: the faults are reported, each at its place."""
    slots = [it.slot for it in (replaced() if name == "bytes of a slot" else odd())]
    slots += [slot_of([])] * (-len(slots) % MODEL.heads)
    wanted = ["%04X %04X %s" % (*divmod(at, MODEL.heads), fault_of(slot)) for at, slot in enumerate(slots) if fault_of(slot)]
    with tempfile.TemporaryDirectory() as folder:
        path = Path(folder) / "v.ckd"
        path.write_bytes(header_of(MODEL) + b"".join(slots))
        ran = subprocess.run([program, "check", str(path)], capture_output=True, text=True, timeout=600, check=False)
    same("findings", wanted + ["%d findings" % len(wanted)], ran.stdout.splitlines())
    same("status", 1 if wanted else 0, ran.returncode)


def dasd_cases(program: str) -> Iterator[Case]:
    for name in ("bytes of a slot", "odd slots"):
        yield Case("%s, checked" % name, partial(check_all, program, name))
