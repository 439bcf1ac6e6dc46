#!/usr/bin/env python3
"""The vectors of the conformance suite, over the module dasd: those of the folder that DASD_VECTORS names. DASD_LIBRARY names the library; where it
does not, the module finds it."""

from __future__ import annotations

import glob
import hashlib
import os
import re
import unittest
from pathlib import Path
from typing import Callable, Iterator, List, Optional, Sequence, Tuple, Union

import dasd
from test_dasd import Maker

# The lines are described in conformance/FORMAT.md.

#: An event of a deck: its name and its operands.
Event = Tuple[str, List[str]]
#: A line of a vector: its word, and what stands behind it.
Line = Tuple[str, str]

DIGITS = "[0-9A-F]"
GRAMMAR = {name: rf"({DIGITS}{{3}})" for name in ("SIO", "TIO", "HIO", "ARRIVE")}
GRAMMAR.update({name: "" for name in ("TCH", "INT", "RESET")})
GRAMMAR.update(
    STEP=r"(\d{1,5})",
    RUN=r"(\d{1,10})?",
    STORE=rf"({DIGITS}{{1,6}})((?: {DIGITS}+)+)",
    KEY=rf"({DIGITS}{{1,6}}) ({DIGITS})",
    SHOW=rf"({DIGITS}{{1,6}}) (\d{{1,5}})",
)


def is_in_range(name: str, operands: List[str]) -> bool:
    """Whether the operands of an event, whose form is right, are what it takes."""
    if name == "STEP":
        return int(operands[0]) <= 65535
    if name == "SHOW":
        return 1 <= int(operands[1]) <= 32
    if name == "RUN":
        return 1 <= int(operands[0] or 1) < 1 << 32
    return name != "STORE" or (len(operands[1]) % 2 == 0 and len(operands[1]) <= 256)


def parse(line: bytes) -> Union[None, str, Event]:
    """The event of a line, None for a remark, or a text: why it is no line of a deck."""
    line = line[:-1] if line.endswith(b"\r") else line
    if len(line) > 512:
        return "line too long"
    name, *words = re.split(r"[ \t]+", line.upper().decode("latin1").strip(" \t"))
    if not name or name.startswith("*"):
        return None
    if name not in GRAMMAR:
        return "unknown event"
    found = re.fullmatch(GRAMMAR[name], " ".join(words))
    operands = [(it or "").replace(" ", "") for it in found.groups()] if found else []
    if not found or not is_in_range(name, operands):
        return "bad operand"
    return name, operands


def csw(disks: dasd.Channels, both: bool = True) -> str:
    """The channel status word that stands in storage, or its status bytes alone."""
    halves = disks.peek(64, 8)
    return f"{halves[:4].hex()} {halves[4:].hex()}".upper() if both else halves[4:6].hex().upper()


def condition(disks: dasd.Channels, name: str, address: int, code: int) -> str:
    """An instruction's answer."""
    return f"{name} {address:03X} CC {code}" + (f" {csw(disks, name == 'TIO')}" if code == 1 else "")


def kept(call: Callable[..., None], *arguments: object) -> str:
    """Whether a call was done, or met a byte outside storage."""
    try:
        call(*arguments)
        return "OK"
    except dasd.Fault:
        return "OUTSIDE"


def stored(disks: dasd.Channels, name: str, at: int, words: List[str]) -> str:
    """The answer to an event that stores or shows."""
    if name == "STORE":
        return f"STORE {kept(disks.poke, at, bytes.fromhex(words[1]))}"
    if name == "KEY":
        return f"KEY {kept(disks.set_key, at, int(words[1], 16))}"
    try:
        return f"SHOW {at:06X} {disks.peek(at, int(words[1])).hex().upper()}"
    except dasd.Fault:
        return "SHOW OUTSIDE"


def play(disks: dasd.Channels, number: int, name: str, words: List[str]) -> str:
    """The answer to an event."""
    at = int(words[0] or "16777216", 10 if name in ("STEP", "RUN") else 16) if words else 0
    if name in ("SIO", "TIO", "HIO"):
        return condition(disks, name, at, getattr(disks, name.lower())(at))
    if name == "TCH":
        return f"TCH CC {disks.tch(number << 8)}"
    if name == "STEP":
        return f"STEP {disks.step(number, at)}"
    if name == "RUN":
        return f"RUN {disks.run_on(number, at).units}"
    if name == "ARRIVE":
        return f"ARRIVE {at:03X} {'YES' if disks.arrive(at) else 'NO'}"
    if name == "INT":
        address = disks.interrupt()
        return "INT NONE" if address is None else f"INT {address:03X} {csw(disks)}"
    if name == "RESET":
        return "RESET CLEAN" if disks.reset(number) is None else "RESET UNSAVED"
    return stored(disks, name, at, words)


def read(path: str) -> Iterator[Tuple[str, List[Line]]]:
    """The vectors of a file: a name and its lines."""
    for text in Path(path).read_text(encoding="ascii").split("\nvector ")[1:]:
        name, *lines = [it for it in text.split("\n") if it and not it.startswith("#")]
        yield name, [(word, rest) for word, _, rest in (it[2:].partition(" ") for it in lines)]


def deck_of(lines: List[Line]) -> Tuple[List[Event], Optional[str]]:
    """The events of a deck, or none and the fault of its text."""
    spelled = [rest.encode() if word == ">" else bytes.fromhex(rest) for word, rest in lines if word in (">", ">hex", ">end")]
    events = [parse(it) for it in spelled]
    faults = [f"line {number}: {it}" for number, it in enumerate(events, 1) if isinstance(it, str)]
    return ([], faults[0]) if faults else ([it for it in events if isinstance(it, tuple)], None)


def attach(disks: dasd.Channels, address: int, source: Sequence[str], folder: str) -> None:
    """Attaches a new volume, or that of these files."""
    if source[0] == "new":
        disks.attach_new(address, int(source[1]), int(source[2]))
        return
    disks.attach(address, *(Path(folder, it).read_bytes() for it in source))


def files_of(disks: dasd.Channels, address: int) -> List[bytes]:
    """The files of a drive's volume."""
    files: List[bytes] = []
    try:
        for place in range(9):
            files.append(disks.file(address, place).data)
    except dasd.Fault as fault:
        if fault.name != "NO_FILE":
            raise
    return files


def image_is(disks: dasd.Channels, channel: int, line: str) -> bool:
    """Whether a drive's volume has the digest that a line says."""
    found = re.fullmatch(r"(\w+) sha256 (\w+)", line)
    return found is not None and hashlib.sha256(b"".join(files_of(disks, channel << 8 | int(found[1], 16)))).hexdigest() == found[2]


#: What goes on behind an event of a deck: the same channels, a copy of them, or others to which they were restored.
Behind = Callable[[dasd.Channels], dasd.Channels]


def the_same(disks: dasd.Channels) -> dasd.Channels:
    """The same channels go on."""
    return disks


def a_copy(disks: dasd.Channels) -> dasd.Channels:
    """A copy goes on, and what was copied is closed."""
    assert isinstance(disks, dasd.Subsystem)
    with disks:
        return disks.copy()


def restored(maker: Maker) -> Behind:
    """Wherever no program runs, the channels are saved and closed; new ones go on, over storage and volumes with the same bytes, to which what
    was saved is restored."""

    def behind(disks: dasd.Channels) -> dasd.Channels:
        try:
            saved = disks.save()
        except dasd.Fault as fault:
            if fault.name != "PROGRAM_RUNS":
                raise
            return disks
        with disks:
            number, size = next(it for it in range(7) if has(disks, it)), len(disks.storage)
            second = maker(size, number)
            second.poke(0, disks.peek(0, size))
            for at in range(0, size, 2048):
                second.set_key(at, disks.key(at))
            for drive in disks.channel(number).drives:
                address = number << 8 | drive.device
                second.attach(address, *files_of(disks, address))
        second.restore(saved)
        return second

    return behind


def has(disks: dasd.Channels, number: int) -> bool:
    """Whether there is a channel of this number."""
    try:
        disks.channel(number)
    except dasd.Fault as fault:
        if fault.name != "NO_CHANNEL":
            raise
        return False
    return True


def comes_out(maker: Maker, lines: List[Line], folder: str, behind: Behind = the_same) -> bool:
    """Whether a vector's fault, answers and images come out as they must."""
    of = {word: [rest for it, rest in lines if it == word] for word, _ in lines}
    wanted: List[Optional[str]] = [*of["fault"]] if "fault" in of else [None]
    number, (events, fault), answers = int(of["channel"][0]), deck_of(lines), []
    disks = maker(int(of["storage"][0]), number)
    for volume in of.get("volume", []):
        unit, *source = volume.split()
        attach(disks, number << 8 | int(unit, 16), source, folder)
    for it in events:
        answers.append(play(disks, number, *it))
        disks = behind(disks)
    with disks:
        disks.reset(number)
        same = all(image_is(disks, number, it) for it in of.get("image", []))
        return [fault] == wanted and answers == of.get("<", []) and same


class Vectors(unittest.TestCase):
    """The vectors of the conformance suite, where they are."""

    maker: Maker = dasd.Subsystem
    copier: Behind = staticmethod(a_copy)

    def played(self, behind: Behind, how: str) -> None:
        """All vectors come out as they must, whatever goes on behind an event."""
        folder = os.environ.get("DASD_VECTORS")
        if not folder:
            self.skipTest("DASD_VECTORS names no folder")
        paths = sorted(glob.glob(f"{folder}/*.vectors"))
        outcomes = {name: comes_out(self.maker, lines, folder, behind) for path in paths for name, lines in read(path)}
        self.assertEqual([name for name, it in outcomes.items() if not it], [])
        print(f"python: {sum(outcomes.values())} of {len(outcomes)} vectors come out as they must{how}")
        self.assertGreater(len(outcomes), 400)

    def test_vectors(self) -> None:
        self.played(the_same, "")

    def test_vectors_with_a_copy_behind_each_event(self) -> None:
        self.played(self.copier, ", with a copy behind each event")

    def test_vectors_with_a_restored_state_behind_each_event(self) -> None:
        self.played(restored(self.maker), ", saved and restored behind each event behind which no program runs")


if __name__ == "__main__":
    unittest.main()
