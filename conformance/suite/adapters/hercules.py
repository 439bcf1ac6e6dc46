"""Hercules 3.13, System/370, bare metal: the instructions of a deck are issued by a small supervisor in its storage.

A step waits until the program has ended: Hercules has no units, and its arms take no time. Storage has 16 MB. With seek_first
a program that begins with no Seek gets a Seek to where the arm stands, and a transfer to its own first word, before it; it ends
at its own words, so its status words are the same. Programs that end at Start I/O, and those that begin with Sense, get none.
"""
from __future__ import annotations

import os
import subprocess
import tempfile
import time
from typing import List, Optional, Sequence, Tuple, Union

from .. import program
from ..decks import DeckFault, Event, parse
from ..drive import SEEKS
from ..machine import ByItself, Machine
from ..vectors import Outcome, Vector
from ..volumes import BadImage, Volume
from . import Emulator, bare_metal as metal

CONFIGURATION = """CPUSERIAL 000001
CPUMODEL 0145
MAINSIZE 16
XPNDSIZE 0
NUMCPU 1
ARCHMODE S/370
CNSLPORT 0
TZOFFSET +0000
OSTAILOR QUIET
"""
STORAGE = 1 << 24
# The interval timer's location.
TIMER = 80
# On a busy machine Hercules may be asked for storage before its processor has stopped, and leaves none.
TRIES = 5


class HerculesEmulator(Emulator):
    lacks = frozenset(["steps", "arrivals", "reset", "files", "storage", "decks", "zeros", "sense", "run"])

    def __init__(self, command: str = "hercules", seek_first: bool = False, seconds: float = 20) -> None:
        self.command, self.seek_first, self.seconds = command, seek_first, seconds
        self.timers: List[bytes] = []
        self.name = "Hercules 3.13" + (", with a Seek before each program" if seek_first else "")

    def play(self, vector: Vector) -> Outcome:
        try:
            events = parse(vector.deck)
        except DeckFault as fault:
            return Outcome(fault=str(fault), after=vector.before())
        if any(it.address + max(len(it.data), it.number) > metal.SUPERVISOR for it in events if it.name in ("STORE", "SHOW")):
            return Outcome(declined="it names storage where the supervisor stands")
        with tempfile.TemporaryDirectory() as room:
            return self.play_in(room, vector, events)

    def play_in(self, room: str, vector: Vector, events: Sequence[Event]) -> Outcome:
        paths = {unit: os.path.join(room, "%02X.ckd" % unit) for unit, _ in vector.volumes}
        entries, words = self.plan(vector, events)
        out = os.path.join(room, "out")
        broke: Optional[str] = None
        for attempt in range(TRIES):
            for unit, volume in vector.before().items():
                with open(paths[unit], "wb") as it:
                    it.write(volume.bytes())
            self.write_files(room, vector, entries, words)
            broke = self.run(room)
            if os.path.exists(out) or broke and attempt:
                break
        if broke or not os.path.exists(out):
            return Outcome(broke=broke or "Hercules left no storage")
        with open(out, "rb") as it:
            kept = it.read()
        answers = [self.answer(vector, event, kept[at * metal.ENTRY:(at + 1) * metal.ENTRY], self.timers[at]) for at, event in enumerate(events)]
        try:
            return Outcome(answers, None, {unit: Volume.load([path]) for unit, path in paths.items()})
        except BadImage as why:
            return Outcome(broke="an image is spoilt: %s" % why)

    def plan(self, vector: Vector, events: Sequence[Event]) -> Tuple[bytes, bytes]:
        """The entries of the events, and the words of the programs that begin with a Seek of the adapter's."""
        machine = Machine(vector.channel, STORAGE, list(vector.before().items()), by_itself=ByItself("step", True))
        entries: List[bytes] = []
        self.timers = []
        words, channel = b"", vector.channel << 8
        for event in events:
            if event.name == "SIO":
                own = self.seek_before(machine, event, len(words)) if self.seek_first else None
                caw = 0
                if own:
                    caw, more = own
                    words += more
                entries.append(metal.entry(metal.SIO, event.unit, caw))
            elif event.name in ("TIO", "HIO"):
                entries.append(metal.entry(getattr(metal, event.name), event.unit))
            elif event.name == "STORE":
                entries.append(metal.entry(metal.STORE, 0, event.address, len(event.data) - 1, event.data))
            elif event.name == "SHOW":
                entries.append(metal.entry(metal.SHOW, 0, event.address, event.number - 1))
            elif event.name == "KEY":
                entries.append(metal.entry(metal.KEY, 0, event.address, event.number << 4))
            else:
                kind = {"TCH": metal.TCH, "INT": metal.INT}.get(event.name, metal.WAIT)
                entries.append(metal.entry(kind, channel))
            machine.play(event)
            self.timers.append(bytes(machine.storage.bytes[TIMER:TIMER + 4]))
        return b"".join(entries) + bytes(metal.ENTRY), words

    @staticmethod
    def seek_before(machine: Machine, event: Event, at: int) -> Optional[Tuple[int, bytes]]:
        """The channel address word and the words of a program with a Seek before it; None where it needs none."""
        unit = machine.unit_of(event.unit) if machine.is_here(event.unit) else None
        caw = bytes(machine.storage.bytes[0x48:0x4C])
        first = int.from_bytes(caw[1:], "big")
        if unit is None or caw[0] & 15 or first & 7 or not machine.storage.holds(first, 8):
            return None
        drive = unit.drive
        code = machine.storage.bytes[first]
        trial = type(drive)(drive.volume, drive.profile)
        begun = trial.begin(code)
        chained = machine.storage.bytes[first + 4] & (program.CC | program.CD) == program.CC
        if begun == "rejected" or begun == "immediate" and not chained or trial.name in ("recalibrate", "read-ipl", "sense", *SEEKS):
            return None
        place = metal.WORDS + at
        address = bytes(2) + drive.cylinder.to_bytes(2, "big") + drive.head.to_bytes(2, "big")
        seek = b"\x07" + (place + 16).to_bytes(3, "big") + bytes([program.CC, 0, 0, 6])
        transfer = b"\x08" + caw[1:] + bytes(4)
        return caw[0] << 24 | place, seek + transfer + address + bytes(2)

    def write_files(self, room: str, vector: Vector, entries: bytes, words: bytes) -> None:
        """What Hercules reads: its configuration, its commands, and storage."""
        def put(name: str, data: Union[str, bytes]) -> None:
            with open(os.path.join(room, name), "wb") as it:
                it.write(data if isinstance(data, bytes) else data.encode("ascii"))
        put("low", bytes(4) + metal.SUPERVISOR.to_bytes(4, "big"))
        put("supervisor", metal.supervisor())
        put("entries", entries)
        put("words", words or bytes(8))
        devices = "".join("%02X%02X %s %s\n" % (vector.channel, unit, volume.model.name, os.path.join(room, "%02X.ckd" % unit))
                          for unit, volume in vector.before().items())
        put("conf", CONFIGURATION + devices)
        loads = "".join("loadcore %s/%s %X\n" % (room, name, at) for name, at in
                        (("low", 0), ("supervisor", metal.SUPERVISOR), ("entries", metal.ENTRIES), ("words", metal.WORDS)))
        put("commands", "hao tgt HHCCP011I\nhao cmd script %s/end\n%srestart\n" % (room, loads))
        last = metal.ENTRIES + len(entries) - 1
        save = "savecore %s/out %X %X\n" % (room, metal.ENTRIES, last)
        put("end", "sh sleep 0.02\n%ssh sleep 0.1\n%squit\n" % (save, save))

    def run(self, room: str) -> Optional[str]:
        """Runs Hercules to its end; how it broke, or None."""
        log = os.path.join(room, "log")
        with open(log, "wb") as out:
            ran = subprocess.Popen([self.command, "-f", os.path.join(room, "conf"), "-d"], stdin=subprocess.DEVNULL, stdout=out,
                                   stderr=subprocess.STDOUT, cwd=room, env=dict(os.environ, HERCULES_RC=os.path.join(room, "commands")))
            start = time.monotonic()
            saved: Optional[float] = None
            while ran.poll() is None:
                time.sleep(0.02)
                with open(log, "rb") as text:
                    if b"Check-Stop" in text.read():
                        ran.kill()
                        ran.wait()
                        return "Hercules ended by a fault of its own"
                if saved is None and os.path.exists(os.path.join(room, "out")):
                    saved = time.monotonic()
                if time.monotonic() - start > self.seconds or saved and time.monotonic() - saved > 3:
                    ran.kill()
                    ran.wait()
                    return None if saved else "Hercules did not end"
        return "Hercules ended by signal %d" % -ran.returncode if ran.returncode < 0 else None

    @staticmethod
    def answer(vector: Optional[Vector], event: Event, data: bytes, timer: bytes = b"") -> str:
        """The answer's line of an event, from its entry. The interval timer runs: its bytes are shown as `timer`, that no clock has changed."""
        code, number, status, old, shown = metal.read_entry(data)
        at = TIMER - event.address
        if timer and -4 < at < len(shown):
            shown = shown[:max(at, 0)] + timer[max(-at, 0):] + shown[at + 4:]
        name = event.name
        text = status.hex().upper()
        csw = text[:8] + " " + text[8:]
        if name in ("SIO", "HIO"):
            return "%s %03X CC %d%s" % (name, event.unit, code, " " + text[8:12] if code == 1 else "")
        if name == "TIO":
            return "TIO %03X CC %d%s" % (event.unit, code, " " + csw if code == 1 else "")
        if name == "TCH":
            return "TCH CC %d" % code
        if name == "INT":
            return "INT %03X %s" % (int.from_bytes(old[2:4], "big"), csw) if number else "INT NONE"
        if name == "SHOW":
            return "SHOW %06X %s" % (event.address, shown[:event.number].hex().upper())
        return {"STORE": "STORE OK", "KEY": "KEY OK", "RESET": "RESET CLEAN", "ARRIVE": "ARRIVE %03X NO" % event.unit}.get(name, "%s 0" % name)
