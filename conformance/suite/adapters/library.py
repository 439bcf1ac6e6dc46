"""The C library by ctypes, through the repository's Python module `dasd`, in this very process.

The module is looked for in `python/` of the repository, then where Python looks. A file that is named is the library that it loads.
"""
from __future__ import annotations

import importlib
import os
import sys
from typing import Any, Callable, Dict, Optional, Sequence

from ..decks import DeckFault, Event, parse
from ..vectors import HERE, Outcome, Vector
from ..volumes import BadImage, Volume
from . import Emulator

# Each so many bytes of main storage have a key.
BLOCK = 2048
MODULE = os.path.join(os.path.dirname(HERE), "python")


def load(file: Optional[str]) -> Any:
    """The module over a library."""
    if file:
        os.environ["DASD_LIBRARY"] = os.path.abspath(file)
    folder = os.environ.get("DASD_PYTHON", MODULE)
    if os.path.isdir(folder) and folder not in sys.path:
        sys.path.insert(0, folder)
    try:
        return importlib.import_module("dasd")
    except ImportError as why:
        raise ValueError("the Python module dasd: %s" % why) from None


class LibraryEmulator(Emulator):
    lacks = frozenset(["decks"])

    def __init__(self, file: Optional[str] = None) -> None:
        self.dasd = load(file)
        self.name = "libdasd %s" % ".".join(map(str, self.dasd.library_version()))
        self.subsystem = self.dasd.Subsystem

    def play(self, vector: Vector) -> Outcome:
        try:
            events = parse(vector.deck)
        except DeckFault as fault:
            return Outcome(fault=str(fault), after=vector.before())
        try:
            with self.subsystem(vector.storage, vector.channel) as channels:
                return self.play_at(channels, vector, events)
        except self.dasd.Fault as fault:
            return Outcome(broke="the library refuses a call: %s" % fault)

    def play_at(self, channels: Any, vector: Vector, events: Sequence[Event]) -> Outcome:
        counts: Dict[int, int] = {}
        for unit, volume in vector.before().items():
            channels.attach(vector.channel << 8 | unit, *volume.files())
            counts[unit] = len(volume.tracks_in)
        player, answers = Player(self.dasd, channels, vector.channel), []
        for event in events:
            answers.append(getattr(player, event.name.lower())(event))
            player.channels = self.behind_event(player.channels, vector)
        with player.channels as last:
            last.reset(vector.channel)
            try:
                after = {unit: Volume.read([last.file(vector.channel << 8 | unit, at)[0] for at in range(number)]) for unit, number in counts.items()}
            except BadImage as why:
                return Outcome(broke="an image is spoilt: %s" % why)
        return Outcome(answers, None, after)

    def behind_event(self, channels: Any, vector: Vector) -> Any:
        """What goes on after an event: the same channels."""
        return channels


class CopiedEmulator(LibraryEmulator):
    """The library, whose channels are copied after each event and closed, and the copy goes on."""

    def __init__(self, file: Optional[str] = None) -> None:
        super().__init__(file)
        self.name += ", a copy behind each event"

    def behind_event(self, channels: Any, vector: Vector) -> Any:
        with channels:
            return channels.copy()


class RestoredEmulator(LibraryEmulator):
    """The library, whose channels are saved after each event after which no program runs, and closed. New channels go on, over main
    storage and volumes with the same bytes, to which the saved state is restored."""

    def __init__(self, file: Optional[str] = None) -> None:
        super().__init__(file)
        self.name += ", saved and restored between programs"

    def behind_event(self, channels: Any, vector: Vector) -> Any:
        try:
            saved = channels.save()
        except self.dasd.Fault as fault:
            if fault.name != "PROGRAM_RUNS":
                raise
            return channels
        with channels:
            second = self.subsystem(vector.storage, vector.channel)
            second.poke(0, channels.peek(0, vector.storage))
            for at in range(0, vector.storage, BLOCK):
                second.set_key(at, channels.key(at))
            for unit, volume in vector.before().items():
                address = vector.channel << 8 | unit
                second.attach(address, *(bytes(channels.file(address, at)[0]) for at in range(len(volume.tracks_in))))
        second.restore(saved)
        return second


class Player:
    """An event's call, and its answer's line."""

    def __init__(self, dasd: Any, channels: Any, number: int) -> None:
        self.dasd, self.channels, self.number = dasd, channels, number

    def csw(self) -> str:
        text: str = self.channels.peek(0x40, 8).hex().upper()
        return text[:8] + " " + text[8:]

    def code(self, name: str, unit: int, code: int, status: str) -> str:
        return "%s %03X CC %d%s" % (name, unit, code, " " + status if code == 1 else "")

    def sio(self, event: Event) -> str:
        code = self.channels.sio(event.unit)
        return self.code("SIO", event.unit, code, self.csw()[9:13])

    def hio(self, event: Event) -> str:
        code = self.channels.hio(event.unit)
        return self.code("HIO", event.unit, code, self.csw()[9:13])

    def tio(self, event: Event) -> str:
        code = self.channels.tio(event.unit)
        return self.code("TIO", event.unit, code, self.csw())

    def tch(self, event: Event) -> str:
        return "TCH CC %d" % self.channels.tch(self.number << 8)

    def step(self, event: Event) -> str:
        return "%s %d" % (event.name, self.channels.step(self.number, event.number))

    run = step

    def arrive(self, event: Event) -> str:
        return "ARRIVE %03X %s" % (event.unit, "YES" if self.channels.arrive(event.unit) else "NO")

    def int(self, event: Event) -> str:
        address = self.channels.interrupt(0x80 >> self.number)
        return "INT NONE" if address is None else "INT %03X %s" % (address, self.csw())

    def reset(self, event: Event) -> str:
        unsaved = self.channels.reset(self.number)
        return "RESET CLEAN" if unsaved is None else "RESET UNSAVED %03X %04X %04X" % unsaved

    def store(self, event: Event) -> str:
        return "STORE " + self.inside(lambda: self.channels.poke(event.address, event.data))

    def key(self, event: Event) -> str:
        return "KEY " + self.inside(lambda: self.channels.set_key(event.address, event.number))

    def inside(self, call: Callable[[], object]) -> str:
        try:
            call()
        except self.dasd.Fault as fault:
            if fault.name != "OUTSIDE_STORAGE":
                raise
            return "OUTSIDE"
        return "OK"

    def show(self, event: Event) -> str:
        try:
            return "SHOW %06X %s" % (event.address, self.channels.peek(event.address, event.number).hex().upper())
        except self.dasd.Fault:
            return "SHOW OUTSIDE"
