"""The model's channel with its drives and its storage: what each event of a deck does and answers.

Rules: IBM System/360 Principles of Operation (GA22-6821), input/output instructions and interruptions.
"""
from __future__ import annotations

from typing import Iterable, NamedTuple, Optional, Tuple

from .decks import Event
from .drive import BUSY, DEVICE_END, Drive, Profile
from .program import PCI_STATUS, Csw, Program, Storage
from .volumes import Volume

FREE, MOVING, ARRIVED = "free", "moving", "arrived"
# a program that has not ended then runs for ever
MOST_UNITS = 1 << 17


class Unit:
    def __init__(self, volume: Volume, profile: Profile) -> None:
        self.drive, self.arm = Drive(volume, profile), FREE


class ByItself(NamedTuple):
    """What a machine does without an event, as an emulator that has neither units nor arrivals: a program runs to its end, at its 'start' or
    at the next 'step', which `clock` says; and with `arms` an arm arrives as it begins to move."""

    clock: Optional[str] = None
    arms: bool = False


class Machine:
    """A channel. `volumes` are pairs of a unit's low byte and its volume, which is changed in place.
    """

    def __init__(self, channel: int, storage: int, volumes: Iterable[Tuple[int, Volume]], profile: Optional[Profile] = None,
                 by_itself: ByItself = ByItself()) -> None:
        self.number, self.storage = channel, Storage(storage)
        self.profile = profile or Profile()
        self.units = {unit: Unit(volume, self.profile) for unit, volume in volumes}
        self.program: Optional[Program] = None
        self.working: Optional[int] = None
        self.pending: Optional[Tuple[int, Csw]] = None
        self.by_itself, self.runs_for_ever = by_itself, False

    def unit_of(self, address: int) -> Optional[Unit]:
        """The unit at an address; None where it is not attached."""
        return self.units.get(address & 0xFF)

    def is_here(self, address: int) -> bool:
        return address >> 8 == self.number

    def store_status(self, unit: int, channel: int) -> str:
        self.storage.bytes[0x44:0x46] = bytes([unit, channel])
        return "%02X%02X" % (unit, channel)

    def store_csw(self, csw: Csw) -> str:
        self.storage.bytes[0x40:0x48] = csw.to_bytes()
        text = csw.to_bytes().hex().upper()
        return text[:8] + " " + text[8:]

    def play(self, event: Event) -> str:
        """Does an event, and returns its answer's line."""
        return str(getattr(self, "do_" + event.name.lower())(event))

    # --- instructions ---

    def do_sio(self, event: Event) -> str:
        return "SIO %03X CC %s" % (event.unit, self.start(event.unit))

    def start(self, address: int) -> str:
        unit = self.unit_of(address)
        if not self.is_here(address):
            return "3"
        if self.working is not None or self.pending:
            return "2"
        if unit is None:
            return "3"
        if unit.arm == MOVING:
            return "1 " + self.store_status(BUSY, 0)
        if unit.arm == ARRIVED:
            unit.arm = FREE
            return "1 " + self.store_status(BUSY | DEVICE_END, 0)
        program = Program(self.storage, unit.drive)
        if program.started == "bad":
            return "1 " + self.store_status(0, 0x20)
        if program.started == "rejected":
            return "1 " + self.store_status(2, PCI_STATUS if program.marked and not unit.drive.profile.no_pci_on_rejection else 0)
        if program.started == "immediate" and program.ending:
            self.leave(unit, program)
            return "1 " + self.store_status(program.ending.unit, program.ending.channel)
        self.program, self.working = program, address & 0xFF
        if self.by_itself.clock == "start":
            self.advance(MOST_UNITS)
        return "0"

    def leave(self, unit: Unit, program: Program) -> None:
        """What a program that is over leaves of its unit's arm."""
        unit.arm = (ARRIVED if self.by_itself.arms else MOVING) if program.motion else FREE

    def do_tio(self, event: Event) -> str:
        return "TIO %03X CC %s" % (event.unit, self.test(event.unit))

    def test(self, address: int) -> str:
        unit = self.unit_of(address)
        if not self.is_here(address):
            return "3"
        if self.working is not None:
            return "2"
        if self.pending:
            if self.pending[0] != address & 0xFF:
                return "2"
            csw, self.pending = self.pending[1], None
            return "1 " + self.store_csw(csw)
        if unit is None:
            return "3"
        if unit.arm == MOVING:
            return "1 " + self.store_csw(Csw(unit=BUSY))
        if unit.arm == ARRIVED:
            unit.arm = FREE
            return "1 " + self.store_csw(Csw(unit=DEVICE_END))
        return "0"

    def do_hio(self, event: Event) -> str:
        return "HIO %03X CC %s" % (event.unit, self.halt(event.unit))

    def halt(self, address: int) -> str:
        if not self.is_here(address):
            return "3"
        if self.working is not None:
            self.cut(pends=True)
            return "2"
        if self.pending:
            return "0"
        return "3" if self.unit_of(address) is None else "1 " + self.store_status(0, 0)

    def cut(self, pends: bool) -> None:
        self.running()[1].cut()
        self.over(pends)

    def running(self) -> Tuple[int, Program]:
        """The unit whose program runs, and the program."""
        if self.working is None or self.program is None:
            raise ValueError("no program runs")
        return self.working, self.program

    def over(self, pends: bool = True) -> None:
        """The program is over: its ending pends, or is lost."""
        number, program = self.running()
        self.leave(self.units[number], program)
        self.pending = (number, program.ending or Csw()) if pends else None
        self.program = self.working = None

    def do_tch(self, event: Event) -> str:
        return "TCH CC %d" % (2 if self.working is not None else 1 if self.pending else 0)

    # --- beside them ---

    def do_step(self, event: Event) -> str:
        return "%s %d" % (event.name, self.advance(event.number))

    do_run = do_step

    def advance(self, number: int) -> int:
        done = 0
        limit = MOST_UNITS if self.by_itself.clock else number
        while self.working is not None and done < limit:
            program = self.running()[1]
            program.unit()
            done += 1
            if program.ending:
                self.over()
        self.runs_for_ever = self.runs_for_ever or bool(self.by_itself.clock) and self.working is not None
        return done

    def do_arrive(self, event: Event) -> str:
        unit = self.unit_of(event.unit) if self.is_here(event.unit) else None
        if unit is None or unit.arm != MOVING:
            return "ARRIVE %03X NO" % event.unit
        unit.arm = ARRIVED
        return "ARRIVE %03X YES" % event.unit

    def do_int(self, event: Event) -> str:
        if self.working is not None:
            csw = self.running()[1].take_mark()
            return "INT NONE" if csw is None else self.interruption(self.working, csw)
        if self.pending:
            (unit, csw), self.pending = self.pending, None
            return self.interruption(unit, csw)
        for address in sorted(self.units, reverse=not self.profile.device_ends_by_address):
            if self.units[address].arm == ARRIVED:
                self.units[address].arm = FREE
                return self.interruption(address, Csw(unit=DEVICE_END))
        return "INT NONE"

    def interruption(self, unit: int, csw: Csw) -> str:
        return "INT %03X %s" % (self.number << 8 | unit, self.store_csw(csw))

    def do_reset(self, event: Optional[Event] = None) -> str:
        if self.working is not None:
            self.cut(pends=False)
        self.pending = None
        for unit in self.units.values():
            unit.arm, unit.drive.sense = FREE, 0
        return "RESET CLEAN"

    def do_store(self, event: Event) -> str:
        if not self.storage.holds(event.address, len(event.data)):
            return "STORE OUTSIDE"
        self.storage.bytes[event.address:event.address + len(event.data)] = event.data
        return "STORE OK"

    def do_key(self, event: Event) -> str:
        if not self.storage.holds(event.address):
            return "KEY OUTSIDE"
        self.storage.keys[event.address // 2048] = event.number
        return "KEY OK"

    def do_show(self, event: Event) -> str:
        if not self.storage.holds(event.address, event.number):
            return "SHOW OUTSIDE"
        return "SHOW %06X %s" % (event.address, self.storage.bytes[event.address:event.address + event.number].hex().upper())
