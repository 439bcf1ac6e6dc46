"""A running channel program of the model, unit by unit.

A unit is the fetch of a channel command word, an index that passes, a byte that moves, or the end of a command. Rules: IBM
System/360 Principles of Operation (GA22-6821), input/output operations.
"""
from __future__ import annotations

from dataclasses import dataclass
from typing import Optional

from .drive import CHANNEL_END, DEVICE_END, IMMEDIATE, MODIFIER, UNIT_CHECK, UNIT_EXCEPTION, Drive, Ending

CD, CC, SLI, SKIP, PCI = 0x80, 0x40, 0x20, 0x10, 0x08
PROGRAM_CHECK, PROTECTION_CHECK, INCORRECT_LENGTH, PCI_STATUS = 0x20, 0x10, 0x40, 0x80


@dataclass
class Csw:
    key: int = 0
    address: int = 0
    unit: int = 0
    channel: int = 0
    count: int = 0

    def to_bytes(self) -> bytes:
        return bytes([self.key << 4]) + (self.address % (1 << 24)).to_bytes(3, "big") + bytes([self.unit, self.channel]) + self.count.to_bytes(2, "big")


class Storage:
    """Main storage: bytes, and a key for each block of 2,048."""

    def __init__(self, size: int) -> None:
        self.bytes, self.keys = bytearray(size), bytearray(size // 2048)

    def holds(self, at: int, length: int = 1) -> bool:
        return at + length <= len(self.bytes)

    def fault(self, at: int, key: int, storing: bool) -> int:
        """Why a byte may not move: the channel status bit of the check, or 0."""
        if not self.holds(at):
            return PROGRAM_CHECK
        return PROTECTION_CHECK if storing and key and self.keys[at // 2048] != key else 0


class Program:
    """A program that was started. `started` says what Start I/O made of it: 'bad', 'rejected', 'immediate' or 'accepted'."""

    def __init__(self, storage: Storage, drive: Drive) -> None:
        self.storage, self.drive, self.profile = storage, drive, drive.profile
        word = storage.bytes[0x48:0x4C]
        self.key, self.next = word[0] >> 4, int.from_bytes(word[1:4], "big")
        self.last, self.code, self.flags, self.data, self.left = self.next, 0, 0, 0, 0
        self.open, self.was_transfer, self.marked, self.skips = False, False, False, False
        self.ending: Optional[Csw] = None
        self.motion = False
        drive.begin_program()
        self.started = "bad" if word[0] & 15 or self.next & 7 else self.start()

    def start(self) -> str:
        if self.fetch_fault(first=True):
            return "bad"
        begun = self.take_word()
        if begun == "rejected":
            return "rejected"
        if begun == "immediate" and not self.chains():
            ending = self.drive.close()
            self.end(ending.status, 0, ending.motion)
            return "immediate"
        return "accepted"

    # --- fetch ---

    def fetch_fault(self, first: bool = False, chained_data: bool = False) -> bool:
        """Fetches the next word into `word`; whether that is a program check."""
        self.last = self.next
        if self.next & 7 or not self.storage.holds(self.next, 8):
            return True
        self.word = bytes(self.storage.bytes[self.next:self.next + 8])
        if self.word[0] & 15 == 8:
            return first or self.was_transfer
        count, low = int.from_bytes(self.word[6:8], "big"), self.word[0] & 15
        if count == 0 or self.word[4] & 7 or low == 0 and not chained_data:
            if not self.profile.residual_at_checks:
                self.left = count
            return True
        return False

    def take_word(self) -> str:
        """Takes the word that was fetched, and begins its command where none is open: 'rejected', 'immediate', 'started', 'data'."""
        word = self.word
        self.next += 8
        self.was_transfer = False
        self.code, self.data, self.flags, self.left = word[0], int.from_bytes(word[1:4], "big"), word[4], int.from_bytes(word[6:8], "big")
        self.marked = self.marked or bool(self.flags & PCI)
        if self.open:
            return "data"
        begun = self.drive.begin(self.code)
        self.open = begun == "started"
        return begun

    def chains(self) -> bool:
        """Whether the word asks for command chaining."""
        if self.flags & CD and self.drive.name in IMMEDIATE and not self.profile.immediate_data_chain:
            return bool(self.flags & CC)
        return self.flags & (CC | CD) == CC

    def fetch(self) -> None:
        if self.fetch_fault(chained_data=self.open):
            ending = self.drive.close() if self.open else Ending(CHANNEL_END | DEVICE_END)
            return self.end(ending.status, PROGRAM_CHECK, ending.motion)
        if self.word[0] & 15 == 8:
            self.next, self.was_transfer = int.from_bytes(self.word[1:4], "big"), True
            return
        begun = self.take_word()
        if begun == "rejected":
            self.end((CHANNEL_END | DEVICE_END if self.profile.rejection_ends else 0) | UNIT_CHECK, 0)
        elif begun == "immediate":
            ending = self.drive.close()
            if not self.chains():
                self.end(ending.status, 0, ending.motion)
        elif not self.profile.bytes_one_by_one:
            self.check_area()

    def check_area(self) -> None:
        """The other choice of a profile: the whole area is looked at as its word is fetched."""
        storing = self.drive.gives() is not None if self.drive.kind() is None else self.drive.name.startswith("read")
        if self.flags & SKIP and storing:
            return
        for at in range(self.data, self.data + self.left):
            fault = self.storage.fault(at, self.key, storing)
            if fault:
                return self.end(self.drive.close().status if self.drive.found else CHANNEL_END | DEVICE_END, fault)

    # --- units ---

    def needs_word(self) -> bool:
        if not self.open or self.was_transfer:
            return True
        if self.flags & CD and self.left == 0:
            return self.profile.data_chain_at_once or len(self.drive.moved) < self.drive.length()
        return False

    def unit(self) -> None:
        """Does one unit."""
        drive = self.drive
        if self.needs_word():
            return self.fetch()
        looked = drive.look()
        if looked == "passed":
            return
        if looked == "ended":
            return self.end(CHANNEL_END | DEVICE_END | UNIT_CHECK, self.length_of_check())
        if self.left and len(drive.moved) < drive.length():
            return self.move_byte()
        self.end_command()

    def length_of_check(self) -> int:
        return 0 if self.profile.length_not_with_check else INCORRECT_LENGTH

    def move_byte(self) -> None:
        given = self.drive.gives()
        if not (given is not None and self.flags & SKIP):
            fault = self.storage.fault(self.data, self.key, given is not None)
            if fault:
                return self.end(self.drive.close().status, fault)
            if given is not None:
                self.storage.bytes[self.data] = given[len(self.drive.moved)]
        self.drive.moved.append(given[len(self.drive.moved)] if given is not None else self.storage.bytes[self.data])
        self.data, self.left = self.data + 1, self.left - 1

    def end_command(self) -> None:
        moved, length = len(self.drive.moved), self.drive.length()
        ending = self.drive.close()
        self.open = False
        wrong = moved == length and self.left > 0 or self.left == 0 and moved < length
        if ending.status & UNIT_CHECK and self.profile.length_not_with_check or self.flags & SLI and not self.flags & CD:
            wrong = False
        if self.flags & (CC | CD) == CC and not wrong and not ending.status & (UNIT_CHECK | UNIT_EXCEPTION):
            self.next += 8 if ending.status & MODIFIER else 0
            return
        self.end(ending.status, INCORRECT_LENGTH if wrong else 0, ending.motion)

    def end(self, status: int, channel: int, motion: bool = False) -> None:
        """Ends the program: its channel status word is in `ending`, and whether the arm moves in `motion`."""
        channel |= PCI_STATUS if self.marked else 0
        if motion and status & (UNIT_CHECK | DEVICE_END):
            motion = False
        self.marked, self.motion, self.open = False, motion, False
        self.ending = self.now(status, channel)

    def now(self, unit: int, channel: int) -> Csw:
        """The channel status word as it stands."""
        return Csw(self.key, self.last + 8, unit, channel, self.left)

    def cut(self) -> None:
        """Closes what is open as if its count had run out, and ends the program."""
        if self.open and (self.drive.moved or not self.profile.cut_looks_no_further and self.drive.look() == "found"):
            ending = self.drive.close()
            return self.end(ending.status, 0, ending.motion)
        self.end(CHANNEL_END | DEVICE_END, 0)

    def take_mark(self) -> Optional[Csw]:
        """The channel status word of a program-controlled interruption; None where none is asked for."""
        if self.marked:
            self.marked = False
            return self.now(0, PCI_STATUS)
        return None
