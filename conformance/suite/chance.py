"""Lists by chance: volumes and decks that a seed makes, always the same ones."""
from __future__ import annotations

import random
from typing import Callable, Dict, List, Sequence, Tuple

from .decks import Event
from .program import CC, CD, PCI, SKIP, SLI
from .vectors import Vector
from .volumes import Record, Volume, address, read_slot

WORDS, DATA, SENSE_AT = 0x400, 0x1000, 0x700
SEARCHES = (0x31, 0x51, 0x71, 0xB1, 0x29, 0x49, 0x69, 0xA9, 0x39, 0xB9)
READS = (0x06, 0x0E, 0x1E, 0x12, 0x1A, 0x16, 0x02, 0x86, 0x8E, 0x9E, 0x92, 0x9A, 0x96)
WRITES = (0x05, 0x0D, 0x1D, 0x15, 0x19)
CONTROLS = (0x07, 0x0B, 0x1B, 0x13, 0x1F, 0x03, 0x04)
Words = List[bytes]
Operands = List[Tuple[int, bytes]]
Phrase = Callable[[Words, Operands, Volume, List[int]], None]


class Chance:
    """What a seed makes. With `plain` each program runs to its end and is asked for at once, and no bits ask for more; with
    `seek_first` each begins with a Seek; without `odd` every track is readable."""

    def __init__(self, seed: int, plain: bool = False, seek_first: bool = False, odd: bool = True) -> None:
        self.dice, self.plain, self.seek_first, self.odd = random.Random("list %d" % seed), plain, seek_first, odd
        self.seed = seed

    def vector(self) -> Vector:
        """The list, as a vector without answers."""
        units = self.addresses()
        made = {unit: self.volume() for unit in units}
        vector = Vector("seed-%d" % self.seed, "chance", volumes=[(unit, "made") for unit in units], made=made)
        events: List[Event] = []
        for _ in range(self.dice.randint(1, 3)):
            events += self.program(0x100 | self.dice.choice(units), made, units)
        vector.deck = "".join(it.line() + "\n" for it in events).encode("ascii")
        return vector

    def addresses(self) -> List[int]:
        """The low bytes of the units' addresses."""
        return self.dice.sample(range(0x80, 0xA0), self.dice.choice((1, 1, 2, 3)))

    # --- volumes ---

    def volume(self) -> Volume:
        volume = Volume.new(self.dice.choice(("2311", "2314")), self.dice.choice((1, 1, 2)))
        for cylinder in range(volume.cylinders):
            for head in self.dice.sample(range(volume.model.heads), 4) + [0, 1]:
                track = volume.track(cylinder, head)
                if track is None or len(track.records) > 1:
                    continue
                for number in range(1, self.dice.randint(1, 6)):
                    track.records.append(self.record(cylinder, head, number))
                volume.write(cylinder, head, track)
        if self.odd and self.dice.random() < 0.1:
            volume.slots[self.dice.randrange(len(volume.slots))] = bytes(5) + bytes([0, 0, 0, 0, 1, 0, 255, 255]).ljust(volume.slot_size - 5, b"\1")
        return volume

    def record(self, cylinder: int, head: int, number: int) -> Record:
        if self.dice.random() < 0.05:
            number = self.dice.randint(0, 9)
        key = self.some(self.dice.choice((1, 2, 4, 4))) if self.dice.random() < 0.5 else b""
        return Record(address(cylinder, head) + bytes([number]), key, self.some(self.dice.choice((0, 1, 8, 20, 40, 100))))

    def some(self, length: int) -> bytes:
        """So many bytes, few of them different, so that searches find something."""
        return bytes(self.dice.choice((0x00, 0x7F, 0xC1, 0xC1, 0xC2)) for _ in range(length))

    # --- programs ---

    def program(self, unit: int, made: Dict[int, Volume], units: List[int]) -> List[Event]:
        """A program's words and operands, its start, and what comes after it."""
        self.at = DATA
        volume = made[unit & 0xFF]
        where = [self.dice.randrange(volume.cylinders), self.dice.randrange(volume.model.heads)]
        words, operands = self.chain(volume, where)
        events = [Event("STORE", address=WORDS + 8 * at, data=word) for at, word in enumerate(words)]
        events += [Event("STORE", address=at, data=data) for at, data in operands if data]
        events += [Event("STORE", address=0x48, data=(self.key() << 28 | WORDS).to_bytes(4, "big")), Event("SIO", unit=unit)]
        events += [Event("STEP", number=65535), Event("INT")] if self.plain else self.turmoil(unit, units)
        return events + self.sense(unit)

    def key(self) -> int:
        """The key of a program."""
        return 0 if self.plain or self.dice.random() < 0.9 else self.dice.randint(1, 15)

    def sense(self, unit: int) -> List[Event]:
        """A Sense program, and what of storage may have changed."""
        shows = [Event("SHOW", address=at, number=32) for at in range(DATA, self.at, 0x80)]
        ask = [Event("STORE", address=SENSE_AT, data=bytes.fromhex("0400071000000006")), Event("STORE", address=0x48, data=SENSE_AT.to_bytes(4, "big"))]
        return shows + ask + [Event("SIO", unit=unit), Event("STEP", number=65535), Event("INT"), Event("SHOW", address=0x710, number=6)]

    def turmoil(self, unit: int, units: List[int]) -> List[Event]:
        """Events in any order while the program runs."""
        events: List[Event] = []
        for _ in range(self.dice.randint(0, 8)):
            other = 0x100 | self.dice.choice(units)
            steps = [Event("STEP", number=self.dice.choice((0, 1, 1, 2, 7, 20, 300))), Event("STEP", number=self.dice.randint(1, 60))]
            looks = [Event("TCH"), Event("INT"), Event("TIO", unit=other), Event("SIO", unit=other), Event("ARRIVE", unit=other)]
            changes = [Event("HIO", unit=other), Event("RESET"), Event("KEY", address=DATA, number=self.dice.randint(0, 3)),
                       Event("STORE", address=self.dice.randrange(WORDS, WORDS + 64, 8), data=b"\3")]
            events.append(self.dice.choice(self.dice.choice((steps, steps, looks, looks, changes) if self.dice.random() < 0.5 else (steps, looks))))
        return events + [Event("STEP", number=65535), Event("INT"), Event("ARRIVE", unit=unit), Event("INT"), Event("KEY", address=DATA, number=0)]

    def chain(self, volume: Volume, where: List[int]) -> Tuple[Words, Operands]:
        """Words of a chain, and operands by address."""
        words: Words = []
        operands: Operands = []
        if self.seek_first or self.dice.random() < 0.7:
            self.add(words, operands, 0x07, (bytes(2) + address(*where), 6), CC)
        if self.dice.random() < 0.5:
            self.add(words, operands, 0x1F, (bytes([self.dice.choice((0x00, 0x80, 0xC0, 0xC0, 0xC0, 0x18, 0xFF))]), 1), CC)
        for _ in range(self.dice.randint(1, 5)):
            phrases: Tuple[Phrase, ...] = (
                self.one_command, self.one_command, self.search, self.update, self.update, self.format, self.format, self.new_track)
            phrase = self.dice.choice(phrases)
            phrase(words, operands, volume, where)
        last = bytearray(words[-1])
        last[4] &= ~(CC | CD)
        words[-1] = bytes(last) if last[0] & 15 != 8 else words[-1]
        if last[0] & 15 == 8:
            words.append(bytes.fromhex("0300000020000001"))
        return words, operands

    def command(self, words: Words, operands: Operands, volume: Volume, where: List[int], code: int) -> None:
        self.add(words, operands, code, self.operand(code, volume, where), self.flags())

    def one_command(self, words: Words, operands: Operands, volume: Volume, where: List[int]) -> None:
        self.command(words, operands, volume, where, self.dice.choice((*SEARCHES, *READS, *WRITES, *CONTROLS)))

    def search(self, words: Words, operands: Operands, volume: Volume, where: List[int], codes: Sequence[int] = SEARCHES) -> None:
        """A search, and mostly a transfer back to it."""
        again = WORDS + 8 * len(words)
        self.command(words, operands, volume, where, self.dice.choice(codes))
        if self.dice.random() < 0.9:
            words.append(b"\x08" + again.to_bytes(3, "big") + bytes(4))

    def update(self, words: Words, operands: Operands, volume: Volume, where: List[int]) -> None:
        """A record is found, and its data, or key and data, written."""
        self.search(words, operands, volume, where, (0x31, 0x31, 0xB1, 0x29))
        self.command(words, operands, volume, where, self.dice.choice((0x05, 0x05, 0x0D)))

    def format(self, words: Words, operands: Operands, volume: Volume, where: List[int]) -> None:
        """A record is found, and one or more are written after it."""
        self.search(words, operands, volume, where, (0x31, 0x31, 0xB1, 0x29))
        for _ in range(self.dice.choice((1, 1, 2, 3))):
            self.command(words, operands, volume, where, 0x1D)

    def new_track(self, words: Words, operands: Operands, volume: Volume, where: List[int]) -> None:
        """The home address is written or found, and record 0 after it, and others."""
        self.command(words, operands, volume, where, self.dice.choice((0x19, 0x39)))
        for code in (0x15, 0x1D, 0x1D)[:self.dice.randint(0, 3)]:
            self.command(words, operands, volume, where, code)

    def add(self, words: Words, operands: Operands, code: int, operand: Tuple[bytes, int], flags: int) -> None:
        """A word with its operand's bytes, and its count, at the next place of its own."""
        data, length = operand
        words.append(bytes([code]) + self.at.to_bytes(3, "big") + bytes([flags, 0]) + length.to_bytes(2, "big"))
        operands.append((self.at, data[:128]))
        self.at += 0x80 * (1 + max(length, len(data)) // 0x80)

    def flags(self) -> int:
        flags = CC
        for flag, often in ((SLI, 0.7), (CD, 0.03), (SKIP, 0.03), (PCI, 0 if self.plain else 0.05)):
            flags |= flag if self.dice.random() < often else 0
        return flags

    def operand(self, code: int, volume: Volume, where: List[int]) -> Tuple[bytes, int]:
        """Bytes that a command takes, and its count, mostly right."""
        track = read_slot(volume.slots[volume.place(*where)])
        records = track.records if track else []
        record = self.dice.choice(records) if records else Record(address(*where) + b"\1", b"", b"")
        slip = self.dice.choice((0,) * 20 + (-1, 1, 9))
        low = code & 0x7F
        if low in (0x07, 0x0B, 0x1B):
            where[:] = [self.dice.randrange(volume.cylinders), self.dice.randrange(volume.model.heads)] if self.dice.random() < 0.9 else where
            data = bytes(2) + address(*where) if self.dice.random() < 0.95 else self.some(6)
        elif low in (0x31, 0x51, 0x71):
            data = record.identifier
        elif low in (0x29, 0x49, 0x69):
            data = record.key or self.some(4)
        elif low == 0x39:
            data = address(*where)
        elif low == 0x1F:
            data = bytes([self.dice.choice((0x00, 0x40, 0x80, 0xC0, 0xC0, 0xD8, 0x18, 0xFF))])
        elif low == 0x19:
            data = b"\0" + address(*where)
        elif low in (0x1D, 0x15):
            data = self.new_record(where, low)
        elif low in (0x05, 0x0D):
            data = self.some(len(record.data) + (len(record.key) if low == 0x0D else 0))
        else:
            return b"", max(1, self.dice.choice((5, 6, 8, len(record.data), 8 + len(record.key) + len(record.data), 100)) + slip)
        return data, max(1, len(data) + slip)

    def new_record(self, where: List[int], low: int) -> bytes:
        """Count, key and data of a record to be formatted; now and then one that is too long."""
        record = self.record(where[0], where[1], 0 if low == 0x15 else self.dice.randint(1, 9))
        if self.dice.random() < 0.1:
            record.data = self.some(100)
            return record.count()[:6] + (7000).to_bytes(2, "big") + record.key + record.data
        return record.spelled()
