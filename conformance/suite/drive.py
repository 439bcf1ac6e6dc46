"""A drive of the model: what each command makes of the drive and of the track under the arm.

The rules are those of the component descriptions of the 2841 with the 2311 (GA26-5988) and of the 2314 (GA26-3599), and of this
suite's profile where they leave a choice. It is written to be read and to be broken on purpose, not to be fast.
"""
from __future__ import annotations

from dataclasses import dataclass, replace
from typing import List, Optional, Sequence, Tuple

from .volumes import Record, Track, Volume, address

# a record and a part of it
Place = Tuple[int, int]
# a kind and a record
Credit = Optional[Tuple[str, Optional[int]]]

CHANNEL_END, DEVICE_END, UNIT_CHECK, UNIT_EXCEPTION, MODIFIER, BUSY = 0x08, 0x04, 0x02, 0x01, 0x40, 0x10

# code: name, and whether the code plus 80 is the same command with the multi-track bit
COMMANDS = {
    0x03: ("no-operation", False), 0x13: ("recalibrate", False), 0x07: ("seek", False), 0x0B: ("seek-cylinder", False),
    0x1B: ("seek-head", False), 0x1F: ("set-file-mask", False), 0x04: ("sense", False), 0x02: ("read-ipl", False),
    0x39: ("search-ha", True), 0x31: ("search-id-equal", True), 0x51: ("search-id-high", True), 0x71: ("search-id-equal-or-high", True),
    0x29: ("search-key-equal", True), 0x49: ("search-key-high", True), 0x69: ("search-key-equal-or-high", True),
    0x1A: ("read-ha", True), 0x16: ("read-r0", True), 0x12: ("read-count", True), 0x06: ("read-data", True),
    0x0E: ("read-key-and-data", True), 0x1E: ("read-ckd", True), 0x19: ("write-ha", False), 0x15: ("write-r0", False),
    0x1D: ("write-ckd", False), 0x05: ("write-data", False), 0x0D: ("write-key-and-data", False),
}
SEEKS = ("seek", "seek-cylinder", "seek-head")
IMMEDIATE = ("no-operation", "recalibrate")
# what a command looks for
LOOKS = {
    "search-ha": "home", "read-ha": "home", "write-ha": "home", "search-id": "count", "search-key": "key", "read-ipl": "data", "read-r0": "r0",
    "read-count": "later count", "read-data": "data", "read-key-and-data": "key and data", "read-ckd": "later count",
}
# what a read gives
READS = {"read-ha": (), "read-r0": ("count", "key", "data"), "read-count": ("count",), "read-data": ("data",), "read-ipl": ("data",),
         "read-key-and-data": ("key", "data"), "read-ckd": ("count", "key", "data")}
# the file mask: which writes, by bits C0, and which seeks, by bits 18, are not allowed
NO_WRITE = {0x00: ("write-ha", "write-r0"), 0x40: ("write-ha", "write-r0", "write-ckd", "write-data", "write-key-and-data"),
            0x80: ("write-ha", "write-r0", "write-ckd"), 0xC0: ()}
NO_SEEK = {0x00: (), 0x08: ("seek", "recalibrate", "read-ipl"), 0x10: ("seek", "seek-cylinder", "recalibrate", "read-ipl"),
           0x18: SEEKS + ("recalibrate", "read-ipl")}
# a position or an area is a record and a part of it: 0 its count, 1 its key, 2 its data
INDEX = (-1, 0)
HOME = (-1, 1)
# sense bytes 0 and 1 after each cause
SENSE = {
    "invalid command": 0x8000, "write not allowed": 0x8004, "seek not allowed": 0x0004, "out of sequence": 0x8010,
    "head change not allowed": 0x0004, "no record found": 0x0008, "end of cylinder": 0x0020, "unreadable track": 0x0802,
    "seek cut short": 0x8000, "cut short": 0x8000, "bad home address": 0x8000, "seek check": 0x8100, "does not fit": 0x0040,
}
# the other way of the choices about them: where two bits go together the second alone, and where one stands alone another beside it
SECOND_ALONE = {"write not allowed": 0x0004, "out of sequence": 0x0010, "unreadable track": 0x0002, "seek check": 0x0100}
ANOTHER_BESIDE = {"seek not allowed": 0x8004, "head change not allowed": 0x8004, "no record found": 0x000A, "seek cut short": 0x8100}


@dataclass
class Profile:
    """The choices of the suite's profile. Each is a way that the model can be told to go otherwise; FORMAT.md has them."""
    sense_bits: bool = True
    sense_alone: bool = True
    sense_is_cleared: bool = True
    mask_ignores_bits: bool = True
    mask_holds_recalibrate: bool = True
    seek_head_alone: bool = True
    own_home_address: bool = True
    write_credit: bool = True
    charges: bool = True
    laps_over_searches: bool = True
    cut_looks_no_further: bool = True
    bytes_one_by_one: bool = True
    residual_at_checks: bool = True
    rejection_ends: bool = True
    immediate_data_chain: bool = True
    data_chain_at_once: bool = True
    length_not_with_check: bool = True
    no_pci_on_rejection: bool = True
    device_ends_by_address: bool = True
    zeros_behind: bool = True

    def without(self, name: str) -> Profile:
        return replace(self, **{name: False})


@dataclass
class Ending:
    """What a command comes to: unit status, and whether the arm is left moving."""
    status: int
    motion: bool = False


class Drive:
    def __init__(self, volume: Volume, profile: Optional[Profile] = None) -> None:
        self.volume, self.profile = volume, profile or Profile()
        self.cylinder = self.head = 0
        self.sense = 0
        self.read_last: Tuple[Optional[bytes], Optional[Track]] = (None, None)
        # the command: its name, with none where none is open; what passed of it, the area that it found, and what it gives
        self.name, self.multi_track, self.moved = "", False, bytearray()
        self.found: Optional[Place] = None
        self.given: Optional[bytes] = None
        self.credit: Credit = None
        self.used: Credit = None
        self.begin_program()

    # --- state over a program ---

    def begin_program(self) -> None:
        self.position, self.mask, self.mask_set, self.credit, self.laps = INDEX, 0, False, None, 0
        self.name = ""

    def track(self) -> Optional[Track]:
        """The track under the arm; None where it can't be read. It is read again only where the slot is another."""
        slot = self.volume.slots[self.volume.place(self.cylinder, self.head)]
        if self.read_last[0] is not slot:
            self.read_last = (slot, self.volume.track(self.cylinder, self.head))
        return self.read_last[1]

    def readable(self) -> Track:
        """The track under the arm, where it must be one that can be read."""
        track = self.track()
        if track is None:
            raise ValueError("the track can't be read")
        return track

    def area_found(self) -> Place:
        """The area that was found, where there must be one."""
        if self.found is None:
            raise ValueError("no area is found")
        return self.found

    def tell(self, cause: str) -> None:
        bits = SENSE[cause]
        if not self.profile.sense_bits:
            bits = SECOND_ALONE.get(cause, bits)
        if not self.profile.sense_alone:
            bits = ANOTHER_BESIDE.get(cause, bits)
        self.sense |= bits

    def sense_bytes(self) -> bytes:
        return self.sense.to_bytes(2, "big") + bytes(4)

    # --- begin ---

    def begin(self, code: int) -> str:
        """'rejected', 'immediate' or 'started'."""
        low = code & 0x7F
        known = COMMANDS.get(code) or (COMMANDS[low] if code > 0x7F and COMMANDS.get(low, ("", False))[1] else None)
        self.name, self.multi_track, self.moved, self.found, self.given = known[0] if known else "", code > 0x7F, bytearray(), None, None
        credit, self.credit, self.used = self.credit, None, self.credit
        if self.name != "sense" and (self.profile.sense_is_cleared or self.name not in ("no-operation", "set-file-mask")):
            self.sense = 0
        cause = self.refusal(credit)
        if cause:
            self.tell(cause)
            return "rejected"
        if not self.name.startswith("search") and self.profile.laps_over_searches:
            self.laps = 0
        if self.name in ("recalibrate", "read-ipl"):
            self.move(0, 0)
        return "immediate" if self.name in IMMEDIATE else "started"

    def refusal(self, credit: Credit) -> Optional[str]:
        """Why the command is refused as it begins: the first cause in this order; None where it is not."""
        if not self.name:
            return "invalid command"
        if self.name in NO_WRITE[self.mask & 0xC0]:
            return "write not allowed"
        if self.name in NO_SEEK[self.mask & 0x18]:
            if self.profile.mask_holds_recalibrate or self.name in SEEKS:
                return "seek not allowed"
        if self.name == "set-file-mask" and self.mask_set:
            return "out of sequence"
        if self.profile.write_credit and not self.has_credit(credit):
            return "out of sequence"
        return None

    def has_credit(self, credit: Credit) -> bool:
        """Whether the command before it lets a write go on. A credit is a kind and a record."""
        kind = credit[0] if credit else None
        if self.name == "write-r0":
            return kind in ("equal home", "wrote home")
        if self.name == "write-ckd":
            return kind in ("equal id", "equal key", "wrote record")
        if self.name == "write-data":
            return kind in ("equal id", "equal key")
        if self.name == "write-key-and-data":
            return kind == "equal id"
        return True

    def move(self, cylinder: int, head: int) -> None:
        self.cylinder, self.head, self.position, self.laps = cylinder, head, INDEX, 0

    # --- look ---

    def kind(self) -> Optional[str]:
        """What the command looks for; None where it looks for nothing."""
        name = self.name
        if name.startswith("search-id"):
            name = "search-id"
        if name.startswith("search-key"):
            name = "search-key"
        return LOOKS.get(name)

    def look(self) -> str:
        """'found', 'passed' or 'ended', with the ending noted. Commands that look for nothing have found it."""
        kind = self.kind()
        if kind is None or self.found is not None:
            return "found"
        track = self.track()
        if track is None and self.name != "write-ha":
            return self.fail("unreadable track")
        at = self.area(kind, track)
        if at is not None:
            self.found = at
            return "found"
        return self.pass_index()

    def area(self, kind: str, track: Optional[Track]) -> Optional[Place]:
        """The next area of a kind after the position; None where there is none on this turn."""
        if kind == "home":
            return HOME if self.position == INDEX else None
        records, (at, part) = track.records if track else [], self.position
        later = range(max(at + 1, 1), len(records))
        if kind == "r0":
            return (0, 0) if records and at < 0 else None
        if kind == "count":
            return next(((i, 0) for i in range(at + 1, len(records))), None)
        if kind == "later count":
            return next(((i, 0) for i in later), None)
        here = at if at >= 0 and part == 0 else None
        if kind == "key":
            if here is not None and records[here].key:
                return (here, 1)
            return next(((i, 1) for i in later if records[i].key), None)
        if kind == "key and data":
            if here is not None:
                return (here, 1)
            return next(((i, 1) for i in later), None)
        if at >= 0 and part < 2:
            return (at, 2)
        return next(((i, 2) for i in later), None)

    def pass_index(self) -> str:
        self.position = INDEX
        if self.multi_track:
            if self.mask & 0x18 == 0x18:
                return self.fail("head change not allowed")
            if self.head + 1 == self.volume.model.heads:
                return self.fail("end of cylinder")
            self.move(self.cylinder, self.head + 1)
            return "passed"
        self.laps += 1
        return self.fail("no record found") if self.laps >= 2 else "passed"

    def fail(self, cause: str) -> str:
        self.tell(cause)
        self.name = ""
        return "ended"

    # --- bytes ---

    def bytes_of(self, parts: Sequence[str]) -> bytes:
        """The bytes of the area that was found."""
        if self.found == HOME:
            track = self.track()
            return track.home if track else bytes(5)
        record = self.readable().records[self.area_found()[0]]
        return b"".join({"count": record.count(), "key": record.key, "data": record.data, "id": record.identifier}[it] for it in parts)

    def gives(self) -> Optional[bytes]:
        """The bytes that a read or Sense gives, once they are found; None for a command that takes bytes."""
        if self.name not in ("sense", *READS):
            return None
        if self.given is None:
            self.given = self.sense_bytes() if self.name == "sense" else self.bytes_of(READS[self.name])
        return self.given

    def length(self) -> int:
        """How many bytes the command has or wants in all, by those that moved."""
        name = self.name
        given = self.gives()
        if given is not None:
            return len(given)
        if name in SEEKS:
            return 6
        if name == "set-file-mask":
            return 1
        if name == "search-ha":
            return 4
        if name.startswith("search"):
            return len(self.bytes_of(("id",) if "-id-" in name else ("key",)))
        if name == "write-ha":
            return 5
        if name in ("write-data", "write-key-and-data"):
            record = self.readable().records[self.credited()]
            return len(record.data) + (len(record.key) if name == "write-key-and-data" else 0)
        if len(self.moved) < 8 or not self.fits():
            return 8
        return 8 + self.moved[5] + int.from_bytes(self.moved[6:8], "big")

    def credited(self) -> int:
        """The record of the credit under which a write goes."""
        if self.used and self.used[1] is not None:
            return self.used[1]
        return min(max(self.position[0], 0), len(self.readable().records) - 1)

    def kept(self) -> List[Record]:
        """The records that a formatting write keeps before the new one."""
        return self.readable().records[:self.credited() + 1] if self.name == "write-ckd" else []

    def fits(self) -> bool:
        model, key, data = self.volume.model, self.moved[5], int.from_bytes(self.moved[6:8], "big")
        if not self.profile.charges:
            return sum(len(it.key) + len(it.data) for it in self.kept()) + key + data <= model.capacity
        if self.name == "write-r0":
            return model.r0_charge(key, data) <= model.capacity
        kept = self.kept()
        taken = sum((model.charge if i else model.r0_charge)(len(it.key), len(it.data)) for i, it in enumerate(kept))
        return taken + model.last_charge(key, data) <= model.capacity

    # --- close ---

    def close(self) -> Ending:
        """Closes the open command by the bytes that moved, and says what it comes to."""
        name, got = self.name, bytes(self.moved)
        if not name:
            return Ending(CHANNEL_END | DEVICE_END | UNIT_CHECK)
        if name in IMMEDIATE:
            return Ending(CHANNEL_END, True) if name == "recalibrate" else Ending(CHANNEL_END | DEVICE_END)
        if name in SEEKS:
            return self.close_seek(got)
        if name == "set-file-mask":
            if got and got[0] & 0x27 and not self.profile.mask_ignores_bits:
                return self.checked("cut short")
            if got:
                self.mask, self.mask_set = got[0], True
            return Ending(CHANNEL_END | DEVICE_END)
        if name.startswith("search"):
            return self.close_search(got)
        if name.startswith("write"):
            return self.close_write(got)
        return self.close_read()

    def close_seek(self, got: bytes) -> Ending:
        if not got:
            return Ending(CHANNEL_END | DEVICE_END)
        if len(got) < 6:
            return self.checked("seek cut short")
        cylinder, head = int.from_bytes(got[2:4], "big"), int.from_bytes(got[4:6], "big")
        inside = head < self.volume.model.heads
        if self.name != "seek-head" or not self.profile.seek_head_alone:
            inside = inside and got[:2] == b"\0\0" and cylinder < self.volume.cylinders
        if not inside:
            return self.checked("seek check")
        if self.name == "seek-head":
            self.move(self.cylinder, head)
            return Ending(CHANNEL_END | DEVICE_END)
        self.move(cylinder, head)
        return Ending(CHANNEL_END, True)

    def close_search(self, got: bytes) -> Ending:
        parts = ("id",) if "-id-" in self.name else ("key",)
        area = self.bytes_of(parts)[1:] if self.name == "search-ha" else self.bytes_of(parts)
        theirs = area[:len(got)]
        self.position = self.area_found()
        wanted = {"equal-or-high": theirs >= got, "high": theirs > got}
        equal = not self.name.endswith("high")
        satisfied = bool(got) and (theirs == got if equal else wanted["equal-or-high" if self.name.endswith("equal-or-high") else "high"])
        if not satisfied:
            return Ending(CHANNEL_END | DEVICE_END)
        if equal and len(got) == len(area):
            kind = "equal home" if self.name == "search-ha" else "equal id" if "-id-" in self.name else "equal key"
            self.credit = (kind, None if self.found == HOME else self.area_found()[0])
        return Ending(CHANNEL_END | DEVICE_END | MODIFIER)

    def close_read(self) -> Ending:
        status = CHANNEL_END | DEVICE_END
        if self.name == "sense":
            return Ending(status)
        at = self.area_found()
        if self.name == "read-count":
            self.position = (at[0], 0)
            return Ending(status)
        self.position = HOME if at == HOME else (at[0], 2)
        if self.name != "read-ha" and not self.readable().records[at[0]].data:
            status |= UNIT_EXCEPTION
        return Ending(status)

    def close_write(self, got: bytes) -> Ending:
        if self.name == "write-ha":
            return self.close_home(got)
        if self.name in ("write-r0", "write-ckd"):
            return self.close_format(got)
        track, at = self.readable(), self.credited()
        record = track.records[at]
        if got:
            old = record.key + record.data if self.name == "write-key-and-data" else record.data
            new = got.ljust(len(old), b"\0")
            if self.name == "write-key-and-data":
                record.key, record.data = new[:len(record.key)], new[len(record.key):]
            else:
                record.data = new
            self.save(track)
        self.position = (at, 2)
        return Ending(CHANNEL_END | DEVICE_END | (0 if record.data else UNIT_EXCEPTION))

    def close_home(self, got: bytes) -> Ending:
        if got and len(got) < 5:
            return self.checked("cut short")
        if got and self.profile.own_home_address and got != b"\0" + address(self.cylinder, self.head):
            return self.checked("bad home address")
        self.position = HOME
        if got:
            self.save(Track(got))
            self.credit = ("wrote home", None)
        return Ending(CHANNEL_END | DEVICE_END)

    def close_format(self, got: bytes) -> Ending:
        if not got:
            return Ending(CHANNEL_END | DEVICE_END)
        if len(got) < 8:
            return self.checked("cut short")
        if not self.fits():
            return self.checked("does not fit")
        key, data = got[5], int.from_bytes(got[6:8], "big")
        body = got[8:].ljust(key + data, b"\0")
        track = self.readable()
        track.records = self.kept() + [Record(got[:5], body[:key], body[key:])]
        self.save(track)
        at = len(track.records) - 1
        self.position, self.credit = (at, 2), ("wrote record", at)
        return Ending(CHANNEL_END | DEVICE_END)

    def save(self, track: Track) -> None:
        place = self.volume.place(self.cylinder, self.head)
        behind = b"" if self.profile.zeros_behind else self.volume.slots[place]
        self.volume.write(self.cylinder, self.head, track)
        spelled = len(track.spelled())
        if behind:
            self.volume.slots[place] = self.volume.slots[place][:spelled] + behind[spelled:]

    def checked(self, cause: str) -> Ending:
        self.tell(cause)
        return Ending(CHANNEL_END | DEVICE_END | UNIT_CHECK)
