"""What an event must come to by what the channel shows before it, as far as no unit decides it: its answer, and what the channel shows
after it (Principles of Operation, 'Start I/O', 'Test I/O', 'Halt I/O', 'Test Channel', 'Input/Output Interruptions')."""
from __future__ import annotations

from dataclasses import dataclass

from conformance.suite.decks import Event

from .answers import Arm, Csw, Program, View, condition, status_told, units_of, word_told

BUSY, CHANNEL_END, DEVICE_END, UNIT_CHECK = 0x10, 0x08, 0x04, 0x02
INTERRUPTION, PROGRAM_CHECK = 0x80, 0x20
SIZE = 65536


@dataclass(frozen=True)
class FirstWord:
    """A word with which a program may begin: the key of the channel address word, where it stands, its count, and whether it asks for
    an interruption."""
    key: int
    address: int
    count: int
    asks: bool

    @classmethod
    def of(cls, address_word: bytes, word: bytes | None) -> FirstWord | None:
        """The word that the channel address word leads to, whose bytes these are: none where a program may not begin with it, or it
        stands outside storage."""
        address = int.from_bytes(address_word[1:4], "big")
        if address_word[0] % 16 or address % 8 or word is None:
            return None
        count = int.from_bytes(word[6:8], "big")
        # no command, or a transfer in channel; a flag that must be zero; no count
        if word[0] % 8 == 0 or word[4] % 8 or count == 0:
            return None
        return cls(address_word[0] >> 4, address, count, bool(word[4] & 0x08))

    def is_begun(self, device: int, seen: Program | None) -> bool:
        """Whether this is a drive's program that has fetched its first word and no more."""
        if seen is None:
            return False
        found = (seen.device, seen.key, seen.last, seen.next, seen.residual, seen.asks)
        return found == (device, self.key, self.address, self.address + 8, self.count, self.asks)


@dataclass(frozen=True)
class Shown:
    """What a channel shows between two events, and the word with which a program begins that starts now."""
    view: View
    program: Program | None
    word: FirstWord | None = None

    def arm(self, address: int) -> Arm | None:
        """What the arm of the drive at an address of this channel does."""
        return self.view.arm(address & 0xFF) if address >> 8 == 1 else None

    def moved(self, address: int, arm: Arm) -> tuple[tuple[int, Arm], ...]:
        """The arms, where that of the drive at an address does this."""
        return tuple((device, arm if device == address & 0xFF else own) for device, own in self.view.arms)

    def stays(self, behind: Shown) -> bool:
        return behind.view == self.view and behind.program == self.program

    def idles(self, arms: tuple[tuple[int, Arm], ...], behind: Shown) -> bool:
        """Whether nothing runs any more and nothing pends, and the arms do this."""
        return behind.view == View("idle", 0, False, None, arms) and behind.program is None


def breach(before: Shown, event: Event, answer: str, behind: Shown) -> str | None:
    """Why channel 1 may not answer an event so, or show this after it; None where it may."""
    rule = {"SIO": starts, "TIO": tests, "HIO": halts, "TCH": channel_tested, "STEP": goes_on, "RUN": goes_on, "ARRIVE": arrives,
            "INT": interrupts, "RESET": resets, "STORE": stores, "KEY": stores, "SHOW": stores}[event.name]
    return None if rule(before, event, answer, behind) else "an answer that may not come, or another view behind it"


def instruction(name: str, address: int, code: int, more: str = "") -> str:
    """The line of an answer to an instruction."""
    return "%s %03X CC %d%s" % (name, address, code, " " + more if more else "")


def word_of(csw: Csw) -> str:
    text = csw.to_bytes().hex().upper()
    return "%s %s" % (text[:8], text[8:])


def of_unit(unit: int) -> Csw:
    """A channel status word in which unit status alone is not zero."""
    return Csw(0, 0, unit, 0, 0)


# --- the instructions ---


def starts(before: Shown, event: Event, answer: str, behind: Shown) -> bool:
    """Start I/O."""
    address, arm, idle = event.unit, before.arm(event.unit), before.view.kind == "idle"
    if address >> 8 != 1 or idle and arm is None:
        return answer == instruction("SIO", address, 3) and before.stays(behind)
    if not idle:
        return answer == instruction("SIO", address, 2) and before.stays(behind)
    if arm is Arm.IN_MOTION:
        return answer == instruction("SIO", address, 1, "%02X00" % BUSY) and before.stays(behind)
    if arm is Arm.ARRIVED:
        due = instruction("SIO", address, 1, "%02X00" % (BUSY | DEVICE_END))
        return answer == due and before.idles(before.moved(address, Arm.AT_REST), behind)
    return begins(before, address, answer, behind)


def begins(before: Shown, address: int, answer: str, behind: Shown) -> bool:
    """A start at a drive whose arm is at rest."""
    word = before.word
    if word is None:
        return answer == instruction("SIO", address, 1, "00%02X" % PROGRAM_CHECK) and before.stays(behind)
    if answer == instruction("SIO", address, 0):
        runs = View("working", address & 0xFF, word.asks, None, before.view.arms)
        return behind.view == runs and word.is_begun(address & 0xFF, behind.program)
    told, channel = status_told(answer), INTERRUPTION if word.asks else 0
    if told == (CHANNEL_END, channel):
        return before.idles(before.moved(address, Arm.IN_MOTION), behind)
    return told in ((CHANNEL_END | DEVICE_END, channel), (UNIT_CHECK, 0)) and before.stays(behind)


def tests(before: Shown, event: Event, answer: str, behind: Shown) -> bool:
    """Test I/O."""
    address, arm, view = event.unit, before.arm(event.unit), before.view
    if behind.program != before.program:
        return False
    if address >> 8 == 1 and view.kind == "pending" and view.device == address & 0xFF and view.csw:
        return answer == instruction("TIO", address, 1, word_of(view.csw)) and before.idles(view.arms, behind)
    if address >> 8 == 1 and view.kind == "idle" and arm is Arm.ARRIVED:
        due = instruction("TIO", address, 1, word_of(of_unit(DEVICE_END)))
        return answer == due and before.idles(before.moved(address, Arm.AT_REST), behind)
    if address >> 8 != 1 or view.kind == "idle" and arm is None:
        due = instruction("TIO", address, 3)
    elif view.kind != "idle":
        due = instruction("TIO", address, 2)
    else:
        due = instruction("TIO", address, 1, word_of(of_unit(BUSY))) if arm is Arm.IN_MOTION else instruction("TIO", address, 0)
    return answer == due and behind.view == view


def halts(before: Shown, event: Event, answer: str, behind: Shown) -> bool:
    """Halt I/O."""
    address, kind = event.unit, before.view.kind
    if address >> 8 == 1 and kind == "working":
        return answer == instruction("HIO", address, 2) and is_ended(before, behind) and is_cut(before, behind)
    if address >> 8 != 1 or kind == "idle" and before.arm(address) is None:
        due = instruction("HIO", address, 3)
    else:
        due = instruction("HIO", address, 0) if kind == "pending" else instruction("HIO", address, 1, "0000")
    return answer == due and before.stays(behind)


def is_cut(before: Shown, behind: Shown) -> bool:
    """Whether the word that pends after a cut has the place and the count of the program that was seen before it, and tells of the channel
    no more than that an interruption was asked for."""
    csw = behind.view.csw
    if csw is None or before.program is None:
        return False
    place = place_of(before.program)
    asked = INTERRUPTION if before.view.asks else 0
    return (csw.key, csw.address, csw.channel, csw.count) == (place.key, place.address, asked, place.count)


def is_ended(before: Shown, behind: Shown) -> bool:
    """Whether the program that ran has ended, and no other arm has changed."""
    if behind.view.kind != "pending" or behind.view.device != before.view.device or behind.program:
        return False
    return behind.view.arms in (before.moved(before.view.device, Arm.AT_REST), before.moved(before.view.device, Arm.IN_MOTION))


def channel_tested(before: Shown, _: Event, answer: str, behind: Shown) -> bool:
    """Test Channel."""
    return answer == "TCH CC %d" % {"idle": 0, "working": 2, "pending": 1}[before.view.kind] and before.stays(behind)


# --- beside them ---


def goes_on(before: Shown, event: Event, answer: str, behind: Shown) -> bool:
    """Units: all that were asked for, unless the program ends in the last one that is done."""
    done = units_of(answer)
    if done is None:
        return False
    if before.view.kind != "working":
        return done == 0 and before.stays(behind)
    if behind.view.kind == "working":
        same = behind.view.device == before.view.device and behind.view.arms == before.view.arms
        return same and done == event.number and behind.program is not None
    return 0 < done <= event.number and is_ended(before, behind)


def arrives(before: Shown, event: Event, answer: str, behind: Shown) -> bool:
    view = before.view
    if before.arm(event.unit) is Arm.IN_MOTION:
        moved = View(view.kind, view.device, view.asks, view.csw, before.moved(event.unit, Arm.ARRIVED))
        return answer == "ARRIVE %03X YES" % event.unit and behind.view == moved and behind.program == before.program
    return answer == "ARRIVE %03X NO" % event.unit and before.stays(behind)


def interrupts(before: Shown, _: Event, answer: str, behind: Shown) -> bool:
    """An interruption: of what pends, of a word that asked for one, or of the lowest address whose arm has arrived."""
    view, told = before.view, word_told(answer)
    if view.kind == "pending":
        return told == (0x100 | view.device, view.csw) and before.idles(view.arms, behind)
    if view.kind == "working" and view.asks and before.program:
        working = View("working", view.device, False, None, view.arms)
        return told == (0x100 | view.device, place_of(before.program)) and behind.view == working
    arrived = sorted(device for device, arm in view.arms if arm is Arm.ARRIVED)
    if view.kind == "idle" and arrived:
        return told == (0x100 | arrived[0], of_unit(DEVICE_END)) and before.idles(before.moved(arrived[0], Arm.AT_REST), behind)
    return answer == "INT NONE" and before.stays(behind)


def place_of(seen: Program) -> Csw:
    """The channel status word of an interruption that a program asks for where it is."""
    return Csw(seen.key, (seen.last + 8) % (1 << 24), 0, INTERRUPTION, seen.residual)


def resets(before: Shown, _: Event, answer: str, behind: Shown) -> bool:
    return answer.startswith("RESET ") and before.idles(tuple((device, Arm.AT_REST) for device, _ in before.view.arms), behind)


def stores(before: Shown, event: Event, answer: str, behind: Shown) -> bool:
    """What the processor does to storage, and whether it lies within."""
    count = {"STORE": len(event.data), "KEY": 1, "SHOW": event.number}[event.name]
    return answer.endswith(" OUTSIDE") == (event.address + count > SIZE) and before.stays(behind)


# --- what is counted ---


@dataclass
class Entry:
    """How often the ends of an address were stored since its last accepted program, or the last reset."""
    is_accepted: bool = False
    channel_ends: int = 0
    device_ends: int = 0


class Ledger:
    """Each accepted program's channel end and device end are stored at most once, and pend until then or a reset; and no start is
    accepted while a program runs or its channel end is owed."""

    def __init__(self) -> None:
        self.entries: dict[int, Entry] = {}
        self.programs = 0

    def takes(self, answer: str, behind: View) -> bool:
        """Takes an answer in; whether it may come now, and after it what was stored and what is owed are together what is due."""
        if answer.startswith("RESET"):
            self.entries = {}
        words, told = answer.split(), status_told(answer)
        if words[0] == "SIO" and (condition(answer) == 0 or told and told[0] & 0x18 == 0x08):
            if any(it.is_accepted and it.channel_ends != 1 for it in self.entries.values()):
                return False
            self.programs += 1
            self.entries[int(words[1], 16)] = Entry(True)
        stored = word_told(answer)
        if words[0] == "SIO" and told:
            self.store(int(words[1], 16), told[0])
        elif stored:
            self.store(stored[0], stored[1].unit)
        return all(self.is_balanced(0x100 | device, behind) for device, _ in behind.arms)

    def store(self, address: int, unit: int) -> None:
        entry = self.entries.setdefault(address, Entry())
        entry.channel_ends += bool(unit & CHANNEL_END)
        entry.device_ends += bool(unit & DEVICE_END)

    def is_balanced(self, address: int, view: View) -> bool:
        """Whether what a drive was given and what it still owes come to the same."""
        entry, device = self.entries.get(address, Entry()), address & 0xFF
        channel, by_arm = 0, int(view.arm(device) is not Arm.AT_REST)
        if view.kind == "working" and view.device == device:
            channel, by_arm = 1, by_arm + 1
        elif view.kind == "pending" and view.device == device and view.csw:
            channel, by_arm = 1, by_arm + bool(view.csw.unit & DEVICE_END)
        due = int(entry.is_accepted)
        return entry.channel_ends + channel == due and entry.device_ends + by_arm == due
