"""What a channel answers and shows, read from the stage's lines."""
from __future__ import annotations

import re
from dataclasses import dataclass
from enum import Enum

from .text import Wrong

STATE = re.compile(r"STATE (idle|working|pending)(?: ([0-9A-F]{2}))?(?: (and asks|[0-9A-F]{16}))?((?:, [0-9A-F]{2} \w+)*)$")
VIEW = re.compile(r"VIEW ([0-9A-F]{2}) KEY ([0-9A-F]+) LAST ([0-9A-F]+) NEXT ([0-9A-F]+) LEFT (\d+) ASKS (YES|NO) AT (.*)$")


class Arm(Enum):
    """What the arm of a drive does."""
    AT_REST = "AtRest"
    IN_MOTION = "InMotion"
    ARRIVED = "Arrived"


@dataclass(frozen=True)
class Csw:
    """A channel status word."""
    key: int
    address: int
    unit: int
    channel: int
    count: int

    @classmethod
    def of(cls, digits: str) -> Csw:
        """The word of 16 digits, with blanks between them or none."""
        word = bytes.fromhex(digits)
        address = int.from_bytes(word[1:4], "big")
        return cls(word[0] >> 4, address, word[4], word[5], int.from_bytes(word[6:8], "big"))

    def to_bytes(self) -> bytes:
        status = bytes([self.unit, self.channel]) + self.count.to_bytes(2, "big")
        return bytes([self.key << 4]) + self.address.to_bytes(3, "big") + status


@dataclass(frozen=True)
class View:
    """What a channel shows between two calls: `idle`, `working` or `pending`, with the drive's number, whether an interruption is
    asked for, and the word that pends; and each drive's arm in the order of attachment."""
    kind: str
    device: int
    asks: bool
    csw: Csw | None
    arms: tuple[tuple[int, Arm], ...]

    @classmethod
    def of(cls, answer: str) -> View:
        """The view that the answer to `STATE` tells."""
        found = STATE.match(answer)
        if found is None:
            raise Wrong("STATE", "a state", answer)
        kind, device, more, drives = found.groups()
        arms = tuple((int(it.split()[0], 16), Arm(it.split()[1])) for it in drives.split(", ")[1:])
        csw = Csw.of(more) if kind == "pending" and more else None
        return cls(kind, int(device or "0", 16), more == "and asks", csw, arms)

    def arm(self, device: int) -> Arm | None:
        """What the arm of a drive does; None where it is not attached."""
        return dict(self.arms).get(device)


@dataclass(frozen=True)
class Program:
    """What is seen of the program that runs."""
    device: int
    key: int
    last: int
    next: int
    residual: int
    asks: bool
    place: str

    @classmethod
    def of(cls, answer: str) -> Program | None:
        """The program that the answer to `VIEW` tells; None where none runs."""
        if answer == "VIEW NONE":
            return None
        found = VIEW.match(answer)
        if found is None:
            raise Wrong("VIEW", "a program", answer)
        device, key, last, following, residual, asks, place = found.groups()
        return cls(int(device, 16), int(key, 16), int(last, 16), int(following, 16), int(residual), asks == "YES", place)


def units_of(answer: str) -> int | None:
    """How many units a step or a run did; None for another answer."""
    words = answer.split()
    return int(words[1]) if words[0] in ("STEP", "RUN") else None


def condition(answer: str) -> int:
    """The condition code of an answer to an instruction."""
    return int(answer.split(" CC ")[1][0])


def changes_nothing(answer: str) -> bool:
    """Whether an answer shows that its event changed nothing."""
    word = answer.split()[0]
    if word == "SIO":
        return condition(answer) in (2, 3)
    if word == "TIO":
        return condition(answer) != 1
    if word == "HIO":
        return condition(answer) in (0, 3)
    if word in ("TCH", "SHOW"):
        return True
    return answer in ("STEP 0", "RUN 0", "INT NONE") or answer.endswith((" NO", " OUTSIDE"))


def status_told(answer: str) -> tuple[int, int] | None:
    """The unit status and channel status that Start I/O or Halt I/O stored; None where none was stored."""
    words = answer.split()
    if words[0] in ("SIO", "HIO") and len(words) == 5:
        stored = bytes.fromhex(words[4])
        return stored[0], stored[1]
    return None


def word_told(answer: str) -> tuple[int, Csw] | None:
    """The address and the channel status word that Test I/O or an interruption stored; None where none was stored."""
    words = answer.split()
    if words[0] == "TIO" and len(words) == 6 or words[0] == "INT" and len(words) == 4:
        return int(words[1], 16), Csw.of(words[-2] + words[-1])
    return None
