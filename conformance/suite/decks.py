"""Decks: lists of events in text, one a line, and the faults of a text that is none."""
from __future__ import annotations

import re
from dataclasses import dataclass
from typing import List, Optional

LONGEST_LINE = 512
LONGEST_DECK = 1 << 20
UNIT = re.compile(rb"[0-9A-F]{3}$")
ADDRESS = re.compile(rb"[0-9A-F]{1,6}$")
NUMBER = re.compile(rb"[0-9]{1,5}$")
LONG_NUMBER = re.compile(rb"[0-9]{1,10}$")
DIGITS = re.compile(rb"([0-9A-F]{2}){1,128}$")
KEY = re.compile(rb"[0-9A-F]$")


@dataclass(frozen=True)
class Event:
    """An event: its name, and what it names: a unit, an address, a number, bytes."""
    name: str
    unit: int = 0
    address: int = 0
    number: int = 0
    data: bytes = b""

    def line(self) -> str:
        """The event's line in a deck."""
        if self.name in ("SIO", "TIO", "HIO", "ARRIVE"):
            return "%s %03X" % (self.name, self.unit)
        if self.name in ("STEP", "RUN"):
            return "%s %d" % (self.name, self.number)
        if self.name == "STORE":
            return "STORE %X %s" % (self.address, self.data.hex().upper())
        if self.name == "KEY":
            return "KEY %X %X" % (self.address, self.number)
        if self.name == "SHOW":
            return "SHOW %X %d" % (self.address, self.number)
        return self.name


class DeckFault(ValueError):
    """The first line that is no event, and why."""


def of_unit(name: str, words: List[bytes]) -> Optional[Event]:
    if len(words) == 1 and UNIT.match(words[0]):
        return Event(name, unit=int(words[0], 16))
    return None


def of_number(name: str, words: List[bytes]) -> Optional[Event]:
    if len(words) == 1 and NUMBER.match(words[0]) and int(words[0]) <= 65535:
        return Event(name, number=int(words[0]))
    return None


def of_run(name: str, words: List[bytes]) -> Optional[Event]:
    if not words:
        return Event(name, number=1 << 24)
    if len(words) == 1 and LONG_NUMBER.match(words[0]) and 1 <= int(words[0]) < 1 << 32:
        return Event(name, number=int(words[0]))
    return None


def of_store(name: str, words: List[bytes]) -> Optional[Event]:
    if len(words) > 1 and ADDRESS.match(words[0]) and DIGITS.match(b"".join(words[1:])):
        return Event(name, address=int(words[0], 16), data=bytes.fromhex(b"".join(words[1:]).decode()))
    return None


def of_key(name: str, words: List[bytes]) -> Optional[Event]:
    if len(words) == 2 and ADDRESS.match(words[0]) and KEY.match(words[1]):
        return Event(name, address=int(words[0], 16), number=int(words[1], 16))
    return None


def of_show(name: str, words: List[bytes]) -> Optional[Event]:
    if len(words) == 2 and ADDRESS.match(words[0]) and NUMBER.match(words[1]) and 1 <= int(words[1]) <= 32:
        return Event(name, address=int(words[0], 16), number=int(words[1]))
    return None


def of_nothing(name: str, words: List[bytes]) -> Optional[Event]:
    if not words:
        return Event(name)
    return None


EVENTS = {
    "SIO": of_unit, "TIO": of_unit, "HIO": of_unit, "ARRIVE": of_unit, "TCH": of_nothing, "INT": of_nothing, "RESET": of_nothing,
    "STEP": of_number, "RUN": of_run, "STORE": of_store, "KEY": of_key, "SHOW": of_show,
}


def parse_line(line: bytes) -> Optional[Event]:
    """The event of a line; None where it is a remark or empty. Raises DeckFault with the reason alone."""
    line = line[:-1] if line.endswith(b"\r") else line
    if len(line) > LONGEST_LINE:
        raise DeckFault("line too long")
    words = [it for it in re.split(rb"[ \t]+", line.upper()) if it]
    if not words or words[0].startswith(b"*"):
        return None
    make = EVENTS.get(words[0].decode("latin1"))
    if make is None:
        raise DeckFault("unknown event")
    event = make(words[0].decode("ascii"), words[1:])
    if event is None:
        raise DeckFault("bad operand")
    return event


def parse(text: bytes) -> List[Event]:
    """The events of a deck's bytes. Raises DeckFault, whose text names the line."""
    lines = text.split(b"\n")
    events = []
    for number, line in enumerate(lines, 1):
        if number == len(lines) and not line:
            break
        try:
            event = parse_line(line)
        except DeckFault as fault:
            raise DeckFault("line %d: %s" % (number, fault)) from None
        if event is not None:
            events.append(event)
    return events
