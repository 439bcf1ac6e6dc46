"""Vectors: read from their text, and compared with what an emulator did. FORMAT.md has the lines."""
from __future__ import annotations

import hashlib
import os
import re
from dataclasses import dataclass, field
from typing import Collection, Dict, List, Optional, Sequence, Tuple

from .volumes import Volume, tidied

HERE = os.path.dirname(os.path.dirname(os.path.abspath(__file__)))
# Where the vectors and their images stand.
FOLDER = os.path.join(HERE, "vectors")
# The rules that are about the text of decks.
RULES_OF_TEXT = ("deck-lines", "deck-faults")


@dataclass
class Vector:
    name: str
    group: str = ""
    folder: str = ""
    about: str = ""
    rules: List[str] = field(default_factory=list)
    manual: List[str] = field(default_factory=list)
    profile: List[str] = field(default_factory=list)
    needs: List[str] = field(default_factory=list)
    volumes: List[Tuple[int, str]] = field(default_factory=list)
    channel: int = 1
    storage: int = 65536
    deck: bytes = b""
    answers: List[str] = field(default_factory=list)
    fault: Optional[str] = None
    images: List[Tuple[int, str]] = field(default_factory=list)
    slots: List[Tuple[int, int, int, bytes]] = field(default_factory=list)
    # volumes that are in no file, by unit
    made: Dict[int, Volume] = field(default_factory=dict)

    def before(self) -> Dict[int, Volume]:
        """The volumes as they are before the deck runs, by unit, in the order of attachment."""
        return {unit: self.made[unit].copy() if unit in self.made else self.volume(what) for unit, what in self.volumes}

    def is_of_text(self) -> bool:
        """Whether it is about the text of decks, and is given whole to an emulator that reads decks."""
        return any(it in RULES_OF_TEXT for it in self.rules)

    def volume(self, what: str) -> Volume:
        words = what.split()
        if words[0] == "new":
            return Volume.new(words[1], int(words[2]))
        return Volume.load([os.path.join(self.folder, it) for it in words])


@dataclass
class Outcome:
    """What an emulator did: its answers, the fault for which it refused the deck, and the volumes that it left; or how it broke, or
    why it declined."""
    answers: List[str] = field(default_factory=list)
    fault: Optional[str] = None
    after: Dict[int, Volume] = field(default_factory=dict)
    broke: Optional[str] = None
    declined: Optional[str] = None


class BadVector(ValueError):
    """A line of a file of vectors says nothing."""


def read_vectors(path: str) -> List[Vector]:
    """The vectors of a file."""
    group = os.path.splitext(os.path.basename(path))[0]
    out = []
    with open(path, encoding="ascii") as text:
        for number, line in enumerate(text.read().split("\n"), 1):
            if line.startswith("vector "):
                out.append(Vector(line[7:], group, os.path.dirname(path)))
            elif line and not line.startswith("#"):
                if not line.startswith("  ") or not out or not read_line(out[-1], line[2:]):
                    raise BadVector("%s line %d: what is this? %s" % (path, number, line))
    return out


def read_line(vector: Vector, line: str) -> bool:
    """Takes a line of a vector; whether it says something."""
    word, _, rest = line.partition(" ")
    if word == ">":
        vector.deck += rest.encode("ascii") + b"\n"
    elif word == ">hex":
        vector.deck += bytes.fromhex(rest) + b"\n"
    elif word == ">end":
        vector.deck += bytes.fromhex(rest)
    elif word == "<":
        vector.answers.append(rest)
    elif word == "about":
        vector.about = rest.strip()
    elif word in ("rule", "manual", "profile", "needs"):
        getattr(vector, word + "s" if word == "rule" else word).append(rest.strip())
    elif word == "volume":
        unit, _, what = rest.partition(" ")
        vector.volumes.append((int(unit, 16), what))
    elif word in ("channel", "storage"):
        setattr(vector, word, int(rest))
    elif word == "fault":
        vector.fault = rest
    elif word == "image":
        unit, _, digest = rest.split()
        vector.images.append((int(unit, 16), digest))
    elif word == "slot":
        unit, cylinder, head, data = rest.split()
        vector.slots.append((int(unit, 16), int(cylinder, 16), int(head, 16), bytes.fromhex(data)))
    else:
        return False
    return True


def all_vectors(paths: Sequence[str] = ()) -> List[Vector]:
    """The vectors of these files; of none, all of the suite, group by group."""
    if not paths:
        paths = [os.path.join(FOLDER, it) for it in sorted(os.listdir(FOLDER)) if it.endswith(".vectors")]
    return [it for path in paths for it in read_vectors(path)]


def digest(volume: Volume) -> str:
    return hashlib.sha256(volume.bytes()).hexdigest()


STEPPED = re.compile(r"(STEP|RUN) \d+$")
ARRIVED = re.compile(r"(ARRIVE \w{3}) (YES|NO)$")
SENSE_SHOWN = re.compile(r"(SHOW 000710 [0-9A-F]{4})[0-9A-F]{8}$")


def softened(line: str, lacks: Collection[str]) -> str:
    """An answer without what an emulator that lacks something can't say."""
    if "steps" in lacks:
        line = STEPPED.sub(r"\1", line)
    if "arrivals" in lacks:
        line = ARRIVED.sub(r"\1", line)
    if "sense" in lacks:
        line = SENSE_SHOWN.sub(r"\1", line)
    return line


def difference(vector: Vector, outcome: Outcome, lacks: Collection[str] = ()) -> Optional[str]:
    """How what an emulator did differs from the vector; None where it does not."""
    if outcome.broke:
        return outcome.broke
    if outcome.fault != vector.fault:
        return "the fault is %s, and must be %s" % (outcome.fault or "none", vector.fault or "none")
    for number in range(max(len(outcome.answers), len(vector.answers))):
        came, wanted = outcome.answers[number:number + 1], vector.answers[number:number + 1]
        if [softened(it, lacks) for it in came] != [softened(it, lacks) for it in wanted]:
            return "answer %d is %s, and must be %s" % (number + 1, came[0] if came else "none", wanted[0] if wanted else "none")
    return image_difference(vector, outcome, lacks)


def image_difference(vector: Vector, outcome: Outcome, lacks: Collection[str]) -> Optional[str]:
    """The same of the volumes that are left."""
    before = vector.before()
    after = {unit: tidied(it, before[unit]) if "zeros" in lacks else it for unit, it in outcome.after.items()}
    for unit, cylinder, head, spelled in vector.slots:
        if unit not in after:
            return "no image of %02X is left" % unit
        slot = after[unit].slots[after[unit].place(cylinder, head)]
        if slot[:len(spelled)] != spelled:
            return "the track %02X %04X %04X is %s" % (unit, cylinder, head, slot[:len(spelled)].hex().upper())
        if any(slot[len(spelled):]):
            return "the slot %02X %04X %04X has other bytes than zero behind its end mark" % (unit, cylinder, head)
    for unit, wanted in vector.images:
        if unit not in after:
            return "no image of %02X is left" % unit
        if digest(after[unit]) != wanted:
            return "image %02X is another%s" % (unit, changed_tracks(before[unit], after[unit]))
    return None


def changed_tracks(before: Volume, after: Volume) -> str:
    """Which tracks of an image a run changed, in words."""
    if len(before.slots) != len(after.slots):
        return ": it has %d tracks, and had %d" % (len(after.slots), len(before.slots))
    changed = ["%04X %04X" % divmod(at, before.model.heads) for at, it in enumerate(before.slots) if it != after.slots[at]]
    return "; the run changed " + ", ".join(changed[:4]) + (" and more" if len(changed) > 4 else "") if changed else "; the run changed no track"
