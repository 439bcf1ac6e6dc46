"""Which lines `needs`, `profile` and `manual` a vector bears.

They are found by playing the vector at the model again and again, each time with one thing otherwise: without units of its
own, without arrivals, with all the storage that there can be, and with each choice of the profile turned. Where what comes of it
is another, the vector rests on that thing.
"""
from __future__ import annotations

import os
from typing import Any, Collection, Dict, List, Mapping

from .adapters import Emulator
from .adapters.model import ModelEmulator
from .decks import DeckFault, parse
from .drive import Profile
from .vectors import HERE, Vector, difference

# what an emulator may lack, in the order of the lines
NEEDS = ("steps", "arrivals", "reset", "pci", "run", "files", "channels", "storage", "decks", "zeros")
# what it may say that it lacks: sense bytes 2 to 5 no vector needs
LACKED = (*NEEDS, "sense")
# the choices of the profile that the model can turn, in the order of the lines
PROFILE = tuple(it.replace("_", "-") for it in Profile.__dataclass_fields__ if it != "zeros_behind")
# all choices
CHOICES = ("units", "decks", *PROFILE)
MOST_STORAGE = 1 << 24
# A rule: what it says, and the lists `manual` and `profile`.
Rule = Dict[str, Any]


def differs(vector: Vector, emulator: Emulator, lacks: Collection[str] = ()) -> bool:
    """Whether a vector comes out otherwise at an emulator. One that can't go on at all differs."""
    try:
        return difference(vector, emulator.play(vector), lacks) is not None
    except (IndexError, KeyError, ValueError, AttributeError, TypeError):
        return True


def needs_of(vector: Vector) -> List[str]:
    """What an emulator must have to play a vector."""
    found = {"pci"} if "pci" in vector.needs else set()
    if vector.fault:
        return ["run", "decks"] if "run" in vector.rules else ["decks"]
    try:
        events = {it.name for it in parse(vector.deck)}
    except DeckFault:
        return ["decks"]
    found |= {name for name, word in (("reset", "RESET"), ("run", "RUN")) if word in events}
    if any(len(what.split()) > 1 and not what.startswith("new ") for _, what in vector.volumes):
        found.add("files")
    if vector.channel != 1:
        found.add("channels")
    if "zeros-behind" in vector.rules and differs(vector, ModelEmulator(Profile(zeros_behind=False))):
        found.add("zeros")
    if differs(vector, ModelEmulator(storage=MOST_STORAGE)):
        found.add("storage")
    if "units" in vector.rules or any(differs(vector, ModelEmulator(lacks=["steps"], clock=it), ["steps"]) for it in ("start", "step")):
        found.add("steps")
    if differs(vector, ModelEmulator(lacks=["arrivals"]), ["arrivals"]):
        found.add("arrivals")
    return [it for it in NEEDS if it in found]


def profile_of(vector: Vector, lacks: Collection[str] = ()) -> List[str]:
    """The choices of the profile on which a vector rests, as an emulator plays it that lacks these: its numbers after STEP count where
    it has steps."""
    if vector.fault:
        return ["decks"]
    found = [it for it in PROFILE if differs(vector, ModelEmulator(Profile().without(it.replace("-", "_"))), lacks)]
    return found + ["units"] if "steps" in vector.needs else found


def read_rules(path: str = os.path.join(HERE, "rules.txt")) -> Dict[str, Rule]:
    """The rules by name, each a dict with `says` and with lists `manual` and `profile`."""
    rules: Dict[str, Rule] = {}
    rule: Rule = {}
    with open(path, encoding="ascii") as text:
        for line in text:
            words = line.split(None, 1)
            if not words or words[0].startswith("#"):
                continue
            if words[0] == "rule":
                rule = rules.setdefault(words[1].strip(), {"says": "", "manual": [], "profile": []})
            elif words[0] == "says":
                rule["says"] = words[1].strip()
            else:
                rule[words[0]].append(words[1].strip())
    return rules


def manual_of(vector: Vector, rules: Mapping[str, Rule]) -> List[str]:
    """The manuals' topics of a vector's rules, each once."""
    found: List[str] = []
    for name in vector.rules:
        found += [it for it in rules[name]["manual"] if it not in found]
    return found
