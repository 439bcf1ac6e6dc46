"""The model of the suite as an emulator, whole or told to go otherwise."""
from __future__ import annotations

from typing import Collection, Optional

from ..decks import DeckFault, parse
from ..drive import Profile
from ..machine import ByItself, Machine
from ..vectors import Outcome, Vector
from . import Emulator


class ModelEmulator(Emulator):
    name = "the suite's model"

    def __init__(self, profile: Optional[Profile] = None, lacks: Collection[str] = (), storage: Optional[int] = None, clock: str = "step") -> None:
        self.profile, self.lacks, self.storage = profile, frozenset(lacks), storage
        self.clock = clock if "steps" in self.lacks else None

    def play(self, vector: Vector) -> Outcome:
        volumes = vector.before()
        try:
            events = parse(vector.deck)
        except DeckFault as fault:
            return Outcome(fault=str(fault), after=volumes)
        machine = Machine(vector.channel, self.storage or vector.storage, list(volumes.items()), self.profile,
                          ByItself(self.clock, "arrivals" in self.lacks))
        answers = [machine.play(event) for event in events]
        machine.do_reset()
        return Outcome(answers, None, volumes, "a program runs for ever" if machine.runs_for_ever else None)
