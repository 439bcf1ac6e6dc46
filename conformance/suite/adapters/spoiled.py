"""An emulator whose answers are spoiled on purpose: what the suite must see."""
from __future__ import annotations

import re
from dataclasses import replace
from typing import Callable, Dict

from ..vectors import Outcome, Vector
from . import Emulator

CODE = re.compile(r"(CC )([0-3])")
COUNT = re.compile(r"( [0-9A-F]{8} [0-9A-F]{4})([0-9A-F]{4})$")
SPOILS: Dict[str, Callable[[str], str]] = {
    "condition-code": lambda line: CODE.sub(lambda it: it[1] + str((int(it[2]) + 1) % 4), line),
    "residual-count": lambda line: COUNT.sub(lambda it: "%s%04X" % (it[1], (int(it[2], 16) + 1) % 65536), line),
}


class Spoiled(Emulator):
    def __init__(self, emulator: Emulator, spoil: str) -> None:
        self.emulator, self.spoil = emulator, SPOILS[spoil]
        self.name, self.lacks = "%s, spoiled: %s" % (emulator.name, spoil), emulator.lacks

    def play(self, vector: Vector) -> Outcome:
        outcome = self.emulator.play(vector)
        return replace(outcome, answers=[self.spoil(it) for it in outcome.answers])

    def close(self) -> None:
        self.emulator.close()
