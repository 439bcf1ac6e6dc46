"""An emulator with no device at all, as an adapter in Python: each address answers condition code 3. It shows how one joins.

    conformance/run.py python=conformance/examples/own_adapter.py:NothingThere
"""
from suite.adapters import Emulator
from suite.decks import Event, parse
from suite.vectors import Outcome, Vector


class NothingThere(Emulator):
    name = "nothing there, in Python"
    lacks = frozenset(["steps", "arrivals", "pci", "run", "decks"])

    def play(self, vector: Vector) -> Outcome:
        storage, volumes = bytearray(vector.storage), vector.before()
        answers = [self.answer(it, storage) for it in parse(vector.deck)]
        return Outcome(answers, after=volumes)

    @staticmethod
    def answer(event: Event, storage: bytearray) -> str:
        """The answer's line of an event."""
        at, end = event.address, event.address + max(len(event.data), event.number)
        if event.name in ("SIO", "TIO", "HIO"):
            return "%s %03X CC 3" % (event.name, event.unit)
        if event.name in ("STORE", "SHOW") and end > len(storage):
            return "%s OUTSIDE" % event.name
        if event.name == "STORE":
            storage[at:end] = event.data
        if event.name == "SHOW":
            return "SHOW %06X %s" % (at, storage[at:end].hex().upper())
        return {"TCH": "TCH CC 3", "STEP": "STEP 0", "ARRIVE": "ARRIVE %03X NO" % event.unit, "INT": "INT NONE", "RESET": "RESET CLEAN"}.get(
            event.name, event.name + " OK")
