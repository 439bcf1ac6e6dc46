"""Adapters: each plays a vector at an emulator and says what came of it.

An adapter has a `name`, a set `lacks` of what its emulator can't do (the names of `needs` lines), and a call `play(vector)` that
gives an Outcome. It never raises for what an emulator does wrong; that is an Outcome with `broke`.
"""
from __future__ import annotations

from typing import Dict, FrozenSet, Optional

from ..vectors import Outcome, Vector


class Emulator:
    name = "?"
    lacks: FrozenSet[str] = frozenset()

    def play(self, vector: Vector) -> Outcome:
        raise NotImplementedError

    def close(self) -> None:
        """Ends what the adapter started."""

    def __enter__(self) -> Emulator:
        return self

    def __exit__(self, *_: object) -> None:
        self.close()


def make(spec: str, seconds: Optional[float] = None) -> Emulator:
    """The emulator that a word names: `model`, `dasd=COMMAND`, `dasd-traced=COMMAND`, `protocol=COMMAND`, `python=FILE:CLASS`,
    `library=FILE`, `lent=FILE`, `copied=FILE`, `lent-copied=FILE`, `restored=FILE`, `lent-restored=FILE`, `hercules` or `hercules=PROGRAM`.
    One that is a program may be silent for so many seconds; without a number, for those of its adapter."""
    kind, _, rest = spec.partition("=")
    patience: Dict[str, float] = {} if seconds is None else {"seconds": seconds}
    if kind == "model":
        from .model import ModelEmulator
        return ModelEmulator()
    if kind in ("dasd", "dasd-traced") and rest:
        from .dasd import DasdProgram
        return DasdProgram(rest, traced=kind != "dasd", **patience)
    if kind == "protocol" and rest:
        from .protocol import ProtocolEmulator
        return ProtocolEmulator(rest, **patience)
    if kind == "python" and rest:
        from .own import own_adapter
        return own_adapter(rest)
    if kind == "library":
        from .library import LibraryEmulator
        return LibraryEmulator(rest or None)
    if kind == "lent":
        from .lent import LentEmulator
        return LentEmulator(rest or None)
    if kind == "copied":
        from .library import CopiedEmulator
        return CopiedEmulator(rest or None)
    if kind == "lent-copied":
        from .lent import LentCopiedEmulator
        return LentCopiedEmulator(rest or None)
    if kind == "restored":
        from .library import RestoredEmulator
        return RestoredEmulator(rest or None)
    if kind == "lent-restored":
        from .lent import LentRestoredEmulator
        return LentRestoredEmulator(rest or None)
    if kind in ("hercules", "hercules-seek-first"):
        from .hercules import HerculesEmulator
        return HerculesEmulator(rest or "hercules", seek_first=kind != "hercules", **patience)
    raise ValueError("no such emulator: %s" % spec)
