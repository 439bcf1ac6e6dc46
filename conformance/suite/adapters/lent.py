"""The C library over main storage that is lent to each call, and that is at another place at each of them.

It is the adapter of the library except for main storage, which is Python's: two bytearrays, the bytes and the keys. Before each call that
needs them they are copied to new ones, and what stood at the old places is spoilt.
"""
from __future__ import annotations

from typing import Any, Optional

from ..vectors import Vector
from .library import BLOCK, LibraryEmulator, RestoredEmulator

# The calls that need main storage.
NEEDING = ("sio", "tio", "hio", "step", "interrupt")


def over_lent(dasd: Any) -> Any:
    """The module's class of channels that are lent main storage, which goes to another place before each call that needs it."""

    class Moved(dasd.LentSubsystem):  # type: ignore[misc]
        def __init__(self, size: int, *channels: int) -> None:
            self.kept = bytearray(size), bytearray(size // BLOCK)
            super().__init__(*self.kept, *channels)

        def move(self) -> None:
            before, self.kept = self.kept, (bytearray(self.kept[0]), bytearray(self.kept[1]))
            self.lend(*self.kept)
            for old in before:
                old[:] = b"\xA5" * len(old)

    def moving(name: str) -> Any:
        def call(self: Any, *words: int) -> Any:
            self.move()
            return getattr(super(Moved, self), name)(*words)

        return call

    for name in NEEDING:
        setattr(Moved, name, moving(name))
    return Moved


class LentEmulator(LibraryEmulator):
    def __init__(self, file: Optional[str] = None) -> None:
        super().__init__(file)
        self.name += ", main storage lent"
        self.subsystem = over_lent(self.dasd)


class LentCopiedEmulator(LibraryEmulator):
    """The same, whose channels are copied after each event and closed. The copy goes on, over memory of its own."""

    def __init__(self, file: Optional[str] = None) -> None:
        super().__init__(file)
        self.name += ", main storage lent, a copy behind each event"
        self.subsystem = over_lent(self.dasd)

    def behind_event(self, channels: Any, vector: Vector) -> Any:
        size = len(channels.storage)
        with channels:
            keys = bytearray(channels.key(at) for at in range(0, size, BLOCK))
            second = channels.copy(bytearray(channels.storage), keys)
            channels.storage[:] = b"\xA5" * size
        return second


class LentRestoredEmulator(RestoredEmulator):
    """The library over lent main storage, saved and restored where no program runs."""

    def __init__(self, file: Optional[str] = None) -> None:
        super().__init__(file)
        self.name += ", main storage lent"
        self.subsystem = over_lent(self.dasd)
