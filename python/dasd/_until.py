"""Units of a channel program until something happens, and what they came to."""

from __future__ import annotations

import enum
from typing import NamedTuple, Optional, Tuple

from . import _library
from ._words import Subchannel


class Until(enum.IntFlag):
    """What run_until waits for, and what of it happened."""

    #: nothing: the run only counts
    NOTHING = 0
    #: a word asks for an interruption (PCI), where none was asked for that is not yet taken
    ASKED = 1
    #: the arm is at another cylinder
    CYLINDER = 2
    #: the arm is at another cylinder, or another head is selected
    TRACK = 4


class Progress(NamedTuple):
    """What came of run_until."""

    #: how many units were done, 0 to as many as were asked for
    units: int
    #: what the channel does after them
    subchannel: Subchannel
    #: the low byte of the address whose program runs or has ended; 0 where the channel is available
    device: int
    #: whether a word of the program asked for an interruption (PCI) that is not yet taken
    asked: bool
    #: what happened in the last unit of what was waited for
    stopped: Until
    #: how many bytes moved between drive and channel; a byte that is read and skipped is one
    bytes: int
    #: how often the index passed a command that looked for its area, also one that found none
    indexes: int
    #: how many cylinders the arm crossed, in all its moves
    cylinders: int
    #: how many bytes were stored into main storage
    stored: int
    #: the lowest and the highest address that was stored into; None where no byte was stored
    range: Optional[Tuple[int, int]]


class Sum:
    """What pieces of a run come to, one after another."""

    def __init__(self) -> None:
        self.last = _library.Progress()
        self._bytes = self._indexes = self._cylinders = self._stored = 0
        self._range: Optional[Tuple[int, int]] = None

    def add(self) -> int:
        """Adds the piece that `last` has; how many units it was."""
        ran = self.last
        self._bytes += ran.bytes
        self._indexes += ran.indexes
        self._cylinders += ran.cylinders
        self._stored += ran.stored
        if ran.stored:
            low, high = self._range or (ran.low, ran.high)
            self._range = (min(low, ran.low), max(high, ran.high))
        return int(ran.units)

    def whole(self, units: int) -> Progress:
        """All of them."""
        ran = self.last
        seen = (Subchannel(ran.subchannel), ran.device, ran.asked == 1, Until(ran.stopped))
        return Progress(units, *seen, self._bytes, self._indexes, self._cylinders, self._stored, self._range)
