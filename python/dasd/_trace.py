"""A trace of one channel, by looks: the lines of `dasd run --trace` for a program's own log."""

from __future__ import annotations

import ctypes
import enum
from typing import Callable, Optional

from . import _library
from ._subsystem import Channels
from ._words import Run, Track


class When(enum.IntEnum):
    """When a trace looks: before a start, after a unit, after a call, at its end."""

    BEFORE_SIO = 0
    BEHIND_UNIT = 1
    BEHIND_SIO = 2
    BEHIND_TIO = 3
    BEHIND_HIO = 4
    BEHIND_TCH = 5
    BEHIND_STEP = 6
    BEHIND_RUN = 7
    BEHIND_ARRIVE = 8
    BEHIND_INTERRUPT = 9
    BEHIND_RESET = 10
    AT_END = 11


class Trace:
    """A trace of one channel of a Subsystem or a LentSubsystem, which it never changes.

        trace = dasd.Trace(disks, 1, log.write)
        if trace.sio(0x190) == 0:
            trace.run_on(1000)
        trace.interrupt()

    Each call here makes the call of that name, for this channel, and has the lines written that tell of it, as the text that `write` takes. A run
    is made a unit at a time, and is not told itself. Who makes the calls another way looks by `look`: before each start, after each unit, and
    after each call whose line is wanted. What was seen is here, and nowhere else; a new trace has seen nothing.
    """

    def __init__(self, disks: Channels, channel: int, write: Callable[[str], object]) -> None:
        self.disks, self.channel, self.write = disks, channel, write
        self._room = ctypes.create_string_buffer(_library.TRACE_ROOM)
        self._seen = _library.Trace(ctypes.addressof(self._room), _library.TRACE_ROOM)

    def look(self, when: When, address: int = 0, answer: int = 0, track: Optional[Track] = None) -> None:
        """Looks at the channel, and has the lines written that tell of the moment, if there are some. After a call the address and the answer
        are the call's: a condition code, a number of units, or 1 and the address for an interruption that was taken. NO_CHANNEL;
        BAD_MOMENT."""
        self.disks.look(self._seen, when, self.channel, (address, answer), track)
        if self._seen.length:
            self.write(self._room.raw[: self._seen.length].decode("ascii"))

    def sio(self, address: int) -> int:
        """Start I/O."""
        self.look(When.BEFORE_SIO, address)
        return self._told(When.BEHIND_SIO, address, self.disks.sio(address))

    def tio(self, address: int) -> int:
        """Test I/O."""
        return self._told(When.BEHIND_TIO, address, self.disks.tio(address))

    def hio(self, address: int) -> int:
        """Halt I/O."""
        return self._told(When.BEHIND_HIO, address, self.disks.hio(address))

    def tch(self) -> int:
        """Test Channel."""
        return self._told(When.BEHIND_TCH, 0, self.disks.tch(self.channel << 8))

    def run_on(self, units: int) -> Run:
        """Lets the program do units until it ends, but so many at most. NO_CHANNEL."""
        did, ran = 0, self.disks.run_on(self.channel, min(units, 1))
        while ran.units:
            did += 1
            self.look(When.BEHIND_UNIT)
            ran = self.disks.run_on(self.channel, min(units - did, 1))
        return ran._replace(units=did)

    def arrive(self, address: int) -> bool:
        """The arm of a drive has arrived."""
        return self._told(When.BEHIND_ARRIVE, address, int(self.disks.arrive(address))) == 1

    def interrupt(self) -> Optional[int]:
        """Takes an interruption from this channel."""
        address = self.disks.interrupt(0x80 >> self.channel)
        self.look(When.BEHIND_INTERRUPT, address or 0, int(address is not None))
        return address

    def reset(self) -> Optional[Track]:
        """Resets the channel and its drives."""
        track = self.disks.reset(self.channel)
        self.look(When.BEHIND_RESET, answer=int(track is not None), track=track)
        return track

    def end(self) -> None:
        """Ends the trace: a word that is still at work is reported."""
        self.look(When.AT_END)

    def _told(self, when: When, address: int, answer: int) -> int:
        self.look(when, address, answer)
        return answer
