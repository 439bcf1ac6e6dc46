"""A handle of the library, which nothing frees while anything of it is still in use, and which one thread at a time calls."""

from __future__ import annotations

import ctypes
from functools import lru_cache
from typing import Any, Callable, List, NoReturn, Tuple

from . import _library
from ._locked import Locked
from ._words import Fault, FaultCode

calls = _library.load()

# So many units of a program are some ten milliseconds, for which other threads wait.
UNITS_AT_ONCE = 1_000_000


def done(code: int) -> int:
    """What a call answers, where it was done. A Fault where it was refused."""
    if code < 0:
        raise Fault(code)
    return code


@lru_cache(maxsize=None)
def owned_type(size: int) -> Any:
    """The type of main storage of so many bytes that keeps its owner, which a program can't take away."""

    def refuse(*_: object) -> NoReturn:
        raise AttributeError("main storage has no attributes that can be set")

    return type("OwnedStorage", (_library.storage_type(size),), {"__slots__": ("owner",), "__setattr__": refuse, "__delattr__": refuse})


class Handle(Locked):
    """What the library holds for a subsystem. It is freed when the last goes that refers to it: the subsystem, until it is closed, and
    each view of main storage that it owns."""

    def __init__(self, make: Callable[[object], int]) -> None:
        """What `make` has a handle that holds nothing hold; it answers what its call does."""
        super().__init__()
        self._held = _library.Handle()
        self._at = ctypes.byref(self._held)
        # another module may be gone before this object, at the end of the interpreter
        self._free = calls.dasd_free
        done(make(self._at))

    @staticmethod
    def new(storage_bytes: int, channels: int) -> Handle:
        """A handle with main storage of its own."""
        return Handle(lambda at: int(calls.dasd_new(at, storage_bytes, channels)))

    def copy(self) -> Handle:
        """A second handle, which holds a copy of all that this one holds."""
        return Handle(lambda at: self.call("copy", at))

    def __del__(self) -> None:
        if getattr(self, "_free", None) is not None:
            self._free(self._at)

    def call(self, name: str, *arguments: object) -> int:
        """Makes a call, alone of all threads; what it answers. A Fault where it is refused."""
        with self._lock:
            self._refuse_while_copying()
            return done(getattr(calls, "dasd_" + name)(self._at, *arguments))

    def in_pieces(self, units: int, some: Callable[[int], int], ends: Callable[[], bool] = lambda: False) -> int:
        """Has so many units done, or fewer where the program or the run ends, by calls of `some` with a number of them each, which answers how
        many it did. Between two of these other threads of Python run, and signals are seen, but no other thread's call of this handle comes."""
        did = 0
        with self._lock:
            while True:
                asked = min(units - did, UNITS_AT_ONCE)
                part = some(asked)
                did += part
                if part < asked or did == units or ends():
                    return did

    def file(self, address: int, place: int) -> Tuple[bytes, int]:
        """A copy of a file of a volume, and the number of its changes."""
        shown = _library.File()
        with self._lock:
            self._refuse_while_copying()
            self._is_copying = True
            try:
                done(calls.dasd_show_file(self._at, address, place, ctypes.byref(shown)))
                return ctypes.string_at(shown.at, shown.len), shown.changes
            finally:
                self._is_copying = False

    def changed(self, address: int, place: int, since: int) -> Tuple[List[Tuple[int, int, bytes]], int]:
        """The tracks of such a file that were written since a number of its changes, each with its number, its slot's place and a copy of the
        slot; and the number now."""
        shown, track = _library.File(), _library.Changed()
        tracks: List[Tuple[int, int, bytes]] = []
        with self._lock:
            self._refuse_while_copying()
            self._is_copying = True
            try:
                done(calls.dasd_show_file(self._at, address, place, ctypes.byref(shown)))
                while done(calls.dasd_next_changed(self._at, address, place, since, ctypes.byref(track))) == 1:
                    tracks.append((track.track, track.at, ctypes.string_at(shown.at + track.at, track.len)))
                return tracks, shown.changes
            finally:
                self._is_copying = False

    def save(self) -> bytes:
        """What the channels are between two programs, as bytes."""
        into, written = ctypes.create_string_buffer(_library.SAVED), ctypes.c_size_t()
        self.call("save", into, _library.SAVED, ctypes.byref(written))
        return into.raw[: written.value]

    def _refuse_while_copying(self) -> None:
        """Raises a RuntimeError where this very thread copies a file: a signal's handler or a finalizer might else free what is copied."""
        if self._is_copying:
            raise RuntimeError("a call of a subsystem while this thread copies a file of it")

    # Calls that need main storage: here that which the handle owns

    def over(self, name: str, *arguments: object) -> int:
        """Makes a call over main storage."""
        return self.call(name, *arguments)

    def step(self, channel: int, units: int) -> int:
        """Lets a channel's program do so many units at most; how many it did."""
        did = ctypes.c_uint32()
        self.call("step", channel, units, ctypes.byref(did))
        return did.value

    def run_on(self, channel: int, units: int, ran: _library.Ran) -> int:
        """The same, with what the channel does after them."""
        self.call("run_on", channel, units, ctypes.byref(ran))
        return int(ran.units)

    def run_until(self, channel: int, units: int, until: int, ran: _library.Progress) -> None:
        """The same until one of these bits happens, with what the units come to."""
        wanted = _library.Wanted(units, channel, until)
        self.over("run_until_sized", ctypes.byref(wanted), ctypes.byref(ran), ctypes.sizeof(ran))

    def peek(self, at: int, count: int) -> bytes:
        """A copy of so many bytes from an address on."""
        into = ctypes.create_string_buffer(max(count, 1))
        self.call("peek", at, into, count)
        return into.raw[:count]

    def poke(self, at: int, data: bytes) -> None:
        """Stores these bytes from an address on."""
        self.call("poke", at, data, len(data))

    def key(self, at: int) -> int:
        """The key of the block that has this address."""
        return self.call("key", at)

    def set_key(self, at: int, key: int) -> None:
        """Sets it."""
        self.call("set_key", at, key)

    def storage(self) -> memoryview:
        """Main storage itself, which holds this handle as long as a view of it is there."""
        place = _library.Storage()
        self.call("show_storage", ctypes.byref(place))
        of_all = owned_type(place.len).from_address(place.at)  # pylint: disable=no-member
        object.__setattr__(of_all, "owner", self)
        return memoryview(of_all).cast("B")


class Lent:
    """Main storage that a program keeps, as long as it is lent: nothing takes the bytes or the keys away, or makes them fewer, meanwhile.

    The library writes the bytes where they are. The keys it reads in a copy that is made for each call, so that they may lie anywhere, and
    need not be such as can be written."""

    def __init__(self, memory: memoryview, keys: memoryview) -> None:
        size, blocks = memory.nbytes, keys.nbytes
        held, copied = _library.storage_type(size).from_buffer(memory), _library.storage_type(blocks)()
        self.memory, self.keys, self._copied = memoryview(held).cast("B"), keys.cast("B"), memoryview(copied).cast("B")
        self._at = _library.Memory(ctypes.addressof(held), size, ctypes.addressof(copied), blocks)

    def now(self) -> object:
        """It for C, with its keys of now."""
        self._copied[:] = self.keys
        return ctypes.byref(self._at)


class LentHandle(Handle):
    """A handle that owns no main storage, and is lent it."""

    def __init__(self, lent: Lent, make: Callable[[object], int]) -> None:
        super().__init__(make)
        self.lent = lent

    @staticmethod
    def new_over(lent: Lent, channels: int) -> LentHandle:
        """A handle that is lent this."""
        return LentHandle(lent, lambda at: int(calls.dasd_new_lent(at, lent.memory.nbytes, channels)))

    def copy_over(self, lent: Lent) -> LentHandle:
        """A second handle, which holds a copy of all that this one holds, and is lent other memory of the same size."""
        self._refuse_other_size(lent)
        return LentHandle(lent, lambda at: self.call("copy", at))

    def _refuse_other_size(self, lent: Lent) -> None:
        if lent.memory.nbytes != self.lent.memory.nbytes:
            raise Fault(FaultCode.OTHER_SIZE)

    def lend(self, lent: Lent) -> None:
        """Has other memory of the same size from now on."""
        self._refuse_other_size(lent)
        with self._lock:
            self.lent = lent

    def over(self, name: str, *arguments: object) -> int:
        with self._lock:
            lent = self.lent  # stays until the call is over, whatever a handler of a signal lends meanwhile
            return self.call("lent_" + name, lent.now(), *arguments)

    def step(self, channel: int, units: int) -> int:
        did = ctypes.c_uint32(units)
        self.over("step", channel, ctypes.byref(did))
        return did.value

    def run_on(self, channel: int, units: int, ran: _library.Ran) -> int:
        ran.units = units
        self.over("run_on", channel, ctypes.byref(ran))
        return int(ran.units)

    def _within(self, at: int, count: int) -> memoryview:
        """So many bytes from an address on."""
        memory = self.lent.memory
        if count and at + count > memory.nbytes:
            raise Fault(FaultCode.OUTSIDE_STORAGE)
        return memory[at : at + count]

    def peek(self, at: int, count: int) -> bytes:
        return bytes(self._within(at, count))

    def poke(self, at: int, data: bytes) -> None:
        self._within(at, len(data))[:] = data

    def key(self, at: int) -> int:
        self._within(at, 1)
        return int(self.lent.keys[at // _library.BLOCK])

    def set_key(self, at: int, key: int) -> None:
        if key > 15:
            raise Fault(FaultCode.BAD_KEY)
        self._within(at, 1)
        self.lent.keys[at // _library.BLOCK] = key

    def storage(self) -> memoryview:
        return self.lent.memory
