"""Main storage and channels with drives, as a program in Python has them."""

from __future__ import annotations

import ctypes
import mmap
import operator
from types import TracebackType
from typing import NoReturn, Optional, Sequence, Tuple, Type, TypeVar, Union

from . import _library
from ._files import HeldFiles
from ._handle import Handle, Lent, LentHandle, calls, done
from ._until import Progress, Sum, Until
from ._words import (
    Area,
    Arm,
    AttachedDrive,
    Changed,
    ChangedTrack,
    ChannelState,
    Credit,
    DriveState,
    Fault,
    FaultCode,
    Phase,
    Program,
    Registers,
    Run,
    Subchannel,
    Track,
    Version,
    VolumeFile,
)

#: What a call takes as bytes: all of the object's, whatever its items are. Of other objects with bytes take a memoryview.
BytesLike = Union[bytes, bytearray, memoryview, mmap.mmap]

#: Main storage that a program keeps: all of the object's bytes, whatever its items are. Of other objects take a memoryview.
WritableBytes = Union[bytearray, memoryview, mmap.mmap]

_Kind = TypeVar("_Kind", bound="Channels")

#: The channels 0 to 6, as a system mask.
ALL_CHANNELS = 0xFE

_U8, _U16, _U32, _U64 = 0xFF, 0xFFFF, 0xFFFF_FFFF, 0xFFFF_FFFF_FFFF_FFFF
# Main storage has so many bytes or more; none has so many.
_LEAST, _TOO_MANY = 4096, (1 << 24) + 1


def _number(name: str, given: int, most: int) -> int:
    """A number that the library takes. A ValueError where it is not from 0 to the most."""
    number = operator.index(given)
    if not 0 <= number <= most:
        raise ValueError(f"{name} {number} is not from 0 to {most}")
    return number


def _refusable(given: int, most: int, refused: int) -> int:
    """A number; in the place of one that C's type can't hold another that the library refuses for the same reason."""
    number = operator.index(given)
    return number if 0 <= number <= most else refused


def _bytes_of(data: BytesLike) -> bytes:
    return data if isinstance(data, bytes) else memoryview(data).tobytes()


def _pairs(files: Sequence[BytesLike]) -> Tuple[ctypes.Array[_library.Bytes], int]:
    """The array of pointers and lengths that C takes; it keeps the bytes."""
    whole = [_bytes_of(it) for it in files]
    return (_library.Bytes * max(len(whole), 1))(*(_library.Bytes(it, len(it)) for it in whole)), len(whole)


def _lent(memory: WritableBytes, keys: BytesLike) -> Lent:
    """Main storage that is lent. A Fault where it is none, BAD_SIZE or BAD_BLOCKS; a TypeError where C would find other bytes or keys than
    Python, or may not write them."""
    whole, each = memoryview(memory), memoryview(keys)
    if each.itemsize != 1:
        raise TypeError(f"a key is a byte, and not an item of {each.itemsize} bytes")
    if whole.nbytes % _library.BLOCK or not _LEAST <= whole.nbytes < _TOO_MANY:
        raise Fault(FaultCode.BAD_SIZE)
    if each.nbytes != whole.nbytes // _library.BLOCK:
        raise Fault(FaultCode.BAD_BLOCKS)
    return Lent(whole, each)


def library_version() -> Version:
    """The version of the library that was loaded."""
    n: int = calls.dasd_version()
    return Version(n >> 16, n >> 8 & 255, n & 255)


def channel_set(*channels: int) -> int:
    """The set of these channels, 0 to 6, in the form of a system mask: what is_pending and interrupt take. None are the empty set. A
    Fault, BAD_CHANNELS, where a number is none of these."""
    numbers = {operator.index(it) for it in channels}
    if not numbers <= set(range(7)):
        raise Fault(FaultCode.BAD_CHANNELS)
    return sum(0x80 >> it for it in numbers)


def check(*files: BytesLike) -> None:
    """Raises a Fault where these files, in their order, are no image: what attach would find.

    NO_FILES, TOO_MANY_FILES, NO_MEMORY; NOT_CKD_P370, COMPRESSED, DEVICE_TYPE, HEADS, TRACK_SIZE, SPLIT, LENGTH.
    """
    done(calls.dasd_check(*_pairs(files)))


class Channels:
    """One to seven channels over main storage, each with up to eight drives and their volumes: a Subsystem, which has main storage of its
    own, or a LentSubsystem, which is lent it.

    It is freed by `close`, or by the end of a `with`, or when nothing refers to it. It is copied by `copy` alone, and not pickled.

    Any thread may call, and may store into `storage`: calls are made one after another, and a store comes before or after a call. What
    stores without the interpreter's lock, as `readinto` of a file does, is kept out by the program while it calls.

    An address is 0 to 65,535, the channel's number in its high byte and the drive's in the low one; `at` is the place of a byte in main
    storage; a mask is 0 to 255, with 0x80 for channel 0 and 0x02 for channel 6.

    A refused call raises a Fault, whose `code` and `name` say why, and has changed nothing; each method names those that it may raise.
    After `close` every method but `close` raises NOTHING_HELD. A number that C has no place for is refused for the reason for which any
    wrong number is there; an address, a mask, or a count that is out of range raises a ValueError. None is cut.
    """

    def __init__(self, handle: Handle) -> None:
        self._storage: Optional[memoryview] = handle.storage()
        self._held: Optional[Handle] = handle

    @property
    def _handle(self) -> Handle:
        held = self._held
        if held is None:
            raise Fault(FaultCode.NOTHING_HELD)
        return held

    def _call(self, name: str, *arguments: object) -> int:
        return self._handle.call(name, *arguments)

    def __enter__(self: _Kind) -> _Kind:
        return self

    def __exit__(self, kind: Optional[Type[BaseException]], raised: Optional[BaseException], trace: Optional[TracebackType]) -> None:
        self.close()

    def __reduce_ex__(self, protocol: object) -> NoReturn:
        raise TypeError(f"a {type(self).__name__} is not copied or pickled")

    def close(self) -> None:
        """Lets go of all of it, unsaved volumes too, and of what is lent; a second time does nothing.

        Views of `storage` that are still there stay valid, and its memory is there until the last of them is gone.
        """
        self._storage = None
        self._held = None

    @property
    def closed(self) -> bool:
        """Whether it was closed."""
        return self._held is None

    @property
    def storage(self) -> memoryview:
        """Main storage itself, not a copy, a byte an item: what is stored there between two calls, the processor stores.

        A processor takes it once: it stays where it is, unless other memory is lent. NOTHING_HELD.
        """
        storage = self._storage
        if storage is None:
            raise Fault(FaultCode.NOTHING_HELD)
        return storage[:]

    # Volumes and drives

    def attach(self, address: int, *files: BytesLike) -> None:
        """Attaches a drive under an address, with the volume that these files, one to eight in their order, hold. They are copied.

        The arm is at rest at cylinder 0 and head 0, and the sense bytes are zero. Also while a program runs. NO_CHANNEL, NO_FILES,
        TOO_MANY_FILES, NO_MEMORY, what `check` raises, ADDRESS_TAKEN, FULL.
        """
        self._call("attach", _number("address", address, _U16), *_pairs(files))

    def attach_files(self, address: int, files: HeldFiles) -> None:
        """Attaches a drive under an address, with the volume that these files hold. They are taken over as they are, and none is copied; their
        changes are counted again. Where it is refused they stay. The Faults of `attach`, and NOTHING_HELD.
        """
        number = _number("address", address, _U16)
        files.lend(lambda at: self._call("attach_files", number, at))

    def detach_files(self, address: int) -> HeldFiles:
        """Takes a drive off its channel, and gives back the files of its volume, with all that was written. None is copied.

        NO_MEMORY, and the Faults of `detach`.
        """
        files, number = HeldFiles.none(), _number("address", address, _U16)
        files.lend(lambda at: self._call("detach_files", number, at))
        return files

    def attach_new(self, address: int, model: int, cylinders: int) -> None:
        """The same with a new volume: so many cylinders, 1 to 65,535, of this model, 2311 or 2314, whose tracks are empty.

        BAD_MODEL, NO_CHANNEL, NO_CYLINDERS, NO_MEMORY, ADDRESS_TAKEN, FULL.
        """
        self._call("attach_new", _number("address", address, _U16), _refusable(model, _U16, 0), _refusable(cylinders, _U16, 0))

    # c/interface.toml: begin
    def detach(self, address: int) -> None:
        """Takes a drive off its channel. Its volume is freed, so save it first, or keep it by `detach_files`. The other drives and the channel
        stay. NO_CHANNEL, NO_DRIVE, PROGRAM_RUNS, ENDING_PENDS, DEVICE_END_OWED."""
        self._call("detach", _number("address", address, _U16))
    # c/interface.toml: end

    def file(self, address: int, place: int = 0) -> VolumeFile:
        """A copy of a file of a drive's volume, 0 for its first, where the drive's program does not run, and the number of its changes.

        NO_CHANNEL, PROGRAM_RUNS, NO_DRIVE, NO_FILE.
        """
        return VolumeFile(*self._handle.file(_number("address", address, _U16), _refusable(place, _U8, _U8)))

    def changes(self, address: int, place: int = 0) -> int:
        """That number alone, without a copy: another after each write to the file. The same Faults as those of `file`."""
        shown = _library.File()
        self._call("show_file", _number("address", address, _U16), _refusable(place, _U8, _U8), ctypes.byref(shown))
        changes: int = shown.changes
        return changes

    def changed(self, address: int, since: int, place: int = 0) -> Changed:
        """The tracks of such a file that were written since its number of changes was this one, with copies of their slots.

        A copy of the file that was made then is the file once each slot is at its place in it. `since` is a number that `file`,
        `changes` or this call has answered for the file; a number above the file's own answers all tracks. A new volume's file is copied
        whole first. The same Faults as those of `file`.
        """
        tracks, changes = self._handle.changed(
            _number("address", address, _U16), _refusable(place, _U8, _U8), _number("since", since, _U64)
        )
        return Changed([ChangedTrack(*it) for it in tracks], changes)

    def drive(self, address: int) -> DriveState:
        """What is known of a drive. NO_CHANNEL, NO_DRIVE."""
        d = _library.Drive()
        self._call("show_drive", _number("address", address, _U16), ctypes.byref(d))
        return DriveState(d.model, d.cylinders, d.cylinder, d.head, Arm(d.arm), bytes(d.sense))

    # The processor's instructions: the condition code, 0 to 3; it is 3 where there is no such channel

    def sio(self, address: int) -> int:
        """Start I/O: 0, the program that the channel address word at 72 leads to was accepted, and runs by step or run_on; 1, status was
        stored at 68; 2, the channel is busy; 3, no drive has this address."""
        return self._handle.over("sio", _number("address", address, _U16))

    def tio(self, address: int) -> int:
        """Test I/O: 0, the drive is available; 1, a channel status word was stored at 64; 2, the channel is busy; 3, no drive."""
        return self._handle.over("tio", _number("address", address, _U16))

    def hio(self, address: int) -> int:
        """Halt I/O: 0, a channel status word pends, and stays; 1, nothing ran, and a status of zeros was stored at 68; 2, the program that
        ran is cut, and its channel status word pends; 3, no drive."""
        return self._handle.over("hio", _number("address", address, _U16))

    def tch(self, address: int) -> int:
        """Test Channel, of the channel of an address: 0, available; 1, a channel status word pends; 2, a program runs; 3, no channel."""
        return self._call("tch", _number("address", address, _U16))

    # What happens beside the processor

    def step(self, channel: int, units: int) -> int:
        """Lets the program that runs on a channel do units until it ends, but so many at most, 0 to 4,294,967,295; how many it did.

        A unit is a word that is fetched, an index that passes, a byte that moves, or an end. A long run lets other threads of Python go
        on. NO_CHANNEL.
        """
        handle, number = self._handle, _refusable(channel, _U8, _U8)
        return handle.in_pieces(_number("units", units, _U32), lambda most: handle.step(number, most))

    def run_on(self, channel: int, units: int) -> Run:
        """The same, with what the channel does after them. NO_CHANNEL."""
        handle, number, ran = self._handle, _refusable(channel, _U8, _U8), _library.Ran()
        did = handle.in_pieces(_number("units", units, _U32), lambda most: handle.run_on(number, most, ran))
        return Run(did, Subchannel(ran.subchannel), ran.device, ran.asked == 1)

    def run_until(self, channel: int, units: int, until: int = Until.NOTHING) -> Progress:
        """The same, and it ends also after the first unit that brings what is waited for; with counts of what the units came to.
        BAD_UNTIL, NO_CHANNEL."""
        handle, number, bits, ran = self._handle, _refusable(channel, _U8, _U8), _refusable(until, _U8, _U8), Sum()

        def some(most: int) -> int:
            handle.run_until(number, most, bits, ran.last)
            return ran.add()

        return ran.whole(handle.in_pieces(_number("units", units, _U32), some, lambda: bool(ran.last.stopped)))

    def arrive(self, address: int) -> bool:
        """The arm of a drive has arrived: whether it moved, so that its device end is to be stored. The caller's clock says when."""
        return self._call("arrive", _number("address", address, _U16)) == 1

    def is_pending(self, mask: int = ALL_CHANNELS) -> bool:
        """Whether `interrupt` would take an interruption from one of the channels of a system mask now."""
        return self._call("is_pending", _number("mask", mask, _U8)) == 1

    def interrupt(self, mask: int = ALL_CHANNELS) -> Optional[int]:
        """Takes an interruption from the channel with the lowest number, of those of a system mask, that has one: its address; its
        channel status word is stored at 64. None where there is none."""
        address = ctypes.c_uint16()
        return address.value if self._handle.over("interrupt", _number("mask", mask, _U8), ctypes.byref(address)) else None

    def reset(self, channel: int) -> Optional[Track]:
        """Resets a channel and its drives, and no other: a program that runs is cut, what pends is lost, arms are at rest, sense bytes
        are zero. A track that the program had written and that could not be saved, or None. NO_CHANNEL."""
        track = _library.Track()
        is_unsaved = self._call("reset", _refusable(channel, _U8, _U8), ctypes.byref(track))
        return Track(track.address, track.cylinder, track.head) if is_unsaved else None

    def channel(self, number: int) -> ChannelState:
        """What a channel does, and its drives. NO_CHANNEL."""
        s = _library.State()
        self._call("show_channel", _refusable(number, _U8, _U8), ctypes.byref(s))
        drives = tuple(AttachedDrive(int(s.units[i]), Arm(s.arms[i])) for i in range(s.drives))
        return ChannelState(Subchannel(s.subchannel), s.device, s.asked == 1, drives)

    def program(self, channel: int) -> Optional[Program]:
        """The program that runs on a channel, as it is between two units. None where none runs. NO_CHANNEL."""
        p = _library.Program()
        if not self._is_shown("show_program_sized", channel, p):
            return None
        word = (p.code, p.flags, p.address, p.count, p.place)
        return Program(p.device, Phase(p.phase), p.last, p.next, *word, p.left, p.key, p.asked == 1)

    def registers(self, channel: int) -> Optional[Registers]:
        """What the drive of that program remembers beside its volume. None where none runs. NO_CHANNEL."""
        r = _library.Registers()
        if not self._is_shown("show_registers_sized", channel, r):
            return None
        seen = (Area(r.area), r.passed, r.lap, r.mask, r.mask_set == 1)
        return Registers(r.cylinder, r.head, *seen, Credit(r.credit), r.credited, bytes(r.sense))

    def look(self, trace: _library.Trace, when: int, channel: int, call: Tuple[int, int], track: Optional[Track]) -> None:
        """Looks at a channel for a Trace, at a moment: after a call of this address, which answered this, or lost a track. Nothing changes.
        NO_CHANNEL, BAD_MOMENT."""
        told = (_number("when", when, _U8), _refusable(channel, _U8, _U8), _number("address", call[0], _U16), _number("answer", call[1], _U32))
        moment = _library.Moment(*told, track.cylinder if track else 0, track.head if track else 0)
        if track:
            moment.address = track.address
        self._handle.over("trace_look", ctypes.byref(trace), ctypes.byref(moment))

    def _is_shown(self, name: str, channel: int, shown: ctypes.Structure) -> bool:
        """Whether a program runs on a channel, of which this call has shown something."""
        try:
            self._call(name, _refusable(channel, _U8, _U8), ctypes.byref(shown), ctypes.sizeof(shown))
        except Fault as fault:
            if fault.code == FaultCode.NO_PROGRAM:
                return False
            raise
        return True

    # What the channels are between two programs

    def save(self) -> bytes:
        """What the channels are between two programs, as bytes for a file: of each what pends, and of its drives what the arms do, the
        cylinders, the heads and the sense bytes. Main storage, keys and the volumes' files are saved beside it. PROGRAM_RUNS: run the
        program on to its end, or halt it, and then save."""
        return self._handle.save()

    def restore(self, saved: BytesLike) -> None:
        """Restores what was saved, all or nothing, over channels of the same numbers with drives of the same addresses, where no program
        runs. The bytes may come from a stranger. NO_SAVED_STATE, OTHER_VERSION, SAVED_LENGTH, SAVED_SUM, NOT_SOUND; then, channel by channel,
        OTHER_CHANNELS, PROGRAM_RUNS, OTHER_DRIVES, NO_TRACK, NOT_OWED."""
        data = _bytes_of(saved)
        self._handle.call("restore", data, len(data))

    # Main storage, with the bounds looked at

    def peek(self, at: int, count: int) -> bytes:
        """A copy of so many bytes of storage from an address on. OUTSIDE_STORAGE."""
        return self._handle.peek(_refusable(at, _U32, _U32), min(_number("count", count, (1 << 64) - 1), _TOO_MANY))

    def poke(self, at: int, data: BytesLike) -> None:
        """Stores these bytes from an address on, all or none. OUTSIDE_STORAGE."""
        self._handle.poke(_refusable(at, _U32, _U32), _bytes_of(data))

    def key(self, at: int) -> int:
        """The storage key, 0 to 15, of the block of 2,048 bytes that has this address. OUTSIDE_STORAGE."""
        return self._handle.key(_refusable(at, _U32, _U32))

    def set_key(self, at: int, key: int) -> None:
        """Sets it. BAD_KEY, OUTSIDE_STORAGE."""
        self._handle.set_key(_refusable(at, _U32, _U32), _refusable(key, _U8, _U8))


class Subsystem(Channels):
    """Channels over main storage of its own, which is there until the last view of `storage` is gone."""

    def __init__(self, storage_bytes: int, *channels: int) -> None:
        """Main storage of so many zero bytes, with keys 0, and the channels of these numbers, 0 to 6, without drives.

        BAD_CHANNELS; BAD_SIZE, where the bytes are no multiple of 2,048 from 4,096 to 16,777,216; NO_MEMORY.
        """
        super().__init__(Handle.new(_refusable(storage_bytes, _U32, 0), channel_set(*channels)))

    def copy(self) -> Subsystem:
        """A second one that is as this one is between two calls, also in the middle of channel programs: what runs, what pends and what
        arms do, the volumes, main storage and its keys. What is called of both from then on is answered alike, and no call of one changes
        the other. It costs what copying all volumes does. NO_MEMORY, NOTHING_HELD."""
        second = Subsystem.__new__(Subsystem)
        Channels.__init__(second, self._handle.copy())
        return second


class LentSubsystem(Channels):
    """Channels over main storage that the program keeps; each call does and answers what that of a Subsystem does.

    The bytes and the keys are objects with a buffer, as a bytearray, an mmap or an array. They are lent until `close`, or until others are
    lent, or until nothing refers to this value; so long Python refuses whatever would free them or change their number, as `close` of an
    mmap and `append` of a bytearray. The bytes are written where they are, without a copy, and what the program stores there between two
    calls the processor stores. The keys are read again for each call; `set_key` writes them, where they can be written.

    A key is 0 to 15. A block with a key above 15 admits the key 0 alone, and no channel program with another key stores there: so give a
    list of the keys alone, without reference and change bits beside them.
    """

    def __init__(self, memory: WritableBytes, keys: BytesLike, *channels: int) -> None:
        """Channels of these numbers, 0 to 6, without drives, over this memory, with a key for each block of 2,048 bytes of it.

        BAD_SIZE, where the bytes are no multiple of 2,048 from 4,096 to 16,777,216; BAD_BLOCKS; BAD_CHANNELS; NO_MEMORY. A TypeError
        where the bytes can't be written, an item of the keys has more than a byte, or bytes or keys don't lie in a row.
        """
        super().__init__(LentHandle.new_over(_lent(memory, keys), channel_set(*channels)))

    def copy(self, memory: WritableBytes, keys: BytesLike) -> LentSubsystem:
        """A second one that is as this one is between two calls, also in the middle of channel programs, over other memory of the same size:
        the program gives it a copy of its bytes and keys, and then both answer alike. No call of one changes the other. What `lend`
        raises, and NO_MEMORY."""
        handle, lent = self._handle, _lent(memory, keys)
        assert isinstance(handle, LentHandle)
        second = LentSubsystem.__new__(LentSubsystem)
        Channels.__init__(second, handle.copy_over(lent))
        return second

    def lend(self, memory: WritableBytes, keys: BytesLike) -> None:
        """Lends other memory of the same size from now on, also while programs run: what differs in it is what the processor stored.
        What was lent before is free. What the above raises; OTHER_SIZE; NOTHING_HELD."""
        handle, lent = self._handle, _lent(memory, keys)
        assert isinstance(handle, LentHandle)
        handle.lend(lent)
        self._storage = handle.storage()
