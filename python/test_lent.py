#!/usr/bin/env python3
"""Tests of channels over main storage that the program keeps: the calls of test_dasd.py and the vectors of test_vectors.py over memory that goes to another
place at each call; who may do what with memory while it is lent; and what is refused."""

# It looks at what locks.
# pylint: disable=protected-access

from __future__ import annotations

import array
import copy
import ctypes
import mmap
import pickle
import threading
import unittest
import unittest.mock
from typing import Callable, List, Optional, Sequence, Tuple

import dasd
import test_dasd
import test_vectors
from dasd import _handle

Call = Callable[..., object]
SIZE, BLOCKS = 65536, 32
READ_R0 = bytes.fromhex("1600020020000010")
RECORD_0 = bytes.fromhex("0000000000000008" + "00" * 8)


class Kept(dasd.LentSubsystem):
    """Channels over memory of their own."""

    def __init__(self, size: int, *channels: int) -> None:
        self.kept = bytearray(size), bytearray(size // 2048)
        super().__init__(*self.kept, *channels)


class Moved(Kept):
    """The same, whose memory is at another place at each call that needs it; what stood at the old place is spoilt."""

    def move(self) -> None:
        """Puts it to another place."""
        before, self.kept = self.kept, (bytearray(self.kept[0]), bytearray(self.kept[1]))
        self.lend(*self.kept)
        for it in before:
            it[:] = b"\xA5" * len(it)

    def sio(self, address: int) -> int:
        self.move()
        return super().sio(address)

    def tio(self, address: int) -> int:
        self.move()
        return super().tio(address)

    def hio(self, address: int) -> int:
        self.move()
        return super().hio(address)

    def step(self, channel: int, units: int) -> int:
        self.move()
        return super().step(channel, units)

    def run_on(self, channel: int, units: int) -> dasd.Run:
        self.move()
        return super().run_on(channel, units)

    def run_until(self, channel: int, units: int, until: int = dasd.Until.NOTHING) -> dasd.Progress:
        self.move()
        return super().run_until(channel, units, until)

    def interrupt(self, mask: int = dasd.ALL_CHANNELS) -> Optional[int]:
        self.move()
        return super().interrupt(mask)


class KeptCalls(test_dasd.Calls):
    """Each call, over memory that stays."""

    maker = Kept


class MovedCalls(test_dasd.Calls):
    """Each call, over memory that is moved."""

    maker = Moved

    def test_a_program_goes_on_wherever_memory_is(self) -> None:
        with self.made() as disks:
            disks.storage[0x100:0x108] = READ_R0
            self.assertEqual(disks.sio(0x190), 0)
            ran = disks.run_on(1, 1)
            while ran.subchannel is dasd.Subchannel.WORKING:
                self.assertEqual(ran.units, 1)
                ran = disks.run_on(1, 1)
            self.assertEqual((disks.interrupt(), disks.peek(0x200, 16)), (0x190, RECORD_0))


def a_copy(disks: dasd.Channels) -> dasd.Channels:
    """A copy goes on, over memory of its own; what was copied is closed, and its memory spoilt."""
    assert isinstance(disks, dasd.LentSubsystem)
    with disks:
        keys = bytearray(disks.key(at) for at in range(0, len(disks.storage), 2048))
        second = disks.copy(bytearray(disks.storage), keys)
        disks.storage[:] = b"\xA5" * len(disks.storage)
    return second


class Vectors(test_vectors.Vectors):
    """The vectors, over memory that is moved."""

    maker = Moved
    copier = staticmethod(a_copy)


def read_with(disks: dasd.Channels, key: int) -> bool:
    """Whether a program with this key, which reads record 0 to 200, may store there."""
    disks.poke(0x48, bytes([key << 4, 0, 1, 0]))
    disks.poke(0x100, READ_R0)
    disks.poke(0x200, bytes(16))
    assert disks.sio(0x190) == 0 and disks.run_on(1, 1000).subchannel is dasd.Subchannel.ENDED and disks.interrupt() == 0x190
    found, status = disks.peek(0x200, 16), disks.peek(0x45, 1)[0]
    assert (found, status) in ((RECORD_0, 0), (bytes(16), 0x10))  # protection check
    return not status


class Lives(unittest.TestCase):
    """Who may do what with memory and keys while they are lent."""

    def test_memory_stays_as_long_as_it_is_lent(self) -> None:
        memory, keys, others, mapped = bytearray(SIZE), bytearray(BLOCKS), bytearray(SIZE), mmap.mmap(-1, SIZE)
        disks = dasd.LentSubsystem(memory, keys, 1)
        for it in (memory, keys):
            self.assertRaises(BufferError, it.append, 1)
        disks.lend(mapped, keys)
        memory.append(1)
        self.assertRaises(BufferError, mapped.close)
        self.assertRaises(BufferError, keys.clear)
        disks.lend(others, bytes(BLOCKS))
        mapped.close()
        keys.clear()
        disks.close()
        others.clear()
        self.assertRaises(dasd.Fault, disks.peek, 0, 1)

    def test_memory_stays_until_a_call_is_over(self) -> None:
        """A handler of a signal may lend other memory within a call, before the library has it."""
        memory, others = bytearray(SIZE), bytearray(SIZE)
        with dasd.LentSubsystem(memory, bytes(BLOCKS), 1) as disks:
            call: Callable[..., int] = _handle.Handle.call

            def lends(handle: _handle.Handle, name: str, *arguments: object) -> int:
                disks.lend(others, bytes(BLOCKS))
                self.assertRaises(BufferError, memory.append, 1)
                return call(handle, name, *arguments)

            with unittest.mock.patch.object(_handle.Handle, "call", lends):
                self.assertEqual(disks.sio(0x190), 3)
            memory.append(1)

    def test_a_view_keeps_what_it_shows(self) -> None:
        memory = bytearray(SIZE)
        disks = dasd.LentSubsystem(memory, bytes(BLOCKS), 1)
        view = disks.storage[4:8]
        disks.close()
        view[0] = 7
        self.assertEqual(memory[4], 7)
        self.assertRaises(BufferError, memory.append, 1)
        del view
        memory.append(1)

    def test_a_copy_is_lent_its_own(self) -> None:
        memory = bytearray(SIZE)
        disks = dasd.LentSubsystem(memory, bytes(BLOCKS), 1)
        disks.attach_new(0x190, 2314, 1)
        disks.poke(0x48, bytes([0, 0, 1, 0]))
        disks.poke(0x100, READ_R0)
        self.assertEqual((disks.sio(0x190), disks.step(1, 5)), (0, 5))
        self.assertRaises(dasd.Fault, disks.copy, bytearray(SIZE + 2048), bytes(BLOCKS + 1))
        others = bytearray(memory)
        second = disks.copy(others, bytes(BLOCKS))
        self.assertIs(second.run_on(1, 1000).subchannel, dasd.Subchannel.ENDED)
        self.assertIs(disks.channel(1).subchannel, dasd.Subchannel.WORKING)
        self.assertEqual((others[0x200:0x210], memory[0x200:0x210] == RECORD_0), (RECORD_0, False))
        self.assertIs(disks.run_on(1, 1000).subchannel, dasd.Subchannel.ENDED)
        self.assertEqual((disks.interrupt(), second.interrupt(), memory), (0x190, 0x190, others))

    def test_no_copy(self) -> None:
        with Kept(SIZE, 1) as disks:
            copiers: Sequence[Call] = (copy.copy, copy.deepcopy, pickle.dumps)
            for call in copiers:
                self.assertRaises(TypeError, call, disks)

    def test_whatever_has_a_buffer(self) -> None:
        memories: List[dasd.WritableBytes] = [bytearray(SIZE), mmap.mmap(-1, SIZE), memoryview(array.array("Q", bytes(SIZE)))]
        memories += [memoryview(bytearray(3 * SIZE))[1 : SIZE + 1], memoryview(bytearray(SIZE)).cast("B", (256, 256))]
        memories += [memoryview((ctypes.c_uint16 * (SIZE // 2))())]
        lists: List[dasd.BytesLike] = [bytes(BLOCKS), bytearray(BLOCKS), memoryview(array.array("b", [0] * BLOCKS))]
        lists += [memoryview(bytes(BLOCKS)).cast("c", (4, 8))]
        for memory in memories:
            for keys in lists:
                with dasd.LentSubsystem(memory, keys, 1) as disks:
                    disks.attach_new(0x190, 2314, 1)
                    self.assertTrue(read_with(disks, 5) is False and read_with(disks, 0))
                    self.assertEqual(memoryview(memory).tobytes()[0x200:0x210], RECORD_0)


class Keys(unittest.TestCase):
    """The keys that are lent."""

    def test_they_are_read_anew_for_each_call(self) -> None:
        memory, keys = bytearray(SIZE), bytearray(BLOCKS)
        with dasd.LentSubsystem(memory, keys, 1) as disks:
            disks.attach_new(0x190, 2314, 1)
            for kept, program, stores in ((1, 1, True), (2, 1, False), (2, 0, True), (15, 15, True), (0x11, 1, False), (0xFF, 15, False), (0xFF, 0, True)):
                keys[0] = kept
                self.assertEqual((read_with(disks, program), disks.key(2047)), (stores, kept))
            disks.set_key(2048, 9)
            self.assertEqual((keys[1], keys[0], disks.key(4095)), (9, 0xFF, 9))

    def test_they_are_copied_by_who_calls(self) -> None:
        """No other thread may call meanwhile: it would write the copy that the library reads."""
        is_free: List[bool] = []
        with dasd.LentSubsystem(bytearray(SIZE), bytes(BLOCKS), 1) as disks:
            now, lock = _handle.Lent.now, disks._handle._lock

            def tries() -> None:
                is_free.append(lock.acquire(blocking=False))
                if is_free[-1]:
                    lock.release()

            def asks(lent: _handle.Lent) -> object:
                other = threading.Thread(target=tries)
                other.start()
                other.join()
                return now(lent)

            with unittest.mock.patch.object(_handle.Lent, "now", asks):
                self.assertEqual(disks.sio(0x190), 3)
        self.assertEqual(is_free, [False])

    def test_they_may_lie_in_memory(self) -> None:
        memory = bytearray(SIZE)
        with dasd.LentSubsystem(memory, memoryview(memory)[0x300 : 0x300 + BLOCKS], 1) as disks:
            disks.attach_new(0x190, 2314, 1)
            memory[0x300] = 3
            self.assertEqual((read_with(disks, 3), read_with(disks, 4)), (True, False))

    def test_those_that_can_not_be_written(self) -> None:
        with dasd.LentSubsystem(bytearray(SIZE), bytes(BLOCKS), 1) as disks:
            self.assertRaises(TypeError, disks.set_key, 0, 1)
            self.assertEqual(disks.key(0), 0)


def calls_of(disks: dasd.LentSubsystem) -> Sequence[Call]:
    """What takes memory and keys."""
    return (disks.lend, lambda *lent: dasd.LentSubsystem(*lent, 1))


class Refusals(unittest.TestCase):
    """What is not lent; C is not asked."""

    def refused(self, name: str, call: Callable[..., object], *arguments: object) -> None:
        """A call raises the Fault of this name, and the library is not called."""
        with unittest.mock.patch("dasd._handle.calls", None), self.assertRaises(dasd.Fault) as caught:
            call(*arguments)
        self.assertEqual(caught.exception.name, name)

    def test_what_is_no_main_storage(self) -> None:
        memory, keys = bytearray(SIZE), bytearray(BLOCKS)
        with dasd.LentSubsystem(memory, keys, 1) as disks:
            for call in calls_of(disks):
                for size in (0, 2048, SIZE - 1, SIZE + 1, (1 << 24) + 2048):
                    self.refused("BAD_SIZE", call, bytearray(size), bytes(size // 2048))
                for blocks in (0, BLOCKS - 1, BLOCKS + 1, SIZE):
                    self.refused("BAD_BLOCKS", call, memory, bytes(blocks))
            for size in (4096, SIZE - 2048, SIZE + 2048):
                self.refused("OTHER_SIZE", disks.lend, bytearray(size), bytes(size // 2048))
            self.assertRaises(BufferError, memory.append, 1)
        self.refused("NOTHING_HELD", disks.lend, memory, keys)

    def test_what_python_and_c_would_see_differently(self) -> None:
        memory, keys = bytearray(SIZE), bytearray(BLOCKS)
        wider = memoryview(array.array("H", [0] * BLOCKS))
        with dasd.LentSubsystem(memory, keys, 1) as disks:
            each: List[Tuple[object, object]] = [(bytes(SIZE), keys), (memoryview(bytearray(2 * SIZE))[::2], keys), (None, keys), (memory, None)]
            each += [(memory, wider), (memory, wider[: BLOCKS // 2]), (memory, memoryview(bytes(2 * BLOCKS))[::2]), (memory, [0] * BLOCKS)]
            for call in calls_of(disks):
                for lent in each:
                    self.assertRaises(TypeError, call, *lent)
            self.assertEqual(disks.storage, memory)


if __name__ == "__main__":
    unittest.main()
