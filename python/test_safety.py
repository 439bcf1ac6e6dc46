#!/usr/bin/env python3
"""Tests of what the module dasd keeps from a program: memory that was freed, calls that meet, and numbers that are cut. The library is
found as in test_dasd.py; where it is looked for is tested here too."""

# It looks at what locks and at what frees, and ends processes that it forked.
# pylint: disable=protected-access

from __future__ import annotations

import array
import copy
import ctypes
import gc
import os
import pickle
import re
import shutil
import signal
import subprocess
import sys
import tempfile
import threading
import time
import unittest
import unittest.mock
import weakref
from pathlib import Path
from typing import Callable, List, Optional, Sequence, Tuple

import dasd
from dasd import _library

Call = Callable[..., object]
READ_R0 = bytes.fromhex("1600020020000010")
# No-Operation, and Transfer in Channel back to it
ENDLESS = bytes.fromhex("03000000400000010800010000000000")


def made() -> dasd.Subsystem:
    """Channel 1 with a new 2314 at 190, and a channel address word that names a program at 100 which reads record 0."""
    disks = dasd.Subsystem(65536, 1)
    disks.attach_new(0x190, 2314, 2)
    disks.poke(0x48, bytes.fromhex("00000100"))
    disks.poke(0x100, READ_R0)
    return disks


def together(works: Sequence[Callable[[], object]]) -> None:
    """Does these works, each in a thread."""
    threads = [threading.Thread(target=it) for it in works]
    for it in threads:
        it.start()
    for it in threads:
        it.join()


class Numbers(unittest.TestCase):
    """Numbers that the library has no place for: refused, and never cut."""

    def setUp(self) -> None:
        self.disks = made()

    def tearDown(self) -> None:
        self.disks.close()

    def refused(self, name: str, call: Call, *arguments: object) -> None:
        """A call raises the Fault of this name."""
        with self.assertRaises(dasd.Fault, msg=str(arguments)) as caught:
            call(*arguments)
        self.assertEqual(caught.exception.name, name, msg=str(arguments))

    def test_those_that_a_fault_is_for(self) -> None:
        disks = self.disks
        for beyond in (1 << 16, 1 << 32, 1 << 64, -1 << 64):
            self.refused("BAD_SIZE", dasd.Subsystem, (beyond << 16) + 65536, 1)
            self.refused("BAD_CHANNELS", dasd.Subsystem, 65536, beyond + 1)
            self.refused("BAD_CHANNELS", dasd.channel_set, beyond + 1)
            self.refused("BAD_MODEL", disks.attach_new, 0x191, 2314 + beyond, 1)
            self.refused("NO_CYLINDERS", disks.attach_new, 0x191, 2314, 1 + beyond)
            self.refused("NO_FILE", disks.file, 0x190, beyond)
            self.refused("NO_FILE", disks.changes, 0x190, beyond)
            self.refused("NO_FILE", disks.changed, 0x190, 0, beyond)
            self.refused("BAD_KEY", disks.set_key, 0, 3 + beyond)
            of_channels: Sequence[Tuple[Call, List[object]]] = [(disks.run_on, [1]), (disks.step, [1]), (disks.reset, []), (disks.channel, [])]
            of_channels = [*of_channels, (disks.run_until, [1])]
            for call, behind in of_channels:
                self.refused("NO_CHANNEL", call, 1 + beyond, *behind)
            of_storage: Sequence[Tuple[Call, List[object]]] = [(disks.peek, [1]), (disks.poke, [b"a"]), (disks.key, []), (disks.set_key, [1])]
            for call, behind in of_storage:
                self.refused("OUTSIDE_STORAGE", call, beyond << 16, *behind)
        self.refused("NO_CYLINDERS", disks.attach_new, 0x191, 2314, -1)
        self.refused("BAD_KEY", disks.set_key, 0, 259)
        self.refused("NO_CHANNEL", disks.run_on, 257, 5)
        self.refused("OUTSIDE_STORAGE", disks.peek, 0, 1 << 62)
        self.assertEqual((disks.key(0), len(disks.channel(1).drives)), (0, 1))

    def test_those_that_no_fault_is_for(self) -> None:
        disks = self.disks
        of_addresses: Sequence[Call] = (disks.sio, disks.tio, disks.hio, disks.tch, disks.arrive, disks.detach, disks.drive, disks.file, disks.changes)
        calls: List[Tuple[Call, List[object]]] = [(call, [at]) for call in of_addresses for at in (0x10190, -1, 1 << 64)]
        calls += [(disks.attach, [0x10191]), (disks.attach_new, [0x10191, 2314, 1])]
        calls += [(call, [1, units]) for call in (disks.run_on, disks.step) for units in (1 << 32, -1)]
        calls += [(disks.run_until, [1, units]) for units in (1 << 32, -1)]
        calls += [(call, [mask]) for call in (disks.is_pending, disks.interrupt) for mask in (0x1FE, -1)]
        calls += [(disks.peek, [0, -1])]
        calls += [(disks.changed, [address, since]) for address, since in ((0x10190, 0), (-1, 0), (0x190, -1), (0x190, 1 << 64))]
        for call, arguments in calls:
            with self.assertRaises(ValueError, msg=str(arguments)):
                call(*arguments)
        for wrong in (1.0, "1", None):
            with self.assertRaises(TypeError):
                of_addresses[0](wrong)

    def test_items_of_more_bytes(self) -> None:
        words = memoryview(array.array("I", [0x01010101, 0x02020202]))
        self.disks.poke(0x300, words)
        self.assertEqual((words.nbytes, self.disks.peek(0x300, 9)), (8, words.tobytes() + b"\0"))
        image = self.disks.file(0x190).data
        dasd.check(memoryview(image).cast("H"))
        self.disks.attach(0x191, memoryview(image).cast("Q"))
        self.assertEqual(self.disks.file(0x191).data, image)

    def test_no_bytes(self) -> None:
        self.disks.poke(65536, b"")
        self.disks.poke(0, memoryview(bytearray()))
        self.assertEqual((self.disks.peek(65536, 0), self.disks.peek(0, 0)), (b"", b""))
        self.refused("NO_FILES", self.disks.attach, 0x191)
        self.refused("LENGTH", self.disks.attach, 0x191, b"")
        self.refused("LENGTH", dasd.check, bytearray())


class Faults(unittest.TestCase):
    """What a fault says."""

    def test_each_has_the_text_of_the_header(self) -> None:
        header = Path(__file__).resolve().parent.parent / "c" / "dasd.h"
        if not header.is_file():
            self.skipTest("no dasd.h here")
        found = re.findall(r"DASD_(\w+) = (-\d+),? +/\* (.*) \*/", header.read_text(encoding="utf-8"))
        self.assertEqual(found, [(it.name, str(int(it)), dasd.fault_text(it)) for it in dasd.FaultCode])

    def test_a_fault_says_what_it_is(self) -> None:
        fault = dasd.Fault(-17)
        self.assertEqual((fault.code, fault.name, fault.text), (dasd.FaultCode.PROGRAM_RUNS, "PROGRAM_RUNS", "a channel program runs"))
        self.assertEqual(str(fault), "PROGRAM_RUNS: a channel program runs")
        self.assertEqual((dasd.Fault(-99).code, str(dasd.Fault(-99))), (-99, "-99: -99 is no fault of this library"))
        again = pickle.loads(pickle.dumps(fault))
        self.assertEqual((type(again), again.code, str(again)), (dasd.Fault, fault.code, str(fault)))


class Lives(unittest.TestCase):
    """Who may hold what, and for how long."""

    def test_a_view_outlives_its_subsystem(self) -> None:
        disks = made()
        disks.storage[0:2] = b"\1\2"
        view, part = disks.storage, disks.storage[0:8]
        disks.close()
        others = [dasd.Subsystem(65536, 1) for _ in range(8)]
        view[0] = part[1] = 0xAA
        self.assertEqual(([bytes(it.storage[:8]) for it in others], bytes(part[:2])), ([bytes(8)] * 8, b"\xAA\xAA"))
        self.assertTrue(disks.closed)
        with self.assertRaises(dasd.Fault):
            disks.peek(0, 1)

    def test_the_last_view_frees(self) -> None:
        freed: List[object] = []
        disks = made()
        handle, view = weakref.ref(disks._handle), disks.storage[4:8]
        weakref.finalize(handle(), freed.append, True)
        del disks
        for change in (lambda: setattr(view.obj, "owner", None), lambda: delattr(view.obj, "owner"), lambda: setattr(view.obj, "x", 1)):
            self.assertRaises(AttributeError, change)
        gc.collect()
        self.assertEqual(freed, [])
        del view
        gc.collect()
        self.assertEqual(freed, [True])

    def test_a_released_view_is_that_view_alone(self) -> None:
        with made() as disks:
            with disks.storage as view:
                view[0] = 7
            self.assertEqual(disks.storage[0], 7)

    def test_no_copy(self) -> None:
        with made() as disks:
            copiers: Sequence[Call] = (copy.copy, copy.deepcopy, pickle.dumps)
            for call in copiers:
                with self.assertRaises(TypeError):
                    call(disks)

    def test_no_call_while_a_file_is_copied(self) -> None:
        """What a handler of a signal might do: the file would be freed while it is copied."""
        with made() as disks:
            works: Sequence[Call] = (disks.detach, disks.file, disks.changes, disks.drive)
            for call in works:
                with unittest.mock.patch("dasd._handle.ctypes.string_at", lambda at, size, call=call: call(0x190)):
                    self.assertRaises(RuntimeError, disks.file, 0x190)
            self.assertEqual(len(disks.file(0x190).data), 512 + 2 * 20 * 7680)

    def test_a_subsystem_in_each_of_two_threads(self) -> None:
        def reads(bad: List[bool]) -> None:
            with made() as disks:
                for _ in range(2000):
                    bad.append(disks.sio(0x190) != 0 or disks.run_on(1, 1000).units >= 1000 or disks.interrupt() != 0x190)

        bad: List[bool] = []
        together([lambda: reads(bad)] * 2)
        self.assertEqual((len(bad), any(bad)), (4000, False))

    def test_one_subsystem_in_four_threads(self) -> None:
        """No call is refused because another is made, and none sees the middle of one."""
        faults: List[BaseException] = []

        def asks(disks: dasd.Subsystem) -> None:
            try:
                for _ in range(20000):
                    disks.poke(0x300, disks.peek(0x300, 64))
                    disks.storage[0x340] = disks.tch(0x100)
            except Exception as fault:  # pylint: disable=broad-exception-caught
                faults.append(fault)

        with made() as disks:
            together([lambda: asks(disks)] * 4)
        self.assertEqual(faults, [])

    def test_a_drive_stays_while_its_file_is_copied(self) -> None:
        order: List[str] = []
        is_copying, copy_of = threading.Event(), ctypes.string_at

        def slow_copy(at: int, size: int) -> bytes:
            is_copying.set()
            time.sleep(0.05)
            order.append("copied")
            return copy_of(at, size)

        def detaches(disks: dasd.Subsystem) -> None:
            is_copying.wait()
            disks.detach(0x190)
            order.append("detached")

        with made() as disks, unittest.mock.patch("dasd._handle.ctypes.string_at", slow_copy):
            together([lambda: disks.file(0x190), lambda: detaches(disks)])
        self.assertEqual(order, ["copied", "detached"])

    @unittest.skipUnless(hasattr(signal, "setitimer"), "no signal comes here by a clock")
    def test_a_signal_ends_a_long_run(self) -> None:
        def stop(number: int, frame: object) -> None:
            raise InterruptedError(number, frame)

        with made() as disks:
            disks.poke(0x100, ENDLESS)
            self.assertEqual(disks.sio(0x190), 0)
            before, began = signal.signal(signal.SIGALRM, stop), time.monotonic()
            try:
                signal.setitimer(signal.ITIMER_REAL, 0.05)
                self.assertRaises(InterruptedError, disks.run_on, 1, 0xFFFFFFFF)
                signal.setitimer(signal.ITIMER_REAL, 0.05)
                self.assertRaises(InterruptedError, disks.step, 1, 0xFFFFFFFF)
            finally:
                signal.signal(signal.SIGALRM, before)
            self.assertEqual((time.monotonic() - began < 10, disks.tch(0x100), disks.hio(0x190)), (True, 2, 2))

    @unittest.skipUnless(getattr(sys, "_is_gil_enabled", lambda: True)(), "this Python has no lock that a call could keep")
    def test_no_other_thread_stores_while_a_call_is_made(self) -> None:
        stores, is_over = [0], threading.Event()

        def stores_on(disks: dasd.Subsystem) -> None:
            while not is_over.is_set():
                disks.storage[0x340] = stores[0] & 255
                stores[0] += 1
                time.sleep(0)  # gives way

        def runs(disks: dasd.Subsystem) -> None:
            while not stores[0]:
                time.sleep(0)
            before = stores[0]
            self.assertEqual(disks.run_on(1, 500_000).units, 500_000)
            during.append(stores[0] - before)
            is_over.set()

        during: List[int] = []
        interval = sys.getswitchinterval()
        sys.setswitchinterval(1000)  # no thread is made to give way
        try:
            with made() as disks:
                disks.poke(0x100, ENDLESS)
                self.assertEqual(disks.sio(0x190), 0)
                together([lambda: stores_on(disks), lambda: runs(disks)])
        finally:
            sys.setswitchinterval(interval)
        self.assertEqual(during, [0])


@unittest.skipUnless(hasattr(os, "fork"), "no process is forked here")
class Forks(unittest.TestCase):
    """Processes that are forked while another thread calls."""

    def forked(self, work: Callable[[], object]) -> int:
        """How a process ends that does this, 0 where it came to its end; it has five seconds."""
        child = os.fork()
        if not child:
            signal.alarm(5)
            try:
                work()
                os._exit(0)
            finally:
                os._exit(1)
        return os.waitpid(child, 0)[1]

    def test_while_another_thread_runs_a_program(self) -> None:
        """The new process has the subsystem as it was between two calls; the program goes on in both."""
        with made() as disks:
            disks.poke(0x100, ENDLESS)
            self.assertEqual(disks.sio(0x190), 0)
            runner = threading.Thread(target=lambda: disks.run_on(1, 0xFFFFFFFF))
            runner.start()
            while disks._handle._lock.acquire(blocking=False):
                disks._handle._lock.release()
                time.sleep(0)

            def goes_on() -> None:
                assert (disks.tch(0x100), disks.run_on(1, 1000).units, disks.hio(0x190)) == (2, 1000, 2)
                disks.close()

            self.assertEqual(self.forked(goes_on), 0)
            disks.storage[0x104] = 0  # the program's first word chains no more
            runner.join()

    def test_while_another_thread_has_files(self) -> None:
        """And while it copies from them."""
        files = dasd.HeldFiles(4)
        is_held, is_over = threading.Event(), threading.Event()

        def holds() -> None:
            with files._lock:
                files._is_copying = True
                is_held.set()
                is_over.wait()

        holder = threading.Thread(target=holds)
        holder.start()
        is_held.wait()
        self.assertEqual(self.forked(lambda: files.put(0, b"here")), 0)
        is_over.set()
        holder.join()


class Places(unittest.TestCase):
    """Where the library is looked for: what DASD_LIBRARY names, then beside the module, then by the loader's name."""

    def found(self, folder: str, named: Optional[str]) -> str:
        """Where the module in a folder looks, with this in DASD_LIBRARY."""
        environment = {key: it for key, it in os.environ.items() if key != "DASD_LIBRARY"}
        if named is not None:
            environment["DASD_LIBRARY"] = named
        asked = [sys.executable, "-c", "import _library; print(_library.place())"]
        return subprocess.run(asked, cwd=folder, env=environment, check=True, capture_output=True, text=True).stdout.strip()

    def test_places_in_their_order(self) -> None:
        with tempfile.TemporaryDirectory() as folder:
            shutil.copy(_library.__file__, folder)
            self.assertEqual(self.found(folder, None), "libdasd.so.1")
            carried = Path(folder).resolve() / "libdasd.so.1"
            carried.touch()
            self.assertEqual(self.found(folder, None), str(carried))
            self.assertEqual(self.found(folder, "/there/libdasd.so"), "/there/libdasd.so")
            self.assertEqual(self.found(folder, ""), str(carried))

    def test_no_library_is_an_import_error(self) -> None:
        environment = dict(os.environ, DASD_LIBRARY="/nowhere/libdasd.so.1", PYTHONPATH=str(Path(_library.__file__).parent.parent))
        ended = subprocess.run([sys.executable, "-c", "import dasd"], env=environment, capture_output=True, text=True, check=False)
        self.assertEqual((ended.returncode, "ImportError: libdasd is not to be had" in ended.stderr), (1, True))


if __name__ == "__main__":
    unittest.main()
