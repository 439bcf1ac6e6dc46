#!/usr/bin/env python3
"""Tests of the module dasd. DASD_LIBRARY names the library; where it does not, the module finds it."""

from __future__ import annotations

import unittest
import zlib
from typing import Callable, List

import dasd

READ_R0 = bytes.fromhex("1600020020000010")

# What a search of record 0 and a read behind it are told as: a start that is accepted and one that is not, three bytes, where the trace ends and
# goes on, and what is asked behind the end.
TRACE = """\
SIO 190 CC 0, started
TCH CC 2, a program runs
SIO 190 CC 2, the channel is busy
 000100 31 Search ID Equal            5 <000200 000000       R0                                            still runs
 000100 31 Search ID Equal            5 <000200 0000000000   R0 0000000000 KL 0 DL 8 equal        SM CE DE skips one
        leaves a credit: R0, whose ID was found equal
        takes the credit away: R0, whose ID was found equal
 000110 06 Read Data                  8 >000300 000000000000 R0 0000000000 KL 0 DL 8              CE DE    left 0
INT 190 CE DE; last word 000110; residual count 0; key 0
TIO 190 CC 0, available
HIO 190 CC 1, status stored: none
ARRIVE 190: no arm was in motion
INT none
RESET
"""


#: What makes channels of these numbers over main storage of so many bytes.
Maker = Callable[..., dasd.Channels]


class Calls(unittest.TestCase):
    """Each call, over one handle."""

    maker: Maker = dasd.Subsystem

    def made(self) -> dasd.Channels:
        """Channel 1 with a new 2314 at 190, and a channel address word that names 100."""
        disks = self.maker(65536, 1)
        disks.attach_new(0x190, 2314, 2)
        disks.storage[0x48:0x4C] = bytes.fromhex("00000100")
        return disks

    def refused(self, name: str, call: Callable[..., object], *arguments: object) -> None:
        """A call raises the Fault of this name."""
        with self.assertRaises(dasd.Fault) as caught:
            call(*arguments)
        self.assertEqual(caught.exception.name, name)

    def test_versions(self) -> None:
        self.assertEqual(".".join(map(str, dasd.library_version())), dasd.__version__)

    def test_a_record_is_read(self) -> None:
        with self.made() as disks:
            disks.storage[0x100:0x108] = READ_R0
            self.assertEqual(disks.sio(0x190), 0)
            self.assertEqual((disks.sio(0x190), disks.tio(0x190), disks.tch(0x100)), (2, 2, 2))
            ran = disks.run_on(1, 1000)
            self.assertEqual((ran.units < 1000, disks.tch(0x100)), (True, 1))
            self.assertEqual(ran[1:], (dasd.Subchannel.ENDED, 0x90, False))
            self.assertEqual((disks.is_pending(), disks.is_pending(0x80 >> 2), disks.interrupt(0x80 >> 2)), (True, False, None))
            self.assertEqual((disks.interrupt(), disks.interrupt()), (0x190, None))
            self.assertEqual(disks.peek(0x200, 16).hex(), "0000000000000008" + "00" * 8)
            self.assertEqual((disks.step(1, 10), disks.hio(0x190), disks.sio(0x390)), (0, 1, 3))
            self.assertIsNone(disks.reset(1))

    def test_a_program_is_shown_while_it_runs(self) -> None:
        with self.made() as disks:
            disks.storage[0x100:0x108] = READ_R0
            self.assertEqual((disks.program(1), disks.registers(1), disks.sio(0x190)), (None, None, 0))
            self.assertEqual(disks.step(1, 3), 3)  # three of its bytes
            word = (0x16, 0x20, 0x200, 16, 0x203)  # code, flags, address, wanted, place
            self.assertEqual(disks.program(1), dasd.Program(0x90, dasd.Phase.MOVES, 0x100, 0x108, *word, left=13, key=0, asked=False))
            none_passed = dasd.Registers(0, 0, dasd.Area.INDEX, 0, 0, 0, False, dasd.Credit.NONE, 0, bytes(6))
            self.assertEqual(disks.registers(1), none_passed)
            self.refused("NO_CHANNEL", disks.program, 2)
            self.refused("NO_CHANNEL", disks.registers, 2)
            disks.run_on(1, 1000)
            self.assertEqual((disks.program(1), disks.registers(1)), (None, None))

    def test_a_trace(self) -> None:
        with self.made() as disks:
            # Search ID Equal for record 0, Transfer In Channel back to it, Read Data
            disks.storage[0x100:0x118] = bytes.fromhex("310002004000000508000100000000000600030000000008")
            lines: List[str] = []
            trace = dasd.Trace(disks, 1, lines.append)
            self.assertEqual((trace.sio(0x190), trace.tch(), trace.sio(0x190), trace.run_on(3).units), (0, 2, 2, 3))
            trace.end()
            self.assertEqual((trace.run_on(1000)[1:], trace.interrupt()), ((dasd.Subchannel.ENDED, 0x90, False), 0x190))
            self.assertEqual((trace.tio(0x190), trace.hio(0x190), trace.arrive(0x190), trace.interrupt()), (0, 1, False, None))
            self.assertIsNone(trace.reset())
            self.assertEqual("".join(lines), TRACE)
            self.refused("BAD_MOMENT", trace.look, dasd.When.BEHIND_STEP, 0, 65536)
            self.refused("NO_CHANNEL", dasd.Trace(disks, 2, print).end)
            self.assertRaises(ValueError, trace.look, dasd.When.BEHIND_RUN, 0, -1)
        self.refused("NOTHING_HELD", trace.end)

    def test_files_are_taken_over_and_given_back(self) -> None:
        with self.made() as disks, self.maker(4096, 0) as others:
            image, _ = disks.file(0x190)
            files = dasd.HeldFiles(len(image))
            for at in range(0, len(image), 65536):
                files.put(at, image[at : at + 65536])
            self.refused("ADDRESS_TAKEN", disks.attach_files, 0x190, files)
            others.attach_files(0x001, files)
            self.refused("NOTHING_HELD", files.get, 0, 1)
            self.assertEqual(others.file(0x001), (image, 0))
            self.refused("NO_DRIVE", others.detach_files, 0x002)
            files = others.detach_files(0x001)
        self.assertEqual(files.get(0, len(image)), image)
        self.refused("NO_FILE", files.get, 0, 1, 1)
        self.refused("NO_FILES", dasd.HeldFiles)
        self.refused("NO_MEMORY", dasd.HeldFiles, 1 << 70)
        for at, data in ((len(image), b"x"), (-1, b"x"), (1, image)):
            self.assertRaises(ValueError, files.put, at, data)

    def test_a_volume_goes_from_one_to_another(self) -> None:
        with self.made() as disks, self.maker(4096, 0) as others:
            image, changes = disks.file(0x190)
            dasd.check(image)
            self.refused("LENGTH", dasd.check, image[:-1])
            self.refused("NO_FILES", dasd.check)
            others.attach(0x001, image)
            self.assertEqual(others.file(0x001), (image, 0))
            self.assertEqual(disks.changes(0x190), changes)
            self.assertEqual(others.drive(0x001).model, 2314)
            self.refused("NO_FILE", others.file, 0x001, 1)
            others.detach(0x001)
            self.refused("NO_DRIVE", others.detach, 0x001)

    def test_a_file_is_kept_by_its_changed_tracks(self) -> None:
        with self.made() as disks:
            image, since = disks.file(0x190)
            held = bytearray(image)
            self.assertEqual(disks.changed(0x190, since), ([], since))
            self.assertEqual([it.track for it in disks.changed(0x190, 0).tracks], list(range(40)))  # those of the new volume
            # Search Identifier of record 0, and Write Count, Key and Data behind it
            disks.storage[0x100:0x118] = bytes.fromhex("31000200400000050800010000000000 1D00020820000009")
            disks.storage[0x200:0x211] = bytes.fromhex("00" * 8 + "0000000001000001C1")
            self.assertEqual(disks.sio(0x190), 0)
            self.refused("PROGRAM_RUNS", disks.changed, 0x190, since)
            disks.run_on(1, 1000)
            tracks, changes = disks.changed(0x190, since)
            self.assertEqual([(it.track, it.at, len(it.data)) for it in tracks], [(0, 512, 7680)])
            for track in tracks:
                held[track.at : track.at + len(track.data)] = track.data
            self.assertEqual((disks.file(0x190), disks.changed(0x190, changes)), ((bytes(held), changes), ([], changes)))
            self.assertNotEqual((image, since), (bytes(held), changes))
            self.refused("NO_FILE", disks.changed, 0x190, 0, 1)
            self.refused("NO_CHANNEL", disks.changed, 0x390, 0)

    def test_an_arm_moves(self) -> None:
        with self.made() as disks:
            disks.storage[0x100:0x108] = bytes.fromhex("0700020020000006")
            disks.storage[0x200:0x206] = bytes.fromhex("000000010003")
            self.assertEqual(disks.sio(0x190), 0)
            disks.run_on(1, 1000)
            disks.interrupt()
            self.assertEqual(disks.drive(0x190), dasd.DriveState(2314, 2, 1, 3, dasd.Arm.IN_MOTION, bytes(6)))
            self.assertEqual((disks.arrive(0x190), disks.arrive(0x190)), (True, False))
            state = disks.channel(1)
            self.assertEqual(state, dasd.ChannelState(dasd.Subchannel.AVAILABLE, 0, False, (dasd.AttachedDrive(0x90, dasd.Arm.ARRIVED),)))

    def test_refusals(self) -> None:
        with self.made() as disks:
            self.refused("OUTSIDE_STORAGE", disks.peek, 65536, 1)
            self.refused("OUTSIDE_STORAGE", disks.poke, 65535, b"ab")
            self.refused("BAD_KEY", disks.set_key, 0, 16)
            self.refused("ADDRESS_TAKEN", disks.attach_new, 0x190, 2311, 1)
            self.refused("BAD_MODEL", disks.attach_new, 0x191, 3330, 1)
            self.refused("TOO_MANY_FILES", disks.attach, 0x191, *[b""] * 9)
            self.refused("NO_CHANNEL", disks.run_on, 3, 1)
            disks.poke(0x300, b"ab")
            disks.set_key(2048, 7)
            self.assertEqual((bytes(disks.storage[0x300:0x302]), disks.key(4095), disks.key(0)), (b"ab", 7, 0))
        self.refused("NOTHING_HELD", disks.sio, 0x190)
        with self.assertRaises(dasd.Fault):
            _ = disks.storage
        disks.close()
        self.refused("BAD_SIZE", self.maker, 1000, 1)
        self.refused("BAD_CHANNELS", self.maker, 4096, 7)
        self.refused("BAD_CHANNELS", self.maker, 4096)

    def test_a_state_is_saved_and_restored(self) -> None:
        with self.made() as disks, self.made() as others:
            disks.storage[0x100:0x110] = bytes.fromhex("0700020060000006ff00020020000001")  # Seek, and no command
            disks.storage[0x200:0x206] = bytes.fromhex("000000010003")
            self.assertEqual(disks.sio(0x190), 0)
            self.refused("PROGRAM_RUNS", disks.save)
            disks.run_on(1, 1000)
            saved = disks.save()
            self.assertEqual((len(saved), saved[:9]), (538, b"DASDSAVE\x01"))
            self.assertEqual(int.from_bytes(saved[-4:], "big"), zlib.adler32(saved[:-4]))
            channel, drive = saved[9 + 75 : 9 + 150], saved[9 + 75 + 11 : 9 + 75 + 19]
            self.assertEqual((channel[:2].hex(), channel[7:9].hex(), drive.hex()), ("0290", "0e00", "0190000100038000"))
            others.restore(memoryview(saved))
            self.assertEqual((others.save(), others.drive(0x190)), (saved, disks.drive(0x190)))
            self.assertEqual((others.interrupt(), others.interrupt(), disks.interrupt()), (0x190, None, 0x190))
            for data, name in (b"", "NO_SAVED_STATE"), (saved[:-1], "SAVED_LENGTH"), (saved[:-1] + b"x", "SAVED_SUM"):
                self.refused(name, others.restore, data)

    def test_several_channels(self) -> None:
        with self.maker(65536, 1, 2) as disks:
            disks.attach_new(0x190, 2314, 2)
            disks.attach_new(0x290, 2311, 1)
            self.refused("NO_CHANNEL", disks.attach_new, 0x390, 2311, 1)
            disks.storage[0x48:0x4C] = bytes.fromhex("00000100")
            disks.storage[0x100:0x108] = READ_R0
            self.assertEqual((disks.sio(0x290), disks.sio(0x190), disks.tch(0x200), disks.tch(0x300)), (0, 0, 2, 3))
            disks.run_on(2, 1000)
            self.assertEqual((disks.tch(0x100), disks.tch(0x200), disks.is_pending(dasd.channel_set(1))), (2, 1, False))
            self.assertIsNone(disks.interrupt(dasd.channel_set(0, 1, 3)))
            disks.run_on(1, 1000)
            self.assertEqual([disks.interrupt(), disks.interrupt(), disks.interrupt()], [0x190, 0x290, None])
            disks.sio(0x190)
            disks.sio(0x290)
            self.assertIsNone(disks.reset(1))
            self.assertEqual((disks.tch(0x100), disks.tch(0x200)), (0, 2))

    def test_an_interruption_that_a_program_asks_for(self) -> None:
        with self.made() as disks:
            # No-Operation with the flag of program-controlled interruption, and Read R0, which it is chained to
            disks.storage[0x100:0x110] = bytes.fromhex("0300000048000001") + READ_R0
            self.assertEqual(disks.sio(0x190), 0)
            self.assertEqual(disks.run_on(1, 3), (3, dasd.Subchannel.WORKING, 0x90, True))
            self.assertEqual(disks.channel(1).asked, True)
            self.assertEqual((disks.interrupt(), disks.run_on(1, 0).asked), (0x190, False))

    def test_a_run_until_something_happens(self) -> None:
        with self.made() as disks:
            # Seek to cylinder 1, and Read R0 to 200, which asks
            disks.storage[0x100:0x110] = bytes.fromhex("0700030040000006 1600020028000010")
            disks.storage[0x300:0x306] = bytes.fromhex("000000010000")
            self.assertEqual(disks.sio(0x190), 0)
            self.refused("BAD_UNTIL", disks.run_until, 1, 1000, 8)
            self.refused("BAD_UNTIL", disks.run_until, 1, 1000, 1 << 32)
            self.refused("NO_CHANNEL", disks.run_until, 3, 1000)
            ran = disks.run_until(1, 1000, dasd.Until.CYLINDER | dasd.Until.TRACK)
            self.assertEqual((ran.units, ran.bytes, ran.cylinders, ran.range), (7, 6, 1, None))
            self.assertEqual(ran.stopped, dasd.Until.CYLINDER | dasd.Until.TRACK)
            ran = disks.run_until(1, 1000, dasd.Until.ASKED)
            self.assertEqual((ran.units, ran.asked, ran.stopped, disks.interrupt()), (1, True, dasd.Until.ASKED, 0x190))
            wanted = (17, dasd.Subchannel.ENDED, 0x90, False, dasd.Until.NOTHING, 16, 0, 0, 16, (0x200, 0x20F))
            self.assertEqual(disks.run_until(1, 1000), wanted)
            self.assertEqual(disks.run_until(1, 1000).units, 0)

    def test_a_run_until_something_happens_in_pieces(self) -> None:
        with self.made() as disks:
            # No-Operation, Sense of one byte to 300, and Transfer in Channel back to the first: a program without an end
            disks.storage[0x100:0x118] = bytes.fromhex("0300000040000001 0400030060000001 0800010000000000")
            self.assertEqual(disks.sio(0x190), 0)
            ran = disks.run_until(1, 2_500_000, dasd.Until.ASKED)
            self.assertEqual((ran.units, ran.bytes, ran.stored, ran.range), (2_500_000, 500_000, 500_000, (0x300, 0x300)))
            self.assertEqual((ran.subchannel, ran.stopped, disks.hio(0x190)), (dasd.Subchannel.WORKING, dasd.Until.NOTHING, 2))

    def test_units_that_are_done_in_pieces(self) -> None:
        with self.made() as disks, self.made() as others:
            # No-Operation, and Transfer in Channel back to it: a program without an end
            for it in (disks, others):
                it.storage[0x100:0x110] = bytes.fromhex("03000000400000010800010000000000")
                self.assertEqual(it.sio(0x190), 0)
            self.assertEqual(disks.run_on(1, 2_500_000), (2_500_000, dasd.Subchannel.WORKING, 0x90, False))
            self.assertEqual(others.step(1, 2_500_000), 2_500_000)
            self.assertEqual((disks.hio(0x190), others.hio(0x190), disks.tio(0x190), others.tio(0x190)), (2, 2, 1, 1))
            self.assertEqual(disks.storage, others.storage)


class Copies(unittest.TestCase):
    """A copy and what was copied go their own ways."""

    def test_a_copy_goes_its_own_way(self) -> None:
        disks = dasd.Subsystem(65536, 1)
        disks.attach_new(0x190, 2314, 2)
        disks.storage[0x48:0x4C] = bytes.fromhex("00000100")
        disks.storage[0x100:0x108] = READ_R0
        self.assertEqual((disks.sio(0x190), disks.step(1, 5)), (0, 5))
        second = disks.copy()
        self.assertIs(second.run_on(1, 1000).subchannel, dasd.Subchannel.ENDED)
        self.assertIs(disks.channel(1).subchannel, dasd.Subchannel.WORKING)
        self.assertNotEqual(disks.storage, second.storage)
        self.assertIs(disks.run_on(1, 1000).subchannel, dasd.Subchannel.ENDED)
        self.assertEqual((disks.interrupt(), second.interrupt()), (0x190, 0x190))
        self.assertEqual((disks.storage, disks.file(0x190)), (second.storage, second.file(0x190)))
        disks.close()
        self.assertEqual((second.tio(0x190), second.peek(0x200, 8).hex()), (0, "0000000000000008"))
        self.assertRaises(dasd.Fault, disks.copy)


if __name__ == "__main__":
    unittest.main()
