"""Decks that are asked of an emulator: those of hercules/, and Hercules itself where it is installed."""
from __future__ import annotations

import os
import shutil
import subprocess
import sys
import unittest

from ask import compared, read_deck
from suite.adapters.bare_metal import ENTRY, entry, read_entry, supervisor
from suite.adapters.hercules import HerculesEmulator
from suite.adapters.model import ModelEmulator
from suite.decks import Event
from suite.vectors import HERE, all_vectors, difference

FOLDER = os.path.join(HERE, "hercules")
DECKS = [os.path.join(FOLDER, it) for it in sorted(os.listdir(FOLDER))]


class Decks(unittest.TestCase):
    def test_the_model_answers_what_they_say(self) -> None:
        for path in DECKS:
            with self.subTest(path):
                vector, must, said = read_deck(path)
                outcome = ModelEmulator(lacks=["steps"]).play(vector)
                self.assertEqual([it for it in compared(vector, must, outcome, ()) if it[2]], [])
                self.assertTrue(must)
                self.assertLessEqual({"title", "manual", "matters", "vectors"}, set(said))

    def test_the_vectors_that_they_name_are_there(self) -> None:
        names = {it.name for it in all_vectors()}
        for path in DECKS:
            said = read_deck(path)[2]
            self.assertLessEqual(set(said["vectors"].split()) - {"-"}, names, path)

    def test_asking_from_the_command_line(self) -> None:
        ran = subprocess.run([sys.executable, os.path.join(HERE, "ask.py"), "model", DECKS[0]], capture_output=True, text=True)
        self.assertEqual(ran.returncode, 0)
        self.assertIn("INT 190 00000408 0C000000", ran.stdout)


class BareMetal(unittest.TestCase):
    def test_an_entry_has_its_size(self) -> None:
        self.assertEqual(len(entry(5, 0x190, 0x400, 7, bytes(128))), ENTRY)
        self.assertEqual(read_entry(bytes(12) + b"\x20" + bytes(ENTRY - 13))[0], 2)

    def test_the_supervisor_is_within_reach_of_its_base(self) -> None:
        self.assertLess(len(supervisor()), 4096)

    def test_answers_are_lines_of_decks(self) -> None:
        data = bytes(12) + b"\x10\0\0\0" + bytes.fromhex("000004080C000001") + bytes.fromhex("0000019000000000") + bytes(128)
        lines = [HerculesEmulator.answer(None, it, data) for it in (Event("SIO", unit=0x190), Event("TIO", unit=0x190), Event("INT"), Event("TCH"))]
        self.assertEqual(lines, ["SIO 190 CC 1 0C00", "TIO 190 CC 1 00000408 0C000001", "INT 190 00000408 0C000001", "TCH CC 1"])


@unittest.skipUnless(shutil.which("hercules"), "Hercules is not installed")
class Hercules(unittest.TestCase):
    def test_a_search_and_a_read_come_out_right(self) -> None:
        vector = next(it for it in all_vectors() if it.name == "worked-search-and-read")
        with HerculesEmulator() as hercules:
            self.assertIsNone(difference(vector, hercules.play(vector), hercules.lacks))


if __name__ == "__main__":
    unittest.main()
