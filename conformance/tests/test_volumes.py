"""Volumes: descriptions, slots, files and hashes."""
from __future__ import annotations

import os
import unittest

from suite.vectors import FOLDER, HERE, all_vectors, digest
from suite.volumes import BadDescription, BadImage, Track, Volume, parse_bytes, parse_description, read_slot, tidied, tidy_slot
from volume import describe


def image(*names: str) -> Volume:
    return Volume.load([os.path.join(FOLDER, it) for it in names])


def described(name: str) -> Volume:
    with open(os.path.join(HERE, "volumes", name + ".volume"), encoding="utf-8") as text:
        return parse_description(text.read())


class Slots(unittest.TestCase):
    def test_a_new_2311_is_the_layout_to_the_byte(self) -> None:
        file = Volume.new("2311", 1).files()[0]
        self.assertEqual(file[:20].hex(), "434b445f50333730" + "0a000000" + "00100000" + "11" + "00" + "0000")
        self.assertEqual(len(file), 41472)
        self.assertEqual(file[512 + 4096:][:30].hex(), "0000000001" + "0000000100000008" + "00" * 8 + "ff" * 8 + "00")

    def test_a_new_2314_is_the_layout_to_the_byte(self) -> None:
        file = Volume.new("2314", 203).files()[0]
        self.assertEqual(file[:20].hex(), "434b445f50333730" + "14000000" + "001e0000" + "14" + "00" + "0000")
        self.assertEqual(len(file), 31181312)

    def test_a_slot_without_an_end_spells_nothing(self) -> None:
        self.assertIsNone(read_slot(bytes(4)))
        self.assertIsNone(read_slot(bytes(5) + bytes(7)))
        self.assertIsNone(read_slot(bytes(5) + bytes.fromhex("000000000100ffff") + bytes(100)))

    def test_a_slot_of_ff_is_a_home_address_alone(self) -> None:
        self.assertEqual(read_slot(b"\xff" * 100), Track(b"\xff" * 5))

    def test_tidying_leaves_the_track(self) -> None:
        slot = bytes(5) + b"\xff" * 8 + b"rubbish"
        self.assertEqual(tidy_slot(slot), bytes(5) + b"\xff" * 8 + bytes(7))

    def test_only_changed_slots_are_tidied(self) -> None:
        before = image("odd.img")
        after = before.copy()
        self.assertEqual(tidied(after, before).bytes(), before.bytes())


class Charges(unittest.TestCase):
    def test_the_reference_table(self) -> None:
        rows = [("2311", 0, 8, 69, 8), ("2311", 0, 80, 144, 80), ("2311", 10, 100, 196, 130), ("2311", 0, 1740, 1885, 1740),
                ("2314", 0, 8, 109, 8), ("2314", 10, 100, 260, 155), ("2314", 0, 3520, 3773, 3520)]
        for name, key, data, more, last in rows:
            model = Volume.new(name, 1).model
            self.assertEqual((model.charge(key, data), model.last_charge(key, data)), (more, last))


class Descriptions(unittest.TestCase):
    def test_bytes(self) -> None:
        self.assertEqual(parse_bytes("C1*3+00+'AB'"), bytes.fromhex("C1C1C100C1C2"))

    def test_each_image_is_described_and_made_again(self) -> None:
        names = sorted(it for it in os.listdir(FOLDER) if it.endswith(".img") and not it.startswith(("split", "many")) and it != "odd.img")
        for name in names:
            with self.subTest(name):
                volume = image(name)
                self.assertEqual(parse_description(describe(volume)).bytes(), volume.bytes())

    def test_the_split_volume_is_what_its_description_says(self) -> None:
        self.assertEqual(described("split").files(), image("split_1.img", "split_2.img", "split_3.img").files())

    def test_what_newer_vectors_leave_is_what_a_description_says(self) -> None:
        vectors = {it.name: it for it in all_vectors()}
        for file in os.listdir(os.path.join(HERE, "volumes")):
            name, _, unit = file[:-len(".volume")].partition(".")
            if unit:
                with self.subTest(file):
                    self.assertIn((int(unit, 16), digest(described(file[:-len(".volume")]))), vectors[name].images)

    def test_a_line_that_says_nothing_is_named(self) -> None:
        with self.assertRaisesRegex(BadDescription, "line 2"):
            parse_description("model 2311\nrecord 1 data 00")

    def test_a_file_that_is_no_image_is_refused(self) -> None:
        for data in (b"", bytes(600), Volume.new("2311", 1).files()[0][:-1]):
            with self.assertRaises(BadImage):
                Volume.read([data])


if __name__ == "__main__":
    unittest.main()
