"""Tests of check_json.py: lines as the definitions of `dasd` have them pass, and each fault that is planted in one is seen."""

import json
import unittest
from typing import Any

from tools.gate import check_json

# A line of each object, by its command.
RIGHT: list[tuple[str, dict[str, Any]]] = [
    ("list", {"path": "a", "model": 2311, "cylinders": 1, "heads": 10, "slot_size": 4096}),
    ("list", {"path": "a", "cylinder": 0, "head": 0, "home_address": "0000000000", "used": 0, "records": []}),
    ("list", {"path": "a", "cylinder": 0, "head": 9, "unreadable": "no end at 4093"}),
    ("check", {"path": "a", "severity": "note", "cylinder": 0, "head": 0, "kind": "end of file", "text": "record 1 is an end of file"}),
    ("check", {"path": "a", "severity": "warning", "file": 1, "kind": "reserved bytes", "text": "reserved byte at 20 is not zero"}),
    ("check", {"path": "a", "errors": 0, "warnings": 1, "notes": 0}),
    ("dump", {"path": "a", "cylinder": 0, "head": 0, "home_address": "0000000000"}),
    ("dump", {"path": "a", "cylinder": 0, "head": 0, "identifier": "0000000001", "key": "", "data": "C1C2"}),
    ("compare", {"path": "a", "other": "b", "cylinder": 0, "head": 0, "text": "record 1 data from 0 on"}),
    ("compare", {"path": "a", "other": "b", "text": "geometry 2311 1 cylinder slot 4096 and 2314 1 cylinder slot 7680"}),
    ("compare", {"path": "a", "other": "b", "tracks_differ": 1}),
    ("vtoc", {"path": "a", "serial": "ABC123", "owner": "", "contents": [0, 1, 0, 1], "free_tracks": 0, "free_blocks": 0}),
    ("vtoc", {"path": "a", "cylinder": 0, "head": 0, "record": 0, "kind": "no volume label", "text": "no volume label"}),
    ("extract", {"path": "a", "name": "PAY", "bytes": 0}),
    ("extract", {"path": "a", "name": "PAY", "text": "no end of file"}),
    ("extract", {"path": "a", "files": 1, "findings": 1}),
    ("hash", {"path": "a", "hash": "0123456789abcdef" * 4, "unreadable": 0}),
    ("vtoc", {"path": "a", "serial": "ABC123", "owner": ""}),
    ("vtoc", {"path": "a", "fault": "wrong length", "remarks": ["a: its length is 41471 bytes, and an image is 512 bytes and whole cylinders of 40960"]}),
    ("hash", {"path": "a", "fault": "wrong length", "remarks": []}),
    ("hash", {"path": "a", "name": "PAY", "hash": "0123456789abcdef" * 4, "whole": True}),
    ("hash", {"path": "a", "name": "PAY", "member": "NET", "hash": "0123456789abcdef" * 4, "whole": False}),
    ("hash", {"path": "a", "name": "volume table of contents", "text": "has findings, which dasd vtoc prints"}),
    ("check", {"path": "a", "name": "PAY(NET)", "text": "track 9 of the data set: it is after the extents"}),
    ("check", {"path": "a", "findings": 1}),
]
# A line, and what of it is another: None takes a member away.
PLANTED: list[tuple[int, dict[str, Any]]] = [
    (0, {"model": 3330}),
    (0, {"cylinders": 0}),
    (0, {"heads": "10"}),
    (0, {"slot": 1}),
    (1, {"home_address": "000000000"}),
    (1, {"home_address": "000000000a"}),
    (1, {"records": [{"identifier": "0000000001", "key_length": 256, "data_length": 0}]}),
    (1, {"records": [{"identifier": "0000000001", "key_length": 0}]}),
    (2, {"unreadable": ""}),
    (2, {"head": 20}),
    (3, {"severity": "fault"}),
    (3, {"kind": "end of the file"}),
    (3, {"file": 1}),
    (3, {"head": None}),
    (4, {"file": 9}),
    (5, {"notes": None}),
    (6, {"home_address": None}),
    (7, {"data": "C1C"}),
    (7, {"key": None}),
    (8, {"head": None}),
    (9, {"path": ""}),
    (10, {"tracks_differ": -1}),
    (11, {"contents": [0, 1, 0]}),
    (11, {"contents": [0, 1, 0, 1, 0]}),
    (11, {"serial": "ABC1234"}),
    (12, {"record": 256}),
    (13, {"name": ""}),
    (14, {"text": None}),
    (15, {"findings": 1.5}),
    (16, {"hash": "0123456789ABCDEF" * 4}),
    (16, {"hash": "0123456789abcdef" * 3}),
    (16, {"unreadable": None}),
    (17, {"owner": None}),
    (17, {"free_tracks": 1}),
    (18, {"fault": ""}),
    (18, {"remarks": None}),
    (18, {"remarks": [1]}),
    (20, {"whole": None}),
    (20, {"whole": "true"}),
    (20, {"unreadable": 0}),
    (21, {"member": ""}),
    (21, {"name": None}),
    (22, {"name": "PAY"}),
    (18, {"serial": "ABC123"}),
    (23, {"name": ""}),
    (24, {"findings": -1}),
]


class Json(unittest.TestCase):
    """What check_json says of lines."""

    def test_right_lines(self) -> None:
        lines = check_json.Lines()
        for command, held in RIGHT:
            self.assertEqual(lines.fault(command, json.dumps(held)), "", (command, held))

    def test_planted_faults(self) -> None:
        lines = check_json.Lines()
        for number, changes in PLANTED:
            command, held = RIGHT[number]
            planted = {name: value for name, value in {**held, **changes}.items() if value is not None}
            self.assertNotEqual(lines.fault(command, json.dumps(planted)), "", (command, planted))

    def test_a_fault_that_was_told_is_the_last_object(self) -> None:
        lines = check_json.Lines()
        hashed, fault = '{"path":"a","hash":"","unreadable":0}', '{"path":"a","fault":"wrong length","remarks":[]}'
        right = [("", ""), (hashed, ""), (fault, "dasd: wrong length\n"), (f"{hashed}\n{fault}\n", "dasd: wrong length\n")]
        wrong = [("", "dasd: wrong length\n"), (fault, ""), (f"{fault}\n{hashed}\n", "dasd: wrong length\n"), (hashed, "dasd: x\n")]
        for output, told in right:
            lines.look_at_fault("hash", output, told)
        self.assertEqual(lines.wrong, 0)
        for number, (output, told) in enumerate(wrong, 1):
            lines.look_at_fault("hash", output, told)
            self.assertEqual(lines.wrong, number, output)

    def test_no_json_and_another_command(self) -> None:
        lines = check_json.Lines()
        self.assertEqual(lines.fault("list", '{"path":"a",'), "this is no JSON")
        self.assertNotEqual(lines.fault("vtoc", json.dumps(RIGHT[0][1])), "")

    def test_what_was_not_met_is_named(self) -> None:
        lines = check_json.Lines()
        for command, held in RIGHT:
            lines.fault(command, json.dumps(held))
        missing = list(lines.not_met())
        self.assertIn("vtoc: organisation", missing)
        self.assertIn("check: severity=error", missing)
        self.assertNotIn("check: severity=note", missing)
        self.assertNotIn("list: model", missing)


if __name__ == "__main__":
    unittest.main()
