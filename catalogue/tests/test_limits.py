"""Limits: of what a packed file holds, of what is kept in memory, and of each command of `dasd`."""

from __future__ import annotations

import gzip
import os
import unittest
from dataclasses import replace
from pathlib import Path
from unittest import mock

from archive import Case, scanned, way
from make_packs import plain

from dasd_catalogue.engines import Alone
from dasd_catalogue.placing import placed
from dasd_catalogue.program import Way
from dasd_catalogue.scan import Wanted, scan


class Limits(Case):
    """Single files that want more than they may have."""

    def test_a_packed_file_that_holds_too_much(self) -> None:
        """It is reported, and leaves nothing."""
        (self.folder / "big.ckd.gz").write_bytes(gzip.compress(bytes(2_000_000)))
        small = replace(way(), most=1_000_000, scratch=str(self.folder))
        scan(Wanted(str(self.database), [os.fsencode(self.folder)], Alone(), small, is_silent=True))
        self.assertEqual(self.rows("SELECT stage, text FROM faults"), [("unpack", "it holds more than 1000000 bytes")])
        self.assertEqual(sorted(it.name for it in self.folder.iterdir()), ["big.ckd.gz", "catalogue.db"])

    def fault_within(self, way: Way) -> tuple[object, ...]:
        """What a scan of a pack says that is asked so."""
        (self.folder / "1.ckd").write_bytes(plain(1))
        with mock.patch("dasd_catalogue.scan.version_of", return_value=""):
            scan(Wanted(str(self.database), [os.fsencode(self.folder / "1.ckd")], Alone(), way, is_silent=True))
        return self.rows("SELECT stage, text FROM faults")[0]

    def other_program(self, line: str) -> str:
        """A program that does this in the place of `dasd`."""
        path = self.folder / "dasd"
        path.write_text(f"#!/bin/sh\n{line}\n", encoding="utf-8")
        path.chmod(0o755)
        return str(path)

    def test_a_command_that_takes_too_long(self) -> None:
        """It is ended, and told."""
        slow = self.other_program("exec sleep 60")
        self.assertEqual(self.fault_within(Way(slow, patience=0.2)), ("here", "check: it took more than 0.2 seconds"))

    def test_a_command_that_writes_too_much(self) -> None:
        """The same; a pack of two cylinders has 82,432 bytes."""
        endless = self.other_program("exec cat /dev/zero")
        self.assertEqual(self.fault_within(Way(endless, spare=1000)), ("here", "check: it wrote more than 248296 bytes to a file"))

    def test_a_command_that_wants_too_much_memory(self) -> None:
        """What it says, and its limit; with the ordinary one it reads the pack."""
        # its limits hold shortly after its start: until then it counts
        late = self.other_program(f'n=0; while [ $n -lt 300000 ]; do n=$((n + 1)); done; exec {way().program} "$@"')
        stage, text = self.fault_within(Way(late, memory=1 << 20))
        self.assertEqual(stage, "here")
        # the loader may be the first that finds no memory: status 127
        self.assertRegex(str(text), "^check: (no memory.* within 1048576 bytes|it was ended by signal [0-9]+|it ended with status 127)$")
        self.assertEqual(scanned(self.database, []).asked, 1)
        self.assertEqual(self.rows("SELECT * FROM faults"), [])

    def test_only_a_small_volume_is_put_into_memory(self) -> None:
        """What is packed counts as what it holds, and what is no more needed goes."""
        small, large = self.folder / "small.gz", self.folder / "large.gz"
        small.write_bytes(gzip.compress(plain(1)))
        large.write_bytes(gzip.compress(plain(1) + bytes(100_000)))
        places = [self.folder / name for name in ("memory", "disk")]
        for it in places:
            it.mkdir()
        folders = [(str(places[0]), 100_000), (str(places[1]), 1 << 30)]
        with mock.patch("dasd_catalogue.placing.parents", return_value=folders):
            for path, place in ((small, places[0]), (large, places[1])):
                with placed([os.fsencode(path)], way()) as volume:
                    self.assertEqual(Path(os.fsdecode(volume.folder)).parent, place)
                    self.assertEqual([len(list(it.iterdir())) for it in places], [place == it for it in places])
        self.assertEqual([list(it.iterdir()) for it in places], [[], []])


if __name__ == "__main__":
    unittest.main()
