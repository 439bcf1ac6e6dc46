"""That no suite has lost a row, and that each row has a name of its own."""
from __future__ import annotations

import sys
import unittest
from pathlib import Path

TOP = Path(__file__).resolve().parent.parent.parent
sys.path.insert(0, str(TOP))
sys.path.insert(0, str(TOP / "rows"))

from player.text import DATA, read_blocks  # noqa: E402

ROWS = {"channel": 117, "traces": 64, "cut_programs": 32, "drives": 133, "programs": 134, "tables": 24, "tracks": 51, "dasd": 85, "extracts": 35,
        "words": 25}
# those over real files
FILES = {"archives": 8, "bounded_memory": 5, "changes": 9, "cut_offs": 11, "deletes": 13, "extracts": 8, "findings": 16, "folder_loads": 12,
         "folders": 6, "formats": 10, "free_tracks": 6, "hashes": 12, "host": 39, "in_packs": 12, "in_place": 19, "keyed_extracts": 8, "labels": 5,
         "lengths": 15, "links": 4, "lists": 8, "load_forms": 9, "loads": 11, "member_changes": 11, "members": 9, "options": 12, "packs": 19, "races": 15,
         "reasons": 12, "recovers": 14, "refused_memory": 34, "runs": 10, "setups": 0, "shared_saves": 4, "sweeps": 4, "whole": 10}


class Counts(unittest.TestCase):
    """The rows in rows/data."""

    def test_rows(self) -> None:
        """Each file has its rows; a block that begins with `volume` is none."""
        for name, number in ROWS.items():
            names = [it.name for it in read_blocks("%s.rows" % name) if not it.name.startswith("volume ")]
            self.assertEqual(number, len(names), name)
            self.assertEqual(len(names), len(set(names)), "names of %s" % name)

    def test_files(self) -> None:
        """So has each file of rows over real files, and no two rows there have one name; a block that begins with `setup` is none."""
        found = {path.stem: [it.name for it in read_blocks("files/%s" % path.name) if not it.name.startswith("setup ")] for path in DATA.glob("files/*.rows")}
        self.assertEqual(FILES, {name: len(names) for name, names in found.items()})
        names = [it for names in found.values() for it in names]
        self.assertEqual(len(names), len(set(names)))


if __name__ == "__main__":
    unittest.main()
