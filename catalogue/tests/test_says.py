"""Hashes of a file, of a volume, and of its data sets and members."""

from __future__ import annotations

import unittest
from collections.abc import Iterator

from archive import Case

from dasd_catalogue.program import Fault, Object, Volume, Way
from dasd_catalogue.says import Hashes, file_hash


class Told(Volume):
    """A volume of which the program prints these objects, and then has a fault."""

    def ask(self, *words: str) -> Iterator[Object]:
        """What is reported of it."""
        assert words == ("hash", "--members")
        yield {"path": "volume", "hash": "11" * 32, "unreadable": 0}
        yield {"path": "volume", "name": "volume table of contents", "text": "has findings, which dasd vtoc prints"}
        yield {"path": "volume", "name": "SYS1.MACLIB", "hash": "22" * 32, "whole": True}
        yield {"path": "volume", "name": "SYS1.MACLIB", "member": "OPEN", "hash": "33" * 32, "whole": False}
        raise Fault("read fault")


class Says(Case):
    """Hashes, and whose they are."""

    def test_what_a_file_holds_is_its_sha_256(self) -> None:
        """As sha256sum has it."""
        path = self.folder / "x"
        path.write_bytes(b"abc")
        self.assertEqual(file_hash(bytes(path)).hex(), "ba7816bf8f01cfea414140de5dae2223b00361a396177a9cb410ff61f20015ad")

    def test_hashes_are_known_by_the_names_of_files(self) -> None:
        """Those of data sets and of members; what came before a fault stays."""
        hashes = Hashes()
        with self.assertRaises(Fault):
            hashes.ask(Told(Way("dasd"), b".", ("volume",), 0))
        self.assertEqual(hashes.volume, b"\x11" * 32)
        self.assertEqual(hashes.files, {"SYS1.MACLIB": b"\x22" * 32, "SYS1.MACLIB(OPEN)": b"\x33" * 32})


if __name__ == "__main__":
    unittest.main()
