#!/usr/bin/env python3
"""Where each field of each struct lies, on a machine whose pointers have 64 bits. Made by tools/run make/interface of c/interface.toml."""

import ctypes
import unittest
from typing import Dict, List

from dasd import _library

# Of each struct how many bytes it has, and where its fields begin.
LAYOUTS: Dict[str, List[int]] = {
    "Handle": [16, 0, 8],
    "Wanted": [8, 0, 4, 5, 6],
    "Bytes": [16, 0, 8],
    "File": [24, 0, 8, 16],
    "Changed": [32, 0, 8, 16, 24],
    "Files": [16, 0, 8],
    "Space": [16, 0, 8],
    "Drive": [16, 0, 2, 4, 6, 8, 9, 15],
    "Ran": [8, 0, 4, 5, 6, 7],
    "Progress": [40, 0, 8, 12, 16, 20, 24, 28, 32, 33, 34, 35, 36],
    "Track": [6, 0, 2, 4],
    "State": [20, 0, 1, 2, 3, 4, 12],
    "Program": [28, 0, 4, 8, 12, 16, 18, 20, 21, 22, 23, 24, 25, 26],
    "Registers": [40, 0, 8, 16, 18, 20, 26, 27, 28, 29, 30, 31],
    "Moment": [12, 0, 1, 2, 4, 8, 10],
    "Trace": [280, 0, 8, 16, 24],
    "Storage": [16, 0, 8],
    "Memory": [32, 0, 8, 16, 24],
}


class Layout(unittest.TestCase):
    """Python's structs are the library's."""

    def test_fields_lie_where_the_library_has_them(self) -> None:
        for of, layout in LAYOUTS.items():
            with self.subTest(of):
                struct = getattr(_library, of)
                fields = [name for name, *_ in getattr(struct, "_fields_")]
                self.assertEqual([ctypes.sizeof(struct), *(getattr(struct, it).offset for it in fields)], layout)


if __name__ == "__main__":
    unittest.main()
