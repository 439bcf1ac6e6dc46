"""Hashes: those of what a volume, a data set and a member say, by which copies are found, are what `dasd hash` prints; that of a file is made here.

Whoever takes others gives FUNCTION another name: then the next scan asks each volume again, and hashes of both are never compared.
"""

from __future__ import annotations

import hashlib

from .program import Volume

#: The name of these hashes; the database has it.
FUNCTION = "says-3"
CHUNK = 1 << 20


class Hashes:
    """What `dasd hash` prints of a volume: its hash, if it has one, and those of its data sets and members by the names of their files."""

    def __init__(self) -> None:
        self.volume = b""
        self.files: dict[str, bytes] = {}

    def ask(self, volume: Volume) -> None:
        """Takes all that the program prints; what came before a fault stays."""
        for it in volume.ask("hash", "--members"):
            if "hash" not in it:
                continue
            said = bytes.fromhex(it["hash"])
            if "name" not in it:
                self.volume = said
            else:
                self.files[f"{it['name']}({it['member']})" if "member" in it else it["name"]] = said


def file_hash(path: bytes) -> bytes:
    """What a file holds: SHA-256, 32 bytes."""
    said = hashlib.sha256()
    with open(path, "rb") as file:
        while chunk := file.read(CHUNK):
            said.update(chunk)
    return said.digest()
