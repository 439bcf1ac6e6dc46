"""Packs are given as the archive has them: by the number of their volume alone, unpacked, in slices, and only while their files are what was scanned."""

from __future__ import annotations

import os
import sqlite3
import stat
from collections.abc import Iterator
from contextlib import ExitStack
from dataclasses import dataclass
from typing import BinaryIO

from .images import CHUNK, DAMAGES, PACKED_SUFFIXES, SEQUENCE, opened
from .names import Places
from .queries import NothingThere

#: The page in the browser opens so many bytes.
MOST = 512 << 20
#: The header of each file of an image; the end of its number among several files and of the highest cylinder of one that is not the last.
HEADER, HIGHEST_END = 512, 20
TOO_LARGE = f"it has more than {MOST} bytes, which the page does not open"


class NotGiven(Exception):
    """A pack is not given; the text says why."""


@dataclass(frozen=True)
class PackFile:
    """A file of a pack: where it is, what it is called for people, and what it was when it was scanned."""

    path: bytes
    shown: str
    size: int
    modified: int

    def open(self) -> BinaryIO:
        """The file, if it is what it was."""
        try:
            file = os.fdopen(os.open(self.path, os.O_RDONLY | os.O_NONBLOCK | os.O_CLOEXEC), "rb")
        except OSError as fault:
            raise NotGiven(f"{self.shown} can't be read: {os.strerror(fault.errno or 0)}") from fault
        try:
            self.examine(file)
        except NotGiven:
            file.close()
            raise
        return file

    def examine(self, file: BinaryIO) -> None:
        """Looks whether an open file is what it was."""
        found = os.fstat(file.fileno())
        if not stat.S_ISREG(found.st_mode) or (found.st_size, found.st_mtime_ns) != (self.size, self.modified):
            raise NotGiven(f"{self.shown} has changed since it was scanned; dasd-catalogue scan asks it again")


class Pack:
    """The pack of a volume: open while it is entered, and then the slices of one image, also where the archive has it in several files. NothingThere
    where no volume has this number, and NotGiven where it is another one by now, or too large for the page."""

    def __init__(self, connection: sqlite3.Connection, places: Places, volume: int) -> None:
        rows = connection.execute(
            """SELECT path, shown, size, modified FROM files WHERE EXISTS (SELECT 1 FROM volumes WHERE file = ?1)
            AND (id = ?1 OR (of = ?1 AND state = 'part')) ORDER BY part""",
            (volume,),
        ).fetchall()
        if not rows:
            raise NothingThere
        self.files = [PackFile(places.found(row["path"]), row["shown"], row["size"], row["modified"]) for row in rows]
        self.name = name_of_pack(rows[0]["shown"])
        self._open: list[BinaryIO] = []
        self._held = ExitStack()

    def __enter__(self) -> Pack:
        with ExitStack() as held:
            self._open = [held.enter_context(it.open()) for it in self.files]
            self._held = held.pop_all()
        return self

    def __exit__(self, *fault: object) -> None:
        self._held.close()

    def slices(self) -> Iterator[bytes]:
        """The image. NotGiven ends it where a file can't be read to its end, changes meanwhile, or has more bytes than the page opens."""
        left = MOST
        for file, held in zip(self.files, self._open):
            try:
                for part in self._parts(held):
                    left -= len(part)
                    if left < 0:
                        raise NotGiven(TOO_LARGE)
                    yield part
            except (OSError, *DAMAGES) as fault:
                raise NotGiven(f"{file.shown} can't be read: {fault}") from fault
            file.examine(held)

    def _parts(self, file: BinaryIO) -> Iterator[bytes]:
        """What a file holds: of several the first has the header of an only file, and the others have none."""
        packed = opened(file)[1]
        header = packed.read(HEADER)
        if len(self._open) > 1:
            header = b"" if file is not self._open[0] else header[:SEQUENCE] + bytes(HIGHEST_END - SEQUENCE) + header[HIGHEST_END:]
        yield header
        while part := packed.read(CHUNK):
            yield part


def name_of_pack(shown: str) -> str:
    """What a pack is called: the last part of its path, without that of its packing."""
    name = shown.rpartition("/")[2]
    for suffix in PACKED_SUFFIXES:
        name = name.removesuffix(suffix.decode())
    return name


def is_too_large(volume: sqlite3.Row) -> bool:
    """Whether the page does not open a volume of this geometry."""
    return HEADER + (volume["slot_size"] or 0) * (volume["cylinders"] or 0) * (volume["heads"] or 0) > MOST
