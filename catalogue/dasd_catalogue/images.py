"""Files of images: whether a file is one, what it is packed with, and which files are one image together."""

from __future__ import annotations

import gzip
import lzma
import os
import re
import zlib
from collections.abc import Callable, Iterable
from typing import BinaryIO

MAGIC = b"CKD_"
#: What further files are called that are asked even where they don't begin as an image does.
SUFFIXES = (b".ckd", b".cckd", b".dasd")
#: What files may be packed with: how these begin, and what reads them.
PACKINGS: dict[str, tuple[bytes, Callable[[BinaryIO], BinaryIO]]] = {
    "gzip": (b"\x1f\x8b", lambda file: gzip.GzipFile(fileobj=file)),  # type: ignore[dict-item, return-value]
    "xz": (b"\xfd7zXZ\0", lzma.LZMAFile),  # type: ignore[dict-item]
}
PACKED_SUFFIXES = (b".gz", b".xz")
#: What is raised of a packed file that is damaged or cut off.
DAMAGES = (gzip.BadGzipFile, EOFError, zlib.error, lzma.LZMAError)
NUMBERED = re.compile(rb"(.*)_([1-8])((?:\.[^.]+)?(?:\.gz|\.xz)?)", re.DOTALL)
SEQUENCE = 17
MOST_FILES = 8
CHUNK = 1 << 20


class BadPacking(Exception):
    """What a packed file holds can't be had; the text says why."""


class HoldsMore(BadPacking):
    """A packed file holds more than it may."""


def packing_of(start: bytes) -> str:
    """What a file that begins so is packed with; an empty text where it is not."""
    return next((name for name, (magic, _) in PACKINGS.items() if start.startswith(magic)), "")


def opened(file: BinaryIO) -> tuple[str, BinaryIO]:
    """What a file is packed with, and what reads the bytes that it holds."""
    packing = packing_of(file.read(len(MAGIC) + 2))
    file.seek(0)
    return packing, PACKINGS[packing][1](file) if packing else file


def packing_at(path: bytes) -> str:
    """What the file of a path is packed with; an empty text where it is not."""
    with open(path, "rb") as file:
        return opened(file)[0]


def first_bytes(path: bytes, count: int) -> bytes:
    """The first bytes of an image, unpacked where it is packed; none where they can't be had."""
    try:
        with open(path, "rb") as file:
            return opened(file)[1].read(count)
    except (OSError, *DAMAGES):
        return b""


def is_called_image(path: bytes) -> bool:
    """Whether a file is called as images are."""
    name = path.lower()
    for suffix in PACKED_SUFFIXES:
        name = name.removesuffix(suffix)
    return name.endswith(SUFFIXES)


def unpack(path: bytes, target: bytes, most: int) -> int:
    """Writes what a packed file holds to a new file of so many bytes at most; how many it has."""
    left = most
    try:
        with open(path, "rb") as file, open(target, "xb") as out:
            packed = opened(file)[1]
            while chunk := packed.read(CHUNK):
                left -= len(chunk)
                if left < 0:
                    raise HoldsMore(f"it holds more than {most} bytes")
                out.write(chunk)
    except DAMAGES as fault:
        raise BadPacking(f"it can't be unpacked: {fault}") from fault
    except OSError as fault:
        raise BadPacking(f"it can't be unpacked: {os.strerror(fault.errno) if fault.errno else fault}") from fault
    return most - left


def parts_of(folder: bytes, names: Iterable[bytes]) -> dict[bytes, tuple[bytes, int]]:
    """Which of these names of a folder are the second and further files of an image: each with the name of the first, and its number. Files are one
    image where they are called alike except for a number, `pack_1.ckd` and `pack_2.ckd`, and each has its number in its header."""
    numbered: dict[tuple[bytes, bytes], dict[int, bytes]] = {}
    for name in names:
        found = NUMBERED.fullmatch(name)
        if found:
            numbered.setdefault((found[1], found[3]), {})[int(found[2])] = name
    parts: dict[bytes, tuple[bytes, int]] = {}
    for group in numbered.values():
        number = 1
        while number in group and sequence_of(os.path.join(folder, group[number])) == number:
            parts[group[number]] = (group[1], number)
            number += 1
    return {name: it for name, it in parts.items() if it[1] > 1}


def sequence_of(path: bytes) -> int:
    """The number of a file of an image, by its header; 0 where it is alone or no image."""
    start = first_bytes(path, SEQUENCE + 1)
    return start[SEQUENCE] if start.startswith(MAGIC) and len(start) > SEQUENCE else 0
