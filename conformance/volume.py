#!/usr/bin/env python3
"""Volumes in words. FORMAT.md has the lines of a description.

  volume.py make DESCRIPTION FILE ..   writes the image, in as many files as it is split into
  volume.py lines UNIT DESCRIPTION     prints the lines `image` and `slot` that a vector has of such a volume
  volume.py describe FILE ..           prints a description of an image

DESCRIPTION is a file, or - for standard input."""
from __future__ import annotations

import argparse
import sys
from typing import Iterator, List, Sequence, Tuple

from suite.vectors import digest
from suite.volumes import BadDescription, BadImage, Volume, address, new_track, parse_description, read_slot


def read(path: str) -> Volume:
    """The volume of a description."""
    if path == "-":
        return parse_description(sys.stdin.read())
    with open(path, encoding="utf-8") as text:
        return parse_description(text.read())


def named_tracks(volume: Volume) -> Iterator[Tuple[int, int, bytes]]:
    """The tracks that are not as in a fresh volume: cylinder, head and slot."""
    for at, slot in enumerate(volume.slots):
        cylinder, head = divmod(at, volume.model.heads)
        if slot != new_track(cylinder, head).spelled().ljust(len(slot), b"\0"):
            yield cylinder, head, slot


def words_of(data: bytes) -> str:
    """Bytes as a description has them: one byte again and again is said once."""
    if len(data) > 1 and len(set(data)) == 1:
        return "%02X*%d" % (data[0], len(data))
    return data.hex().upper()


def track_lines(cylinder: int, head: int, slot: bytes) -> List[str]:
    """The lines of a track."""
    lines, track = ["track %d %d" % (cylinder, head)], read_slot(slot)
    own = address(cylinder, head)
    if track is None or any(slot[len(track.spelled()):]):
        return lines + ["  raw %s" % (words_of(slot.rstrip(b"\0")) or "00")]
    if track.home != b"\0" + own:
        lines.append("  home %s" % track.home.hex().upper())
    records, fresh = track.records, new_track(cylinder, head).records[0]
    if records and records[0] == fresh:
        records = records[1:]
    elif not records or records[0].identifier != fresh.identifier:
        lines.append("  none")
    for record in records:
        name = str(record.identifier[4]) if record.identifier[:4] == own else record.identifier.hex().upper()
        parts = "".join(" %s %s" % (name, words_of(it)) for name, it in (("key", record.key), ("data", record.data)) if it)
        lines.append("  record %s%s" % (name, parts))
    return lines


def describe(volume: Volume) -> str:
    """A description of a volume."""
    firsts: List[str] = []
    at = 0
    for number in volume.tracks_in[:-1]:
        at += number
        firsts.append(str(at // volume.model.heads))
    lines = ["model %s" % volume.model.name, "cylinders %d" % volume.cylinders]
    if volume.slot_size != volume.model.slot:
        lines.append("slot %d" % volume.slot_size)
    if firsts:
        lines.append("split %s" % " ".join(firsts))
    for track in named_tracks(volume):
        lines += track_lines(*track)
    return "\n".join(lines)


def main() -> int:
    words = argparse.ArgumentParser(description=__doc__, formatter_class=argparse.RawDescriptionHelpFormatter)
    words.add_argument("what", choices=("make", "lines", "describe"))
    words.add_argument("names", nargs="+")
    said = words.parse_args()
    try:
        if said.what == "describe":
            print(describe(Volume.load(said.names)))
        elif said.what == "make":
            make(read(said.names[0]), said.names[1:])
        else:
            unit, volume = said.names[0], read(said.names[1])
            print("  image %s sha256 %s" % (unit, digest(volume)))
            for cylinder, head, slot in named_tracks(volume):
                print("  slot %s %04X %04X %s" % (unit, cylinder, head, slot.rstrip(b"\0").hex().upper()))
    except (BadDescription, BadImage, OSError, IndexError) as fault:
        print("volume.py: %s" % fault, file=sys.stderr)
        return 1
    return 0


def make(volume: Volume, paths: Sequence[str]) -> None:
    """Writes the files of a volume."""
    files = volume.files()
    if len(files) != len(paths):
        raise BadImage("the volume has %d files, and %d are named" % (len(files), len(paths)))
    for path, data in zip(paths, files):
        with open(path, "wb") as it:
            it.write(data)


if __name__ == "__main__":
    sys.exit(main())
