"""To which data sets the tracks of a volume belong, by the extents in its table of contents, whatever these say."""

from __future__ import annotations

import json
import sqlite3
from collections.abc import Iterator

from .layout import SHARED

#: The first cylinder and head of an extent, and the last.
Extent = list[int]
NOBODY = -1


def extents_of(data_set: sqlite3.Row) -> list[tuple[Extent, int | None]]:
    """The extents of a data set, each with its type; None where an earlier `dasd` told none."""
    extents: list[Extent] = json.loads(data_set["extents"])
    types = json.loads(data_set["extent_types"]) if data_set["extent_types"] else [None] * len(extents)
    return list(zip(extents, types))


def cylinders_by_head(extent: Extent, kind: int | None, heads: int) -> Iterator[tuple[int, int, int]]:
    """Each head on which an extent has tracks, with the first cylinder there and the one after the last. One that shares its cylinders has on each of
    them the heads from its first to its last; any other is a run of tracks."""
    first, head, last, last_head = extent
    if kind == SHARED:
        yield from ((it, first, last + 1) for it in range(head, min(last_head + 1, heads)))
        return
    first, head = divmod(first * heads + head, heads)
    last, last_head = divmod(last * heads + last_head, heads)
    yield from ((it, first + (it < head), last + (it <= last_head)) for it in range(heads))


def owners_of(sets: list[sqlite3.Row], heads: int, cylinders: int) -> list[int]:
    """The number of the data set that has each track, the first of those that claim it, or NOBODY. A track is taken once, and what is taken is passed
    over, so that many extents over all of a volume take no longer."""
    owners = [NOBODY] * (heads * cylinders)
    free = [bytearray(b"\1") * cylinders for _ in range(heads)]
    for data_set in sets:
        for extent, kind in extents_of(data_set):
            for head, first, end in cylinders_by_head(extent, kind, heads):
                cylinder = free[head].find(1, first, end) if first < end else -1
                while cylinder >= 0:
                    free[head][cylinder] = 0
                    owners[cylinder * heads + head] = data_set["number"]
                    cylinder = free[head].find(1, cylinder + 1, end)
    return owners
