"""A failing list is made short: events and records that it does not need are taken away while it still fails."""
from __future__ import annotations

from dataclasses import replace
from typing import Callable, List, TypeVar

from .vectors import Vector
from .volumes import new_track

T = TypeVar("T")


def shorter_list(items: List[T], fails: Callable[[List[T]], bool]) -> List[T]:
    """The items without those that are not needed for `fails(items)`: first half of them, then ever smaller parts."""
    size = max(1, len(items) // 2)
    while True:
        at, shrank = 0, False
        while at < len(items):
            fewer = items[:at] + items[at + size:]
            if fewer and fails(fewer):
                items, shrank = fewer, True
            else:
                at += size
        if size == 1 and not shrank:
            return items
        size = max(1, size // 2)


def with_lines(vector: Vector, lines: List[bytes]) -> Vector:
    return replace(vector, deck=b"".join(it + b"\n" for it in lines))


def shrink(vector: Vector, fails: Callable[[Vector], bool]) -> Vector:
    """The vector made short; fails(vector) says whether it still shows what it is to show."""
    lines = shorter_list(vector.deck.split(b"\n")[:-1], lambda it: fails(with_lines(vector, it)))
    vector = with_lines(vector, lines)
    for unit, _ in list(vector.volumes):
        rest = replace(vector, volumes=[it for it in vector.volumes if it[0] != unit])
        if rest.volumes and fails(rest):
            vector = rest
    for unit, _ in vector.volumes:
        vector = shrink_volume(vector, unit, fails)
    return vector


def shrink_volume(vector: Vector, unit: int, fails: Callable[[Vector], bool]) -> Vector:
    """Makes tracks fresh again, and takes records away, of a volume that is in no file."""
    volume = vector.made.get(unit)
    if volume is None:
        return vector
    for at in range(len(volume.slots)):
        cylinder, head = divmod(at, volume.model.heads)
        fresh = new_track(cylinder, head)
        if volume.slots[at] == fresh.spelled().ljust(volume.slot_size, b"\0"):
            continue
        tries = [fresh]
        track = volume.track(cylinder, head)
        if track:
            tries += [replace(track, records=track.records[:number] + track.records[number + 1:]) for number in range(len(track.records) - 1, 0, -1)]
        for one in tries:
            less = volume.copy()
            less.write(cylinder, head, one)
            trial = replace(vector, made={**vector.made, unit: less})
            if fails(trial):
                vector, volume = trial, less
                break
    return vector
