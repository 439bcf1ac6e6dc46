"""The files of a volume are put where `dasd` reads them: in a folder of their own, under names of its own, so that no name of the archive is a word of a
command. A packed file is unpacked there."""

from __future__ import annotations

import os
from collections.abc import Iterator, Sequence
from contextlib import contextmanager

from .images import HoldsMore, packing_at, unpack
from .program import NAME, Volume, Way
from .scratch import parents, scratch_folder


@contextmanager
def placed(paths: Sequence[bytes], way: Way) -> Iterator[Volume]:
    """The volume of these files, in a folder of memory where they have no more bytes than that may have, unpacked, and else in the system's. A BadPacking
    where a packed one can't be unpacked."""
    *first, last = parents(way.scratch)
    for parent, most in first:
        with scratch_folder(parent) as folder:
            try:
                found = put_files(paths, folder, way, most)
            except HoldsMore:
                continue
            yield found
            return
    with scratch_folder(last[0]) as folder:
        yield put_files(paths, folder, way, last[1])


def put_files(paths: Sequence[bytes], folder: bytes, way: Way, most: int) -> Volume:
    """Puts links to files into a folder, or what they hold where they are packed. HoldsMore where they hold more than so many bytes together, or one that
    is packed more than it may."""
    names = [NAME] if len(paths) == 1 else [f"{NAME}_{number}" for number in range(1, len(paths) + 1)]
    size = 0
    for path, name in zip(paths, names):
        target = os.path.join(folder, os.fsencode(name))
        if packing_at(path):
            size += unpack(path, target, min(way.most, most - size))
        else:
            os.symlink(os.path.abspath(path), target)
            size += os.stat(path).st_size
        if size > most:
            raise HoldsMore(f"they hold more than {most} bytes")
    return Volume(way, folder, tuple(names), size)
