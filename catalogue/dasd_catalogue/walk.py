"""Folders are walked: each name that is met is one value, and nothing that can't be read is left out.

Links to files lead to them; links to folders are reported and not followed, since they may lead in circles. What is no file and no folder is reported too,
and not opened.
"""

from __future__ import annotations

import os
import stat
from collections.abc import Iterator
from dataclasses import dataclass

from .images import parts_of


@dataclass(frozen=True)
class Met:
    """A name that was met: its path; `file`, `fault` or `other`; why it is a fault, or what it is; what the system says of it; the path of the first
    file of its image and its number there, if it is a further one."""

    path: bytes
    kind: str
    text: str = ""
    size: int = 0
    modified: int = 0
    device: int = 0
    inode: int = 0
    is_link: bool = False
    is_named: bool = False
    first: bytes = b""
    part: int = 1


def walk(roots: list[bytes], left_out: frozenset[bytes]) -> Iterator[Met]:
    """Everything at and below these paths, except for paths that are left out."""
    for root in roots:
        if os.path.isdir(root):
            yield from walk_folder(root, left_out)
        else:
            yield met(root, is_named=True)


def walk_folder(folder: bytes, left_out: frozenset[bytes]) -> Iterator[Met]:
    """What is in a folder and below it, in the order of the bytes of its names, however deep."""
    under_way = [entries_of(folder, left_out)]
    while under_way:
        found = next(under_way[-1], None)
        if found is None:
            under_way.pop()
        elif isinstance(found, Met):
            yield found
        else:
            under_way.append(entries_of(found, left_out))


def entries_of(folder: bytes, left_out: frozenset[bytes]) -> Iterator[Met | bytes]:
    """What is in a folder: the path of each folder, and what there is at each other path."""
    try:
        with os.scandir(folder) as entries:
            found = sorted(entries, key=lambda it: it.name)
    except OSError as fault:
        yield Met(folder, "fault", f"the folder can't be read: {os.strerror(fault.errno or 0)}")
        return
    parts = parts_of(folder, [it.name for it in found if it.is_file(follow_symlinks=False)])
    for entry in found:
        if entry.path in left_out:
            continue
        if entry.is_dir(follow_symlinks=False):
            yield entry.path
        else:
            first, part = parts.get(entry.name, (b"", 1))
            yield met(entry.path, first=os.path.join(folder, first) if first else b"", part=part)


def met(path: bytes, is_named: bool = False, first: bytes = b"", part: int = 1) -> Met:
    """What there is at a path that is no folder."""
    is_link = os.path.islink(path)
    try:
        found = os.stat(path)
    except OSError as fault:
        why = os.strerror(fault.errno or 0)
        return Met(path, "fault", f"the link leads nowhere: {why}" if is_link else why, is_link=is_link, is_named=is_named)
    if stat.S_ISDIR(found.st_mode):
        return Met(path, "other", "a link to a folder, which is not followed", is_link=True)
    if not stat.S_ISREG(found.st_mode):
        return Met(path, "other", "no regular file", is_link=is_link)
    return Met(path, "file", "", found.st_size, found.st_mtime_ns, found.st_dev, found.st_ino, is_link, is_named, first, part)
