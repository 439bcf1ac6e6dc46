"""Folders for what is unloaded and unpacked, which go when they are no more needed, also where a process was killed.

Each folder is held locked as long as its process lives. A folder that nobody holds is what a killed process left, and is cleared by the next one.
"""

from __future__ import annotations

import fcntl
import functools
import os
import shutil
import stat
import sys
import tempfile
import time
from collections.abc import Iterator
from contextlib import contextmanager

PREFIX = "dasd-catalogue-"
MEMORY = "/dev/shm"
#: A volume of so many bytes, unpacked, with what is unloaded of it, is kept in memory where the system has a folder for that.
MOST_IN_MEMORY = 64 << 20
#: A folder that was made so many seconds ago has been locked since, if its process lives.
GRACE = 60


def parents(asked: str) -> list[tuple[str, int]]:
    """The folders for a volume, each with how many bytes of one it may have: the one that is asked for, or memory, since `dasd` syncs each file that it
    makes, and then the system's."""
    anything = sys.maxsize
    if asked:
        return [(asked, anything)]
    has_memory = os.access(MEMORY, os.W_OK | os.X_OK) and shutil.disk_usage(MEMORY).free > 16 * MOST_IN_MEMORY
    return [*([(MEMORY, MOST_IN_MEMORY)] if has_memory else []), (tempfile.gettempdir(), anything)]


@contextmanager
def scratch_folder(parent: str) -> Iterator[bytes]:
    """An empty folder of one's own. The first time in a process, those that killed ones left there are cleared."""
    clear_left(parent)
    folder = os.fsencode(tempfile.mkdtemp(prefix=PREFIX, dir=parent))
    held = os.open(folder, os.O_RDONLY | os.O_DIRECTORY)
    try:
        fcntl.flock(held, fcntl.LOCK_EX)
        yield folder
    finally:
        shutil.rmtree(folder, ignore_errors=True)
        os.close(held)


def is_own_and_old(entry: os.DirEntry[str]) -> bool:
    """Whether an entry is a folder of this user that was not made just now."""
    try:
        found = entry.stat(follow_symlinks=False)
    except OSError:
        return False
    return stat.S_ISDIR(found.st_mode) and found.st_uid == os.getuid() and found.st_mtime < time.time() - GRACE


@functools.cache
def clear_left(parent: str) -> None:
    """Takes away the folders of processes of this user that were killed."""
    for entry in os.scandir(parent):
        if not entry.name.startswith(PREFIX) or not is_own_and_old(entry):
            continue
        try:
            held = os.open(entry.path, os.O_RDONLY | os.O_DIRECTORY)
        except OSError:
            continue
        try:
            fcntl.flock(held, fcntl.LOCK_EX | fcntl.LOCK_NB)
            shutil.rmtree(entry.path, ignore_errors=True)
        except OSError:
            pass
        finally:
            os.close(held)
