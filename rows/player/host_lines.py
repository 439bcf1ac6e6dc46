"""Lines of rows that make what is no plain file: folders, links, pipes, sockets, devices, modes, owners, small disks."""
from __future__ import annotations

import fcntl
import os
import shutil
import socket
import stat
import subprocess
from contextlib import ExitStack
from pathlib import Path
from typing import Callable

from .text import Skipped

KINDS = {"pipe": stat.S_ISFIFO, "folder": stat.S_ISDIR, "socket": stat.S_ISSOCK, "device": stat.S_ISCHR, "link": stat.S_ISLNK}


def remove(path: Path) -> None:
    """Removes a file, those of a pattern, or a folder with what is in it."""
    if "*" in path.name:
        for it in path.parent.glob(path.name):
            remove(it)
    elif path.is_dir() and not path.is_symlink():
        shutil.rmtree(path)
    else:
        path.unlink()


def needs(what: str) -> None:
    """Skips the row where this is not there: a program, a file, or the rights of root."""
    is_there = os.geteuid() == 0 if what == "root" else os.path.exists(what) if "/" in what else shutil.which(what) is not None
    if not is_there:
        raise Skipped("no other user without root" if what == "root" else "there is no %s" % what)


class HostFiles:
    """The files of a row that are no plain ones."""

    def __init__(self, kept_open: ExitStack) -> None:
        self.kept_open = kept_open
        self.lines: dict[str, Callable[[Path], object]] = {
            "mkdir": lambda path: path.mkdir(parents=True),
            "pipe": os.mkfifo,
            "socket": self.put_socket,
            "device": put_device,
            "lock": self.lock,
            "remove": remove,
            "closed": lambda path: path.chmod(0o755 if os.geteuid() == 0 else 0o555),
        }

    def makes(self, word: str, path: Path, others: list[str]) -> bool:
        """Does what a line says; whether it is of these."""
        if word in self.lines:
            self.lines[word](path)
        elif word == "link":
            path.symlink_to(others[0])
        elif word == "hard":
            os.link(path.parent / others[0], path)
        elif word == "clone":
            path.write_bytes((path.parent / others[0]).read_bytes())
        elif word == "rename":
            path.replace(path.parent / others[0])
        elif word == "small":
            self.put_disk(path, others[0] if others else "80k")
        elif word == "zeros":
            with open(path, "wb") as file:
                file.truncate(int(others[0]))
        elif word == "chmod":
            path.chmod(int(others[0], 8))
        elif word == "chown":
            os.chown(path, int(others[0]), int(others[1]))
        else:
            return False
        return True

    def put_socket(self, path: Path) -> None:
        """Binds a socket to a name."""
        self.kept_open.enter_context(socket.socket(socket.AF_UNIX)).bind(str(path))

    def lock(self, path: Path) -> None:
        """Locks a file until the row ends."""
        fcntl.flock(self.kept_open.enter_context(open(path, "rb")), fcntl.LOCK_EX)

    def put_disk(self, path: Path, size: str) -> None:
        """Mounts a file system of this size, until the row ends."""
        path.mkdir()
        if subprocess.run(["mount", "-t", "tmpfs", "-o", "size=" + size, "none", path], capture_output=True, check=False).returncode:
            raise Skipped("no file system can be mounted")
        self.kept_open.callback(unmount, path)


def unmount(path: Path) -> None:
    """Ends a small disk."""
    subprocess.run(["umount", path], check=True)


def put_device(path: Path) -> None:
    """Makes a device as /dev/null."""
    try:
        os.mknod(path, stat.S_IFCHR | 0o666, os.makedev(1, 3))
    except OSError as why:
        raise Skipped("no device can be made: %s" % why.strerror) from why
