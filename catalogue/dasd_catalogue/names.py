"""Names of files and of what is on volumes, as texts that can be shown, and as bytes.

A path is bytes. It is shown with each byte that is no part of a printable character, and each backslash, as a backslash, an x and two hexadecimal
digits: so no name moves a terminal's cursor, two names are never spelled alike, and what is shown can be turned back.
"""

from __future__ import annotations

import os
import re
from dataclasses import dataclass

SPELLED = re.compile(rb"\\x([0-9a-f]{2})|\\(\\)")
SAFE = re.compile(r"%([0-9A-F]{2})|(.)", re.DOTALL)
CODE_PAGE = "cp037"


def shown(path: bytes) -> str:
    """A path as a text of printable characters."""
    return "".join(_shown_character(it) for it in path.decode("utf-8", "surrogateescape"))


def _shown_character(character: str) -> str:
    if character == "\\":
        return "\\\\"
    if character.isprintable():
        return character
    return "".join(f"\\x{byte:02x}" for byte in character.encode("utf-8", "surrogateescape"))


def exact(text: str) -> bytes:
    """The path that is shown as this text."""
    return SPELLED.sub(lambda it: b"\\" if it[2] else bytes([int(it[1], 16)]), text.encode("utf-8"))


def clean(text: str) -> str:
    """A text for one line of a terminal: each character that can't be printed is U+FFFD."""
    return "".join(it if it.isprintable() or it == "\u00a0" else "\ufffd" for it in text)


def plain_name(file_name: str) -> str:
    """The name on the volume for the name of a file that `dasd extract --all` made: `%4D` is a parenthesis again. A byte that is no printable
    character is a period."""
    return "".join(_plain_character(it) for it in SAFE.finditer(file_name)).rstrip(" ")


def _plain_character(found: re.Match[str]) -> str:
    if not found[1]:
        return found[2]
    character = bytes([int(found[1], 16)]).decode(CODE_PAGE)
    return character if character.isprintable() else "."


def fits(name: str, file_name: str) -> bool:
    """Whether `dasd vtoc` may print this name for what `dasd extract --all` calls so: a period there stands for any character that can't be
    printed."""
    found = list(SAFE.finditer(file_name))
    name = name.ljust(len(found))
    return len(name.rstrip(" ")) <= len(found) and all(_fits_character(*it) for it in zip(name, found))


def _fits_character(character: str, found: re.Match[str]) -> bool:
    if not found[1]:
        return character == found[2]
    spelled = bytes([int(found[1], 16)]).decode(CODE_PAGE)
    return character == spelled or (character == "." and not (spelled.isascii() and spelled.isprintable()))


def split_name(file_name: str) -> tuple[str, str]:
    """The names of data set and member of a file that `dasd extract --all` made; the second is empty where it is a data set's."""
    if not file_name.endswith(")"):
        return file_name, ""
    data_set, _, member = file_name[:-1].partition("(")
    return data_set, member


@dataclass(frozen=True)
class Places:
    """Paths as the database has them: relative to its own folder where they are below it, so that both can be moved together, and whole where they
    are not."""

    folder: bytes

    @classmethod
    def beside(cls, database: str) -> Places:
        """The paths of the database of this file."""
        return cls(os.path.dirname(os.path.abspath(os.fsencode(database))))

    def kept(self, path: bytes) -> bytes:
        """A path as the database has it."""
        whole = os.path.abspath(path)
        if whole == self.folder:
            return b"."
        below = self.folder.rstrip(b"/") + b"/"
        return whole[len(below) :] if whole.startswith(below) else whole

    def found(self, kept: bytes) -> bytes:
        """Where the file of a path of the database is."""
        return os.path.normpath(os.path.join(self.folder, kept))


def quantity(number: int, noun: str) -> str:
    """A count and its noun, in the singular where it is one; a plural ends in `s`."""
    return f"{number} {noun}" if number == 1 else f"{number} {noun}s"
