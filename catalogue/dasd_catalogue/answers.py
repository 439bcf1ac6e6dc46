"""What is asked of a file, and what came of it: plain values, that go between processes and hosts."""

from __future__ import annotations

import hashlib
import zlib
from dataclasses import dataclass, field

from .program import Object


@dataclass(frozen=True)
class Task:
    """A volume that is to be asked: the number and the paths of its files, the first one's the volume's number too; whether it is asked even where it
    doesn't look like an image; and what the hash of the first file was when it was asked before."""

    files: tuple[int, ...]
    paths: tuple[bytes, ...]
    is_named: bool = False
    digest: bytes = b""

    @property
    def volume(self) -> int:
        """The volume's number."""
        return self.files[0]


@dataclass(frozen=True)
class Stamp:
    """What a file was when it was read: its size, the time of its last change in nanoseconds, and SHA-256 of its bytes."""

    size: int
    modified: int
    digest: bytes = b""


@dataclass
class Text:
    """A text of a data set or a member: SHA-256 of it, how many characters it has, and its UTF-8 as zlib packs it."""

    digest: bytes
    length: int
    packed: bytes

    @classmethod
    def of(cls, text: str) -> Text:
        """This text."""
        held = text.encode("utf-8")
        return cls(hashlib.sha256(held).digest(), len(text), zlib.compress(held))

    def unpacked(self) -> str:
        """The text itself."""
        return zlib.decompress(self.packed).decode("utf-8")


@dataclass
class Unloaded:
    """What was unloaded of a volume to a file: the name of the file, how many bytes, their hash, the digest of its text, if it is one, and whether it
    is all up to an end of file."""

    file_name: str
    size: int
    said: bytes
    text: bytes | None = None
    is_whole: bool = True


@dataclass
class Set:
    """A data set: what `dasd vtoc` says of it; the name of its file, if it could be unloaded; itself, of a partitioned one all of its members; its
    members; and whether its directory and its extents are whole."""

    told: Object
    file_name: str = ""
    own: Unloaded | None = None
    members: list[Unloaded] = field(default_factory=list)
    is_whole: bool = True


@dataclass
class Finding:
    """Something that is wrong with a volume: who says so (`check`, `vtoc` or `extract`), how bad it is, and what `dasd` tells of it."""

    source: str
    severity: str
    told: Object


@dataclass
class Answer:
    """What came of a task. The state is `volume`, `fault` where nothing could be had, `other` for a file that is no image, `same` where its bytes are
    what they were, and `waiting` where it changed while it was read. Faults are what could not be had: of what, and why."""

    task: Task
    state: str = "fault"
    stamps: list[Stamp] = field(default_factory=list)
    packing: str = ""
    volume: Object = field(default_factory=dict)
    said: bytes = b""
    tracks: bytes = b""
    sets: list[Set] = field(default_factory=list)
    findings: list[Finding] = field(default_factory=list)
    counts: dict[str, int] = field(default_factory=dict)
    faults: list[tuple[str, str]] = field(default_factory=list)
    texts: dict[bytes, Text] = field(default_factory=dict)
