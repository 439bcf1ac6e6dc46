"""What data sets and members say, as docs/ARCHIVES.md has it, and their SHA-256 by Python's library: for the scripts that compare `dasd hash`.

Volumes are read by the conformance suite's spelling of an image and by the layouts of System Control Blocks (GC28-6628). It shares no code
with `dasd`."""

import hashlib
from collections.abc import Iterator
from dataclasses import dataclass

from conformance.suite.volumes import Track
from tools.common.images import Image, Place
from tools.common.record_forms import cut, with_lengths
from tools.common.volume_layouts import END, EXTENT, EXTENTS, control_blocks

ORGANISATION, PARTITIONED = 38, 0x02
USER_LABELS, SHARED = 0x40, 0x80
NO_BLOCK = bytes(5)
# The key and the data of a block.
Block = tuple[bytes, bytes]


def blocks_hash(blocks: list[Block], is_whole: bool = True) -> str:
    """The hash of a data set or of a member that has these blocks."""
    return hashlib.sha256(b"blocks" + with_lengths(blocks) + ending(is_whole)).hexdigest()


def library_hash(members: list[tuple[bytes, str]], is_whole: bool = True) -> str:
    """The hash of a data set with members of these names, of eight bytes each, and hashes."""
    said = [name + bytes.fromhex(digest) for name, digest in members]
    return hashlib.sha256(b"members" + b"".join(said) + ending(is_whole)).hexdigest()


def ending(is_whole: bool) -> bytes:
    """What is after a message."""
    return b"" if is_whole else b"\0"


def safe(name: bytes) -> str:
    """A name as it is printed."""
    kept = name.rstrip(b"\x40") or b"\x40"
    plain = set("ABCDEFGHIJKLMNOPQRSTUVWXYZ0123456789.-_@#$")
    spelled = [(it, bytes([it]).decode("cp037")) for it in kept]
    return "".join(text if text in plain and (at or text != ".") else f"%{it:02X}" for at, (it, text) in enumerate(spelled))


@dataclass(frozen=True)
class Said:
    """A data set or a member: its name, its hash, and whether it is whole."""

    name: str
    member: str | None
    digest: str
    is_whole: bool


def tracks_of(image: Image, extents: list[bytes]) -> list[int]:
    """The tracks of extents, by their numbers on the volume; of one that shares its cylinders, its heads on each of them; of one with user
    labels none."""
    tracks: list[int] = []
    for extent in extents:
        cylinder, head, last_cylinder, last_head = (int.from_bytes(extent[at : at + 2], "big") for at in (2, 4, 6, 8))
        if extent[0] == SHARED:
            places = [(it, number) for it in range(cylinder, last_cylinder + 1) for number in range(head, last_head + 1)]
            tracks += [it * image.heads + number for it, number in places]
        else:
            tracks += range(cylinder * image.heads + head, last_cylinder * image.heads + last_head + 1)
    return tracks


def extents_said(image: Image, data: bytes, blocks: dict[Place, Block]) -> list[bytes]:
    """The extents that a format 1 block says, and those of format 3 after it, with those for user labels."""
    spelled, behind = data[EXTENTS : EXTENTS + 3 * EXTENT], data[91:96]
    while behind != NO_BLOCK:
        cylinder, head = int.from_bytes(behind[:2], "big"), int.from_bytes(behind[2:4], "big")
        key, more = blocks[cylinder * image.heads + head, behind[4]]
        if more[:1] == b"\xf3":
            spelled += key[4:44] + more[1:91]
        behind = more[91:96]
    return [it for it in cut(spelled, EXTENT) if it[0]]


def extents_of(image: Image, data: bytes, blocks: dict[Place, Block]) -> list[bytes]:
    """The same without those for user labels: what the data set's tracks are in."""
    return [it for it in extents_said(image, data, blocks) if it[0] != USER_LABELS]


class Tracks:
    """The tracks of a data set."""

    def __init__(self, image: Image, extents: list[bytes]) -> None:
        self.image, self.tracks = image, tracks_of(image, extents)

    def held(self, number: int) -> Track | None:
        """The track with the blocks of one: itself, or of a defective one its alternate; None where they can't be read."""
        image = self.image
        track = image.volume.track(*divmod(number, image.heads)) if number < image.tracks else None
        if track is None or not track.home[0] & 2:
            return track
        if not track.records or track.records[0].identifier[4]:
            return None
        cylinder, head = (int.from_bytes(track.records[0].identifier[at : at + 2], "big") for at in (0, 2))
        if cylinder >= image.volume.cylinders or head >= image.heads:
            return None
        other = image.volume.track(cylinder, head)
        return other if other is not None and other.home[0] & 3 == 1 else None

    def blocks(self, relative: int = 0, number: int = 0) -> tuple[list[Block], bool]:
        """The blocks from an address on, up to an end of file; and whether there is one."""
        found: list[Block] = []
        for track in map(self.held, self.tracks[relative:]):
            if track is None:
                return found, False
            places = [at for at, it in enumerate(track.records) if it.identifier[4] == number] if number else [1]
            if not places:
                return found, False
            for record in track.records[places[0] :]:
                if not record.data:
                    return found, True
                found.append((record.key, record.data))
            number = 0
        return found, False

    def entries(self) -> tuple[list[tuple[bytes, int, int]], bool]:
        """The names of the members, with their addresses; and whether the directory is whole."""
        blocks, is_whole = self.blocks()
        found: list[tuple[bytes, int, int]] = []
        for key, block in blocks:
            if (len(key), len(block)) != (8, 256):
                return found, False
            end, at = int.from_bytes(block[:2], "big"), 2
            if not 2 <= end <= 256:
                return found, False
            while at < end:
                if at + 12 > end:
                    return found, False
                if block[at : at + 8] == END:
                    return found, is_whole
                behind = at + 12 + block[at + 11] % 32 * 2
                if behind > end:
                    return found, False
                found.append((block[at : at + 8], int.from_bytes(block[at + 8 : at + 10], "big"), block[at + 10]))
                at = behind
        return found, is_whole


def said_by(image: Image) -> Iterator[Said]:
    """All data sets of a volume in the order of its table of contents, each with its members after it in the order of their directory."""
    blocks = {place: (key, data) for place, key, data in control_blocks(image)}
    for key, data in blocks.values():
        if data[0] != 0xF1:
            continue
        tracks = Tracks(image, extents_of(image, data, blocks))
        if not data[ORGANISATION] & PARTITIONED:
            found, is_whole = tracks.blocks()
            yield Said(safe(key), None, blocks_hash(found, is_whole), is_whole)
            continue
        entries, is_whole = tracks.entries()
        members = []
        for name, relative, number in entries:
            found, is_ended = tracks.blocks(relative, number)
            members.append(Said(safe(key), safe(name), blocks_hash(found, is_ended), is_ended))
        digest = library_hash([(it[0], member.digest) for it, member in zip(entries, members)], is_whole)
        yield Said(safe(key), None, digest, is_whole and all(it.is_whole for it in members))
        yield from members
