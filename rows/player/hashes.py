"""The hash of a volume that `dasd hash` prints, beside SHA-256 of Python's library over the message that docs/ARCHIVES.md describes.

The message is made here of the tracks as the conformance suite reads them."""
from __future__ import annotations

import hashlib
import json
import subprocess
import tempfile
from dataclasses import dataclass
from functools import partial
from pathlib import Path
from typing import Iterator, Sequence

from conformance.suite.volumes import HEADER, Record, Track, Volume, new_track, read_slot

from .hostile_slots import MODEL, odd, replaced
from .stage import Stage
from .text import Case, same

# a path that has each byte that a line spells otherwise
ODD_NAME = "a\\b\nc\rd e.ckd"


@dataclass(frozen=True)
class Said:
    """What came of a run: the hash, how many tracks can't be read, what is after the hash, and the status."""
    digest: str
    unreadable: int
    name: str
    status: int


def message(volume: Volume) -> tuple[bytes, int]:
    """What a volume says, and how many of its tracks can't be read."""
    parts = [b"volume", int(volume.model.name).to_bytes(2, "big"), volume.cylinders.to_bytes(2, "big")]
    unreadable = 0
    for slot in volume.slots:
        track = read_slot(slot)
        if track is None:
            unreadable += 1
            parts += [b"\0", len(slot).to_bytes(4, "big"), slot]
        else:
            parts += [b"\1", track.home]
            parts += [it.identifier + bytes([len(it.key)]) + len(it.data).to_bytes(2, "big") + it.key + it.data for it in track.records]
            parts.append(b"\xff" * 8)
    return b"".join(parts), unreadable


def run(program: str, folder: str, *words: str) -> tuple[bytes, int]:
    """What `dasd hash` prints, and its status; it tells nothing."""
    ran = subprocess.run([program, "hash", *words], cwd=folder, capture_output=True, timeout=600, check=False)
    same("what is told", b"", ran.stderr)
    return ran.stdout, ran.returncode


def hashed(program: str, volume: Volume, name: str = "v.ckd") -> Said:
    """What is printed of a volume, as a line and as an object, which say the same."""
    with tempfile.TemporaryDirectory() as folder:
        names = [name] if len(volume.headers) == 1 else ["%d-%s" % (number, name) for number in range(len(volume.headers))]
        for own, held in zip(names, volume.files()):
            Path(folder, own).write_bytes(held)
        printed, status = run(program, folder, *names)
        found, again = run(program, folder, "--json", *names)
    same("the status of both", status, again)
    read = json.loads(found)
    same("the members of the object", ["path", "hash", "unreadable"], list(read))
    same("the path of the object", "+".join(names), read["path"])
    digest, kind = printed[:64].decode("ascii"), printed[64:].decode()
    same("the hash of both", read["hash"], digest)
    number = read["unreadable"]
    words = "  volume with %d unreadable %s " % (number, "track" if number == 1 else "tracks") if number else "  volume "
    same("what stands before the path", words, kind[: len(words)])
    return Said(digest, read["unreadable"], kind[len(words) :], status)


def looked_at(program: str, volume: Volume) -> str:
    """The hash of a volume, which is that of its message."""
    said, (whole, unreadable) = hashed(program, volume), message(volume)
    same("the hash", hashlib.sha256(whole).hexdigest(), said.digest)
    same("the number of tracks that can't be read", unreadable, said.unreadable)
    same("the status", 1 if unreadable else 0, said.status)
    return said.digest


def pack(*tracks: Track, name: str = "2311") -> Volume:
    """A volume of a cylinder whose last tracks are these."""
    volume = Volume.new(name, 1)
    for number, track in enumerate(tracks, volume.model.heads - len(tracks)):
        volume.write(0, number, track)
    return volume


def record(number: int, key: bytes = b"", data: bytes = b"") -> Record:
    """A record of the last track."""
    return Record(bytes([0, 0, 0, 9, number]), key, data)


def last_track(*records: Record) -> Track:
    """The last track with record 0 and these."""
    fresh = new_track(0, 9)
    return Track(fresh.home, fresh.records + list(records))


ONE = record(1, b"KEY1", b"\xc1" * 80)
TWO = record(2, b"", b"\xc2" * 80)


def all_say_it(program: str, volumes: Sequence[Volume], _: Stage) -> None:
    """These say the same."""
    same("hashes", 1, len({looked_at(program, it) for it in volumes}))


def none_says_it(program: str, volumes: Sequence[Volume], _: Stage) -> None:
    """No two of these say the same."""
    same("hashes", len(volumes), len({looked_at(program, it) for it in volumes}))


def changed(volume: Volume, slot: int, at: int, held: bytes) -> Volume:
    """A copy with other bytes in a slot."""
    other = volume.copy()
    old = other.slots[slot]
    other.slots[slot] = old[:at] + held + old[at + len(held) :]
    return other


def leftovers() -> list[Volume]:
    """Volumes that differ after end marks and in reserved bytes of the header alone."""
    volume = pack(last_track(ONE, TWO))
    end = len(last_track(ONE, TWO).spelled())
    behind = changed(changed(volume, 9, end, b"\xe7" * 40), 9, MODEL.slot - 1, b"\1")
    header = volume.copy()
    header.headers[0] = header.headers[0][: HEADER - 1] + b"\1"
    return [volume, behind, changed(volume, 0, 100, TWO.spelled()), header]


def in_other_files() -> list[Volume]:
    """A volume in one file, in two, and in eight."""
    volume = Volume.new("2311", 9)
    volume.write(5, 9, last_track(ONE))
    return [volume, volume.split(3), volume.split(2, 3, 4, 5, 6, 7, 8)]


def in_larger_slots() -> list[Volume]:
    """The same tracks in slots of two sizes."""
    volume = pack(last_track(ONE))
    larger = volume.copy()
    size = 2 * MODEL.slot
    larger.headers = [volume.headers[0][:12] + size.to_bytes(4, "little") + volume.headers[0][16:]]
    larger.slots = [it.ljust(size, b"\xe7") for it in volume.slots]
    return [volume, larger]


def one_byte_differs() -> list[Volume]:
    """A volume, and it with one byte other than it was: of a home address, of each part of a count area, of a key, of data."""
    volume = pack(last_track(ONE, TWO))
    own = changed(volume, 0, 0, b"\1")
    places = [0, 2, 4, 5 + 16, 5 + 16 + 3, 5 + 16 + 4, 5 + 16 + 8, 5 + 16 + 8 + 3, 5 + 16 + 8 + 4, 5 + 16 + 8 + 4 + 79]
    return [volume, own, *[changed(volume, 9, at, bytes([volume.slots[9][at] ^ 1])) for at in places]]


def cut_otherwise() -> list[Volume]:
    """The same bytes of keys and data, cut into keys, records and tracks in other ways."""
    return [
        pack(last_track(record(1, b"", b"ABCD"))),
        pack(last_track(record(1, b"AB", b"CD"))),
        pack(last_track(record(1, b"A", b"BCD"))),
        pack(last_track(record(1, b"ABCD", b""))),
        pack(last_track(record(1, b"", b"AB"), record(2, b"", b"CD"))),
        pack(last_track(record(1, b"", b"CD"), record(2, b"", b"AB"))),
        pack(last_track(record(1, b"", b"AB")), last_track(record(1, b"", b"CD"))),
        pack(last_track(record(1, b"", b"AB"), record(1, b"", b"CD")), last_track()),
        pack(Track(new_track(0, 9).home), last_track(*[record(1, b"", b"ABCD")] * 2)),
    ]


def other_volumes() -> list[Volume]:
    """New volumes of both models, of one cylinder and of two."""
    return [Volume.new(name, number) for name in ("2311", "2314") for number in (1, 2)]


def unreadable_slots() -> list[Volume]:
    """Volumes with a slot that spells no track, each with another byte of it."""
    volume = changed(pack(last_track(ONE)), 3, 10, b"\xff\xff\xff")
    return [volume, changed(volume, 3, 0, b"\1"), changed(volume, 3, MODEL.slot - 1, b"\1"), changed(volume, 4, 10, b"\xff\xff\xff")]


def hostile(program: str, name: str, _: Stage) -> None:
    """A volume of many slots, some of which spell no track."""
    slots = [it.slot for it in (replaced() if name == "bytes of a slot" else odd())]
    volume = Volume.new("2311", -(-len(slots) // MODEL.heads))
    volume.slots[: len(slots)] = slots
    looked_at(program, volume)


def path_in_a_line(program: str, _: Stage) -> None:
    """No byte of a path ends the line, and several paths are joined."""
    same("the path of the line", "a\\\\b\\nc\\rd e.ckd\n", hashed(program, pack(), ODD_NAME).name)
    same("the paths of the line", "0-v.ckd+1-v.ckd\n", hashed(program, Volume.new("2311", 3).split(2)).name)


def cases(program: str) -> Iterator[Case]:
    """All of it."""
    for name, volumes in (
        ("leftovers say nothing", leftovers()),
        ("in how many files says nothing", in_other_files()),
        ("the size of slots says nothing", in_larger_slots()),
    ):
        yield Case(name, partial(all_say_it, program, volumes))
    for name, volumes in (
        ("each byte up to the end mark says something", one_byte_differs()),
        ("how bytes are cut into areas, records and tracks says something", cut_otherwise()),
        ("model and cylinders say something", other_volumes()),
        ("each byte of a track that can't be read says something", unreadable_slots()),
    ):
        yield Case(name, partial(none_says_it, program, volumes))
    for name in ("bytes of a slot", "odd slots"):
        yield Case("%s, hashed" % name, partial(hostile, program, name))
    yield Case("a path in a line", partial(path_in_a_line, program))
