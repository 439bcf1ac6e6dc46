"""The disks of lists of events: a 2311 with records of 80 bytes, one without data, and channel command words as data; a 2311 with keys,
records without data, a track nearly full and one that can't be read; a new 2311; and a 2314 as the second."""
from __future__ import annotations

from conformance.suite.volumes import MODELS, Record, Track, address, new_track

from .channels import ChannelRow
from .stage import Stage
from .text import Disk, Failing

SIZE = 8192
FIRST = 0x90


def spelled_track(head: int, records: list[Record]) -> bytes:
    """The bytes of a track of cylinder 0 with these records after the usual record 0."""
    track = new_track(0, head)
    return Track(track.home, track.records + records).spelled()


def record(head: int, number: int, data: bytes, key: bytes = b"") -> Record:
    """A record with the track's own cylinder and head."""
    return Record(address(0, head) + bytes([number]), key, data)


def worked() -> Disk:
    """A volume whose records are read, whose second track has a record without data, and whose third and fourth have words."""
    tracks = [
        [record(0, number, bytes([0xC0 + number]) * 80) for number in (1, 2, 3)],
        [record(1, 1, b"")],
        [record(2, 1, bytes.fromhex("0400060000000006"))],
        [record(3, 1, bytes.fromhex("0000060000000008") + b"\xE1" * 8)],
    ]
    return Disk("2311", 1, tuple((head, 0, spelled_track(head, records)) for head, records in enumerate(tracks)))


def keyed(model: str, length: int) -> Disk:
    """A volume with keys, a track that is nearly full by two records of this length, and one that can't be read."""
    def keys(head: int) -> list[Record]:
        return [record(head, 1, b"\xA1" * 20, b"KEY\1"), record(head, 2, b"\xA2" * 20, b"KEY\2"), record(head, 3, b"\xA3" * 60),
                record(head, 4, b"", b"KEY\3")]
    full = [record(1, number, b"\xB1" * length) for number in (1, 2)]
    past_end = spelled_track(2, [record(2, 1, b"\xB2" * 8000)])[:MODELS[model].slot]
    tracks = (spelled_track(0, keys(0)), spelled_track(1, full), past_end, spelled_track(3, keys(3)))
    return Disk(model, 1, tuple((head, 0, data) for head, data in enumerate(tracks)))


DISKS = (worked(), keyed("2311", 1600), Disk("2311", 1), keyed("2314", 3300))


def channel_over(stage: Stage, drives: int, failing: Failing | None = None) -> ChannelRow:
    """A channel 1 with 8,192 bytes of storage, over so many of these disks from address 190 on."""
    row = ChannelRow(stage, {str(number): disk for number, disk in enumerate(DISKS)}, failing)
    row.makes("channel", "1 %d" % SIZE)
    for number in range(drives):
        row.attach(["%02X" % (FIRST + number), str(number)])
    return row
