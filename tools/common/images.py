"""A volume's file in memory, its tracks by their numbers on the volume. The layout is spelled in conformance/suite/volumes.py alone."""

from pathlib import Path

from conformance.suite.volumes import HEADER, MODELS, BadImage, Record, Track, Volume, address

# A track, and a record's place on it: 0 is that of record 0.
Place = tuple[int, int]


def slot_at(model: str, track: int) -> int:
    """Where the slot of a track begins in a new image's one file."""
    return HEADER + track * MODELS[model].slot


class Image:
    """The file of a volume."""

    def __init__(self, path: Path, held: bytes | None = None) -> None:
        """The image of this file; or, where it is given what the file is to hold, that."""
        self.path = path
        self.volume = Volume.read([path.read_bytes() if held is None else held])
        self.heads, self.slot, self.tracks = self.volume.model.heads, self.volume.slot_size, len(self.volume.slots)

    def address(self, number: int) -> bytes:
        """Cylinder and head of a track, as its home address has them."""
        return address(*divmod(number, self.heads))

    def track(self, number: int) -> Track:
        """A track that its slot spells."""
        track = self.volume.track(*divmod(number, self.heads))
        if track is None:
            raise BadImage(f"the slot of track {number} spells none")
        return track

    def records(self, number: int) -> list[Record]:
        """The records of a track, record 0 the first."""
        return self.track(number).records

    def put_records(self, number: int, records: list[Record]) -> None:
        """Replaces the records of a track."""
        self.volume.write(*divmod(number, self.heads), Track(self.track(number).home, records))

    def put_blocks(self, number: int, blocks: list[tuple[bytes, bytes]]) -> None:
        """Puts records 1, 2, .. of these keys and data after record 0, in the place of those that stood there."""
        behind = [Record(self.address(number) + bytes([it]), *block) for it, block in enumerate(blocks, 1)]
        self.put_records(number, [self.records(number)[0], *behind])

    def block(self, place: Place) -> tuple[bytes, bytes]:
        """Key and data of a record."""
        record = self.records(place[0])[place[1]]
        return record.key, record.data

    def put_block(self, place: Place, key: bytes, data: bytes) -> None:
        """Replaces key and data of a record."""
        records = self.records(place[0])
        records[place[1]] = Record(records[place[1]].identifier, key, data)
        self.put_records(place[0], records)

    def put_bytes(self, track: int, at: int, held: bytes) -> None:
        """Puts bytes into the slot of a track, whatever it spells then."""
        slot = self.volume.slots[track]
        self.volume.slots[track] = slot[:at] + held + slot[at + len(held) :]

    def save(self) -> None:
        """Writes the file."""
        self.path.write_bytes(self.volume.bytes())
