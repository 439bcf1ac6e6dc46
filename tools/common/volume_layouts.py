"""Partitioned data sets and control blocks, as they are put on a volume and read there.

By System Control Blocks (GC28-6628), 'Partitioned Data Set Directory' and 'Data Set Control Block'. It shares no code with `dasd`."""

from dataclasses import dataclass

from conformance.suite.volumes import MODELS
from tools.common.images import Image, Place
from tools.common.record_forms import cut

END = b"\xff" * 8
EXTENTS = 61
EXTENT = 10
# The first and the last of tracks in a row, by their numbers on the volume.
Run = tuple[int, int]
# More than a record's gaps are on either drive, and more than a byte of it takes, of a track's capacity.
MOST_GAPS = max(it.gap + it.key_gap for it in MODELS.values()) + 1
MOST_SCALE = max((it.scale for it in MODELS.values()), key=lambda it: it[0] / it[1])


class Extents:
    """The tracks of a data set, by their numbers on the volume."""

    def __init__(self, image: Image, runs: list[Run]) -> None:
        self.image, self.capacity = image, image.volume.model.capacity
        self.tracks = [track for first, last in runs for track in range(first, last + 1)]
        self.filled: list[list[tuple[bytes, bytes]]] = [[]]

    def charge(self, key: bytes, data: bytes) -> int:
        """More than a record is ever charged on either drive."""
        by, of = MOST_SCALE
        return MOST_GAPS + (len(key) + len(data)) * by // of

    def append(self, key: bytes, data: bytes) -> tuple[int, int]:
        """Writes a block after the last one, and answers its track and its number."""
        used = sum(self.charge(*block) for block in self.filled[-1])
        if self.filled[-1] and used + self.charge(key, data) > self.capacity:
            self.filled.append([])
        self.filled[-1].append((key, data))
        return len(self.filled) - 1, len(self.filled[-1])

    def turn(self) -> None:
        """The next block begins a track."""
        if self.filled[-1]:
            self.filled.append([])

    def last(self) -> tuple[int, int]:
        """The track and the number of the last block."""
        relative = max(number for number, blocks in enumerate(self.filled) if blocks)
        return relative, len(self.filled[relative])

    def save(self) -> None:
        """Puts the blocks on the tracks; those after them have record 0 alone."""
        assert len(self.filled) <= len(self.tracks), (len(self.filled), len(self.tracks))
        for relative, track in enumerate(self.tracks):
            self.image.put_blocks(track, self.filled[relative] if relative < len(self.filled) else [])


def ebcdic(text: str, length: int) -> bytes:
    return text.ljust(length).encode("cp037")


def directory_blocks(entries: list[tuple[bytes, bytes]], count: int) -> list[tuple[bytes, bytes]]:
    """The blocks of a directory: keys and data. Each entry is a name and what is after it."""
    blocks, room, last = [], bytearray(), b""
    for name, rest in sorted(entries) + [(END, b"")]:
        entry = name + rest
        if name == END:
            entry = END + bytes(4)
        if 2 + len(room) + len(entry) > 256:
            blocks.append((last, room))
            room = bytearray()
        room += entry
        last = name
    blocks.append((last, room))
    assert len(blocks) <= count
    made = [(key, ((len(used) + 2).to_bytes(2, "big") + used).ljust(256, b"\0")) for key, used in blocks]
    return made + [(bytes(8), bytes([0, 2]).ljust(256, b"\0"))] * (count - len(made))


@dataclass
class Member:
    """A member: its blocks, the names that it has beside its own, whether it begins a track, its user data, and how many notes are there."""

    blocks: list[bytes]
    aliases: tuple[str, ...] = ()
    turns: bool = False
    user: bytes = b""
    notes: int = 0

    def data(self) -> bytes:
        return b"".join(self.blocks)


def partition(extents: Extents, members: dict[str, Member], count: int) -> None:
    """Writes a partitioned data set: the directory, and each member with an end of file after it."""
    for _ in range(count):
        extents.append(bytes(8), bytes(256))
    extents.append(b"", b"")
    entries = []
    for name, member in members.items():
        if member.turns:
            extents.turn()
        places = [extents.append(b"", block) for block in member.blocks + [b""]]
        address = places[0][0].to_bytes(2, "big") + bytes([places[0][1]])
        for other in (name, *member.aliases):
            lengths = (128 if other != name else 0) + member.notes * 32 + len(member.user) // 2
            entries.append((ebcdic(other, 8), address + bytes([lengths]) + member.user))
    blocks = directory_blocks(entries, count)
    flat = [(track, i) for track, filled in enumerate(extents.filled) for i in range(len(filled))]
    for (track, i), block in zip(flat, blocks):
        extents.filled[track][i] = block
    extents.save()


def control_blocks(image: Image) -> list[tuple[Place, bytes, bytes]]:
    """All control blocks: their places, keys and data."""
    records = [((track, i), it.key, it.data) for track in range(image.tracks) for i, it in enumerate(image.records(track))]
    return [it for it in records if len(it[1]) == 44 and len(it[2]) == 96]


def find_blocks(image: Image) -> dict[str, Place]:
    """The format 1 blocks: the track and the place on it, by the name of their data set."""
    return {key.decode("cp037").rstrip(): place for place, key, data in control_blocks(image) if data[0] == 0xF1}


def run_of(image: Image, extent: bytes) -> Run:
    """The numbers of the first and last track of an extent."""
    number = [int.from_bytes(extent[k : k + 2], "big") for k in (2, 4, 6, 8)]
    return number[0] * image.heads + number[1], number[2] * image.heads + number[3]


def runs_of(image: Image, block: Place) -> list[Run]:
    """The extents of a format 1 block, and of the one of format 3 after it, as the numbers of their first and last tracks."""
    data = image.block(block)[1]
    spelled = data[EXTENTS : EXTENTS + 3 * EXTENT]
    if any(data[91:96]):
        cylinder, head, number = int.from_bytes(data[91:93], "big"), int.from_bytes(data[93:95], "big"), data[95]
        key, more = image.block((cylinder * image.heads + head, number))
        spelled += key[4:44] + more[1:91]
    return [run_of(image, it) for it in cut(spelled, EXTENT) if it[0]]


def blocks_of(image: Image, runs: list[Run]) -> list[bytes]:
    """The data of each record of these tracks, up to the first without any, if there is one."""
    records = [it.data for first, last in runs for track in range(first, last + 1) for it in image.records(track)[1:]]
    return records[: records.index(b"")] if b"" in records else records


def date(image: Image) -> None:
    """Gives each format 1 block one date of creation, day 1 of 1975, where `dasdload` has put that of today."""
    for place in find_blocks(image).values():
        key, data = image.block(place)
        image.put_block(place, key, data[:9] + bytes([75, 0, 1]) + data[12:])


def join(image: Image, name: str, parts: list[str]) -> None:
    """Gives a data set the extents of others, whose format 1 blocks are free from then on; the first of them is the format 3 block of
    the fourth extent and those after it."""
    blocks = find_blocks(image)
    extents = [image.block(blocks[it])[1][EXTENTS : EXTENTS + EXTENT] for it in (name, *parts)]
    extents = [it[:1] + bytes([number]) + it[2:] for number, it in enumerate(extents)]
    for part in parts:
        image.put_block(blocks[part], bytes(44), bytes(96))
    key, data = image.block(blocks[name])
    made = bytearray(data)
    made[15] = len(extents)
    made[EXTENTS : EXTENTS + 3 * EXTENT] = b"".join(extents[:3]).ljust(3 * EXTENT, b"\0")
    if len(extents) > 3:
        track, i = blocks[parts[0]]
        more = b"".join(extents[3:]).ljust(13 * EXTENT, b"\0")
        image.put_block((track, i), bytes([3] * 4) + more[:40], b"\xf3" + more[40:] + bytes(5))
        made[91:96] = image.address(track) + bytes([i])
    image.put_block(blocks[name], key, bytes(made))


@dataclass
class Details:
    """What a format 1 block says beside what `dasdload` writes, where it is given: dates, as years after 1900 and days; the organisation; bits
    of the record format that are on too; the type of the first extent."""

    created: tuple[int, int] = (75, 1)
    expires: tuple[int, int] = (0, 0)
    organisation: int | None = None
    format: int = 0
    first_extent: int | None = None

    def put(self, image: Image, place: Place) -> None:
        """Writes them."""
        key, data = image.block(place)
        made = bytearray(data)
        for at, (year, day) in ((9, self.created), (12, self.expires)):
            made[at : at + 3] = bytes([year]) + day.to_bytes(2, "big")
        made[40] |= self.format
        if self.organisation is not None:
            made[38:40] = self.organisation.to_bytes(2, "big")
        if self.first_extent is not None:
            made[EXTENTS] = self.first_extent
        image.put_block(place, key, bytes(made))


def put_last(image: Image, place: Place, last: tuple[int, int]) -> None:
    """Writes the address of the last block of a data set: a track of it, and the block's number."""
    key, data = image.block(place)
    image.put_block(place, key, data[:54] + last[0].to_bytes(2, "big") + bytes([last[1]]) + data[57:])


def free_runs(image: Image) -> list[Run]:
    """The tracks that are no data set's, nor those of the label and of the volume table of contents."""
    used = {0}
    for place, _, data in control_blocks(image):
        taken = [run_of(image, data[EXTENTS : EXTENTS + EXTENT])] if data[0] == 0xF4 else runs_of(image, place) if data[0] == 0xF1 else []
        used.update(track for first, last in taken for track in range(first, last + 1))
    runs: list[Run] = []
    for track in range(image.tracks):
        if track in used:
            continue
        if runs and runs[-1][1] == track - 1:
            runs[-1] = (runs[-1][0], track)
        else:
            runs.append((track, track))
    return runs


def count_free(image: Image) -> None:
    """Writes the free tracks into the format 5 block, and the number of free control blocks into the format 4 block."""
    blocks = control_blocks(image)
    free = b""
    for first, last in free_runs(image):
        cylinders, tracks = divmod(last + 1 - first, image.heads)
        free += first.to_bytes(2, "big") + cylinders.to_bytes(2, "big") + bytes([tracks])
    assert len(free) <= 26 * 5
    free = free.ljust(26 * 5, b"\0")
    count = sum(1 for _, _, data in blocks if data[0] == 0)
    for place, key, data in blocks:
        if data[0] == 0xF4:
            image.put_block(place, key, data[:6] + count.to_bytes(2, "big") + data[8:])
        elif data[0] == 0xF5:
            image.put_block(place, bytes([5] * 4) + free[:40], b"\xf5" + free[40:] + bytes(5))
