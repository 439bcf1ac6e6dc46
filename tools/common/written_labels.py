"""A volume label and a volume table of contents, spelled into an image in memory, for the scripts that make volumes without Hercules.

The layouts are those of System Control Blocks (GC28-6628), 'Volume Label' and 'Data Set Control Block'. The table is track 1 of the volume."""

from dataclasses import dataclass

from conformance.suite.volumes import Model
from tools.common.images import Image
from tools.common.volume_layouts import Run, ebcdic

FIRST_SET = 3
# Key and data of a control block, and of a block of a directory.
CONTROL_BLOCK, DIRECTORY_BLOCK = (44, 96), (8, 256)
ORGANISATION = {"PS": b"\x40\0", "PO": b"\2\0"}
# Record formats: fixed and variable length, both blocked.
FORMAT = {"FB": 0x90, "VB": 0x50}
DAYS = bytes([74, 1, 109, 99, 1, 109])
LAST_VOLUME = 0x80  # the bit of a data set's indicators that says that it is on no further volume


# The types of extents: tracks of data; and those of an extent that shares its cylinders, of each of which it has its heads from the first to the last.
DATA, SHARED = 0x01, 0x80


def extent(image: Image, number: int, run: Run, kind: int = DATA) -> bytes:
    """An extent of a control block."""
    return bytes([kind, number]) + b"".join(map(image.address, run))


def most_on_track(model: Model, key: int, data: int) -> int:
    """So many records of these lengths fit on a track."""
    return (model.capacity - model.last_charge(key, data)) // model.charge(key, data) + 1


def characteristics(model: Model) -> bytes:
    """A drive in a format 4 block: bytes of a track, overheads, tolerance, blocks of either kind on a track."""
    by, of = model.scale
    gaps = bytes([model.gap + model.key_gap, model.key_gap, model.key_gap, 1])
    blocks = bytes(most_on_track(model, *it) for it in (CONTROL_BLOCK, DIRECTORY_BLOCK))
    return model.capacity.to_bytes(2, "big") + gaps + (512 * by // of).to_bytes(2, "big") + blocks


@dataclass
class DataSet:
    """A data set of blocked records, made on day 365 of 1974 and kept until that of 1999; or the part of it on one of its volumes."""

    name: str
    organisation: str
    record_length: int
    block_length: int
    runs: list[Run]
    last: tuple[int, int]
    form: str = "FB"
    kind: int = DATA
    volume: int = 1
    is_last: bool = False

    def blocks(self, image: Image, serial: str, number: int) -> list[tuple[bytes, bytes]]:
        """Its control blocks: that of format 1, which stands as the record of this number, and one of format 3 after it if need be."""
        extents = [extent(image, *it, self.kind) for it in enumerate(self.runs)]
        block = b"\xf1" + ebcdic(serial, 6) + self.volume.to_bytes(2, "big") + DAYS + bytes([len(extents), 0, 0]) + ebcdic("SCRIPT", 13) + bytes(7)
        block += ORGANISATION[self.organisation] + bytes([FORMAT[self.form], 0])
        block += self.block_length.to_bytes(2, "big") + self.record_length.to_bytes(2, "big")
        block = block.ljust(49, b"\0") + bytes([LAST_VOLUME if self.is_last else 0])
        block = block.ljust(54, b"\0") + self.last[0].to_bytes(2, "big") + bytes([self.last[1]]) + bytes(4)
        block += b"".join(extents[:3]).ljust(30, b"\0")
        if len(extents) <= 3:
            return [(ebcdic(self.name, 44), block + bytes(5))]
        more = b"".join(extents[3:]).ljust(130, b"\0")
        further = b"\3" * 4 + more[:40], b"\xf3" + more[40:] + bytes(5)
        return [(ebcdic(self.name, 44), block + b"\0\0\0\1" + bytes([number + 1])), further]


def put_label(image: Image, serial: str, sets: list[DataSet], owner: str = "SCRIPT") -> None:
    """The volume label as record 3 of track 0, and on track 1 the blocks of formats 4 and 5, those of data sets, and free ones."""
    volume = ebcdic(f"VOL1{serial}", 11) + b"\0\0\0\1\1" + ebcdic("", 21) + ebcdic(f"    {owner}", 14)
    loader = [(ebcdic("IPL1", 4), bytes(24)), (ebcdic("IPL2", 4), bytes(144))]
    image.put_blocks(0, [*loader, (ebcdic("VOL1", 4), volume.ljust(80, b"\x40"))])
    blocks: list[tuple[bytes, bytes]] = []
    for it in sets:
        last = FIRST_SET + len(blocks)
        blocks += it.blocks(image, serial, last)
    free = most_on_track(image.volume.model, *CONTROL_BLOCK) - 2 - len(blocks)
    device = image.volume.cylinders.to_bytes(2, "big") + image.heads.to_bytes(2, "big") + characteristics(image.volume.model)
    table = b"\xf4\0\0\0\1" + bytes([last]) + free.to_bytes(2, "big") + bytes(6) + b"\x80\1\0\0" + device
    table = table.ljust(61, b"\0") + extent(image, 0, (1, 1))
    space = (b"\5" * 4).ljust(44, b"\0"), b"\xf5".ljust(96, b"\0")
    image.put_blocks(1, [(b"\4" * 44, table.ljust(96, b"\0")), space, *blocks, *[(bytes(44), bytes(96))] * free])
