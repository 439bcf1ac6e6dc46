"""The text of a folder that `dasd extract --all` writes, by what a volume says: for the scripts that compare it.

Volumes are read by the layouts of System Control Blocks (GC28-6628), 'Data Set Control Block' and 'Partitioned Data Set Directory'. It shares no code
with `dasd`; the lines are those of docs/ARCHIVES.md."""

from collections.abc import Iterator
from dataclasses import dataclass

from tools.common.images import Image, Place
from tools.common.said_sets import ORGANISATION, PARTITIONED, SHARED, USER_LABELS, Block, Tracks, extents_of, extents_said, safe
from tools.common.volume_layouts import END, control_blocks

TEXT = "data_sets.txt"
ORGANISATIONS = {0x4000: "PS", 0x0200: "PO", 0x2000: "DA", 0x8000: "IS"}
FORMS = {0x80: "F", 0x40: "V", 0xC0: "U"}
FLAGS = {0x10: "B", 0x08: "S", 0x20: "T", 0x04: "A", 0x02: "M"}
NO_DAY = bytes(3)


@dataclass(frozen=True)
class Entry:
    """An entry of a directory: its name, where its member begins, whether it is another name, the number of addresses, and its user data."""

    name: bytes
    address: tuple[int, int]
    is_alias: bool
    notes: int
    user: bytes


def day(field: bytes) -> str:
    """A day of a label."""
    return "-" if field == NO_DAY else f"{1900 + field[0]}-{int.from_bytes(field[1:], 'big'):03}"


def record_format(bits: int) -> str:
    """The letters of a record format, or its bits where these say no form or have the lowest one on."""
    letters = "".join(letter for flag, letter in FLAGS.items() if bits & flag)
    return f"X'{bits:02X}'" if bits & 1 or not bits & 0xC0 else FORMS[bits & 0xC0] + letters


def details(data: bytes, types: set[int]) -> str:
    """What is reported of the volume and of the extents of a data set: nothing of one that is on one volume, in plain extents."""
    volume, apart = int.from_bytes(data[7:9], "big"), sum(types & {USER_LABELS, SHARED})
    return f" volume {volume} extents X'{apart:02X}'" if volume > 1 or apart else ""


def set_line(name: bytes, data: bytes, directory: int | None, types: set[int]) -> str:
    """The line of a data set."""
    organisation, block, record = (int.from_bytes(data[at : at + 2], "big") for at in (ORGANISATION, 42, 44))
    word = ORGANISATIONS.get(organisation, f"X'{organisation:04X}'")
    behind = "" if directory is None else f" directory {directory}"
    lengths = f"{record} {block} {data[46]}"
    return f"data set {safe(name)} {word} {record_format(data[40])} {lengths} {day(data[9:12])} {day(data[12:15])}{behind}{details(data, types)}\n"


def entries_of(blocks: list[Block]) -> Iterator[Entry]:
    """The entries of a directory, up to the last one or to what is none."""
    for key, block in blocks:
        end, at = int.from_bytes(block[:2], "big"), 2
        if (len(key), len(block)) != (8, 256) or not 2 <= end <= 256:
            return
        while at < end:
            lengths = block[at + 11] if at + 12 <= end else 0
            behind = at + 12 + lengths % 32 * 2
            if behind > end or block[at : at + 8] == END:
                return
            address = int.from_bytes(block[at + 8 : at + 10], "big"), block[at + 10]
            notes, user = lengths // 32 % 4, block[at + 12 : behind]
            yield Entry(block[at : at + 8], address, lengths >= 128, notes if 4 * notes <= len(user) else 0, user)
            at = behind


def note(tracks: Tracks, member: list[Block], spelled: bytes) -> str:
    """Where an address leads, and the byte after it."""
    found, is_ended = tracks.blocks(int.from_bytes(spelled[:2], "big"), spelled[2])
    if found and is_ended and member[-len(found) :] == found:
        return f"{len(member) - len(found) + 1}/{spelled[3]:02X}"
    return f"@{spelled[:3].hex().upper()}/{spelled[3]:02X}"


def entry_line(tracks: Tracks, entry: Entry, entries: list[Entry]) -> str:
    """The line of an entry."""
    member = next((it for it in entries if it.address == entry.address and not it.is_alias), None) if entry.is_alias else None
    words = ["member", safe(entry.name)] if member is None else ["alias", safe(entry.name), safe(member.name)]
    blocks = tracks.blocks(*entry.address)[0] if entry.notes else []
    words += [note(tracks, blocks, entry.user[at : at + 4]) for at in range(0, 4 * entry.notes, 4)]
    behind = entry.user[4 * entry.notes :].hex().upper()
    return " ".join([*words, behind] if behind else words) + "\n"


def folder_text(image: Image) -> str:
    """The text of all data sets of a volume, in the order of its table of contents."""
    blocks: dict[Place, Block] = {place: (key, data) for place, key, data in control_blocks(image)}
    text = ""
    for key, data in blocks.values():
        if data[0] != 0xF1:
            continue
        types = {it[0] for it in extents_said(image, data, blocks)}
        if not data[ORGANISATION] & PARTITIONED:
            text += set_line(key, data, None, types)
            continue
        tracks = Tracks(image, extents_of(image, data, blocks))
        directory, _ = tracks.blocks()
        entries = list(entries_of(directory))
        text += set_line(key, data, len(directory), types) + "".join(entry_line(tracks, it, entries) for it in entries)
    return text
