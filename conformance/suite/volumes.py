"""CKD_P370 images: slots, tracks, files, and volumes that are described in words.

A track is a home address of five bytes and a list of records. A slot spells it: the home address, each record as identifier
(CC, HH, R), key length, data length, key and data, then eight bytes FF; what is after them is no part of the track.
"""
from __future__ import annotations

import os
from dataclasses import dataclass, field
from typing import Dict, Iterator, List, Optional, Sequence, Tuple, Union

HEADER = 512
END = b"\xff" * 8
PathLike = Union[str, "os.PathLike[str]"]
# a cylinder and a head
Address = Tuple[int, int]
# the type, in a class that has a function of this name
Bytes = bytes


@dataclass(frozen=True)
class Model:
    """A drive: its heads, its capacity in bytes, the slot of a new image, and what a record is charged."""
    name: str
    code: int
    heads: int
    capacity: int
    slot: int
    gap: int
    key_gap: int
    scale: Tuple[int, int]

    def charge(self, key: int, data: int) -> int:
        """What a record that is not the last takes of the capacity."""
        by, of = self.scale
        return self.gap + (self.key_gap if key else 0) + (key + data) * by // of

    def last_charge(self, key: int, data: int) -> int:
        """What the last record takes."""
        return key + data + (self.key_gap if key else 0)

    def r0_charge(self, key: int, data: int) -> int:
        """What record 0 takes: its usual eight bytes are free."""
        return max(0, self.charge(key, data) - self.charge(0, 8))


# c/interface.toml: begin
MODELS = {
    "2311": Model("2311", 0x11, 10, 3625, 4096, 61, 20, (537, 512)),
    "2314": Model("2314", 0x14, 20, 7294, 7680, 101, 45, (2137, 2048)),
}
# c/interface.toml: end


@dataclass
class Record:
    identifier: bytes
    key: bytes
    data: bytes

    def count(self) -> bytes:
        """The count area, eight bytes."""
        return self.identifier + bytes([len(self.key)]) + len(self.data).to_bytes(2, "big")

    def spelled(self) -> bytes:
        return self.count() + self.key + self.data


@dataclass
class Track:
    home: bytes
    records: List[Record] = field(default_factory=list)

    def spelled(self) -> bytes:
        """The bytes up to and with the end mark."""
        return self.home + b"".join(it.spelled() for it in self.records) + END


def read_slot(slot: bytes) -> Optional[Track]:
    """The track that a slot spells; None where it spells none."""
    if len(slot) < 5:
        return None
    track, at = Track(bytes(slot[:5])), 5
    while at + 8 <= len(slot):
        count = bytes(slot[at:at + 8])
        if count == END:
            return track
        key, data = count[5], int.from_bytes(count[6:8], "big")
        body = bytes(slot[at + 8:at + 8 + key + data])
        if len(body) < key + data:
            return None
        track.records.append(Record(count[:5], body[:key], body[key:]))
        at += 8 + key + data
    return None


def tidy_slot(slot: bytes) -> bytes:
    """The slot with zeros after its end mark; one that spells no track stays."""
    track = read_slot(slot)
    return bytes(slot) if track is None else track.spelled().ljust(len(slot), b"\0")


def address(cylinder: int, head: int) -> bytes:
    return cylinder.to_bytes(2, "big") + head.to_bytes(2, "big")


def new_track(cylinder: int, head: int) -> Track:
    """A home address, and record 0 with eight zero bytes."""
    own = address(cylinder, head)
    return Track(b"\0" + own, [Record(own + b"\0", b"", bytes(8))])


def header_of(model: Model, slot: Optional[int] = None, sequence: int = 0, highest: int = 0) -> bytes:
    """The 512 bytes before the slots of a file."""
    numbers = model.heads.to_bytes(4, "little") + (slot or model.slot).to_bytes(4, "little")
    head = b"CKD_P370" + numbers + bytes([model.code, sequence]) + highest.to_bytes(2, "little")
    return head.ljust(HEADER, b"\0")


class BadImage(ValueError):
    """Bytes are no image in one to eight files."""


class Volume:
    """A volume: its model and its slots, in the order of its tracks, and the headers of its files."""

    def __init__(self, model: Model, headers: List[bytes], slots: List[bytes], tracks_in: List[int]) -> None:
        self.model, self.headers, self.slots, self.tracks_in = model, headers, slots, tracks_in

    @classmethod
    def new(cls, name: str, cylinders: int) -> Volume:
        model = MODELS[name]
        slots = [new_track(c, h).spelled().ljust(model.slot, b"\0") for c in range(cylinders) for h in range(model.heads)]
        return cls(model, [header_of(model)], slots, [len(slots)])

    @classmethod
    def read(cls, files: Sequence[bytes]) -> Volume:
        """The volume of the files of one image, in order."""
        headers: List[Bytes] = []
        slots: List[Bytes] = []
        tracks_in: List[int] = []
        model: Optional[Model] = None
        for data in files:
            head = bytes(data[:HEADER])
            model = next((it for it in MODELS.values() if len(head) > 16 and it.code == head[16]), None)
            if head[:8] != b"CKD_P370" or model is None:
                raise BadImage("no CKD_P370 image of a 2311 or 2314")
            size = int.from_bytes(head[12:16], "little")
            if size < 5 or len(data) <= HEADER or (len(data) - HEADER) % (size * model.heads):
                raise BadImage("wrong length")
            own = [bytes(data[at:at + size]) for at in range(HEADER, len(data), size)]
            headers.append(head)
            slots += own
            tracks_in.append(len(own))
        if model is None:
            raise BadImage("no file")
        return cls(model, headers, slots, tracks_in)

    @classmethod
    def load(cls, paths: Sequence[PathLike]) -> Volume:
        """The volume of the files at these paths, in order."""
        files = []
        for path in paths:
            with open(path, "rb") as it:
                files.append(it.read())
        return cls.read(files)

    @property
    def cylinders(self) -> int:
        return len(self.slots) // self.model.heads

    @property
    def slot_size(self) -> int:
        return len(self.slots[0])

    def place(self, cylinder: int, head: int) -> int:
        return cylinder * self.model.heads + head

    def track(self, cylinder: int, head: int) -> Optional[Track]:
        return read_slot(self.slots[self.place(cylinder, head)])

    def write(self, cylinder: int, head: int, track: Track) -> None:
        """Puts a track, with zeros after its end mark."""
        spelled = track.spelled()
        if len(spelled) > self.slot_size:
            raise BadImage("a track of %d bytes in a slot of %d" % (len(spelled), self.slot_size))
        self.slots[self.place(cylinder, head)] = spelled.ljust(self.slot_size, b"\0")

    def files(self) -> List[Bytes]:
        """The bytes of each file."""
        out: List[Bytes] = []
        at = 0
        for head, number in zip(self.headers, self.tracks_in):
            out.append(head + b"".join(self.slots[at:at + number]))
            at += number
        return out

    def bytes(self) -> Bytes:
        """All files one after another: what a vector's hash is taken of."""
        return b"".join(self.files())

    def split(self, *firsts: int) -> Volume:
        """The same volume in several files, of which each after the first begins with one of these cylinders."""
        bounds = [0, *firsts, self.cylinders]
        headers, tracks_in = [], []
        for number, (start, stop) in enumerate(zip(bounds, bounds[1:]), 1):
            last = stop == self.cylinders
            headers.append(header_of(self.model, self.slot_size, number, 0 if last else stop - 1))
            tracks_in.append((stop - start) * self.model.heads)
        return Volume(self.model, headers, list(self.slots), tracks_in)

    def copy(self) -> Volume:
        return Volume(self.model, list(self.headers), list(self.slots), list(self.tracks_in))


def tidied(volume: Volume, before: Volume) -> Volume:
    """A copy in which the slots that differ from before have zeros after their end marks."""
    out = volume.copy()
    if len(before.slots) == len(out.slots):
        out.slots = [it if it == old else tidy_slot(it) for it, old in zip(out.slots, before.slots)]
    return out


# --- volumes in words ---

def parse_bytes(words: str) -> bytes:
    """Bytes by parts that are joined by '+': `C1*80` repeats, `'TEXT'` is EBCDIC, other digits are the bytes."""
    out = []
    for part in words.split("+"):
        text, _, times = part.partition("*")
        one = text[1:-1].encode("cp037") if text[:1] == "'" and text[-1:] == "'" else bytes.fromhex(text)
        out.append(one * int(times) if times else one)
    return b"".join(out)


class BadDescription(ValueError):
    """A line of a description says nothing; the text names the line."""


def parse_description(text: str) -> Volume:
    """The volume that a description says. Its lines:

      model 2311            2311 or 2314
      cylinders 2
      slot 4096             the track size; without it that of a new image
      split 1 2             later files begin with these cylinders
      track 0 3             what follows is about cylinder 0, head 3 (decimal)
      home 0000000003       another home address
      none                  no record at all, not even record 0
      record 0 data 00*8    an identifier's number of this track, or ten digits of a whole identifier; `key X` before `data Y`
      raw FF*20             the slot's first bytes as they are, whatever they spell; zeros follow
    """
    said, at = {"cylinders": "1"}, (-1, -1)
    tracks: Dict[Address, Track] = {}
    raw: Dict[Address, bytes] = {}
    fresh: Dict[Address, Record] = {}
    for number, words in described(text):
        try:
            if words[0] in ("model", "cylinders", "slot", "split"):
                said[words[0]] = " ".join(words[1:])
            elif words[0] == "track":
                at = (int(words[1]), int(words[2]))
                tracks[at] = new_track(*at)
                fresh[at] = tracks[at].records[0]
            elif words[0] == "home":
                tracks[at].home = bytes.fromhex(words[1])
            elif words[0] == "none":
                tracks[at].records = []
            elif words[0] == "record":
                put_record(tracks[at], at, words, fresh[at])
            elif words[0] == "raw":
                raw[at] = parse_bytes(words[1])
            else:
                raise ValueError
        except (ValueError, KeyError, IndexError):
            raise BadDescription("line %d: what is this? %s" % (number, " ".join(words))) from None
    return build(said, tracks, raw)


def described(text: str) -> Iterator[Tuple[int, List[str]]]:
    """The words of each line of a description that has some, without its remark, after the line's number."""
    for number, line in enumerate(text.split("\n"), 1):
        words = line.split("#")[0].split()
        if words:
            yield number, words


def put_record(track: Track, at: Address, words: List[str], fresh: Record) -> None:
    """Adds the record of a description's line; a first record 0 is in place of the fresh one."""
    name, parts = words[1], dict(zip(words[2::2], words[3::2]))
    identifier = bytes.fromhex(name) if len(name) == 10 else address(*at) + bytes([int(name)])
    record = Record(identifier, parse_bytes(parts["key"]) if "key" in parts else b"", parse_bytes(parts["data"]) if "data" in parts else b"")
    if len(record.key) > 255 or len(record.data) > 65535 or set(parts) - {"key", "data"}:
        raise ValueError
    if identifier == fresh.identifier and track.records and track.records[-1] is fresh:
        track.records[-1] = record
    else:
        track.records.append(record)


def build(said: Dict[str, str], tracks: Dict[Address, Track], raw: Dict[Address, bytes]) -> Volume:
    """The volume of what a description said."""
    model = MODELS[said["model"]]
    size = int(said.get("slot", model.slot))
    volume = Volume.new(model.name, int(said["cylinders"]))
    volume.headers = [header_of(model, size)]
    volume.slots = [tidy_slot(it[:size].ljust(size, b"\0")) for it in volume.slots]
    for (cylinder, head), track in tracks.items():
        volume.write(cylinder, head, track)
    for (cylinder, head), data in raw.items():
        volume.slots[volume.place(cylinder, head)] = data.ljust(size, b"\0")
    return volume.split(*map(int, said["split"].split())) if "split" in said else volume
