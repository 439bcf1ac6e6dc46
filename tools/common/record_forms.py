"""The records of blocks by record formats, as Data Management Services (GC26-3746) has them: written, read, and as lines of text.

For the scripts that compare `dasd` with what they put on a volume: it shares no code with `dasd`."""

import unicodedata

DESCRIPTOR = 4
# Segment codes of a record descriptor word: the first, the last and a middle segment of a spanned record.
FIRST, LAST, MIDDLE = 1, 2, 3


def cut(data: bytes, length: int) -> list[bytes]:
    return [data[at : at + length] for at in range(0, len(data), length)]


def described(body: bytes, code: int = 0) -> bytes:
    """Bytes after a descriptor word with their length, its own four bytes with it."""
    return (len(body) + DESCRIPTOR).to_bytes(2, "big") + bytes([code, 0]) + body


def with_lengths(blocks: list[tuple[bytes, bytes]]) -> bytes:
    """Blocks as a file keeps them after their lengths: a byte 1, the length of the key in a byte, that of the data in two, key and data."""
    return b"".join(bytes([1, len(key)]) + len(data).to_bytes(2, "big") + key + data for key, data in blocks)


def fixed_blocks(records: list[bytes], block_length: int) -> list[bytes]:
    """As many whole records in each block as it has room for."""
    count = block_length // len(records[0])
    return [b"".join(records[at : at + count]) for at in range(0, len(records), count)]


def variable_blocks(records: list[bytes], block_length: int) -> list[bytes]:
    """Records after descriptor words, as many in each block as it has room for."""
    blocks, room = [], b""
    for record in records:
        spelled = described(record)
        assert 2 * DESCRIPTOR + len(record) <= block_length
        if room and DESCRIPTOR + len(room) + len(spelled) > block_length:
            blocks.append(described(room))
            room = b""
        room += spelled
    return [*blocks, described(room)]


def spanned_blocks(records: list[bytes], block_length: int) -> list[bytes]:
    """Records in segments, each block filled up to its last bytes."""
    blocks, room = [], b""
    for record in records:
        rest, begun = record, False
        while True:
            left = block_length - 2 * DESCRIPTOR - len(room)
            if left < 1:
                blocks.append(described(room))
                room = b""
                continue
            piece, rest = rest[:left], rest[left:]
            code = (MIDDLE if rest else LAST) if begun else (FIRST if rest else 0)
            room, begun = room + described(piece, code), True
            if not rest:
                break
    return [*blocks, described(room)]


def segments_of(block: bytes) -> list[tuple[int, bytes]]:
    """The segment codes and bytes of a block of records of variable length."""
    assert int.from_bytes(block[:2], "big") == len(block)
    segments, at = [], DESCRIPTOR
    while at < len(block):
        length = int.from_bytes(block[at : at + 2], "big")
        segments.append((block[at + 2], block[at + DESCRIPTOR : at + length]))
        at += length
    return segments


def records_of(form: str, record_length: int, blocks: list[bytes]) -> list[list[bytes]]:
    """The records of blocks of a record format, as job control writes it: the segments of each, which is one unless it is spanned."""
    if form[0] == "U":
        return [[block] for block in blocks]
    if form[0] == "F":
        return [[record] for block in blocks for record in cut(block, record_length)]
    records: list[list[bytes]] = []
    segments: list[bytes] = []
    for code, segment in (it for block in blocks for it in segments_of(block)):
        segments.append(segment)
        if code in (0, LAST):
            records.append(segments)
            segments = []
    return records


def shown(text: bytes) -> str:
    """Text in code page 037, a control character as U+FFFD."""
    return "".join("\ufffd" if unicodedata.category(it) == "Cc" else it for it in text.decode("cp037"))


def text_of(records: list[list[bytes]]) -> bytes:
    """Records as lines of text in UTF-8, without the blanks at the end of their last segments (docs/DECISIONS.md)."""
    lines = ["".join(shown(it) for it in segments[:-1]) + shown(segments[-1].rstrip(b"\x40")) for segments in records]
    return "".join(line + "\n" for line in lines).encode()
