"""The channel programs by which operating systems look for records, read and write them: what they do, and what they must end with.

Each is a program at a drive of a 2314 over a volume of four cylinders, which stays in the processor's caches: identifiers that are
searched for after a Transfer In Channel, a table of contents, a directory of members, Read Count over a cylinder, cards, records that are
updated and formatted. How a volume of OS/360 is searched: IBM GC28-6550, 'Direct Access Device Space Management'."""

from collections.abc import Callable
from dataclasses import dataclass, field

from conformance.suite.volumes import MODELS, Record, Track, Volume, address

SEEK, TRANSFER, NO_OPERATION, SENSE, SET_FILE_MASK = 0x07, 0x08, 0x03, 0x04, 0x1F
SEARCH_ID, SEARCH_ID_HIGH_EQUAL, SEARCH_KEY = 0x31, 0x71, 0x29
MULTI_TRACK = 0x80
SEARCH_KEY_HIGH_EQUAL = 0x69
READ_DATA, READ_COUNT, READ_KEY_AND_DATA, READ_COUNT_KEY_AND_DATA = 0x06, 0x12, 0x0E, 0x1E
WRITE_DATA, WRITE_COUNT_KEY_AND_DATA = 0x05, 0x1D
DATA_CHAINING, COMMAND_CHAINING, NO_LENGTH, SKIP, INTERRUPTS = 0x80, 0x40, 0x20, 0x10, 0x08
# Where things are in storage: data, the program, its operands.
BUFFER, WORDS, OPERANDS = 0x2000, 0x10000, 0x100000
CYLINDER, CYLINDERS = 1, 4
HEADS = MODELS["2314"].heads
CARDS, CARD = 40, 80

Records = Callable[[int, int], list[Record]]


def records(number: int, data: int, key: Callable[[int, int, int], bytes] = lambda *_: b"") -> Records:
    """So many records on each track, each with so many data bytes, and this key."""
    return lambda cylinder, head: [
        Record(address(cylinder, head) + bytes([it]), key(cylinder, head, it), bytes([it]) * data) for it in range(1, number + 1)
    ]


def table_key(_: int, head: int, record: int) -> bytes:
    """The key of a block of a table of contents: 44 bytes, which differ at the end."""
    return b"\xd0" * 40 + head.to_bytes(2, "big") + record.to_bytes(2, "big")


def directory_key(cylinder: int, head: int, record: int) -> bytes:
    """The key of a block of a directory: the name of its last member, in eight bytes that rise."""
    return b"\xc1" * 4 + (cylinder * HEADS + head).to_bytes(2, "big") + record.to_bytes(2, "big")


SHORT, BLOCKS, DIRECTORY, CARD_RECORDS = records(50, 20), records(25, 96, table_key), records(17, 256, directory_key), records(CARDS, CARD)


@dataclass
class Access:
    """A program, its operands, and what it takes apart: so many of these."""

    name: str
    volume: Records
    unit: str
    number: int
    words: bytearray = field(default_factory=bytearray)
    operands: bytearray = field(default_factory=lambda: bytearray(bytes(2) + address(CYLINDER, 0)))
    key: int = 0
    # At so many drives by turns, each with such a volume; `number` counts the records of all.
    drives: int = 1
    # What the last word leaves of its count, and whether a word asked for an interruption that none took.
    left: int = 0
    asks: bool = False

    def operand(self, held: bytes) -> int:
        """Puts an operand after the others, and answers where it stands."""
        at = OPERANDS + len(self.operands)
        self.operands += held
        return at

    def add(self, code: int, at: int, count: int, flags: int = COMMAND_CHAINING, times: int = 1) -> "Access":
        """A word, so many times."""
        self.words += (bytes([code]) + at.to_bytes(3, "big") + bytes([flags, 0]) + count.to_bytes(2, "big")) * times
        return self

    def seek(self) -> "Access":
        return self.add(SEEK, OPERANDS, 6)

    def search(self, code: int, wanted: bytes) -> "Access":
        """A search that is done again until it is satisfied."""
        at = WORDS + len(self.words)
        return self.add(code, self.operand(wanted), len(wanted)).add(TRANSFER, at, 0, 0)

    def find(self, record: int) -> "Access":
        """The search for a record of the first track."""
        return self.search(SEARCH_ID, address(CYLINDER, 0) + bytes([record]))

    def ended(self) -> "Access":
        """The same, of which the last word is chained to none."""
        self.words[-4] &= 0xFF ^ (DATA_CHAINING | COMMAND_CHAINING)
        return self

    def address_word(self) -> bytes:
        return (self.key << 28 | WORDS).to_bytes(4, "big")

    def status_word(self) -> bytes:
        """What the channel stores at the end: the key, the address after the last word, channel end and device end."""
        return (self.key << 28 | WORDS + len(self.words)).to_bytes(4, "big") + bytes([0x0C, 0x80 * self.asks]) + self.left.to_bytes(2, "big")

    def image(self) -> bytes:
        """The file of its volume."""
        volume = Volume.new("2314", CYLINDERS)
        for cylinder in range(CYLINDERS):
            for head in range(HEADS):
                track = volume.track(cylinder, head)
                assert track is not None
                volume.write(cylinder, head, Track(track.home, [track.records[0], *self.volume(cylinder, head)]))
        return volume.bytes()


def searches() -> list[Access]:
    """What passes records by."""
    last, found, head = address(CYLINDER, 0) + b"\x32", address(CYLINDER, 0), HEADS - 1
    works = [
        Access("Search ID Equal, the last of 50", SHORT, "record passed", 50).seek().search(SEARCH_ID, last).add(READ_DATA, BUFFER, 20),
        Access("Search ID Equal or High, the same", SHORT, "record passed", 50)
        .seek()
        .search(SEARCH_ID_HIGH_EQUAL, last)
        .add(READ_DATA, BUFFER, 20),
        Access("Search Key Equal, keys of 44 bytes, one track", BLOCKS, "record passed", 24)
        .seek()
        .search(SEARCH_KEY, table_key(CYLINDER, 0, 25))
        .add(READ_DATA, BUFFER, 96),
        Access("Search Key Equal, multi-track, a table of contents", BLOCKS, "record passed", 499)
        .seek()
        .search(SEARCH_KEY | MULTI_TRACK, table_key(CYLINDER, head, 25))
        .add(READ_DATA, BUFFER, 96),
        Access("Search Key Equal or High, multi-track, a directory", DIRECTORY, "record passed", 339)
        .seek()
        .search(SEARCH_KEY_HIGH_EQUAL | MULTI_TRACK, directory_key(CYLINDER, head, 17))
        .add(READ_DATA, BUFFER, 256),
    ]
    at_random = Access("Seek, Search ID, Read Data, records at random", CARD_RECORDS, "record found and read", CARDS)
    in_turn = Access("Search ID, Read Data, each record in turn", CARD_RECORDS, "record found and read", CARDS).seek()
    for number in range(CARDS):
        at_random.seek().search(SEARCH_ID, found + bytes([number * 17 % CARDS + 1])).add(READ_DATA, BUFFER, CARD)
        in_turn.find(number + 1).add(READ_DATA, BUFFER, CARD)
    by_turns = Access("Seek, Search ID, Read Data, eight drives by turns", CARD_RECORDS, "record found and read", 8, drives=8)
    by_turns.seek().find(1).add(READ_DATA, BUFFER, CARD)
    return [*works, at_random, in_turn, by_turns]


def reads() -> list[Access]:
    """What reads a cylinder."""
    cylinder = HEADS * CARDS
    code = READ_DATA | MULTI_TRACK
    halves = Access("Read Data of 40 and 40, chained", CARD_RECORDS, "record", cylinder).seek()
    for _ in range(cylinder):
        halves.add(code, BUFFER, CARD // 2, DATA_CHAINING).add(0, BUFFER + 256, CARD // 2)
    return [
        Access("Read Count, multi-track", SHORT, "record", HEADS * 50).seek().add(READ_COUNT | MULTI_TRACK, BUFFER, 8, times=HEADS * 50),
        Access("Read Key and Data of 44 and 96", BLOCKS, "record", HEADS * 25)
        .seek()
        .add(READ_KEY_AND_DATA | MULTI_TRACK, BUFFER, 140, times=HEADS * 25),
        Access("Read Count, Key and Data of 88", CARD_RECORDS, "record", cylinder)
        .seek()
        .add(READ_COUNT_KEY_AND_DATA | MULTI_TRACK, BUFFER, 8 + CARD, times=cylinder),
        Access("Read Data of 80", CARD_RECORDS, "record", cylinder).seek().add(code, BUFFER, CARD, times=cylinder),
        Access("Read Data of 80, storage key 1", CARD_RECORDS, "record", cylinder, key=1).seek().add(code, BUFFER, CARD, times=cylinder),
        Access("Read Data of 80, each asks for an interruption", CARD_RECORDS, "record", cylinder, asks=True)
        .seek()
        .add(code, BUFFER, CARD, COMMAND_CHAINING | INTERRUPTS, cylinder),
        Access("Read Data of 80 by words of 100, lengths suppressed", CARD_RECORDS, "record", cylinder, left=20)
        .seek()
        .add(code, BUFFER, CARD + 20, COMMAND_CHAINING | NO_LENGTH, cylinder),
        Access("Read Data of 80, skipped", CARD_RECORDS, "record", cylinder)
        .seek()
        .add(code, BUFFER, CARD, COMMAND_CHAINING | SKIP, cylinder),
        halves,
    ]


def writes() -> list[Access]:
    """What updates and formats a track."""
    update = Access("Search ID, Write Data, each record in turn", CARD_RECORDS, "record", CARDS).seek()
    chained = Access("Write Count, Key and Data, count and data chained", CARD_RECORDS, "record", CARDS).seek().find(0)
    whole = Access("Write Count, Key and Data of whole records", CARD_RECORDS, "record", CARDS).seek().find(0)
    for number in range(1, CARDS + 1):
        update.find(number).add(WRITE_DATA, BUFFER, CARD)
        count = address(CYLINDER, 0) + bytes([number, 0]) + CARD.to_bytes(2, "big")
        chained.add(WRITE_COUNT_KEY_AND_DATA, chained.operand(count), 8, DATA_CHAINING).add(0, BUFFER, CARD)
        whole.add(WRITE_COUNT_KEY_AND_DATA, whole.operand(count + bytes(CARD)), 8 + CARD)
    return [update, chained, whole]


def sense() -> Access:
    """What is taken off each count: a program of one command, with the lines of a deck about it."""
    return Access("Sense", SHORT, "program", 1).add(SENSE, BUFFER, 6).ended()


def accesses() -> list[Access]:
    """All of them."""
    return [it.ended() for it in (*searches(), *reads(), *writes())]
