"""What the calls answer, and why they are refused: the numbers, words and records of `dasd.h` in Python's types."""

from __future__ import annotations

import enum
from typing import List, NamedTuple, Tuple


# c/interface.toml: begin
class FaultCode(enum.IntEnum):
    """The numbers of `enum dasd_fault`, by their names there without DASD_; fault_text has the sentence of each."""

    NOTHING_HELD = -1
    IN_USE = -2
    NO_MEMORY = -3
    OUTSIDE_STORAGE = -4
    BAD_SIZE = -5
    BAD_CHANNELS = -6
    BAD_KEY = -7
    BAD_MODEL = -8
    NO_CYLINDERS = -9
    NO_CHANNEL = -10
    NO_DRIVE = -11
    ADDRESS_TAKEN = -12
    FULL = -13
    NO_FILES = -14
    TOO_MANY_FILES = -15
    NO_FILE = -16
    PROGRAM_RUNS = -17
    ENDING_PENDS = -18
    DEVICE_END_OWED = -19
    NO_STORAGE = -20
    BAD_BLOCKS = -21
    OTHER_SIZE = -22
    NO_PROGRAM = -23
    NO_ROOM = -24
    BAD_MOMENT = -25
    BAD_UNTIL = -26
    NOT_OWED = -27
    NOT_CKD_P370 = -32
    COMPRESSED = -33
    DEVICE_TYPE = -34
    HEADS = -35
    TRACK_SIZE = -36
    SPLIT = -37
    LENGTH = -38
    STORE = -39
    NO_SAVED_STATE = -40
    OTHER_VERSION = -41
    SAVED_LENGTH = -42
    SAVED_SUM = -43
    NOT_SOUND = -44
    OTHER_CHANNELS = -45
    OTHER_DRIVES = -46
    NO_TRACK = -47


_TEXTS = {
    FaultCode.NOTHING_HELD: "the handle holds nothing: it was not made, or was freed",
    FaultCode.IN_USE: "the handle holds something already",
    FaultCode.NO_MEMORY: "memory was refused",
    FaultCode.OUTSIDE_STORAGE: "a byte lies outside main storage",
    FaultCode.BAD_SIZE: "storage has a multiple of 2,048 bytes, from 4,096 to 16,777,216",
    FaultCode.BAD_CHANNELS: "the set is not one of the channels 0 to 6",
    FaultCode.BAD_KEY: "a storage key is 0 to 15",
    FaultCode.BAD_MODEL: "a drive's model is 2311 or 2314",
    FaultCode.NO_CYLINDERS: "a volume has 1 to 65,535 cylinders",
    FaultCode.NO_CHANNEL: "there is no channel of this number",
    FaultCode.NO_DRIVE: "no drive with this address is attached",
    FaultCode.ADDRESS_TAKEN: "a drive with this address is attached",
    FaultCode.FULL: "eight drives are attached to this channel",
    FaultCode.NO_FILES: "an image has at least one file",
    FaultCode.TOO_MANY_FILES: "an image has at most eight files",
    FaultCode.NO_FILE: "the drive's image has no such file",
    FaultCode.PROGRAM_RUNS: "a channel program runs",
    FaultCode.ENDING_PENDS: "the channel status word of this drive's program is not yet stored",
    FaultCode.DEVICE_END_OWED: "this drive's arm moves, or has arrived and has not interrupted",
    FaultCode.NO_STORAGE: "the handle owns no main storage: each call is lent it",
    FaultCode.BAD_BLOCKS: "main storage has one key for each block of 2,048 bytes",
    FaultCode.OTHER_SIZE: "the channels are for main storage of another size",
    FaultCode.NO_PROGRAM: "no channel program runs on this channel",
    FaultCode.NO_ROOM: "what is to be written may have more bytes than there is room for",
    FaultCode.BAD_MOMENT: "there is no such moment, or its call answers no such thing",
    FaultCode.BAD_UNTIL: "nothing is waited for by such a bit",
    FaultCode.NOT_OWED: "a saved channel status word is no ending that its channel owes",
    FaultCode.NOT_CKD_P370: "not a CKD_P370 image",
    FaultCode.COMPRESSED: "a compressed image, or a shadow file",
    FaultCode.DEVICE_TYPE: "neither a 2311 nor a 2314",
    FaultCode.HEADS: "the number of heads is not the drive's",
    FaultCode.TRACK_SIZE: "a track of the drive may not fit the track size",
    FaultCode.SPLIT: "the files are not those of one image, in order",
    FaultCode.LENGTH: "a file's length is not that of an image",
    FaultCode.STORE: "a file could not be read or written; no file in memory does so",
    FaultCode.NO_SAVED_STATE: "not a saved state",
    FaultCode.OTHER_VERSION: "a saved state of another version",
    FaultCode.SAVED_LENGTH: "a saved state that is cut short, or too long",
    FaultCode.SAVED_SUM: "a saved state that was changed: its checksum does not fit",
    FaultCode.NOT_SOUND: "a field of a saved state has a value that none has",
    FaultCode.OTHER_CHANNELS: "a saved state of other channels",
    FaultCode.OTHER_DRIVES: "a saved state of a channel with other drives",
    FaultCode.NO_TRACK: "a drive was saved at a track that its volume does not have",
}
# c/interface.toml: end


def fault_text(code: int) -> str:
    """What a number of `enum dasd_fault` means, in a sentence; of another number, that it is none of them."""
    try:
        return _TEXTS[FaultCode(code)]
    except ValueError:
        return f"{code} is no fault of this library"


class Fault(Exception):
    """Why the library refused a call, which has changed nothing.

    `code` is its number, a FaultCode; `name` its name in `dasd.h` without DASD_; `text` the sentence that says what it means.
    """

    code: int
    name: str
    text: str

    def __init__(self, code: int) -> None:
        super().__init__(code)
        self.code, self.name, self.text = code, str(code), fault_text(code)
        if code in _TEXTS:
            self.code = FaultCode(code)
            self.name = self.code.name

    def __str__(self) -> str:
        return f"{self.name}: {self.text}"


class Subchannel(enum.IntEnum):
    """What a channel does: nothing; a program; it ended, and its channel status word is not yet stored."""

    AVAILABLE = 0
    WORKING = 1
    ENDED = 2


class Arm(enum.IntEnum):
    """What a drive's arm does between programs: it is at rest; it moves; it has arrived, and its device end is to be stored."""

    AT_REST = 0
    IN_MOTION = 1
    ARRIVED = 2


class Version(NamedTuple):
    """The version of the library."""

    major: int
    minor: int
    patch: int


class Run(NamedTuple):
    """What came of run_on."""

    #: how many units were done, 0 to as many as were asked for
    units: int
    #: what the channel does after them
    subchannel: Subchannel
    #: the low byte of the address whose program runs or has ended; 0 where the channel is available
    device: int
    #: whether a word of the program asked for an interruption (PCI) that is not yet taken
    asked: bool


class VolumeFile(NamedTuple):
    """A file of a drive's volume."""

    #: a copy of all its bytes
    data: bytes
    #: another number after each write to the file, also of bytes that stood there already
    changes: int


class ChangedTrack(NamedTuple):
    """A track of a file that was written."""

    #: its number among the tracks of the file, from 0 on: cylinder by cylinder, and head by head
    track: int
    #: where its slot begins in the file
    at: int
    #: a copy of the slot, which goes there
    data: bytes


class Changed(NamedTuple):
    """What was written to a file since its changes were a number: each other byte is what it was then."""

    #: the tracks, in their order
    tracks: List[ChangedTrack]
    #: the number of changes now, for the next time
    changes: int


class DriveState(NamedTuple):
    """What is known of a drive without a channel program."""

    #: 2311 or 2314
    model: int
    #: how many cylinders its volume has, 1 to 65535
    cylinders: int
    #: where its arm is or, in motion, goes
    cylinder: int
    #: the head that is selected
    head: int
    #: what its arm does
    arm: Arm
    #: the six sense bytes; they stay
    sense: bytes


class AttachedDrive(NamedTuple):
    """A drive of a channel."""

    #: the low byte of its address
    device: int
    #: what its arm does
    arm: Arm


class ChannelState(NamedTuple):
    """A channel, as it is shown."""

    #: what it does
    subchannel: Subchannel
    #: the low byte of the address whose program runs or has ended; 0 where the channel is available
    device: int
    #: whether a word of the program asked for an interruption (PCI) that is not yet taken
    asked: bool
    #: its drives, none to eight, in the order of attachment
    drives: Tuple[AttachedDrive, ...]


class Phase(enum.IntEnum):
    """What the next unit of a channel program does."""

    #: it fetches a word that begins a command
    FETCHES = 0
    #: it looks for the area of the command at work
    LOOKS = 1
    #: it moves bytes
    MOVES = 2


class Program(NamedTuple):
    """A channel program that runs, as it is between two units. The word at work is the one whose command has begun and has not ended, or
    that its data are chained to; where a word is to be fetched that begins a command, `code`, `flags`, `address`, `wanted` and `place` are 0."""

    #: the low byte of its drive's address
    device: int
    #: what its next unit does
    phase: Phase
    #: where the last word was whose fetch was tried
    last: int
    #: where the next word is
    next: int
    #: the command code of the word at work
    code: int
    #: its flags, the high five bits
    flags: int
    #: its data address
    address: int
    #: how many bytes it asks for, its count
    wanted: int
    #: where its next byte goes or comes from
    place: int
    #: the count left in the last good word
    left: int
    #: the protection key of its stores
    key: int
    #: whether a word of it asked for an interruption (PCI) that is not yet taken
    asked: bool


class Area(enum.IntEnum):
    """An area of a track."""

    #: none has passed since the index
    INDEX = 0
    HOME_ADDRESS = 1
    COUNT = 2
    KEY = 3
    DATA = 4


class Credit(enum.IntEnum):
    """What a command leaves for the very next one, between which Transfer In Channel may stand: that a search found the whole of
    something equal, or that it was written."""

    NONE = 0
    EQUAL_HOME_ADDRESS = 1
    EQUAL_ID = 2
    EQUAL_KEY = 3
    WROTE_HOME_ADDRESS = 4
    WROTE_RECORD = 5


class Registers(NamedTuple):
    """What a drive remembers in a program, beside its volume. A record is named by its place on the track, where record 0 is 0."""

    #: where its arm is
    cylinder: int
    #: the head that is selected
    head: int
    #: what passed last on this turn of the track; an area passes as the command ends that found it
    area: Area
    #: its record
    passed: int
    #: how often the index has passed since the commands began to look on this track, 0 or 1
    lap: int
    #: the file mask, in the bits C0 and 18 of the byte that Set File Mask takes
    mask: int
    #: whether a Set File Mask of this program has set it
    mask_set: bool
    #: what the command just before left
    credit: Credit
    #: the record that it is for
    credited: int
    #: the six sense bytes, of this program so far
    sense: bytes


class Track(NamedTuple):
    """A track that was written and could not be saved."""

    #: the address of its drive
    address: int
    #: its cylinder
    cylinder: int
    #: its head
    head: int
