"""Images in one file and in several: what a new one holds, which are mounted and why others are not, what a load and a save make of the
files, and what a store that fails leaves. Each refusal hands the files back as they were.

The layout is that of Hercules' CKD_P370 images: a header of 512 bytes, and a slot for each track."""
from __future__ import annotations

from functools import partial
from typing import Iterator, Sequence

from conformance.suite.volumes import HEADER, Volume, new_track

from .stage import Stage
from .text import RUN, Case, Wrong, answered, calls_of, content, first_difference, is_next, same, spelled

ONE_CYLINDER, SLOT = 41_472, 4_096
# a write that fails leaves its first bytes
TORN = 60
NOT_IMAGE, COMPRESSED, DEVICE, HEADS, TRACK_SIZE, SEVERAL, LENGTH, STORE = (
    "not a CKD_P370 image", "compressed image", "unknown device type", "wrong number of heads", "wrong track size",
    "image in several files", "wrong length", "store fault")
# what is put into a new file of one cylinder of a 2311, from which byte on, and the fault of its mount; none where it is mounted
MOUNTS: tuple[tuple[int, bytes, str], ...] = (
    (0, b"CKD_P370", ""), (0, b"CKD_C370", COMPRESSED), (0, b"CKD_S370", COMPRESSED), (0, b"CKD_P371", NOT_IMAGE), (16, b"\x12", DEVICE),
    (8, b"\x0b", HEADS), (8, b"\x14", HEADS),
    # track sizes of 3,661 and of 65,537 bytes
    (12, b"\x4d\x0e", TRACK_SIZE), (12, b"\x01\x00\x01", TRACK_SIZE),
    (17, b"\x01", ""), (17, b"\x02", SEVERAL), (18, b"\x05", SEVERAL), (18, b"\x00\x01", SEVERAL),
    # a track size of 4,097 bytes
    (12, b"\x01\x10", LENGTH),
    # several faults: id, device type, heads, track size, file sequence
    (0, b"CKD_P371\x0b\0\0\0\x4d\x0e\0\0\x12\x02", NOT_IMAGE), (8, b"\x0b\0\0\0\x4d\x0e\0\0\x12\x02", DEVICE),
    (8, b"\x0b\0\0\0\x4d\x0e\0\0\x11\x02", HEADS), (12, b"\x4d\x0e\0\0\x11\x02", TRACK_SIZE),
)


def new_file(model: str = "2311", cylinders: int = 1) -> bytes:
    """The file of a new volume."""
    return Volume.new(model, cylinders).bytes()


def over(data: bytes, at: int, new: bytes) -> bytes:
    """Bytes with others from a place on."""
    return data[:at] + new + data[at + len(new):]


def put(stage: Stage, name: str, data: bytes) -> None:
    same("FILE %s" % name, ["OK", "OK"], stage.ask_all(["FILE %s %s" % (name, spelled(data)), "FAIL %s 0" % name]))


def holds(stage: Stage, name: str, wanted: bytes) -> None:
    """That a file holds these bytes."""
    came = content(stage, name)
    if came != wanted:
        raise Wrong("CONTENT %s" % name, *first_difference(wanted, came))


def image(model: str = "2311", cylinders: int = 1, size: int = SLOT) -> str:
    return "IMAGE %s CYLINDERS %d SLOTS %d" % (model, cylinders, size)


def refused(fault: str, otherwise: str) -> str:
    """The answer of a call with this fault, or with none."""
    return "REFUSED %s" % fault if fault else otherwise


def mounts(stage: Stage, files: dict[str, bytes], fault: str, otherwise: str = image()) -> None:
    """That files are mounted, or refused with this fault; they come back as they were."""
    for name, data in files.items():
        put(stage, name, data)
    names = " ".join(files)
    for line in ["MOUNT %s" % names] + (["MOUNT1 %s" % names] if len(files) == 1 else []):
        same(line, refused(fault, otherwise), stage.ask(line))
        if not fault:
            same("RELEASE", "OK", stage.ask("RELEASE"))
        for name, data in files.items():
            holds(stage, name, data)


# --- a file ---


def lengths(stage: Stage) -> None:
    for words, length in (("2311 1", ONE_CYLINDER), ("2311 203", 8_315_392), ("2314 203", 31_181_312)):
        same("LENGTH %s" % words, "LENGTH %d" % length, stage.ask("LENGTH %s" % words))


def new_image(model: str, cylinders: int, fields: bytes, size: int, stage: Stage) -> None:
    """That a new image has a header with these fields, and each track its home address, record 0, the end mark and zeros."""
    same("NEW", "OK", stage.ask("NEW new %s %d" % (model, cylinders)))
    heads = fields[8]
    slots = [new_track(*divmod(at, heads)).spelled().ljust(size, b"\0") for at in range(cylinders * heads)]
    holds(stage, "new", fields.ljust(HEADER, b"\0") + b"".join(slots))


def formats_and_mounts(stage: Stage) -> None:
    for model, cylinders, size in (("2311", 3, 4096), ("2314", 2, 7680)):
        same("NEW", "OK", stage.ask("NEW new %s %d" % (model, cylinders)))
        same("MOUNT", image(model, cylinders, size), stage.ask("MOUNT new"))
        same("RELEASE", "OK", stage.ask("RELEASE"))


def refuses_to_format(stage: Stage) -> None:
    """A format for no cylinders, or over a file that is too long, changes nothing; over one that is too short a write fails."""
    refusals = ((ONE_CYLINDER, 0, LENGTH), (0, 0, LENGTH), (ONE_CYLINDER + 1, 1, LENGTH), (ONE_CYLINDER - 1, 1, STORE), (0, 1, STORE))
    for length, cylinders, fault in refusals:
        old = b"\xaa" * length
        put(stage, "old", old)
        same("FORMAT of %d bytes" % length, refused(fault, ""), stage.ask("FORMAT old 2311 %d" % cylinders))
        came = content(stage, "old")
        same("a format of %d bytes" % length, (length, fault == LENGTH or length == 0), (len(came), came == old))


def refuses_to_mount(at: int, data: bytes, fault: str, stage: Stage) -> None:
    mounts(stage, {"new": over(new_file(), at, data)}, fault)


def short_files(stage: Stage) -> None:
    for length in (0, 4, 511, 512, ONE_CYLINDER - 1):
        mounts(stage, {"short": new_file()[:length]}, LENGTH)


def prefix_words(data: bytes) -> Iterator[str]:
    """The words of all prefixes of bytes, from the empty one on, without the whole."""
    before = ""
    for run in RUN.finditer(data):
        for length in range(run.end() - run.start()):
            yield "+".join(filter(None, [before, "%02X*%d" % (run[0][0], length) if length else ""])) or "-"
        before = "+".join(filter(None, [before, "%02X*%d" % (run[0][0], run.end() - run.start())]))


def no_prefix_is_mounted(stage: Stage) -> None:
    """That no prefix of a new image is mounted, and each is as long after it as before."""
    words = list(prefix_words(new_file()))
    same("prefixes", ONE_CYLINDER, len(words))
    answers = stage.ask_all(line for word in words for line in ("FILE prefix %s" % word, "MOUNT prefix"))
    for length, answer in enumerate(answers[1::2]):
        same("the first %d bytes" % length, refused(LENGTH, ""), answer)


def fault_of_byte(at: int, byte: int) -> str:
    """What a mount answers where one byte of a new header is another; 7F and FF are none of its own."""
    if at < 8:
        return NOT_IMAGE
    if at == 8:
        return HEADS
    if at == 16:
        return DEVICE
    if at == 13 and byte == 0:
        return TRACK_SIZE
    if byte == 0 or at >= 20:
        return ""
    return HEADS if at < 12 else LENGTH if at < 14 else TRACK_SIZE if at < 16 else SEVERAL


def every_byte_of_a_header(stage: Stage) -> None:
    """Each byte of a header in turn is another, and what a mount says of it."""
    lines = ["FILE new %s" % spelled(new_file())]
    changes = [(at, byte) for at in range(HEADER) for byte in (0x00, 0x7F, 0xFF)]
    for at, byte in changes:
        lines += ["PUT new %d %02X" % (at, byte), "MOUNT new", "RELEASE", "PUT new %d %02X" % (at, new_file()[at])]
    answers = stage.ask_all(lines)
    for (at, byte), answer in zip(changes, answers[2::4]):
        same("byte %d is %02X" % (at, byte), refused(fault_of_byte(at, byte), image()), answer)
    holds(stage, "new", new_file())


# --- slots ---


def begin(stage: Stage, at: int, for_good: bool, files: dict[str, bytes]) -> None:
    """Mounts files, of whose first one's store a call fails; the first is that of the mount."""
    for name, data in files.items():
        put(stage, name, data)
    first = next(iter(files))
    same("FAIL", "OK", stage.ask("FAIL %s %d%s" % (first, at, " ON" if for_good else "")))
    same("MOUNT", "IMAGE", stage.ask("MOUNT %s" % " ".join(files)).split()[0])


def slot_begins(stage: Stage, track: int, wanted: bytes) -> None:
    came = answered(stage.ask("LOAD %d" % track), "SLOT")
    same("LOAD %d" % track, wanted.hex(), came[:len(wanted)].hex())


def loads_and_saves(stage: Stage) -> None:
    """What a load answers, and what a save leaves in the file."""
    new = new_file("2311", 2)
    begin(stage, 0, False, {"x": new})
    same("SAVE", "OK", stage.ask("SAVE 13 D7*4096"))
    slot_begins(stage, 13, b"\xd7" * SLOT)
    slot_begins(stage, 12, bytes.fromhex("000001000200"))
    slot_begins(stage, 14, bytes.fromhex("000001000400"))
    same("RELEASE", "OK", stage.ask("RELEASE"))
    holds(stage, "x", over(new, HEADER + 13 * SLOT, b"\xd7" * SLOT))


def each_write_of_a_format_fails(stage: Stage) -> None:
    """The header comes first, and then ten slots."""
    old, new = b"\xaa" * ONE_CYLINDER, new_file()
    for at in range(1, 13):
        for for_good in (False, True):
            put(stage, "old", old)
            stage.ask("FAIL old %d%s" % (at, " ON" if for_good else ""))
            written = TORN if at == 1 else HEADER + (at - 2) * SLOT + TORN
            same("write %d fails" % at, refused(STORE if at < 12 else "", "OK"), stage.ask("FORMAT old 2311 1"))
            holds(stage, "old", new[:written] + old[written:] if at < 12 else new)
            same("calls, where write %d fails" % at, min(at, 11), calls_of(stage, "old").count)


def the_read_of_a_mount_fails(stage: Stage) -> None:
    """A header that can't be read; below 512 bytes nothing is read."""
    for data, fault, calls in ((new_file(), STORE, 1), (bytes(511), LENGTH, 0)):
        for on in ("", " ON"):
            for verb in ("MOUNT", "MOUNT1"):
                put(stage, "x", data)
                stage.ask("FAIL x 1%s" % on)
                same(verb, refused(fault, ""), stage.ask("%s x" % verb))
                same("calls", calls, calls_of(stage, "x").count)
                holds(stage, "x", data)


def a_load_fails(stage: Stage) -> None:
    """A load whose store fails, once or for good."""
    for for_good in (False, True):
        begin(stage, 3, for_good, {"x": new_file()})
        slot_begins(stage, 4, bytes.fromhex("000000000400"))
        same("LOAD 5", refused(STORE, ""), stage.ask("LOAD 5"))
        same("LOAD 6", for_good, stage.ask("LOAD 6") == refused(STORE, ""))
        same("RELEASE", "OK", stage.ask("RELEASE"))
        same("calls", 4, calls_of(stage, "x").count)
        holds(stage, "x", new_file())


def a_save_fails(stage: Stage) -> None:
    """A save whose store fails, once or for good."""
    for for_good in (False, True):
        begin(stage, 2, for_good, {"x": new_file()})
        same("SAVE 5", refused(STORE, ""), stage.ask("SAVE 5 D7*4096"))
        same("SAVE 7", refused(STORE if for_good else "", "OK"), stage.ask("SAVE 7 D8*4096"))
        same("RELEASE", "OK", stage.ask("RELEASE"))
        same("calls", 3, calls_of(stage, "x").count)
        torn = over(new_file(), HEADER + 5 * SLOT, b"\xd7" * TORN)
        holds(stage, "x", over(torn, HEADER + 7 * SLOT, b"\xd8" * (TORN if for_good else SLOT)))


def files_in_memory(stage: Stage) -> None:
    """Bytes within a file are read and written, and none past its end."""
    put(stage, "x", bytes([1, 2, 3, 4, 5, 6]))
    lines = {"CONTENT x 4 2": "CONTENT 0506", "PUT x 1 0809": "OK", "PUT x 6 -": "OK", "PUT x 5 0707": "OUTSIDE",
             "CONTENT x 5 2": "OUTSIDE"}
    for line, wanted in lines.items():
        is_next(line, wanted, stage.ask(line))
    holds(stage, "x", bytes([1, 8, 9, 4, 5, 6]))


def track_numbers(stage: Stage) -> None:
    for cylinder, head, number in ((0, 0, 0), (1, 3, 23), (202, 19, 4059)):
        line = "TRACK 2314 203 %d %d" % (cylinder, head)
        same(line, "TRACK %d OF 4060" % number, stage.ask(line))


# --- several files: A has two cylinders of a 2311, and B the third ---

END_OF_A, END_OF_B = HEADER + 20 * SLOT, HEADER + 30 * SLOT


def part(start: int, end: int, sequence: int, highest: int) -> bytes:
    """A file of a new volume of three cylinders: from one place to another, with this sequence and highest cylinder."""
    whole = new_file("2311", 3)
    return over(whole[:HEADER], 17, bytes([sequence]) + highest.to_bytes(2, "little")) + whole[start:end]


A, B = part(HEADER, END_OF_A, 1, 1), part(END_OF_A, END_OF_B, 2, 0)
COMPRESSED_B = over(B, 0, b"CKD_C370")
# a file whose slots are as long as they may be
GREATEST = over(new_file()[:HEADER], 12, b"\0\0\x01\0") + bytes(10 * 65_536)
# the first cylinder, in a file that says that it is the last one
LAST = part(HEADER, HEADER + 10 * SLOT, 1, 0)
# files, and the fault of their mount
LISTS: dict[str, tuple[tuple[Sequence[bytes], str], ...]] = {
    "lists of files": (((A, B), ""), ((LAST, B), SEVERAL), ((A, over(B, 18, b"\x02")), SEVERAL), ((B, A), SEVERAL), ((A, A), SEVERAL),
                       ((A,), SEVERAL), ((B,), SEVERAL), ((part(HEADER, END_OF_A, 1, 0),), "")),
    # a cylinder of the second file may stand in the first one: together they are as long as they must be
    "lengths of files": (((A, B[:-1]), LENGTH), ((part(HEADER, END_OF_A, 1, 2), B), LENGTH),
                         ((part(HEADER, END_OF_B, 1, 1), part(END_OF_A, END_OF_A, 2, 0)), LENGTH)),
    # another track size than the first file's comes before the length; a fault of the first file before one of the second
    "the first fault is told": (
        ((A, COMPRESSED_B), COMPRESSED), ((A, over(B, 0, b"CKD_P371")), NOT_IMAGE), ((A, over(B, 16, b"\x12")), DEVICE),
        ((A, over(B, 8, b"\x14")), HEADS), ((A, over(B, 12, b"\0\0")), TRACK_SIZE), ((A, over(B, 12, b"\x01\x10")), SEVERAL),
        ((A, over(B, 17, b"\x03")), SEVERAL), ((A, over(B, 18, b"\x05")), SEVERAL), ((over(A, 8, b"\x0b"), COMPRESSED_B), HEADS),
        ((COMPRESSED_B, A), COMPRESSED)),
}


def greatest_track_size(stage: Stage) -> None:
    mounts(stage, {"great": GREATEST}, "", image("2311", 1, 65_536))


def list_of_files(files: Sequence[bytes], fault: str, stage: Stage) -> None:
    cylinders = sum((len(it) - HEADER) // (10 * SLOT) for it in files)
    mounts(stage, {"f%d" % number: data for number, data in enumerate(files)}, fault, image("2311", cylinders))


def the_read_of_a_header_fails(stage: Stage) -> None:
    for failing, calls in (("a", (1, 0)), ("b", (1, 1))):
        put(stage, "a", A)
        put(stage, "b", B)
        stage.ask("FAIL %s 1" % failing)
        same("MOUNT", refused(STORE, ""), stage.ask("MOUNT a b"))
        came = calls_of(stage, "a").count, calls_of(stage, "b").count if failing == "b" else 0
        same("calls, where the header of %s can't be read" % failing, calls, came)


def each_load_goes_to_one_file(stage: Stage) -> None:
    """The last slot of file A, and the first and the last of file B."""
    tracks = ((0, "0000000000", (2, 1)), (19, "0000010009", (2, 1)), (20, "0000020000", (1, 2)), (29, "0000020009", (1, 2)))
    for track, own, calls in tracks:
        begin(stage, 0, False, {"a": A, "b": B})
        slot_begins(stage, track, bytes.fromhex(own))
        same("RELEASE", "OK", stage.ask("RELEASE"))
        same("calls for track %d" % track, calls, (calls_of(stage, "a").count, calls_of(stage, "b").count))


def each_save_goes_to_one_file(stage: Stage) -> None:
    begin(stage, 0, False, {"a": A, "b": B})
    same("SAVE", "OK", stage.ask("SAVE 20 D7*4096"))
    same("RELEASE", "OK", stage.ask("RELEASE"))
    same("calls", (1, 2), (calls_of(stage, "a").count, calls_of(stage, "b").count))
    holds(stage, "a", A)
    holds(stage, "b", over(B, HEADER, b"\xd7" * SLOT))


def a_load_or_a_save_of_one_file_fails(stage: Stage) -> None:
    """Of two files the store of one fails, and the other goes on."""
    put(stage, "a", A)
    put(stage, "b", B)
    lines = {"FAIL a 2": "OK", "FAIL b 3": "OK", "MOUNT a b": image("2311", 3), "LOAD 19": refused(STORE, "")}
    for line, wanted in lines.items():
        same(line, wanted, stage.ask(line))
    slot_begins(stage, 20, bytes.fromhex("0000020000"))
    same("SAVE 21", refused(STORE, ""), stage.ask("SAVE 21 D7*4096"))
    same("RELEASE", "OK", stage.ask("RELEASE"))
    same("calls", (2, 3), (calls_of(stage, "a").count, calls_of(stage, "b").count))
    holds(stage, "a", A)
    holds(stage, "b", over(B, HEADER + SLOT, b"\xd7" * TORN))


CASES = (lengths, formats_and_mounts, refuses_to_format, short_files, no_prefix_is_mounted, every_byte_of_a_header, loads_and_saves,
         each_write_of_a_format_fails, the_read_of_a_mount_fails, a_load_fails, a_save_fails, files_in_memory, track_numbers,
         greatest_track_size, the_read_of_a_header_fails, each_load_goes_to_one_file, each_save_goes_to_one_file,
         a_load_or_a_save_of_one_file_fails)


def cases() -> Iterator[Case]:
    """All that is tried of images."""
    yield Case("a new 2311", partial(new_image, "2311", 2, b"CKD_P370\x0a\0\0\0\0\x10\0\0\x11\0\0\0", 4096))
    yield Case("a new 2314", partial(new_image, "2314", 1, b"CKD_P370\x14\0\0\0\0\x1e\0\0\x14\0\0\0", 7680))
    for it in CASES:
        yield Case(it.__name__.replace("_", " "), it)
    for at, data, fault in MOUNTS:
        yield Case("refuses to mount: %s at %d: %s" % (data.hex(), at, fault or "none"), partial(refuses_to_mount, at, data, fault))
    for name, rows in LISTS.items():
        for number, (files, fault) in enumerate(rows, 1):
            yield Case("%s: %d" % (name, number), partial(list_of_files, files, fault))
