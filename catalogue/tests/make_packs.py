#!/usr/bin/env python3
"""Makes an archive of small packs, by which the catalogue is tried: make_packs.py FOLDER COUNT

There are so many packs of the 2311, of one or two cylinders each, by their numbers: the same numbers give the same bytes. Among them are packs that
say the same and differ after end marks, broken ones, packed ones, images in two files, links, and names of odd bytes; beside them what is no pack.
`dasd` takes no part. What each pack is, says the table KINDS.

Layouts: System Control Blocks (GC28-6628), by tools/common/written_labels.py and volume_layouts.py; record formats by record_forms.py there."""

from __future__ import annotations

import gzip
import lzma
import os
import sys
from collections.abc import Callable
from pathlib import Path

sys.dont_write_bytecode = True
TOP = Path(__file__).resolve().parent.parent.parent
sys.path.append(str(TOP))

from conformance.suite.volumes import Volume  # noqa: E402
from tools.common.images import Image  # noqa: E402
from tools.common.record_forms import fixed_blocks, variable_blocks  # noqa: E402
from tools.common.volume_layouts import Extents, Member, count_free, partition  # noqa: E402
from tools.common.written_labels import DataSet, put_label  # noqa: E402

MODEL, HEADS = "2311", 10
HEADER, SLOT = 512, 4096
PAGE = 100
JOBS = ["//JOB{n:05} JOB (ACCT),'{who}',CLASS=A", "//STEP1 EXEC PGM=IEBCOPY", "//SYSPRINT DD SYSOUT=A", "//* PACK {n} OF THE ARCHIVE", "/*"]
WHO = ["PAYROLL", "STOCK", "LEDGER", "ORDERS", "PERSONNEL", "LIBRARY", "TESTING"]
MACRO = ["         MACRO", "&LABEL   {name:8} &DCB", "         L     1,=A(&DCB)", "         SVC   {svc}", "         MEND"]
#: A data set's text that would be markup, a statement of SQL and a terminal's control, if somebody took it for that.
HOSTILE = ["<script>alert('pack')</script>", "'; DROP TABLE files; --", "\"quoted\" & 'more'", "]]> </pre> %s {0}"]


def cards(lines: list[str]) -> list[bytes]:
    """Lines as records of 80 bytes."""
    return [line.encode("cp037").ljust(80, b"\x40")[:80] for line in lines]


def put_sequential(image: Image, name: str, lines: list[str], runs: list[tuple[int, int]]) -> DataSet:
    """A sequential data set of blocked cards."""
    extents = Extents(image, runs)
    for block in [*fixed_blocks(cards(lines), 800), b""]:
        extents.append(b"", block)
    extents.save()
    return DataSet(name, "PS", 80, 800, runs, extents.last())


def put_notes(image: Image, name: str, lines: list[str], runs: list[tuple[int, int]]) -> DataSet:
    """A sequential data set of records of variable length."""
    extents = Extents(image, runs)
    for block in [*variable_blocks([line.encode("cp037") for line in lines], 260), b""]:
        extents.append(b"", block)
    extents.save()
    return DataSet(name, "PS", 128, 260, runs, extents.last(), "VB")


def put_library(image: Image, name: str, members: dict[str, list[str]], runs: list[tuple[int, int]]) -> DataSet:
    """A partitioned data set of cards; its first member has another name too."""
    extents = Extents(image, runs)
    first = next(iter(members))
    made = {it: Member(fixed_blocks(cards(lines), 400), ("ALIAS",) if it == first else ()) for it, lines in members.items()}
    partition(extents, made, 2)
    return DataSet(name, "PO", 80, 400, runs, extents.last())


def new_image(cylinders: int) -> Image:
    """A volume on which nothing stands."""
    return Image(Path("none"), Volume.new(MODEL, cylinders).bytes())


def pack(number: int, cylinders: int = 0) -> Image:
    """The ordinary pack of a number: a library that many packs have, one of its own, jobs, and on some of them notes."""
    image = new_image(cylinders or 1 + number % 2)
    who = WHO[number % len(WHO)]
    shared = {it: [line.format(name=it, svc=svc + number % 3) for line in MACRO] for svc, it in enumerate(["OPEN", "CLOSE", "GET", "PUT"], 19)}
    own = {f"{who[:5]}{number % 7}": [f"         TITLE '{who} {number}'", "         END"], "COMMON": ["         COPY  EQU", "         END"]}
    sets = [
        put_library(image, "SYS1.MACLIB", shared, [(2, 3)]),
        put_library(image, f"{who}.SOURCE", own, [(4, 4), (6, 6)]),
        put_sequential(image, f"{who}.JOBS", [line.format(n=number, who=who) for line in JOBS], [(5, 5)]),
    ]
    if number % 5 == 0:
        sets.append(put_notes(image, f"NOTES.N{number:05}", [f"Pack {number} was read from tape {number // 10}.", *HOSTILE], [(7, 7)]))
    put_label(image, f"P{number % 100000:05}", sets, who[:10])
    count_free(image)
    return image


def plain(number: int) -> bytes:
    """An ordinary pack."""
    return pack(number).volume.bytes()


def with_leftovers(number: int) -> bytes:
    """The ordinary pack of the number before, with bytes left after an end mark, and a reserved byte of the header."""
    held = bytearray(plain(number - 1))
    at = HEADER + 9 * SLOT
    held[at + SLOT - 100 : at + SLOT] = bytes([number % 255 + 1]) * 100
    held[40] = 1
    return bytes(held)


def with_broken_track(number: int) -> bytes:
    """A pack with a record length that leads out of the slot of its library's second track."""
    image = pack(number)
    image.put_bytes(3, 11, b"\xff\xff")
    return image.volume.bytes()


def without_label(number: int) -> bytes:
    """A new volume."""
    del number
    return Volume.new(MODEL, 1).bytes()


def cut(number: int) -> bytes:
    """A pack of which the last bytes are lost."""
    return plain(number)[:-100]


def longer(number: int) -> bytes:
    """A pack with two bytes after it."""
    return plain(number) + b"\r\n"


def junk(number: int) -> bytes:
    """A file that is called as a pack and is none."""
    return b"not a pack: %d\n" % number * 50


def empty(number: int) -> bytes:
    """An empty file."""
    del number
    return b""


def hostile(number: int) -> bytes:
    """A pack whose names have markup, quotes and control characters in them."""
    image = new_image(1)
    sets = [
        put_sequential(image, "<B>A&B'\"</B>", HOSTILE, [(2, 2)]),
        put_sequential(image, "../../ETC/PASSWD", ["ROOT"], [(3, 3)]),
        put_sequential(image, "A\x1b[31mB", ["RED"], [(5, 5)]),
        put_library(image, "LIB", {"<I>": ["ITALIC"], "'OR''1'": ["SQL"], f"M{number}": ["PLAIN"]}, [(6, 7)]),
    ]
    put_label(image, "<B>&'\"", sets, "<SCRIPT>")
    count_free(image)
    return image.volume.bytes()


#: What the pack of a number is: the first row whose number divides it, beginning with those that are rare.
KINDS: list[tuple[int, str, Callable[[int], bytes]]] = [
    (97, "cut.ckd", cut),
    (89, "longer.ckd", longer),
    (83, "junk.ckd", junk),
    (79, "empty.ckd", empty),
    (61, "hostile.ckd", hostile),
    (53, "cut.ckd.gz", lambda number: gzip.compress(plain(number), 1, mtime=0)[:-200]),
    (41, "pack.ckd.xz", lambda number: lzma.compress(plain(number), preset=0)),
    (31, "pack.ckd.gz", lambda number: gzip.compress(plain(number), 1, mtime=0)),
    (23, "new.ckd", without_label),
    (17, "broken.ckd", with_broken_track),
    (11, "copy.ckd", with_leftovers),
    (1, "pack.ckd", plain),
]
#: Parts of names, by the numbers of packs that have them.
ODD_NAMES: dict[int, bytes] = {
    7: b"caf\xe9-",
    13: b"two\nlines-",
    19: b"\x1b[31mred-",
    29: b"quote'\"-",
    37: b"-dash-",
    43: b"a+b-",
    47: b"<b>&amp;-",
    59: "\u202egnp-\u00fc-".encode(),
    67: b"back\\slash %s $HOME `id`-",
    73: b"x" * 200,
}


def kind_of(number: int) -> tuple[str, Callable[[int], bytes]]:
    """What the pack of a number is called at the end, and what makes it."""
    return next((name, make) for divisor, name, make in KINDS if number % divisor == 0 and (number or divisor == 1))


def name_of(number: int) -> bytes:
    """The name of the pack of a number."""
    odd = next((it for divisor, it in ODD_NAMES.items() if number and number % (divisor * 2) == 0), b"")
    return odd + b"%05d-%s" % (number, kind_of(number)[0].encode())


def put(path: bytes, held: bytes) -> None:
    """A file, whose time is always the same."""
    with open(path, "wb") as file:
        file.write(held)
    os.utime(path, ns=(10**18, 10**18))


def folder_of(root: bytes, number: int) -> bytes:
    """The folder of the pack of a number: a hundred packs to each."""
    return os.path.join(root, b"box-%03d" % (number // PAGE))


def put_beside(root: bytes) -> None:
    """What is beside the packs: links, an image in two files, and what is none."""
    first = os.path.join(folder_of(root, 0), name_of(1))
    os.link(first, os.path.join(root, b"again.ckd"))
    os.symlink(os.path.relpath(first, root), os.path.join(root, b"link.ckd"))
    os.symlink(b"nowhere.ckd", os.path.join(root, b"lost.ckd"))
    os.symlink(b"box-000", os.path.join(root, b"other-box"))
    os.mkdir(os.path.join(root, b"folder.ckd"))
    os.mkfifo(os.path.join(root, b"pipe.ckd"))
    put(os.path.join(root, b"README.TXT"), b"Packs that were read from tape.\n")
    whole = pack(1, 3).volume.bytes()
    put(os.path.join(root, b"whole.ckd"), whole)
    for number, held in enumerate(Volume.read([whole]).split(2).files(), 1):
        put(os.path.join(root, b"big_%d.ckd" % number), held)


def make(root: bytes, count: int) -> None:
    """The archive."""
    os.makedirs(root)
    for number in range(count):
        folder = folder_of(root, number)
        os.makedirs(folder, exist_ok=True)
        put(os.path.join(folder, name_of(number)), kind_of(number)[1](number))
    put_beside(root)


def main() -> int:
    """Makes what is asked for."""
    if len(sys.argv) != 3 or not sys.argv[2].isdigit() or int(sys.argv[2]) < 2:
        sys.exit(__doc__)
    make(os.fsencode(sys.argv[1]), int(sys.argv[2]))
    return 0


if __name__ == "__main__":
    sys.exit(main())
