#!/usr/bin/env python3
"""Makes the page's example pack: a 2314 with a label, a table of contents, twelve data sets, and three tracks with something wrong.

    example_pack.py FILE

The layouts are those of tools/common/volume_layouts.py and tools/common/written_labels.py, over a new volume of the conformance suite.
What stands in the data sets is made up, and repeats itself, so that the pack is small when it is packed."""

import pathlib
import sys

sys.dont_write_bytecode = True
sys.path.insert(0, str(pathlib.Path(__file__).resolve().parent.parent))

from conformance.suite.volumes import MODELS, Volume, address
from tools.common.images import Image
from tools.common.volume_layouts import Extents, Member, Run, ebcdic, partition
from tools.common.written_labels import DataSet, put_label

MODEL, SERIAL = "2314", "SIX001"
CYLINDERS, HEADS = 203, MODELS[MODEL].heads
NAMES = [
    "ADAMS",
    "BAKER",
    "CLARK",
    "DAVIS",
    "EVANS",
    "FRANK",
    "GHOSH",
    "HILLS",
    "IRWIN",
    "JONES",
    "KLEIN",
    "LOPEZ",
    "MASON",
    "NOLAN",
    "OLSEN",
    "PRICE",
]
CODES = ["LA", "LR", "L", "ST", "STM", "LM", "BALR", "BCT", "BC", "MVC", "CLC", "AP", "SP", "ZAP", "ED", "EX", "TM", "OI", "NI"]
# What stands in records comes again behind so many: within what a gzip looks back upon.
PERIOD = 96


def blank() -> bytes:
    """A volume whose tracks have their home address and record 0 alone."""
    return Volume.new(MODEL, CYLINDERS).bytes()


def payroll(number: int) -> bytes:
    """A record of a payroll."""
    number %= PERIOD
    line = f"{number:06} {NAMES[number % 16]:<12}{(number % 24 + 3) * 1250:07}.00 DEPT {number % 37:03}"
    return bytes(ebcdic(line, 80))


def source(name: str, number: int) -> bytes:
    """A line of a source program."""
    number %= PERIOD
    label = f"{name[:4]}{number:04}" if number % 7 == 0 else ""
    line = f"{label:<8} {CODES[(number * number + len(name)) % len(CODES)]:<5} R{number % 16},{number % 9 * 8}(R{number * 3 % 16})"
    return bytes(ebcdic(f"{line:<72}{number * 10:08}", 80))


def cards(name: str, number: int) -> bytes:
    """A card of a procedure."""
    words = [
        f"//{name:<8} PROC",
        "//STEP     EXEC PGM=IEFBR14,REGION=64K",
        "//SYSPRINT DD SYSOUT=A",
        "//SYSUT1   DD UNIT=2314,SPACE=(TRK,(10,5))",
    ]
    return bytes(ebcdic(words[number % len(words)], 80))


def blocks(records: list[bytes], each: int) -> list[bytes]:
    """Records in blocks of so many."""
    return [b"".join(records[at : at + each]) for at in range(0, len(records), each)]


class Pack:
    """The pack as it is made: its image, and the data sets on it."""

    def __init__(self, image: Image):
        self.image = image
        self.sets: list[DataSet] = []

    def sequential(self, name: str, runs: list[Run], records: list[bytes], each: int) -> None:
        """A sequential data set of records of 80 bytes, blocked."""
        it = Extents(self.image, runs)
        for block in blocks(records, each):
            it.append(b"", block)
        it.append(b"", b"")
        it.save()
        self.sets.append(DataSet(name, "PS", 80, 80 * each, runs, it.last()))

    def library(self, name: str, runs: list[Run], members: dict[str, list[bytes]], each: int) -> None:
        """A partitioned data set of records of 80 bytes, blocked."""
        it = Extents(self.image, runs)
        partition(it, {member: Member(blocks(lines, each)) for member, lines in members.items()}, len(members) // 14 + 2)
        self.sets.append(DataSet(name, "PO", 80, 80 * each, runs, it.last()))


def fill_pack(pack: Pack) -> None:
    """The data sets, from the first cylinders to the last."""
    c = HEADS
    verbs, kinds = ["GET", "PUT", "OPEN", "CLOSE", "READ", "WRITE", "POINT", "CHECK"], ["", "X", "B", "R", "MF", "DS", "RE"]
    macros = {f"{verb}{kind}": 330 + len(verb + kind) * 13 % 90 for verb in verbs for kind in kinds}
    programs = {f"PGM{number:03}": 260 + number % 5 * 20 for number in range(70)}
    utilities = {f"IEH{number:03}": 420 + number % 7 * 15 for number in range(40)}
    procedures = [*(f"ASM{it}" for it in "FHG"), *(f"LINK{it}" for it in "ABCD"), "COBUCLG", "FORTGCLG", "PL1LFCLG"]
    pack.library("SYS1.PROCLIB", [(2, c - 1)], {name: [cards(name, it) for it in range(60)] for name in procedures}, 10)
    pack.library(
        "SYS1.MACLIB", [(1 * c, 16 * c - 1)], {name: [source(name, it) for it in range(lines)] for name, lines in macros.items()}, 40
    )
    pack.library(
        "SYS1.LINKLIB", [(18 * c, 34 * c - 1)], {name: [source(name, it) for it in range(lines)] for name, lines in utilities.items()}, 40
    )
    pack.sequential("PAYROLL.MASTER", [(36 * c, 60 * c - 1)], [payroll(it) for it in range(26000)], 30)
    pack.sequential(
        "PAYROLL.TRANS", [(62 * c, 66 * c - 1), (90 * c, 93 * c + 9), (134 * c, 137 * c - 1)], [payroll(it * 7) for it in range(12000)], 30
    )
    pack.library(
        "SOURCE.ALP", [(67 * c, 84 * c - 1)], {name: [source(name, it) for it in range(lines)] for name, lines in programs.items()}, 40
    )
    pack.sequential("LEDGER.D74", [(95 * c, 110 * c - 1)], [payroll(it * 3) for it in range(17000)], 20)
    pack.sequential("LEDGER.D75", [(112 * c, 128 * c - 1)], [payroll(it * 5) for it in range(9000)], 20)
    pack.sequential("SYS1.DUMP", [(180 * c, 200 * c - 1)], [bytes([it % 7]) * 80 for it in range(8000)], 40)
    pack.sequential("STOCK.LIST", [(140 * c, 148 * c - 1)], [payroll(it * 11) for it in range(5200)], 20)
    pack.sequential("STOCK.ORDERS", [(150 * c, 157 * c + 5)], [payroll(it * 13) for it in range(6600)], 30)
    pack.sequential("WORK.SORT01", [(160 * c, 168 * c - 1)], [payroll(it) for it in range(1200)], 20)


def put_free_space(pack: Pack) -> None:
    """The free tracks as the format 5 block has them: of each run its first track, whole cylinders, and tracks."""
    used = sorted([(0, 1)] + [run for it in pack.sets for run in it.runs])
    free, at = [], 0
    for first, last in used + [(CYLINDERS * HEADS, CYLINDERS * HEADS)]:
        if first > at:
            free.append((at, first - at))
        at = last + 1
    spelled = [first.to_bytes(2, "big") + (count // HEADS).to_bytes(2, "big") + bytes([count % HEADS]) for first, count in free]
    room = spelled + [bytes(5)] * (26 - len(spelled))
    pack.image.put_block((1, 2), b"\5" * 4 + b"".join(room[:8]), b"\xf5" + b"".join(room[8:]) + bytes(5))


def spoil(image: Image) -> None:
    """What is wrong: a slot that spells no track, a home address of another cylinder, and more records than the drive has room for."""
    image.put_bytes(45 * HEADS + 7, 400, bytes([0x5A]) * 2600)
    image.put_bytes(72 * HEADS + 3, 0, b"\0" + address(72, 4))
    image.put_blocks(171 * HEADS + 11, [(b"", ebcdic("SCRATCH", 80))] * 51)


def main() -> int:
    """Makes the pack."""
    if len(sys.argv) != 2:
        print(__doc__, file=sys.stderr)
        return 2
    path = pathlib.Path(sys.argv[1])
    path.write_bytes(blank())
    pack = Pack(Image(path))
    fill_pack(pack)
    put_label(pack.image, SERIAL, pack.sets)
    put_free_space(pack)
    spoil(pack.image)
    pack.image.save()
    return 0


if __name__ == "__main__":
    sys.exit(main())
