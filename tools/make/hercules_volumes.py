"""Makes small volumes of OS/360 with data sets of known contents, by Hercules' own tools where they can.

    tools/run make/hercules_volumes FOLDER

writes into FOLDER, for each volume, the image NAME.ckd and the folder NAME with the data of each data set or member in a file of its
own, as `dasd extract --all` names it. The same arguments give the same bytes.

It needs Debian's package hercules: `dasdload` writes label, volume table of contents, sequential data sets (methods SEQ, TEXT, DIP and
CVOL) and empty ones (method EMPTY) by a control file that this script writes. Without a copy of an unloaded partitioned data set that
tool makes no members, never more than one extent, no dates but that of today and no list of free tracks. So this script puts directory,
members and blocks of any format into the tracks of an empty data set itself, joins the extents of several into one, and writes dates and
free tracks, by the layouts of System Control Blocks (GC28-6628), 'Partitioned Data Set Directory' and 'Data Set Control Block'. It
shares no code with `dasd`, and what it makes is read by Hercules' tools too (tools/gate/compare_contents.py, tools/gate/compare_extract.py)."""

import pathlib
import random
import shutil
import subprocess
import sys
import tempfile
from collections.abc import Callable
from dataclasses import dataclass, field

from conformance.suite.volumes import MODELS
from tools.common.images import Image
from tools.common.record_forms import cut, fixed_blocks, spanned_blocks, variable_blocks
from tools.common.volume_layouts import (
    Details, Extents, Member, blocks_of, count_free, date, ebcdic, find_blocks, join, partition, put_last,
    runs_of,
)

# Organisations that dasdload can't write, a bit of record formats that it can't, and the type of an extent for user labels.
SEQUENTIAL_UNMOVABLE, DIRECT_UNMOVABLE, VSAM = 0x4100, 0x2100, 0x0008
TRACK_OVERFLOW, USER_LABELS = 0x20, 0x40
# What stands for itself in the name of a file.
PLAIN = set("ABCDEFGHIJKLMNOPQRSTUVWXYZ0123456789.-_@#$")


def cards(chance: random.Random, count: int) -> bytes:
    """Lines of text, each of 80 bytes of EBCDIC."""
    lines = [f"{chance.choice(['         L     R1,', '*  COMMENT ', '//STEP EXEC PGM=', 'A¬B¢|'])}{chance.randrange(10**6)}" for _ in range(count)]
    return b"".join(ebcdic(line, 80) for line in lines)


def variable(chance: random.Random, count: int) -> list[bytes]:
    """Blocks of records of variable length, each with its descriptor words."""
    blocks = []
    for _ in range(count):
        records = b""
        for _ in range(chance.randrange(1, 6)):
            record = ebcdic(f"VARIABLE {chance.randrange(10**9)}", chance.randrange(20, 90))
            records += (len(record) + 4).to_bytes(2, "big") + bytes(2) + record
        blocks.append((len(records) + 4).to_bytes(2, "big") + bytes(2) + records)
    return blocks


def members_of(chance: random.Random, count: int, blocks: Callable[[int], list[bytes]]) -> dict[str, Member]:
    """Members with names by chance, some of which begin a track or have other names or user data."""
    members = {}
    for i in range(count):
        name = f"{chance.choice('ABCDEFGHIJKLM@#$')}{i:03}{chance.choice(['', 'X', 'MACRO'])}"[:8]
        user = chance.choice([b"", bytes(30), bytes.fromhex("00000100") + bytes(8)])
        aliases = (f"Z{i:03}",) if i % 5 == 4 else ()
        members[name] = Member(blocks(i), aliases, chance.randrange(7) == 0, user, 1 if len(user) == 12 else 0)
    return members


def file_name(name: str, member: str | None = None) -> str:
    """The name of the file of a data set or of a member: a character that is not plain is its EBCDIC byte behind a percent sign."""
    safe = ["".join(it if it in PLAIN else f"%{it.encode('cp037')[0]:02X}" for it in part) for part in (name, member) if part]
    return safe[0] if member is None else f"{safe[0]}({safe[1]})"


@dataclass
class Library:
    """A partitioned data set to be: its members, the blocks of its directory, and the parts that are its extents behind the first."""

    members: dict[str, Member]
    count: int
    parts: list[str]


@dataclass
class Blocks:
    """A data set of blocks to be: their keys and data, and the parts that are its extents behind the first."""

    blocks: list[tuple[bytes, bytes]]
    parts: list[str]

    def data(self) -> bytes:
        return b"".join(data for _, data in self.blocks)


@dataclass
class Plan:
    """A volume to be: its statements for dasdload, and what its data sets have. The volume table of contents has so many tracks (`table`), and
    stands behind so many data sets (`behind`). Where a plan is `exact`, the control blocks say the free tracks, the free blocks and the
    last block of each data set that this script wrote; `dasdload` says them of its own alone."""

    name: str
    model: str
    cylinders: int
    table: int = 4
    behind: int = 0
    exact: bool = False
    statements: list[str] = field(default_factory=list)
    sequential: dict[str, bytes] = field(default_factory=dict)
    partitioned: dict[str, Library] = field(default_factory=dict)
    blocked: dict[str, Blocks] = field(default_factory=dict)
    filled: list[str] = field(default_factory=list)
    details: dict[str, Details] = field(default_factory=dict)
    forms: dict[str, list[str]] = field(default_factory=dict)
    messages: str = ""

    def add_sequential(self, name: str, data: bytes, space: str, form: str) -> None:
        """One that dasdload writes. A form is organisation, record format, record length, block length and key length."""
        self.forms[name] = form.split()
        self.sequential[name] = data
        self.statements.append(f"{name} SEQ {{{name}}} {space} 0 {form}")

    def add_empty(self, name: str, space: str, form: str) -> None:
        """One that is empty."""
        self.forms[name] = form.split()
        self.sequential[name] = b""
        self.statements.append(f"{name} EMPTY {space} 0 {form}")

    def add_parts(self, name: str, tracks: list[int], count: int, form: str, is_apart: bool) -> list[str]:
        """An empty data set for each of these lengths, with one of one track behind each of them, or behind each but the last."""
        self.forms[name], parts = form.split(), []
        for number, length in enumerate(tracks):
            parts.append(name if number == 0 else f"PART{number}.{name}")
            directory = 0 if count == 0 else count if number == 0 else 1
            self.statements.append(f"{parts[-1]} EMPTY TRK {length} 0 {directory} {form}")
            if is_apart or number + 1 < len(tracks):
                self.add_empty(f"GAP{number}.{name}", "TRK 1 0", "PS FB 80 400 0")
        return parts[1:]

    def add_partitioned(self, name: str, members: dict[str, Member], count: int, tracks: list[int], form: str) -> None:
        """One that has an extent of each of these lengths."""
        self.partitioned[name] = Library(members, count, self.add_parts(name, tracks, count, f"PO {form}", not self.exact))

    def add_blocks(self, name: str, blocks: list[bytes], tracks: list[int], form: str, keys: list[bytes] | None = None) -> None:
        """A data set of these blocks, which has an extent of each of these lengths."""
        parts = self.add_parts(name, tracks, 0, form, False)
        self.blocked[name] = Blocks(list(zip(keys or [b""] * len(blocks), blocks)), parts)

    def add_filled(self, name: str, words: str, form: str) -> None:
        """One that dasdload fills by itself, without an end of file; what it holds is read from the image."""
        self.forms[name] = form.split()
        self.filled.append(name)
        self.statements.append(f"{name} {words} {form}")

    def has_labels(self, name: str) -> bool:
        """Whether the first extent of a data set is for user labels, so that none of its blocks stands there."""
        return name in self.details and self.details[name].first_extent == USER_LABELS

    def load(self, image: pathlib.Path, contents: pathlib.Path) -> None:
        """Has dasdload write the image, and keeps its messages."""
        paths = {name: str((contents / file_name(name)).resolve()) for name in self.sequential}
        lines = [line.replace("{" + line.split()[0] + "}", paths.get(line.split()[0], "")) for line in self.statements]
        lines.insert(self.behind, f"SYSVTOC VTOC TRK {self.table}")
        lines.insert(0, f"{self.name} {self.model} {self.cylinders}")
        with tempfile.TemporaryDirectory() as room:
            control = pathlib.Path(room, "control")
            control.write_text("\n".join(lines) + "\n", encoding="ascii")
            done = subprocess.run(["dasdload", str(control), str(image), "2"], capture_output=True, text=True, check=False)
        self.messages = done.stdout
        if done.returncode != 0 or not image.exists():
            sys.exit("dasdload: " + "\n".join([*done.stdout.splitlines()[-4:], *done.stderr.splitlines()]))

    def make(self, folder: pathlib.Path) -> None:
        """Writes the image and the files of its contents."""
        image_path, contents = folder / f"{self.name}.ckd", folder / self.name
        shutil.rmtree(contents, ignore_errors=True)
        image_path.unlink(missing_ok=True)
        contents.mkdir()
        for name, data in self.sequential.items():
            (contents / file_name(name)).write_bytes(data)
        self.load(image_path, contents)
        image = Image(image_path)
        date(image)
        for name, library in self.partitioned.items():
            self.make_library(image, name, library)
            for member, made in library.members.items():
                for other in (member, *made.aliases):
                    (contents / file_name(name, other)).write_bytes(made.data())
        for name, blocks in self.blocked.items():
            self.make_blocks(image, name, blocks)
            (contents / file_name(name)).write_bytes(blocks.data())
        for name in self.filled:
            held = blocks_of(image, runs_of(image, find_blocks(image)[name]))
            (contents / file_name(name)).write_bytes(b"".join(held))
        for name, details in self.details.items():
            details.put(image, find_blocks(image)[name])
        if self.exact:
            count_free(image)
        image.save()

    def make_library(self, image: Image, name: str, library: Library) -> None:
        """Puts directory and members into the extents of a partitioned data set."""
        join(image, name, library.parts)
        place = find_blocks(image)[name]
        extents = Extents(image, runs_of(image, place))
        partition(extents, library.members, library.count)
        if self.exact:
            put_last(image, place, extents.last())

    def make_blocks(self, image: Image, name: str, blocks: Blocks) -> None:
        """Puts blocks, and an end of file behind them, into the extents of a data set."""
        join(image, name, blocks.parts)
        place = find_blocks(image)[name]
        extents = Extents(image, runs_of(image, place)[1 if self.has_labels(name) else 0 :])
        for key, data in [*blocks.blocks, (b"", b"")]:
            extents.append(key, data)
        extents.save()
        if self.exact:
            put_last(image, place, extents.last())


def text(chance: random.Random, length: int) -> bytes:
    """A record of characters of code page 037, with blanks at its end now and then."""
    blanks = chance.choice([0, 0, 1, length // 2, length])
    return bytes(chance.randrange(0x40, 0xFF) for _ in range(length - blanks)).ljust(length, b"\x40")


def texts(chance: random.Random, count: int, longest: int) -> list[bytes]:
    """Records of lengths by chance."""
    return [text(chance, chance.randrange(1, longest + 1)) for _ in range(count)]


def numbered_cards(chance: random.Random, count: int) -> list[bytes]:
    """Cards with a number in their last eight columns."""
    return [line[:72] + ebcdic(f"{10 * number:08}", 8) for number, line in enumerate(cut(cards(chance, count), 80), 1)]


def add_record_forms(plan: Plan, chance: random.Random) -> None:
    """Sequential and direct data sets, one of each record format, over one to sixteen extents."""
    full = MODELS[plan.model].capacity
    plan.add_sequential("FORM.CARDS", b"".join(numbered_cards(chance, 60)), "CYL 1 1", "PS FB 80 3200 0")
    plan.add_blocks("FORM.F", [text(chance, 100) for _ in range(40)], [3], "PS F 100 100 0")
    plan.add_blocks("FORM.FB", fixed_blocks(numbered_cards(chance, 230), 720), [2, 1, 5], "PS FB 80 720 0")
    plan.add_blocks("FORM.FBA", fixed_blocks([text(chance, 133) for _ in range(30)], 1330), [3], "PS FBA 133 1330 0")
    plan.add_blocks("FORM.FBM", fixed_blocks([text(chance, 121) for _ in range(30)], 1210), [3], "PS FBM 121 1210 0")
    plan.add_blocks("FORM.FBS", fixed_blocks([text(chance, 50) for _ in range(120)], 500), [2, 2], "PS FBS 50 500 0")
    plan.add_blocks("FORM.V", [block for it in texts(chance, 20, 196) for block in variable_blocks([it], 204)], [2], "PS V 200 204 0")
    plan.add_blocks("FORM.VB", variable_blocks(texts(chance, 90, 196), 1000), [3, 2], "PS VB 200 1000 0")
    plan.add_blocks("FORM.VBA", variable_blocks(texts(chance, 40, 133), 700), [3], "PS VBA 137 700 0")
    plan.add_blocks("FORM.VBS", spanned_blocks(texts(chance, 50, 900), 300), [4, 1, 30], "PS VBS 904 300 0")
    plan.add_blocks("FORM.U", [chance.randbytes(chance.randrange(1, 3001)) for _ in range(9)], [2, 1, 1, 3, 9], "PS U 0 3000 0")
    plan.add_blocks("FORM.SPREAD", fixed_blocks(numbered_cards(chance, 14 * full // 120), 400), [1] * 16, "PS FB 80 400 0")
    plan.add_blocks("FORM.FULL", [chance.randbytes(full) for _ in range(3)], [4], f"PS F {full} {full} 0")
    plan.add_blocks("FORM.LABELS", fixed_blocks(numbered_cards(chance, 40), 400), [1, 2], "PS FB 80 400 0")
    keys = [ebcdic(f"KEY{number:03}", 10) for number in range(20)]
    plan.add_blocks("FORM.KEYS", [text(chance, 80) for _ in keys], [2], "PS F 80 80 10", keys)
    plan.add_blocks("FORM.DIRECT", [text(chance, 80) for _ in keys], [1, 1], "DA F 80 80 10", keys)


def add_libraries(plan: Plan, chance: random.Random) -> None:
    """Partitioned data sets over one to five extents: source, load modules, records of variable length, and one without a member."""
    source = members_of(chance, 30, lambda i: fixed_blocks(numbered_cards(chance, 1 + 9 * i % 70), 400))
    source |= {"EMPTY": Member([]), "ODD{#": Member([ebcdic("A LINE", 80)], ("OTHER\\",))}
    plan.add_partitioned("FORM.SOURCE", source, 5, [2, 1, 60], "FB 80 400 0")
    modules = members_of(chance, 20, lambda i: [chance.randbytes(chance.randrange(1, 3001)) for _ in range(i % 7 + 1)])
    plan.add_partitioned("FORM.MODULES", modules, 6, [3, 1, 2, 9, 60], "U 0 3000 0")
    plan.add_partitioned("FORM.VLIB", members_of(chance, 12, lambda i: variable(chance, i % 5 + 1)), 3, [2, 8], "VB 100 600 0")
    plan.add_partitioned("FORM.NONE", {}, 4, [2], "FB 80 400 0")


def add_odd_blocks(plan: Plan) -> None:
    """Empty data sets whose control blocks say what is seldom said, and two that Hercules fills by itself."""
    for form in ("FBS 80 800", "V 96 100", "VA 133 137", "VM 133 137", "VBM 133 1330", "U 0 800"):
        plan.add_empty(f"ODD.{form.split()[0]}", "TRK 1 1", f"PS {form} 0")
    plan.add_empty("ODD.OVERFLOW", "TRK 1 0", "PS FB 80 800 0")
    plan.add_empty("ODD.VSAM", "TRK 1 0", "PS U 0 800 0")
    plan.add_empty("ODD.IS", "TRK 2 1", "IS FB 80 800 10")
    plan.add_empty("ODD.DA", "TRK 2 1", "DA F 80 80 0")
    plan.add_empty("ODD.NAME.WHICH.IS.AS.LONG.AS.ANY.CAN.BE.X123", "TRK 1 0", "PS F 80 80 0")
    plan.add_filled("SYS1.LOGREC", "DIP TRK 1 0 0", "")
    plan.add_filled("SYSCTLG", "CVOL TRK 2 0 0", "PS F 256 256 8")
    plan.details |= {
        "FORM.F": Details(created=(126, 328), expires=(126, 365)),
        "FORM.FB": Details(created=(99, 365), expires=(99, 365)),
        "FORM.U": Details(created=(72, 366), organisation=SEQUENTIAL_UNMOVABLE),
        "FORM.DIRECT": Details(created=(68, 60), expires=(100, 366), organisation=DIRECT_UNMOVABLE),
        "ODD.U": Details(created=(0, 0)),
        "ODD.OVERFLOW": Details(format=TRACK_OVERFLOW),
        "ODD.VSAM": Details(organisation=VSAM),
        "FORM.LABELS": Details(first_extent=USER_LABELS),
    }


def forms_plan(name: str, model: str, cylinders: int, behind: int) -> Plan:
    """A volume with data sets of many forms."""
    plan, chance = Plan(name, model, cylinders, table=8, behind=behind, exact=True), random.Random(model)
    add_record_forms(plan, chance)
    add_libraries(plan, chance)
    add_odd_blocks(plan)
    return plan


def plans() -> list[Plan]:
    """The volumes."""
    chance = random.Random(360)
    small = Plan("SMALL1", "2311", 2)
    small.add_sequential("SYS1.CARDS", cards(chance, 12), "TRK 1 0", "PS FB 80 400 0")
    small.add_partitioned("SYS1.MACLIB", members_of(chance, 3, lambda i: cut(cards(chance, 3 + i), 240)), 2, [2, 1], "FB 80 240 0")
    large = Plan("LARGE1", "2311", 40)
    large.add_sequential("MY.CARDS", cards(chance, 400), "TRK 20 0", "PS FB 80 800 0")
    large.add_sequential("MY.BYTES", chance.randbytes(100 * 60), "TRK 8 0", "PS F 100 100 0")
    large.add_partitioned("MY.LIB", members_of(chance, 40, lambda i: cut(cards(chance, 1 + 7 * i % 50), 800)), 6, [40], "FB 80 800 0")
    modules = members_of(chance, 25, lambda i: [chance.randbytes(chance.randrange(1, 3000)) for _ in range(i % 9 + 1)])
    large.add_partitioned("MY.LOAD", modules, 9, [60, 20, 60], "U 0 3625 0")
    large.add_partitioned("MY.VARY", members_of(chance, 30, lambda i: variable(chance, i % 12 + 1)), 7, [5, 3, 50], "VB 100 600 0")
    wide = Plan("WIDE14", "2314", 20)
    wide.add_sequential("WIDE.CARDS", cards(chance, 900), "TRK 20 0", "PS FB 80 1600 0")
    wide.add_partitioned("WIDE.LIB", members_of(chance, 120, lambda i: cut(cards(chance, 1 + i % 33), 1600)), 30, [3, 9, 120], "FB 80 1600 0")
    return [small, large, wide, forms_plan("FORM11", "2311", 50, 0), forms_plan("FORM14", "2314", 30, 20)]


def main() -> None:
    if len(sys.argv) != 2:
        sys.exit(__doc__)
    if shutil.which("dasdload") is None:
        sys.exit("no dasdload here: apt-get install hercules")
    folder = pathlib.Path(sys.argv[1])
    folder.mkdir(parents=True, exist_ok=True)
    for plan in plans():
        plan.make(folder)


if __name__ == "__main__":
    main()
