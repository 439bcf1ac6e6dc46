#!/usr/bin/env python3
"""Looks at the sample pack: it is made twice, its data sets are taken out again and compared with the folder `text`, by `dasd` and, where
they are installed, by Hercules' tools.

    sample/test_sample.py [DASD]

DASD is the program `dasd`; without the word it is the built one of crates/dasd_cmd. The last line is 'N compared, M differ', and the
status 1 where M is not 0. Hercules' tools are those of Debian's package hercules; without them their part is left out, with a word."""

import gzip
import json
import re
import shutil
import sys
import tempfile
from pathlib import Path

sys.dont_write_bytecode = True
HERE = Path(__file__).resolve().parent
sys.path.insert(0, str(HERE.parent))

from tools.common.hercules_readings import BUILT, Comparison, run

MOST_PACKED = 8192
# What `dasd vtoc` must print, worked out from the table in make_sample.py: of 50 tracks 2 are for label and table, 11 the data sets'; a
# track of this table has 16 blocks (2841 component description), of which 2 are the table's and 4 the data sets'.
CONTENTS = """\
SAMPLE  owner     SIXAMBRA  VTOC 0000 0001 .. 0000 0001
Data set                                     Created  Expires  Org Recfm Lrecl Blksz Tracks   Used Extents
SAMPLE.JOBS                                  1974-365 1999-365 PS  FB       80   800      2      1       1
SAMPLE.NOTES                                 1974-365 1999-365 PS  VB      128   260      1      1       1
SAMPLE.STOCK                                 1974-365 1999-365 PS  FB       40   400      4      3       2
SYS1.MACLIB                                  1974-365 1999-365 PO  FB       80   400      4      2       1
free 37 tracks, 10 control blocks
"""
LISTED = """\
pack.ckd: VOLSER=SAMPLE
SAMPLE.JOBS                                  74365 PS  FB       80   800   0     2  50   1 ABSTR
SAMPLE.NOTES                                 74365 PS  VB      128   260   0     1 100   1 ABSTR
SAMPLE.STOCK                                 74365 PS  FB       40   400   0     4  75   2 ABSTR
SYS1.MACLIB                                  74365 PO  FB       80   400   0     4  50   1 ABSTR
"""
SEQUENTIAL = ("SAMPLE.JOBS", "SAMPLE.NOTES", "SAMPLE.STOCK")
# The two extents of SAMPLE.STOCK in its control block, which is the fifth record of the table's track, by the layout of System Control
# Blocks ('Data Set Control Block', format 1): type, number, and first and last track. They begin with byte 61.
EXTENTS = "01000001000300010004" + "01010001000600010007"
MEMBERS = {"CLOSE": "CLOSE", "LEAVE": "RETURN", "OPEN": "OPEN", "RETURN": "RETURN", "SAVE": "SAVE"}


def output(*words: str | Path, folder: Path) -> str:
    """What a command prints, where it ends well."""
    done = run(*words, folder=folder)
    printed = str(done.stdout, "utf-8")
    return printed if done.returncode == 0 else f"status {done.returncode}: {printed}{done.stderr.decode()}"


def text_of(name: str) -> str:
    """The text from which a data set or a member was made."""
    return (HERE / "text" / name).read_text(encoding="utf-8")


def texts() -> dict[str, str]:
    """What each data set and member holds, by its name."""
    members = {f"SYS1.MACLIB({name})": text_of(f"SYS1.MACLIB/{made_of}") for name, made_of in MEMBERS.items()}
    return {name: text_of(name) for name in SEQUENTIAL} | members


def check_pack(comparison: Comparison, folder: Path) -> None:
    """The same bytes each time, also in several files, and small when packed."""
    for paths in (["pack.ckd"], ["again.ckd"], ["half_1.ckd", "half_2.ckd"], ["part_1.ckd", "part_2.ckd", "part_3.ckd", "part_4.ckd"]):
        comparison.holds(f"{paths} can't be made", output(HERE / "make_sample.py", *paths, folder=folder) == "")
    held = (folder / "pack.ckd").read_bytes()
    comparison.holds("made again the pack is another", (folder / "again.ckd").read_bytes() == held)
    comparison.holds(f"the pack has {len(held)} bytes", len(held) == 512 + 5 * 10 * 4096)
    comparison.holds(f"packed, the pack has more than {MOST_PACKED} bytes", len(gzip.compress(held, mtime=0)) <= MOST_PACKED)


def check_dasd(comparison: Comparison, dasd: Path, folder: Path) -> None:
    """No finding, the table of contents, and each text out of its data set."""
    strict = output(dasd, "check", "--strict", "pack.ckd", folder=folder).splitlines()
    ends = [line for line in strict if re.fullmatch(r"note [0-9A-F]{4} [0-9A-F]{4} record \d+ is an end of file", line)]
    wanted = len(SEQUENTIAL) + len(set(MEMBERS.values())) + 1
    comparison.same("a strict check", (strict[-1:], len(ends)), ([f"0 errors, 0 warnings, {wanted} notes"], wanted), "this script")
    comparison.same("the table of contents", output(dasd, "vtoc", "pack.ckd", folder=folder), CONTENTS, "this script")
    for count, name in ((2, "half"), (4, "part")):
        files = "+".join(f"{name}_{number}.ckd" for number in range(1, count + 1))
        compared = output(dasd, "compare", "pack.ckd", files, folder=folder)
        comparison.same(f"the pack in {count} files", compared, "0 tracks differ\n", "this script")
    block = json.loads(output(dasd, "dump", "--json", "pack.ckd", "0", "1", "5", folder=folder).splitlines()[-1])["data"]
    comparison.same("extents of SAMPLE.STOCK", block[2 * 61 : 2 * 81], EXTENTS, "this script")
    (folder / "taken").mkdir()
    taken = output(dasd, "extract", "--all", "taken", "pack.ckd", folder=folder).splitlines()
    comparison.same("the order of names", [line.split()[0] for line in taken[:-1]], sorted(texts()), "this script")
    for name, text in texts().items():
        comparison.same(name, output(dasd, "extract", "--text", "pack.ckd", name, folder=folder), text, "the text")


def check_hercules(comparison: Comparison, folder: Path) -> None:
    """Hercules' tools list the same data sets, and read the same members and records of fixed length."""
    listed = output("dasdls", "-info", "pack.ckd", folder=folder).splitlines()
    comparison.same("the data sets", LISTED.splitlines(), [line.rstrip() for line in listed], "dasdls")
    (folder / "members").mkdir()
    output("dasdpdsu", "../pack.ckd", "SYS1.MACLIB", "ascii", folder=folder / "members")
    for name, made_of in MEMBERS.items():
        path = folder / "members" / f"{name.lower()}.mac"
        found = [line.rstrip() for line in path.read_text(encoding="ascii").splitlines()] if path.exists() else []
        comparison.same(name, text_of(f"SYS1.MACLIB/{made_of}").splitlines(), found, "dasdpdsu")
    for name, length in (("SAMPLE.JOBS", 80), ("SAMPLE.STOCK", 40)):
        output("dasdseq", "pack.ckd", name, folder=folder)
        path = folder / name
        held = path.read_bytes() if path.exists() else b""
        lines = [held[at : at + length].decode("cp037").rstrip() for at in range(0, len(held), length)]
        comparison.same(name, text_of(name).splitlines(), lines, "dasdseq")


def main() -> int:
    """Makes the pack in a folder of its own, and looks at it."""
    dasd = Path(sys.argv[1] if len(sys.argv) > 1 else BUILT).resolve()
    if not dasd.is_file():
        sys.exit(f"there is no {dasd}")
    comparison = Comparison()
    with tempfile.TemporaryDirectory() as name:
        folder = Path(name)
        check_pack(comparison, folder)
        check_dasd(comparison, dasd, folder)
        if shutil.which("dasdls"):
            check_hercules(comparison, folder)
        else:
            print("left out: Hercules' tools, which are not here (apt-get install hercules)")
    return comparison.end()


if __name__ == "__main__":
    sys.exit(main())
