"""What Hercules' tools read of a volume, and a count of what differs: for the scripts that compare `dasd` with them.

They are those of Debian's package hercules, version 3.13. Code page 037 is asked of them (HERCULES_CP), since they take another one
otherwise, in which some characters are others."""

import datetime
import os
import pathlib
import re
import shutil
import subprocess
import sys
import tempfile
from collections.abc import Callable
from dataclasses import dataclass

from tools import TOP

BUILT = TOP / "crates/dasd_cmd/out/dasd_cmd"
ENVIRONMENT = dict(os.environ, HERCULES_CP="819/037")
Extents = list[tuple[int, int, int, int]]


def run(*words: object, folder: pathlib.Path | None = None) -> subprocess.CompletedProcess[bytes]:
    """Runs a command, and keeps what it prints."""
    given = [str(it) for it in words]
    return subprocess.run(given, cwd=folder, env=ENVIRONMENT, stdin=subprocess.DEVNULL, capture_output=True, check=False)


def program(usage: str) -> str:
    """The program `dasd` that is to be compared: the one word, or else the built one. Ends where it or Hercules is not there."""
    words = sys.argv[1:]
    if len(words) > 1 or any(it.startswith("-") for it in words):
        sys.exit(usage)
    dasd = pathlib.Path(words[0] if words else BUILT).resolve()
    if not dasd.is_file():
        sys.exit(f"there is no {dasd}")
    if shutil.which("dasdls") is None:
        sys.exit("no dasdls here: apt-get install hercules")
    return str(dasd)


class Comparison:
    """How much was compared, and how much of it differs; each difference is printed as it comes."""

    def __init__(self) -> None:
        self.compared, self.differ = 0, 0

    def same(self, what: str, found: object, wanted: object, reader: str) -> None:
        """Compares what `dasd` has with what another reader has."""
        self.compared += 1
        if found != wanted:
            self.differ += 1
            at = first_difference(found, wanted)
            print(f"{what}: dasd has {shown(found, at)}, {reader} {shown(wanted, at)}")

    def holds(self, what: str, is_so: bool) -> None:
        """Counts something that must hold."""
        self.compared += 1
        if not is_so:
            self.differ += 1
            print(what)

    def end(self) -> int:
        """Prints the last line, and answers the status."""
        print(f"{self.compared} compared, {self.differ} differ")
        return 1 if self.differ else 0


def compared(usage: str | None, compare: Callable[[Comparison, str, pathlib.Path], None]) -> int:
    """Has a program compared in a folder that is removed; the status."""
    dasd, comparison = program(usage or ""), Comparison()
    with tempfile.TemporaryDirectory() as name:
        compare(comparison, dasd, pathlib.Path(name))
    return comparison.end()


def first_difference(one: object, other: object) -> int:
    """Where bytes begin to differ; 0 for anything else."""
    if not isinstance(one, bytes) or not isinstance(other, bytes):
        return 0
    return next((at for at, pair in enumerate(zip(one, other)) if pair[0] != pair[1]), min(len(one), len(other)))


def shown(it: object, at: int) -> str:
    """A value for a line: long bytes by their number and some of them from an offset on."""
    if isinstance(it, bytes) and len(it) > 40:
        return f"{len(it)} bytes, from {at} on {it[at : at + 40]!r}"
    return repr(it)


@dataclass
class Listed:
    """A data set as dasdls prints it. A day is year and day of the year; None is what it prints nothing or no date for."""

    name: str
    created: str | None
    expires: str | None
    organisation: str
    form: str
    record_length: int
    block_length: int
    key_length: int
    tracks: int
    used_percent: int
    extents: int


def day_of(text: str) -> str | None:
    """A date as dasdls -caldt prints it, as 1975Jan01."""
    if not text[:4].isdigit():
        return None
    return datetime.datetime.strptime(text, "%Y%b%d").strftime("%Y-%j")


def list_by_dasdls(image: pathlib.Path) -> tuple[str, list[Listed]]:
    """The serial number of a volume and its data sets. Each column ends where its heading does."""
    lines = run("dasdls", "-hdr", "-info", "-caldt", "-expdt", image).stdout.decode("latin-1").splitlines()
    serial, heading = lines[0].rpartition("VOLSER=")[2], lines[1]

    def column(line: str, name: str, width: int) -> str:
        end = heading.index(name) + len(name)
        return line[end - width : end].strip()

    def number(line: str, name: str, width: int) -> int:
        return int(column(line, name, width) or 0)

    listed = []
    for line in lines[2:]:
        listed.append(
            Listed(
                name=line[:44].rstrip(),
                created=day_of(column(line, "Created ", 9)),
                expires=day_of(column(line, "Exp. Date", 9)),
                organisation=column(line, "ORG", 3),
                form=column(line, "RECFM", 5),
                record_length=number(line, "LRECL", 5),
                block_length=number(line, "BLKSZ", 5),
                key_length=number(line, "Key", 3),
                tracks=number(line, "Trks", 5),
                used_percent=number(line, "%Use", 4),
                extents=number(line, "#Ext", 4),
            )
        )
    return serial, listed


def extents_by_dasdseq(image: pathlib.Path, name: str) -> Extents:
    """The extents of a sequential data set of records of fixed length, as dasdseq -debug prints them."""
    with tempfile.TemporaryDirectory() as room:
        printed = run("dasdseq", "-debug", image.resolve(), name, folder=pathlib.Path(room)).stderr.decode("latin-1")
    rows = re.findall(r"^  [0-9A-F]{2}   [0-9A-F]{2}   (\w{4}) (\w{4}) (\w{4}) (\w{4})$", printed, re.M)
    return [(int(a, 16), int(b, 16), int(c, 16), int(d, 16)) for a, b, c, d in rows]


def records_by_dasdseq(image: pathlib.Path, name: str, *options: str) -> bytes | None:
    """What dasdseq writes of a sequential data set of records of fixed length; with -ascii, lines without the blanks at their end."""
    with tempfile.TemporaryDirectory() as room:
        run("dasdseq", *options, image.resolve(), name, folder=pathlib.Path(room))
        path = pathlib.Path(room, name)
        return path.read_bytes() if path.exists() else None


def member_by_dasdcat(image: pathlib.Path, library: str, member: str, flags: str = "") -> bytes:
    """What dasdcat prints of a member: its bytes, or with the flag c its cards as lines of 72 columns."""
    return run("dasdcat", "-i", image, f"{library}/{member}{flags}").stdout


def members_by_dasdcat(image: pathlib.Path, library: str) -> list[str]:
    """The names of a directory, as dasdcat prints them in small letters."""
    return run("dasdcat", "-i", image, f"{library}/?").stdout.decode("latin-1").upper().split()


def members_by_dasdpdsu(image: pathlib.Path, library: str, *options: str) -> dict[str, bytes]:
    """The members that dasdpdsu unloads: it writes a file for each, with the member's name in small letters."""
    with tempfile.TemporaryDirectory() as room:
        run("dasdpdsu", image.resolve(), library, *options, folder=pathlib.Path(room))
        return {path.name.removesuffix(".mac").upper(): path.read_bytes() for path in pathlib.Path(room).iterdir()}
