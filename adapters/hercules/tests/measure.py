#!/usr/bin/env python3
"""Counts what a channel program costs in Hercules by kind of access, with Hercules' own drives and with each module, and prints a table.

    measure.py MODULES [--times] [WORK..]

MODULES is a folder with hdtdasd.so and hdtchan.so. A guest starts a program by Start I/O again and again, and asks by Test I/O until it has
ended, with 0C and no count left. The volume is a 2314 whose tracks have 20 records with a key of 8 bytes and data of 160 each. Counted by
callgrind is what a thread executes within Start I/O and in the device's thread, as the difference of two numbers of programs; with
--times the microseconds of processor time of the whole process in user mode, the least of three runs. Between brackets is the ratio to
Hercules' own."""
from __future__ import annotations

import argparse
import os
import re
import resource
import struct
import subprocess
import sys
import tempfile
from pathlib import Path
from typing import Dict, List, Tuple

CC, READ, UPDATE, FORMAT = 0x40, 0x06, 0x05, 0x1D
WORDS, PLACES, AREAS, CYLINDERS, HEADS, RECORDS, KEY, DATA = 0x400, 0x800, 0x1000, 6, 20, 20, 8, 160
CONFIGURATION = """%sCPUSERIAL 000001
CPUMODEL 0145
MAINSIZE 16
XPNDSIZE 0
NUMCPU 1
ARCHMODE S/370
CNSLPORT 0
OSTAILOR QUIET
0190 2314 %s/pack
"""
#: L 2,times; SIO; BNZ wrong; TIO; BC 2; CLI 68,0C; BNE wrong; CLC the residual count; BNE wrong; BCT 2; LPSW; wrong: LPSW.
GUEST = "".join(
    ("58200300", "9C000190", "47700226", "9D000190", "4720020C", "950C0044", "47700226", "46200204", "82000310", "0700", "82000318")
)
#: What the threads begin in that execute a program: none calls another of them.
BEGIN = ("s370_start_io", "start_io", "device_thread", "run")
COUNTS = {"key": (20, 120)}
#: Clears and copies are counted as instructions for vectors, and not by byte.
TUNABLES = "glibc.cpu.x86_rep_stosb_threshold=1000000:glibc.cpu.x86_rep_movsb_threshold=1000000"
Words = List[Tuple[int, int, int]]


def place(cylinder: int, head: int, record: int = 0) -> bytes:
    """A seek address, and where from its third byte on the argument of a Search ID is."""
    return struct.pack(">HHHBB", 0, cylinder, head, record, 0)


def find(at: int, record_word: int, code: int = 0x31) -> Words:
    """A seek to a place, and a search; `record_word` is the number of the word of the search."""
    return [(0x07, at, 6), (code, at + 2, 5), (0x08, WORDS + 8 * record_word, 0)]


def work(name: str) -> Tuple[Words, bytes]:
    """The words of a program, as code, address and count, and the places that it names."""
    first, last = place(5, 3, 1), place(5, 3, RECORDS)
    areas = [AREAS + 256 * it for it in range(RECORDS)]
    if name == "key":
        return find(PLACES, 1)[:1] + [(0xA9, PLACES + 8, KEY), (0x08, WORDS + 8, 0), (READ, AREAS, DATA)], place(5, 0) + key(5, HEADS - 1, RECORDS)
    if name == "track":
        return find(PLACES, 1)[:1] + [(0x1E, it, 8 + KEY + DATA) for it in areas], first
    if name == "format":
        return find(PLACES, 1) + [(FORMAT, it, 8 + KEY + DATA) for it in areas], place(5, 3, 0)
    if name == "cylinders":
        return find(PLACES, 1) + [(READ, AREAS, DATA)] + find(PLACES + 8, 5) + [(READ, AREAS, DATA)], first + place(1, 7, 1)
    return find(PLACES, 1) + [(UPDATE if name == "update" else READ, AREAS, DATA)], last if name == "last" else first


WORKS = {
    "last": "Search ID for the last of 20 records, read it", "key": "Search Key over the 400 of a cylinder, read the last", "first": "the first record, read",
    "cylinders": "a record of each of two cylinders", "track": "20 times Read Count, Key and Data", "update": "the first record, updated",
    "format": "20 records formatted",
}


def key(cylinder: int, head: int, record: int) -> bytes:
    """The key of a record."""
    return ("%08d" % ((cylinder * HEADS + head) * 100 + record)).encode("cp037")


def make_pack(path: Path) -> None:
    """A pack whose tracks are full."""
    subprocess.run(["dasdinit", "-r", path, "2314", str(CYLINDERS)], check=True, capture_output=True)
    image = bytearray(path.read_bytes())
    slot = (len(image) - 512) // (CYLINDERS * HEADS)
    for cylinder in range(CYLINDERS):
        for head in range(HEADS):
            at = 512 + (cylinder * HEADS + head) * slot + 5 + 16
            records = b"".join(count(cylinder, head, it) + key(cylinder, head, it) + bytes([it]) * DATA for it in range(1, RECORDS + 1))
            image[at:at + len(records) + 8] = records + b"\xff" * 8
    path.write_bytes(image)


def count(cylinder: int, head: int, record: int) -> bytes:
    """The count area of a record."""
    return struct.pack(">HHBBH", cylinder, head, record, KEY, DATA)


def storage(name: str, times: int) -> bytes:
    """Storage with the guest and a program that it starts so many times."""
    words, places = work(name)
    core = bytearray(0x4000)
    for at, digits in ((0, "0000000000000200"), (0x48, "%08X" % WORDS), (0x200, GUEST), (0x300, "%08X" % times),
                       (0x310, "0002000000000ACE"), (0x318, "0002000000000BAD")):
        core[at:at + len(digits) // 2] = bytes.fromhex(digits)
    for number, (code, address, length) in enumerate(words):
        chained = CC if number + 1 < len(words) and code != 0x08 else 0
        core[WORDS + 8 * number:WORDS + 8 * number + 8] = struct.pack(">IBBH", code << 24 | address, chained, 0, length)
    core[PLACES:PLACES + len(places)] = places
    for number in range(RECORDS):
        area = count(5, 3, number + 1) + key(5, 3, number + 1) + bytes([number + 1]) * DATA
        core[AREAS + 256 * number:AREAS + 256 * number + len(area)] = area
    return bytes(core)


def run(module: str, name: str, times: int, under: Tuple[str, ...]) -> Tuple[float, str]:
    """Runs Hercules: its processor time in user mode, in seconds, and what callgrind has left in `counts`."""
    with tempfile.TemporaryDirectory() as folder:
        room = Path(folder)
        make_pack(room / "pack")
        (room / "core").write_bytes(storage(name, times))
        (room / "conf").write_text(CONFIGURATION % ("LDMOD %s\n" % module if module else "", room), encoding="ascii")
        (room / "rc").write_text("hao tgt HHCCP011I\nhao cmd script %s/end\nloadcore %s/core 0\nrestart\n" % (room, room), encoding="ascii")
        (room / "end").write_text("psw\nquit\n", encoding="ascii")
        before = resource.getrusage(resource.RUSAGE_CHILDREN)
        ran = subprocess.run([*under, "hercules", "-d", "-f", "conf"], stdin=subprocess.DEVNULL, capture_output=True, cwd=room, timeout=900,
                             env=dict(os.environ, HERCULES_RC=str(room / "rc"), GLIBC_TUNABLES=TUNABLES), check=False)
        after = resource.getrusage(resource.RUSAGE_CHILDREN)
        if b"0000ACE" not in ran.stdout:
            raise SystemExit("%s did not end well over %s:\n%s" % (name, module or "Hercules", ran.stdout.decode("latin1")[-1500:]))
        annotated = ""
        if under:
            annotated = subprocess.run(["callgrind_annotate", "--inclusive=yes", "--threshold=100", "counts"], cwd=room, capture_output=True, text=True,
                                       check=True).stdout
        return after.ru_utime - before.ru_utime, annotated


def instructions(module: str, name: str) -> float:
    """The instructions of a program."""
    def counted(times: int) -> int:
        annotated = run(module, name, times, ("valgrind", "--tool=callgrind", "--callgrind-out-file=counts"))[1]
        found = re.findall(r"^ *([\d,]+) .*?:(\w+) \[.*/(?:libherc|hdtdasd|hdtchan)\.so\]$", annotated, re.M)
        numbers: Dict[str, int] = {}
        for digits, function in found:
            numbers.setdefault(function, int(digits.replace(",", "")))
        if module.endswith("hdtchan.so"):
            numbers["s370_start_io"] = 0
        return sum(numbers.get(it, 0) for it in BEGIN)
    few, many = COUNTS.get(name, (200, 1200))
    return (counted(many) - counted(few)) / (many - few)


def microseconds(module: str, name: str) -> float:
    """The processor time of a program."""
    many = 2500 if name == "key" else 50000
    return (min(run(module, name, many, ())[0] for _ in range(3)) - min(run(module, name, 1, ())[0] for _ in range(3))) / many * 1e6


def main() -> int:
    """Prints the table."""
    words = argparse.ArgumentParser(description=__doc__, formatter_class=argparse.RawDescriptionHelpFormatter)
    words.add_argument("modules", type=Path)
    words.add_argument("--times", action="store_true")
    words.add_argument("works", nargs="*", metavar="WORK")
    said = words.parse_args()
    modules = ["", *(str(said.modules.resolve() / it) for it in ("hdtdasd.so", "hdtchan.so"))]
    measure, shape = (microseconds, "%.2f") if said.times else (instructions, "%.0f")
    print("| Program | Hercules alone | With `hdtdasd` | With `hdtchan` |\n|---|---|---|---|")
    for name in said.works or WORKS:
        own, *others = [measure(it, name) for it in modules]
        print("| %s | %s | %s |" % (WORKS[name], shape % own, " | ".join((shape + " (%.2f)") % (it, it / own) for it in others)), flush=True)
    return 0


if __name__ == "__main__":
    sys.exit(main())
