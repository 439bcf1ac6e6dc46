#!/usr/bin/env python3
"""Compares how `dasd` opens files on x86-64 and on AArch64: by strace where it runs natively, and by qemu's -strace.

    release/open_flags.py X86_64 AARCH64 [SYSROOT]

The flags of `open` are numbers of x86-64 Linux in the module, and O_DIRECT, O_DIRECTORY, O_NOFOLLOW and O_LARGEFILE have others on
AArch64: a program that used one of them would open files otherwise there, without a word. So each command of `dasd` is run under
both, over files of its own. Each call must come out with the same flags by name, and with none but these, whose numbers are equal.
Folders are left out: they are opened by c/system.c, with the numbers that the target's own C compiler has.
The images that are left must be equal too. X86_64 and AARCH64 are the two programs; SYSROOT is where qemu finds the loader, if not
/usr/aarch64-linux-gnu.

Status 1 where anything differs. It wants strace and qemu-aarch64.
"""

import hashlib
import os
import re
import subprocess
import sys
import tempfile
from pathlib import Path

HERE = Path(__file__).resolve().parent
sys.dont_write_bytecode = True
sys.path.insert(0, str(HERE.parent))

from tools.common.images import Image
from tools.common.written_labels import DataSet, put_label

EQUAL = {"O_RDONLY", "O_WRONLY", "O_RDWR", "O_CREAT", "O_EXCL", "O_NOCTTY", "O_TRUNC", "O_APPEND", "O_NONBLOCK", "O_CLOEXEC"}
CALL = re.compile(r'\b(?:open\(|openat\(AT_FDCWD,\s*)"([^"]*)",\s*([A-Z0-9_|x]+)')
# Seek, Search Identifier Equal at record 0, and Write Count, Key and Data of a record behind it.
DECK = "STORE 48 00000100\nSTORE 100 0700020040000006\nSTORE 108 3100020240000005\nSTORE 110 0800010800000000\nSTORE 118 1D00030020000010\n"
DECK += "STORE 200 000000000000000000000000\nSTORE 300 00000000010000084142434445464748\nSIO 190\nRUN\nINT\n"
# Each command's words, with what it reads from standard input. PACK is a labelled volume that is made before.
COMMANDS: list[tuple[str, str]] = [
    ("format work.ckd --cylinders 2", ""),
    ("format work.ckd --cylinders 2", ""),
    ("format work.ckd --cylinders 2 --no-replace", ""),
    ("format link.ckd --cylinders 1", ""),
    ("format missing/work.ckd", ""),
    ("run 90=work.ckd", DECK),
    ("run 90=work.ckd --deck deck --trace-to trace", ""),
    ("run 90=link.ckd 91=new:2311:1", DECK),
    ("run 90=missing.ckd", DECK),
    ("list work.ckd", ""),
    ("check work.ckd", ""),
    ("check --strict --json work.ckd", ""),
    ("dump work.ckd 0 0", ""),
    ("compare work.ckd link.ckd", ""),
    ("vtoc pack.ckd", ""),
    ("extract pack.ckd OPEN.FLAGS", ""),
    ("extract pack.ckd OPEN.FLAGS --to taken", ""),
    ("extract pack.ckd --all folder", ""),
    ("check folder", ""),
    ("explain csw 000000000C000000", ""),
]


def prepare(folder: Path, program: list[str]) -> None:
    """The files that the commands find: a link to an image, a deck, an empty folder, and a labelled volume with one data set."""
    (folder / "link.ckd").symlink_to("behind.ckd")
    subprocess.run([*program, "format", "behind.ckd", "--cylinders", "1"], cwd=folder, check=True, stdout=subprocess.DEVNULL)
    (folder / "deck").write_text(DECK, encoding="utf-8")
    (folder / "folder").mkdir()
    subprocess.run([*program, "format", "pack.ckd", "--cylinders", "2"], cwd=folder, check=True, stdout=subprocess.DEVNULL)
    image = Image(folder / "pack.ckd")
    put_label(image, "FLAGS1", [DataSet("OPEN.FLAGS", "PS", 80, 160, [(10, 10)], (0, 0))])
    image.save()


def calls_of(traced: str, folder: Path) -> list[str]:
    """The files of the folder that were opened, each with its flags, and without the number of the process in the name of a draft."""
    found = []
    for path, flags in CALL.findall(traced):
        name = path.removeprefix(f"{folder}/")
        if not name.startswith("/") and "O_DIRECTORY" not in flags.split("|"):
            found.append(f"{re.sub(r'-[0-9]+-', '-N-', name)} {'|'.join(sorted(flags.split('|')))}")
    return found


def play(name: str, tracing: list[str], program: list[str], folder: Path) -> list[list[str]]:
    """Runs all commands, and answers for each which files it opened, and its status."""
    folder.mkdir()
    prepare(folder, program)
    told = []
    for words, given in COMMANDS:
        trace = folder / "calls"
        trace.unlink(missing_ok=True)
        command = [*tracing, *program, *words.split()]
        how = os.environ | {"QEMU_STRACE": "1"}
        ran = subprocess.run(command, cwd=folder, input=given, capture_output=True, text=True, check=False, env=how)
        # strace has a file of its own; the emulator tells on standard error, among what the program says there
        traced = trace.read_text(encoding="utf-8") if trace.exists() else ran.stderr
        told.append([*calls_of(traced, folder.resolve()), f"status {ran.returncode}"])
    print(f"{name}: {sum(len(it) - 1 for it in told)} calls of open by {len(COMMANDS)} commands")
    return told


def findings(one: list[list[str]], other: list[list[str]]) -> list[str]:
    """What differs, and flags whose number may be another."""
    found = []
    for (words, _), native, emulated in zip(COMMANDS, one, other):
        if native != emulated:
            found.append(f"dasd {words}: {native} on x86-64, {emulated} on AArch64")
        flags = {flag for call in [*native, *emulated] if not call.startswith("status") for flag in call.split()[-1].split("|")}
        found += [f"dasd {words}: opens with {flag}" for flag in sorted(flags - EQUAL)]
    return found


def images(folder: Path) -> dict[str, str]:
    """The sums of all files that are left."""
    files = sorted(it for it in folder.rglob("*") if it.is_file() and it.name != "calls")
    return {str(it.relative_to(folder)): hashlib.sha256(it.read_bytes()).hexdigest() for it in files}


def main() -> int:
    if len(sys.argv) not in (3, 4) or sys.argv[1].startswith("-"):
        sys.exit(__doc__)
    native, arm = (str(Path(it).resolve()) for it in sys.argv[1:3])
    sysroot = sys.argv[3] if len(sys.argv) == 4 else "/usr/aarch64-linux-gnu"
    with tempfile.TemporaryDirectory() as name:
        one, other = Path(name, "x86_64"), Path(name, "aarch64")
        traced = play("x86-64", ["strace", "-f", "-e", "trace=open,openat", "-o", "calls"], [native], one)
        emulated = play("AArch64", [], ["qemu-aarch64", "-L", sysroot, arm], other)
        found = findings(traced, emulated)
        left, also_left = images(one), images(other)
        found += [f"{it}: not the same on both" for it in sorted(left.keys() | also_left.keys()) if left.get(it) != also_left.get(it)]
        print(*found, f"open_flags: {len(left)} files left, {len(found)} differences", sep="\n")
    return 1 if found else 0


if __name__ == "__main__":
    sys.exit(main())
