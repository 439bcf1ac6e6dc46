"""Counts what channel programs of operating systems execute, for each record that they pass, read or write, and prints the table of docs/TIMES.md.

    tools/run measure/accesses [--dasd FILE] [--beside NAME=FILE]... [--hercules] [--only WORD]

FILE is the built program (crates/dasd_cmd/out/dasd_cmd, as `rt run` leaves it). The programs are those of tools/measure/access_works.py, over
volumes of four cylinders. `dasd run` plays each as a deck, which ends with the channel status word that it must have; so does any
program that takes the same words and decks (--beside, as the Rust bodies of bench/rust). What callgrind counts for six of them, less what
it counts for three, is a third of three programs; from this is taken what the deck's lines are in the same way for a program that is a
Sense alone, and the rest is shared out among the records. With --hercules, Hercules (Debian's 3.13) runs them from its own processor's program
(tools/measure/hercules.py says how, and what is counted there): within the execution of channel programs. The C library's `rep stosb` is
turned off, since callgrind counts that one instruction once for each byte that it clears. Wants Debian's `valgrind`; some minutes."""

import argparse
import os
import re
import subprocess
import sys
import tempfile
from concurrent.futures import ThreadPoolExecutor
from pathlib import Path

from tools import TOP
from tools.measure import access_works, hercules
from tools.measure.access_works import Access

BUILT = TOP / "crates/dasd_cmd/out/dasd_cmd"
STORAGE = 0x200000
DRIVE = 0x190
# How often a program is run, in the shorter and in the longer deck.
FEW, MANY = 3, 6
MOST_STEPS = 8
COLLECTED = re.compile(r"Collected : (\d+)")
LINE = 128


class NotCounted(Exception):
    """Why there is no count."""


def stores(at: int, held: bytes) -> list[str]:
    """The lines that store these bytes."""
    return [f"STORE {at + it:X} {held[it : it + LINE].hex().upper()}" for it in range(0, len(held), LINE)]


def deck(work: Access, times: int, steps: int) -> str:
    """The deck that runs a program so often, in so many steps."""
    lines = stores(access_works.OPERANDS, bytes(work.operands)) + stores(access_works.WORDS, bytes(work.words))
    lines += [f"KEY {at:X} {work.key:X}" for at in range(0, STORAGE, 2048)] if work.key else []
    lines += stores(0x48, work.address_word())
    turn = [it for unit in range(work.drives) for it in (f"SIO {DRIVE + unit:X}", *["STEP 65535"] * steps, f"TIO {DRIVE + unit:X}")]
    lines += turn * times
    return "\n".join(lines) + "\n"


def played(program: Path, work: Access, times: int, steps: int) -> tuple[int, bool]:
    """What a program executes that plays the deck, and whether each run ended as it must."""
    with tempfile.TemporaryDirectory() as name:
        words = ["valgrind", "--tool=callgrind", "--callgrind-out-file=/dev/null", str(program), "run", "--storage", str(STORAGE)]
        for unit in range(DRIVE % 256, DRIVE % 256 + work.drives):
            volume = Path(name, f"volume{unit:X}")
            volume.write_bytes(work.image())
            words.append(f"{unit:X}={volume}")
        environment = {**os.environ, "GLIBC_TUNABLES": hercules.TUNABLES}
        done = subprocess.run(words, input=deck(work, times, steps), capture_output=True, text=True, env=environment, check=False)
    found = COLLECTED.search(done.stderr)
    if done.returncode or not found:
        raise NotCounted(f"{work.name}: {program}: status {done.returncode}\n{done.stderr[-400:]}")
    status = work.status_word().hex().upper()
    wanted = [f"TIO {DRIVE + unit:X} CC 1 {status[:8]} {status[8:]}" for unit in range(work.drives)] * times
    return int(found[1]), [it for it in done.stdout.splitlines() if it.startswith("TIO")] == wanted


def program_count(program: Path, work: Access) -> float:
    """What one run of a work's program takes, with its lines of the deck."""
    for steps in range(1, MOST_STEPS + 1):
        few, is_right = played(program, work, FEW, steps)
        if is_right:
            many, _ = played(program, work, MANY, steps)
            return (many - few) / (MANY - FEW)
    raise NotCounted(f"{work.name}: {program}: the channel status word is not {work.status_word().hex()}")


def hercules_storage(work: Access, times: int) -> bytes:
    """Storage as Hercules' processor begins: its list has the program so often."""
    storage = bytearray(hercules.SIZE)
    if work.key or work.drives > 1:
        raise NotCounted("its processor's program sets no keys, and starts one drive")
    for at, digits in hercules.PROCESSOR.items():
        spelled = bytes.fromhex(digits)
        storage[at : at + len(spelled)] = spelled
    listed = (work.address_word() + work.status_word()) * times
    for at, held in (
        (access_works.OPERANDS, bytes(work.operands)),
        (access_works.WORDS, bytes(work.words)),
        (hercules.LIST, listed),
        (hercules.COUNT, times.to_bytes(4, "big")),
    ):
        storage[at : at + len(held)] = held
    return bytes(storage)


def hercules_count(work: Access, times: int) -> int:
    """What Hercules executes within so many runs of a program."""
    with tempfile.TemporaryDirectory() as name:
        folder = Path(name)
        (folder / "volume").write_bytes(work.image())
        (folder / "storage").write_bytes(hercules_storage(work, times))
        for file, text in (
            ("configuration", hercules.CONFIGURATION.format(options="")),
            ("commands", hercules.COMMANDS),
            ("end", hercules.END),
        ):
            (folder / file).write_text(text, encoding="ascii")
        hercules.run_hercules(folder)
        saved = (folder / "saved").read_bytes()
        if any(saved[hercules.LEFT : hercules.LEFT + 4]):
            raise NotCounted(f"its status word is {saved[hercules.CSW : hercules.CSW + 8].hex()}")
        return hercules.counted_in(folder).channel


def by_hercules(work: Access) -> float | None:
    """What one run of a work's program takes on Hercules; none where it ends otherwise there."""
    try:
        return (hercules_count(work, MANY) - hercules_count(work, FEW)) / (MANY - FEW)
    except NotCounted:
        return None


def row(work: Access, programs: list[Path], base: list[float], is_beside: bool) -> str:
    """The line of a work: each count for each record, and the counts of the others as parts of the first."""
    with ThreadPoolExecutor(4) as pool:
        counts = list(pool.map(lambda it: program_count(it, work), programs))
    each: list[float | None] = [(count - less * work.drives) / work.number for count, less in zip(counts, base)]
    if is_beside:
        count = by_hercules(work)
        each.append(None if count is None else count / work.number)
    cells = ["" if it is None else f"{it:,.0f}" for it in each]
    ours = each[0] or 1
    cells += ["" if it is None else f"{it / ours:.1f}" for it in each[1:]]
    return f"| {work.name} | {work.unit} | " + " | ".join(cells) + " |"


def named(given: str) -> tuple[str, Path]:
    """A name and the file of a program, of a word."""
    name, _, file = given.partition("=")
    return name, Path(file).resolve()


def main() -> None:
    """Reads the words, and prints the table."""
    words = argparse.ArgumentParser(description=__doc__, formatter_class=argparse.RawDescriptionHelpFormatter)
    words.add_argument("--dasd", type=Path, default=BUILT)
    words.add_argument("--beside", type=named, action="append", default=[], metavar="NAME=FILE")
    words.add_argument("--hercules", action="store_true")
    words.add_argument("--only", default="", metavar="WORD")
    given = words.parse_args()
    programs = [given.dasd.resolve(), *(file for _, file in given.beside)]
    lacking = [str(it) for it in programs if not it.exists()]
    if lacking:
        sys.exit(f"accesses.py: not there: {', '.join(lacking)}")
    others = [name for name, _ in given.beside] + (["Hercules"] if given.hercules else [])
    headings = ["Program", "Counted for each", "`dasd`", *others, *(f"{it} to `dasd`" for it in others)]
    print("| " + " | ".join(headings) + " |\n" + "|---" * len(headings) + "|")
    try:
        base = [program_count(it, access_works.sense()) for it in programs]
        for work in access_works.accesses():
            if given.only in work.name:
                print(row(work, programs, base, given.hercules), flush=True)
    except NotCounted as why:
        sys.exit(f"accesses.py: {why}")


if __name__ == "__main__":
    main()
