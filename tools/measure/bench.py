"""Counts what the works of the bench execute, and prints the tables of docs/TIMES.md: at a drive, by whole programs, at a channel and through the
C library, whose channels own main storage or are lent it; what cuts cost: the work A at a channel, so many units at a time; and through the
C library programs of eight drives by turns and of two channels, polls, and copies in the middle of a program.

    tools/run measure/bench [--bench FILE] [--handle FILE] [--lent FILE] [--turns FILE] [WORK..]

FILE is the built bench (crates/bench/out/bench, as `rt run` leaves it there; c/out/bench, c/out/bench_lent and c/out/bench_turns, as
`make -C c bench` does); where one of the latter is not there, its column or table is left out. A count is what callgrind counts for one
pass over a full volume of a 2314 with 203 cylinders, less what it counts for none, in millions of instructions, and in the last table for
each of what a pass has: the same on every machine. The processor time there is this machine's. The C library's `rep stosb` is turned off,
since callgrind counts that one instruction once for each byte that it clears. Wants Debian's `valgrind`; half a minute for a work.
"""

import argparse
import os
import re
import shutil
import subprocess
import sys
from concurrent.futures import ThreadPoolExecutor
from dataclasses import dataclass
from pathlib import Path

from tools import TOP

WORKS = {
    "A": "a search, then seven Read Data a track",
    "B": "seven Read Count, Key and Data a track",
    "C": "multi-track Read Data",
    "D": "records of 7,294 bytes",
    "S": "Search Home Address, Read R0, seven Read Data",
    "U": "a search and an update",
    "W": "seven Write Count, Key and Data",
}
WAYS: list[list[str]] = [[], ["programs"], ["channel"]]
# Of what c/tests/bench_turns.c does: how many make a pass, how many passes are timed, and what each is.
TURNS = {
    "drives": (1000, 500, "a program that finds and reads a record, at eight drives by turns"),
    "channels": (1000, 500, "the same at two channels at once, 20 units of each in turn"),
    "idle": (1000, 20000, "a poll of 7 channels with 56 drives, none of which works"),
    "working": (1000, 20000, "the same while a program runs on each"),
    "copies": (10, 50, "a copy of eight drives in the middle of a program, a cylinder each"),
    "bytes": (10, 50, "`malloc` and `memcpy` of as many bytes"),
}
ROUNDS = 5
UNCUT = 65535
CUTS = [1000, 100]
COLLECTED = re.compile(r"Collected : (\d+)")
NO_REP_STOSB = "glibc.cpu.x86_rep_stosb_threshold=1000000"


def executed(words: list[str]) -> int:
    """The instructions that a command executes."""
    command = ["valgrind", "--tool=callgrind", "--callgrind-out-file=/dev/null", *words]
    done = subprocess.run(command, capture_output=True, text=True, env={**os.environ, "GLIBC_TUNABLES": NO_REP_STOSB}, check=False)
    found = COLLECTED.search(done.stderr)
    if done.returncode or not found:
        sys.exit(f"bench.py: {' '.join(words)}: status {done.returncode}\n{done.stderr[-400:]}")
    return int(found[1])


def of_a_pass(words: list[str], *behind: str) -> float:
    """What one pass of a work takes, in millions."""
    return (executed([*words, "1", *behind]) - executed([*words, "0", *behind])) / 1e6


def millions(words: list[str]) -> str:
    """The same, as it is printed."""
    return f"{of_a_pass(words):.2f}"


def row(work: str, bench: Path, handles: list[Path]) -> str:
    """The line of a work."""
    cells = [millions([str(bench), *way, work]) for way in WAYS]
    cells += [millions([str(it), work]) if it.exists() else "" for it in handles]
    return f"| {work}: {WORKS[work]} | " + " | ".join(cells) + " |"


def cut_rows(bench: Path) -> list[str]:
    """The lines of a work that is cut: the least number of units first that leaves it whole."""
    counts = {units: of_a_pass([str(bench), "channel", "A"], str(units)) for units in [UNCUT, *CUTS]}
    whole = counts[UNCUT]
    return [f"| A by {units:,} units | {count:.2f} | {count / whole:.2f} |" for units, count in counts.items()]


def microseconds(words: list[str]) -> int:
    """The processor time that a program of turns says that it took, the least of some rounds."""
    said = [subprocess.run(words, capture_output=True, text=True, check=True).stdout.split() for _ in range(ROUNDS)]
    return min(int(it[-2]) for it in said)


def turn_row(turns: Path, name: str) -> str:
    """The line of one of these: the instructions and the processor time that each of it takes."""
    each, passes, told = TURNS[name]
    words = [str(turns), name]
    count = of_a_pass(words) * 1e6 / each
    taken = (microseconds([*words, str(passes)]) - microseconds([*words, "0"])) / (each * passes)
    return f"| {told} | {count:,.0f} | {taken:,.3f} |"


@dataclass
class Built:
    """The files of the programs that are measured."""

    bench: Path = TOP / "crates" / "bench" / "out" / "bench"
    handle: Path = TOP / "c" / "out" / "bench"
    lent: Path = TOP / "c" / "out" / "bench_lent"
    turns: Path = TOP / "c" / "out" / "bench_turns"


def print_tables(built: Built, works: list[str]) -> None:
    """Prints the tables, of these works."""
    if not shutil.which("valgrind") or not built.bench.exists():
        sys.exit("bench.py: it wants valgrind, and the built bench")
    print("| Work | Drive alone | Whole programs | At a channel | Through C | C, lent storage |\n|---|---|---|---|---|---|")
    with ThreadPoolExecutor(2) as pool:
        for line in pool.map(lambda work: row(work, built.bench, [built.handle, built.lent]), works):
            print(line, flush=True)
    if "A" in works:
        print("\n| At a channel, so many units at a time | | Beside uncut |\n|---|---|---|")
        for line in cut_rows(built.bench):
            print(line, flush=True)
    if built.turns.exists():
        print("\n| Through C, each | Instructions | Microseconds |\n|---|---|---|")
        for name in TURNS:
            print(turn_row(built.turns, name), flush=True)


def main() -> None:
    """Reads the words, and prints the tables."""
    usual = Built()
    words = argparse.ArgumentParser(description=__doc__, formatter_class=argparse.RawDescriptionHelpFormatter)
    for name in ("bench", "handle", "lent", "turns"):
        words.add_argument(f"--{name}", type=Path, default=getattr(usual, name))
    words.add_argument("works", nargs="*", metavar="WORK", default=list(WORKS))
    given = words.parse_args()
    unknown = [it for it in given.works if it not in WORKS]
    if unknown:
        sys.exit(f"bench.py: no such work: {', '.join(unknown)} (there are {', '.join(WORKS)})")
    print_tables(Built(given.bench, given.handle, given.lent, given.turns), given.works)


if __name__ == "__main__":
    main()
