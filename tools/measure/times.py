"""Makes the tables of instructions of docs/TIMES.md, all in one run: what the works of the bench execute at a drive, at a channel and through C;
what cuts cost; programs by turns, polls and copies through C; and what each record that is passed, read or written costs at `dasd`, at the
two channels in plain Rust and on Hercules.

    tools/run measure/times [--without-hercules] [--only WORD] [--dasd FILE]

It wants what `rt run` leaves in crates/bench and crates/dasd_cmd, what `make -C c bench` and `cargo build --release` in bench/rust make,
valgrind, and Debian's Hercules; where Hercules is left out, its column is empty. WORD chooses the rows of the second table, and leaves the first
out. An hour, most of it Hercules'. tools/measure/bench.py, accesses.py and hercules.py say what is counted, and each gives its part alone."""

import argparse
import sys
from pathlib import Path

from tools import TOP
from tools.measure import access_works, accesses, bench
from tools.measure.access_works import Access

RUST = TOP / "bench" / "rust" / "target" / "release"
PROGRAMS = {"`dasd`": accesses.BUILT, "Plain": RUST / "plain", "Fused": RUST / "fused"}
# The rows of the page, by the names of the works; the others are not on it.
ROWS = {
    "Search ID Equal, the last of 50": "passed by Search ID Equal",
    "Search ID Equal or High, the same": "passed by Search ID Equal or High",
    "Search Key Equal, keys of 44 bytes, one track": "passed by Search Key Equal, 44 bytes, one track",
    "Search Key Equal, multi-track, a table of contents": "the same, multi-track, a table of contents",
    "Search Key Equal or High, multi-track, a directory": "Search Key Equal or High, multi-track, a directory",
    "Seek, Search ID, Read Data, records at random": "one of 40 at random, found and read",
    "Search ID, Read Data, each record in turn": "each in turn, found and read",
    "Seek, Search ID, Read Data, eight drives by turns": "one at each of eight drives by turns",
    "Read Count, multi-track": "Read Count",
    "Read Key and Data of 44 and 96": "Read Key and Data of 44 and 96",
    "Read Count, Key and Data of 88": "Read Count, Key and Data of 88",
    "Read Data of 80": "Read Data of 80",
    "Read Data of 80 by words of 100, lengths suppressed": "by words of 100, lengths suppressed",
    "Read Data of 80, skipped": "skipped",
    "Read Data of 40 and 40, chained": "of 40 and 40, data-chained",
    "Search ID, Write Data, each record in turn": "each in turn, found and updated",
    "Write Count, Key and Data, count and data chained": "Write Count, Key and Data, chained data",
}


def row(work: Access, base: list[float], with_hercules: bool) -> str:
    """The line of a work: what each record costs."""
    programs = PROGRAMS.values()
    counts = [accesses.program_count(it.resolve(), work) - less * work.drives for it, less in zip(programs, base)]
    on_hercules = accesses.by_hercules(work) if with_hercules else None
    cells = [f"{it / work.number:,.0f}" for it in counts]
    cells.append("" if on_hercules is None else f"{on_hercules / work.number:,.0f}")
    return f"| {ROWS[work.name]} | " + " | ".join(cells) + " |"


def print_records(only: str, with_hercules: bool) -> None:
    """The table of records."""
    lacking = [str(it) for it in PROGRAMS.values() if not it.exists()]
    if lacking:
        sys.exit(f"times.py: not there: {', '.join(lacking)}")
    base = [accesses.program_count(it.resolve(), access_works.sense()) for it in PROGRAMS.values()]
    print("| Instructions for each record | " + " | ".join([*PROGRAMS, "Hercules"]) + " |\n" + "|---" * (len(PROGRAMS) + 2) + "|")
    for work in access_works.accesses():
        if work.name in ROWS and only in work.name:
            print(row(work, base, with_hercules), flush=True)


def main() -> None:
    """Reads the words, and prints the tables."""
    words = argparse.ArgumentParser(description=__doc__, formatter_class=argparse.RawDescriptionHelpFormatter)
    words.add_argument("--without-hercules", action="store_true")
    words.add_argument("--only", default="", metavar="WORD")
    words.add_argument("--dasd", type=Path, default=accesses.BUILT)
    given = words.parse_args()
    PROGRAMS["`dasd`"] = given.dasd
    if not given.only:
        bench.print_tables(bench.Built(), list(bench.WORKS))
        print()
    try:
        print_records(given.only, not given.without_hercules)
    except accesses.NotCounted as why:
        sys.exit(f"times.py: {why}")


if __name__ == "__main__":
    main()
