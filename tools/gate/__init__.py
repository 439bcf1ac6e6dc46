"""What the gate runs, and what it shares."""

import argparse
import sys
from collections.abc import Iterable
from pathlib import Path

from tools import TOP


def program(name: str) -> Path:
    """A built program, which must be there."""
    if not Path(name).is_file():
        sys.exit(f"there is no {name}")
    return Path(name).resolve()


def parser(doc: str | None) -> argparse.ArgumentParser:
    """What reads the words of a tool over the built program `dasd`: --built FILE, or else the one that `rt ci` leaves."""
    words = argparse.ArgumentParser(description=doc, formatter_class=argparse.RawDescriptionHelpFormatter)
    words.add_argument("--built", metavar="FILE", type=program, default=f"{TOP}/crates/dasd_cmd/out/dasd_cmd", help="the program dasd")
    return words


def told(faults: Iterable[str], looked: str) -> int:
    """Prints what is wrong, and a last line that says what was looked at and counts that; the status."""
    wrong = list(faults)
    print(*wrong, f"{looked}, {len(wrong)} wrong", sep="\n")
    return 1 if wrong else 0
