"""The program `dasd`, which a wheel has inside: `python -m dasd WORD..`, and the command `dasd` once the wheel is installed."""

import os
import sys
from pathlib import Path

PROGRAM = Path(__file__).with_name("program")


def main() -> None:
    """Becomes the program, with these words; where this installation has none, a line says so, and the status is 2."""
    if not PROGRAM.is_file():
        print("dasd: this installation of the Python package has no program: take the package dasd of your system, or a wheel", file=sys.stderr)
        sys.exit(2)
    os.execv(PROGRAM, ["dasd", *sys.argv[1:]])


if __name__ == "__main__":
    main()
