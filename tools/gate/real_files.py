"""Plays the rows of rows/data/files at the built program `dasd`, over real files in scratch folders: `rows/play.py --dasd FILE files`.

    tools/run gate/real_files [--built FILE] [TEXT]

It runs crates/dasd_cmd/out/dasd_cmd, as `rt ci` or `rt run` leaves it; with --built FILE that program; with a text the rows whose names have it. A row
that needs what can't be had here, as the rights of root or a program of Hercules, is skipped, with a word. The last line is 'N rows played, M wrong', and
the status 1 where M is not 0.
"""

import os
import sys

from tools import TOP
from tools.gate import parser


def main() -> None:
    """Plays the rows that are asked for."""
    words = parser(__doc__)
    words.add_argument("text", nargs="?", default="", help="only rows whose names have this")
    given = words.parse_args()
    os.execv(sys.executable, [sys.executable, f"{TOP}/rows/play.py", "--dasd", str(given.built), "--only", given.text, "files"])


if __name__ == "__main__":
    main()
