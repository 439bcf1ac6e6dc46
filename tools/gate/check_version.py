"""Compares every copy of the version with the file VERSION, which is the one place where it stands.

A copy is a line of a file that a pattern finds: the program's word for --version, the C header, packages, README.md, CITATION.cff and the newest
heading of CHANGELOG.md. A file that has no such line is as wrong as one with another version; the folder of a language that is not there is left out.
Prints each copy that is wrong; the last line is 'N copies of the version, M wrong', and the status 1 where M is not 0.
"""

import re
import sys
from pathlib import Path

from tools import TOP
from tools.gate import told

# Where the version is shown, and the pattern of the line there; the first line that fits is the copy.
COPIES = {
    "README.md": r"^Version (\S+)\.$",
    "CHANGELOG.md": r"^## (\S+)$",
    "crates/dasd_words/src/commands.rt": r'\.version\("([^"]*)"\)',
    "rows/data/dasd.rows": r"^< dasd (\S+)$",
    "c/dasd.h": r'^#define DASD_VERSION "([^"]*)"$',
    "rust/Cargo.toml": r'^version = "([^"]*)"$',
    "rust/dasd/Cargo.toml": r'^dasd-sys = \{ version = "=([^"]*)"',
    "python/dasd/__init__.py": r'^__version__ = "([^"]*)"$',
    "catalogue/dasd_catalogue/__init__.py": r'^__version__ = "([^"]*)"$',
    "CITATION.cff": r'^version: "([^"]*)"$',
    "docs/RELEASES.md": r"`git tag -a v(\S+) ",
}


def copy_in(path: Path, pattern: str) -> str | None:
    """The version that a file shows, or None."""
    if not path.is_file():
        return None
    found = re.search(pattern, path.read_text(encoding="utf-8"), re.MULTILINE)
    return found[1] if found else None


def main() -> int:
    """Compares them all."""
    version = (TOP / "VERSION").read_text(encoding="utf-8").strip()
    copies = {name: copy_in(TOP / name, pattern) for name, pattern in COPIES.items() if (TOP / name.partition("/")[0]).exists()}
    faults = (f"{name}: {shown or 'no version'}, and VERSION has {version}" for name, shown in copies.items() if shown != version)
    return told(faults, f"{len(copies)} copies of the version")


if __name__ == "__main__":
    sys.exit(main())
