"""Runs a step of the gate, unless it has passed on this machine over the same files.

    tools/run gate/kept BUILT.. -- COMMAND..

The files are all that git knows of this checkout outside crates/, and new ones that it does not ignore; and BUILT, what was built of
crates, each a file. Beside them the kit counts, the packages that this Debian has, and COMMAND. A step that reads anything else is not for
this.

A step that passed is kept as tools/common/kept.py says; one that failed is not. The status is COMMAND's."""

import subprocess
import sys
from pathlib import Path

from tools import TOP
from tools.common import kept

PACKAGES = Path("/var/lib/dpkg/status")


def files_outside_crates() -> list[Path]:
    """What git knows outside crates/, and new files that it does not ignore."""
    words = ["git", "ls-files", "-z", "--cached", "--others", "--exclude-standard", "--deduplicate", "--", ".", ":!crates"]
    listed = subprocess.run(words, cwd=TOP, check=True, capture_output=True, text=True).stdout
    return [TOP / it for it in sorted(listed.split("\0")) if it and (TOP / it).is_file()]


def name_of(built: list[str], command: list[str]) -> str:
    """A sum of all that a step rests on."""
    known = files_outside_crates()
    parts: list[bytes | str | Path] = [kept.kit_name(), sys.version, "\0".join(command)]
    parts += [PACKAGES] if PACKAGES.is_file() else []
    for it in [*known, *map(Path, built)]:
        parts += [str(it.relative_to(TOP)) if it.is_relative_to(TOP) else "", oct(it.stat().st_mode), it]
    return kept.sum_of(parts)


def main() -> int:
    if "--" not in sys.argv[1:-1]:
        sys.exit(__doc__)
    at = sys.argv.index("--")
    built, command = sys.argv[1:at], sys.argv[at + 1 :]
    missing = [it for it in built if not Path(it).is_file()]
    if missing:
        print(f"kept.py: not here, so the step is run: {', '.join(missing)}")
        return subprocess.run(command, check=False).returncode
    name = name_of(built, command)
    if kept.find("steps", name):
        print("passed on this machine before, over the same files: not run again")
        return 0
    status = subprocess.run(command, check=False).returncode
    if status == 0 and name == name_of(built, command):
        kept.keep("steps", name, {"command": " ".join(command).encode()})
    return status


if __name__ == "__main__":
    sys.exit(main())
