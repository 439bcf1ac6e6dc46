"""Looks whether every crate is as `rt fmt` lays it out: `rt ci` refuses one that is not, once it has proved all.

    tools/run gate/check_formats [CRATE..]

The crates, or those that are named, are laid out in copies. Prints each file that differs; the last line is 'N crates looked at, M wrong', and the
status 1 where M is not 0. All take less than a minute. Without the kit it looks at none, and says so."""

import os
import shutil
import subprocess
import sys
import tempfile
from collections.abc import Iterator
from concurrent.futures import ThreadPoolExecutor
from pathlib import Path

from tools import TOP
from tools.gate import told


def laid_out(crate: Path) -> dict[str, bytes]:
    """The files of a crate that `rt fmt` may change, by their paths in it."""
    folders = [crate / it for it in ("src", "specs", "proofs")]
    return {str(it.relative_to(crate)): it.read_bytes() for folder in folders for it in sorted(folder.rglob("*")) if it.is_file()}


def differing(top: Path, name: str) -> list[str]:
    """The files of this crate that `rt fmt` changes in a copy, and what it says where it fails."""
    with tempfile.TemporaryDirectory() as folder:
        room = Path(folder)
        for it in ("HANDLES", "crates.txt"):
            shutil.copy(top / it, room)
        copy = room / "crates" / name
        shutil.copytree(top / "crates" / name, copy, ignore=shutil.ignore_patterns("out"))
        before = laid_out(copy)
        ran = subprocess.run(["rt", "fmt"], cwd=copy, capture_output=True, text=True, check=False)
        if ran.returncode != 0:
            return [f"crates/{name}: rt fmt fails: {(ran.stdout + ran.stderr).strip()}"]
        after = laid_out(copy)
        return [f"crates/{name}/{it}" for it in sorted(before.keys() | after.keys()) if before.get(it) != after.get(it)]


def all_differing(top: Path, names: list[str]) -> Iterator[str]:
    """The files of these crates, several crates at a time."""
    with ThreadPoolExecutor(os.cpu_count()) as pool:
        for files in pool.map(lambda it: differing(top, it), names):
            yield from files


def main() -> int:
    """Looks at all crates, or at those that are named."""
    if not shutil.which("rt"):
        print("no rt here: whether the crates are laid out is not looked at")
        return 0
    names = sys.argv[1:] or sorted(it.parent.name for it in (TOP / "crates").glob("*/src"))
    return told((f"{it} is not as rt fmt lays it out" for it in all_differing(TOP, names)), f"{len(names)} crates looked at")


if __name__ == "__main__":
    sys.exit(main())
