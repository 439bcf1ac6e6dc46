"""Tries the must-fail edits that the gate leaves out: the prover must refuse each.

    tools/run gate/try_edits [CRATE..]
    tools/run gate/try_edits --texts
    tools/run gate/try_edits --by-commit SECONDS

They are in tools/edits/CRATE, in the form of those in crates/CRATE/must-fail, which the gate tries each time. Without a name all of them are tried: before
a version is tagged. With names, those of these crates: by whoever changes one of them. What the crates use is proved first, as far as `rt lib`
has not left it in this checkout; a crate with edits is checked from nothing once more, so all of them take about an hour and a half of processor time.

With --by-commit, in a checkout with the libraries of `rt ci`, the commit chooses a tenth of them, a few of each crate, and their order. After half of so
many seconds no further crate is begun, after all of them the last one is ended, and what was left is named.

All is done in a copy, and the repository stays as it is. Status 1 where an edit was let through or can't be applied. With --texts nothing is tried: it is
only looked whether each edit, the gate's too, still fits its file, in which each of its old texts is once.
"""

import hashlib
import os
import shutil
import subprocess
import sys
import tempfile
import time
from collections.abc import Iterable
from pathlib import Path

from tools import TOP
from tools.common.kit import kit_crate
from tools.gate import told

EDITS = TOP / "tools" / "edits"
# How many of the edits have their turn, one of so many; and how many of a crate at most, since it is checked from nothing for them.
SHARE, OF_CRATE = 10, 5
# How `timeout` ends that has killed.
KILLED = (-9, 137)


def unfit(edit: Path, crate: Path) -> str | None:
    """Why an edit does not fit the sources of its crate, if it does not."""
    lines = edit.read_text(encoding="utf-8").splitlines()
    files = [line.removeprefix("file: ") for line in lines if line.startswith("file: ")]
    old = [line.removeprefix("old: ") for line in lines if line.startswith("old: ")]
    new = [line for line in lines if line.startswith("new:")]
    if len(files) != 1 or not old or len(old) != len(new):
        return "it has not one file and pairs of an old and a new text"
    if not (crate / files[0]).is_file():
        return f"no file {files[0]}"
    text = (crate / files[0]).read_text(encoding="utf-8")
    wrong = [it for it in old if text.count(it) != 1]
    return f"stands {text.count(wrong[0])} times in {files[0]}: {wrong[0]}" if wrong else None


def look_at_texts() -> int:
    """Prints each edit that does not fit; the status."""
    edits = [(it, TOP / "crates" / it.parent.name) for it in sorted(EDITS.glob("*/*.edit"))]
    edits += [(it, it.parent.parent) for it in sorted((TOP / "crates").glob("*/must-fail/*.edit"))]
    faults = (f"{edit.relative_to(TOP)}: {why}" for edit, crate in edits if (why := unfit(edit, crate)))
    return told(faults, f"{len(edits)} edits looked at")


def copy_of(top: Path, room: Path) -> None:
    """Copies the files that git knows, but for the edits of the gate."""
    listed = subprocess.run(["git", "ls-files", "-z"], cwd=top, check=True, capture_output=True, text=True).stdout
    for name in filter(None, listed.split("\0")):
        source = top / name
        if "must-fail" in source.parts or not source.is_file() or source.is_symlink():
            continue
        (room / name).parent.mkdir(parents=True, exist_ok=True)
        shutil.copy2(source, room / name)


def put_file(source: str, target: str) -> None:
    """Puts a file into the copy, without its bytes where that can be."""
    try:
        os.link(source, target)
    except OSError:
        shutil.copy2(source, target)


def put_libraries(room: Path) -> bool:
    """Puts the libraries of this checkout where the kit looks for them, which takes those of today's files, by their stamps; whether they have any. Those
    of `rt ci` have none, and fit no others."""
    built = [it for it in (TOP / "crates").glob("*/out/rlib") if any(it.iterdir())]
    stamped = [it for it in built if (it / "stamp").is_file()]
    for it in stamped or built:
        shutil.copytree(it, room / "crates" / it.parent.parent.name / "out" / "rlib", copy_function=put_file)
    return bool(stamped)


def stamp_libraries(room: Path, crates: Iterable[str]) -> None:
    """Gives the libraries below these crates the stamps of today's files."""
    for crate in crates:
        for it in kit_crate(room / "crates" / crate, room)[1].below():
            if Path(it.rlib).is_dir():
                (Path(it.rlib).parent / "stamp").write_text(it.stamp(), encoding="utf-8")


def turns(edits: dict[str, list[Path]], commit: str) -> dict[str, list[Path]]:
    """The edits that have their turn at a commit, by crates, in the order in which they are tried."""

    def place(name: str) -> bytes:
        return hashlib.sha256(f"{commit} {name}".encode()).digest()

    chosen: dict[str, list[Path]] = {}
    left = -(-sum(map(len, edits.values())) // SHARE)
    for crate in sorted(edits, key=place):
        if some := sorted(edits[crate], key=lambda it: place(it.name))[: min(OF_CRATE, left)]:
            chosen[crate] = some
            left -= len(some)
    return chosen


def put_edits(room: Path, edits: dict[str, list[Path]]) -> None:
    """Puts edits where the kit looks for them."""
    for crate, some in edits.items():
        folder = room / "crates" / crate / "must-fail"
        folder.mkdir(parents=True)
        for edit in some:
            shutil.copy2(edit, folder / edit.name)


def try_within(room: Path, edits: dict[str, list[Path]], seconds: float) -> bool:
    """Tries the edits of one crate after another, as far as the time goes; whether each that was tried was refused."""
    end, is_right, left = time.monotonic() + seconds, True, []
    for crate, some in edits.items():
        rest = end - time.monotonic()
        words = ["timeout", "--signal=KILL", f"{rest:.1f}", "rt", "must-fail", crate]
        status = subprocess.run(words, cwd=room, check=False).returncode if rest > seconds / 2 else KILLED[0]
        is_right &= status in (0, *KILLED)
        left += [f"{crate}/{it.stem}" for it in some if status in KILLED]
    if left:
        print(f"not tried in {seconds:g} seconds: {', '.join(left)}")
    return is_right


def main() -> None:
    """Reads the words, and tries the edits in a copy."""
    edits = {it.name: sorted(it.glob("*.edit")) for it in sorted(EDITS.iterdir()) if it.is_dir()}
    seconds = 0
    match sys.argv[1:]:
        case ["--texts"]:
            sys.exit(look_at_texts())
        case ["--by-commit", most] if most.isdigit():
            commit = subprocess.run(["git", "rev-parse", "HEAD"], cwd=TOP, check=True, capture_output=True, text=True).stdout
            edits, seconds = turns(edits, commit), int(most)
        case crates:
            if unknown := set(crates) - set(edits):
                sys.exit(f"try_edits.py: no edits are in tools/edits for {', '.join(sorted(unknown))}")
            edits = {it: edits[it] for it in crates or edits}
    with tempfile.TemporaryDirectory() as folder:
        room, os.environ["TMPDIR"] = Path(folder), folder
        copy_of(TOP, room)
        if not put_libraries(room) and seconds:
            stamp_libraries(room, edits)
        put_edits(room, edits)
        print(f"{sum(map(len, edits.values()))} edits of {len(edits)} crates", flush=True)
        is_right = try_within(room, edits, seconds) if seconds else not subprocess.run(["rt", "must-fail", *edits], cwd=room, check=False).returncode
    print(f"try_edits.py: {'all that were tried are refused' if is_right else 'not all are refused, as is said above'}")
    sys.exit(0 if is_right else 1)


if __name__ == "__main__":
    main()
