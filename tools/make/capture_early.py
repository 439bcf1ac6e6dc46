"""Captures the modules of a release while `rt ci` still runs: each as soon as all libraries below its crate stand.

    tools/run make/capture_early REPORT FOLDER

REPORT is what `rt ci` has printed so far; it grows. FOLDER gets the modules with their words, from where release/check takes them: once `rt ci` has
ended, a checkout may have its own libraries again, of other files. What can't be captured fails nothing here: release/check tries again, and tells
why. It ends with the last module, or where REPORT ends before the libraries stand, and tells what it took."""

import re
import resource
import subprocess
import sys
import time
from pathlib import Path

from tools import TOP
from tools.common.kit import kit_crate

# The crates of which a release is made, the library and the program; and a drive alone, which the gate tests.
MADE = ("dasd_c", "dasd_cmd", "lone_drive_c")
# The seconds between two looks at the report.
PAUSE = 3
# How `rt ci` tells that a crate's library is in this checkout, and how it ends.
STANDS = re.compile(r"^rt: (\w+) (?:proved$|is kept: )", re.MULTILINE)
ENDS = re.compile(r"^\d+ passed, \d+ failed", re.MULTILINE)


def libraries_below(crate: str) -> set[str]:
    """The libraries of this repository that a crate stands on."""
    _, known = kit_crate(TOP / "crates" / crate)
    return {it.name for it in known.below()}


def start(crate: str, folder: Path) -> subprocess.Popen[bytes]:
    """Captures a crate in a process of its own."""
    return subprocess.Popen(["tools/run", "make/capture", "--just-proved", crate, str(folder / f"{crate}.bc")], cwd=TOP)


def watch(report: Path, folder: Path) -> None:
    """Starts a capture once its libraries stand, and waits for each."""
    waiting, running = {it: libraries_below(it) for it in MADE}, []
    while waiting:
        text = report.read_text(encoding="utf-8", errors="replace")
        told = set(STANDS.findall(text))
        for crate in [it for it, below in waiting.items() if below <= told]:
            del waiting[crate]
            running.append(start(crate, folder))
        if ENDS.search(text):
            break
        time.sleep(PAUSE)
    for it in running:
        it.wait()


def main() -> None:
    if len(sys.argv) != 3 or sys.argv[1].startswith("-"):
        sys.exit(__doc__)
    began, folder = time.monotonic(), Path(sys.argv[2]).resolve()
    folder.mkdir(parents=True, exist_ok=True)
    watch(Path(sys.argv[1]).resolve(), folder)
    used = resource.getrusage(resource.RUSAGE_CHILDREN)
    print(f"modules captured beside rt ci: {time.monotonic() - began:.0f} seconds, {used.ru_utime + used.ru_stime:.0f} of processor time")


if __name__ == "__main__":
    main()
