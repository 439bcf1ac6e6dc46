#!/usr/bin/env python3
"""Measures what packs cost that are opened one after another: measure_packs.py OUT [MEGABYTES [COUNT]]

The memory of the browser's largest process, in MB of 1,000,000 bytes, after each of COUNT packs (14) of MEGABYTES (100), and the seconds from
a file's choice to its picture. It wants Debian's chromium-driver and python3-selenium."""

import pathlib
import statistics
import subprocess
import sys
import tempfile
import time

sys.dont_write_bytecode = True
HERE = pathlib.Path(__file__).resolve().parent
sys.path[:0] = [str(HERE.parent), str(HERE.parent.parent)]

from browser import Browser
from conformance.suite.volumes import Volume

CYLINDER = 20 * 7680
SETTLED = 2.5


def children(process: int) -> set[int]:
    """The processes below one, and itself."""
    listed = subprocess.run(["ps", "-eo", "pid,ppid"], capture_output=True, text=True, check=True).stdout.splitlines()[1:]
    pairs = [tuple(map(int, it.split())) for it in listed]
    found = {process}
    while more := {it for it, above in pairs if above in found} - found:
        found |= more
    return found


def largest(browser: Browser) -> float:
    """The resident memory of the largest of a browser's processes, in MB."""
    wanted = ",".join(map(str, children(browser.driver.service.process.pid)))
    sizes = subprocess.run(["ps", "-o", "rss=", "-p", wanted], capture_output=True, text=True, check=True).stdout.split()
    return max(map(int, sizes)) * 1024 / 1_000_000


def opened(browser: Browser, path: pathlib.Path) -> float:
    """The seconds from a file's choice to its picture."""
    start = time.monotonic()
    browser.take(path)
    if not browser.until(f"document.getElementById('name').textContent === '{path.name}'"):
        sys.exit(f"measure_packs.py: {path.name} is not opened: {browser.text('#notice-text')}")
    return time.monotonic() - start


def main() -> int:
    """Opens them, and prints what was measured."""
    if len(sys.argv) < 2:
        print(__doc__, file=sys.stderr)
        return 2
    megabytes, count = (int(it) for it in [*sys.argv[2:4], *["100", "14"][len(sys.argv) - 2 :]])
    with tempfile.TemporaryDirectory() as folder:
        whole = Volume.new("2314", megabytes * 1_000_000 // CYLINDER).bytes()
        browser = Browser(pathlib.Path(sys.argv[1]) / "index.html")
        memory, seconds = [largest(browser)], []
        for number in range(1, count + 1):
            path = pathlib.Path(folder, f"pack-{number}.ckd")
            path.write_bytes(whole)
            seconds.append(opened(browser, path))
            time.sleep(SETTLED)
            memory.append(largest(browser))
        browser.close()
    print(f"{count} packs of {len(whole):,} bytes: {statistics.median(seconds):.2f} s each, the longest {max(seconds):.2f} s")
    print("memory before, and after each: " + ", ".join(f"{it:.0f}" for it in memory) + " MB")
    return 0


if __name__ == "__main__":
    sys.exit(main())
