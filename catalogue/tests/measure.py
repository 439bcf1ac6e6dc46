#!/usr/bin/env python3
"""Measures scans over an archive of small packs that it makes: measure.py COUNT [FOLDER]

Prints a row for each run: seconds on the wall and of the processor, the children's counted, packs a second by either, and the most memory that a
process took. The last run is over Dask, where it is here: three workers, of which one is killed when a third is asked; the times of scheduler and
workers are counted, which begin before. FOLDER is kept, and not made again where it is there. The program `dasd` is that of DASD_PROGRAM or of the
path."""

from __future__ import annotations

import os
import resource
import sqlite3
import subprocess
import sys
import tempfile
import threading
import time
from pathlib import Path

sys.dont_write_bytecode = True
HERE = Path(__file__).resolve().parent
sys.path.insert(0, str(HERE))

from make_packs import make  # noqa: E402
from scanned_rows import differences, rows_of  # noqa: E402
from test_dask import HAS_DASK, WORKERS, Cluster  # noqa: E402

COMMAND = [sys.executable, str(HERE.parent / "dasd-catalogue")]


def measured(name: str, count: int, line: list[str], cluster: Cluster | None = None) -> None:
    """Runs a command, ends the cluster that it needs, and prints its row."""
    before, began = resource.getrusage(resource.RUSAGE_CHILDREN), time.monotonic()
    subprocess.run(line, check=True, stdout=subprocess.DEVNULL)
    wall = time.monotonic() - began
    if cluster:
        cluster.close()
    after = resource.getrusage(resource.RUSAGE_CHILDREN)
    processor = after.ru_utime + after.ru_stime - before.ru_utime - before.ru_stime
    print(f"{name:24} {wall:8.1f} s {processor:8.1f} s {count / wall:8.0f}/s {count / processor:8.0f}/s {after.ru_maxrss // 1024:6} MB", flush=True)


def kill_in_the_middle(cluster: Cluster, database: Path, count: int) -> None:
    """Kills a worker when a third of the packs has been asked."""
    asked = 0
    while asked < count // 3:
        time.sleep(0.5)
        if database.exists():
            connection = sqlite3.connect(f"file:{database}?mode=ro", uri=True, timeout=60)
            try:
                asked = connection.execute("SELECT MAX(asked) FROM scans").fetchone()[0] or 0
            except sqlite3.OperationalError:  # its tables are not there yet
                pass
            connection.close()
    cluster.processes[2].kill()


def measure_dask(folder: Path, database: Path, count: int) -> None:
    """A scan over Dask."""
    with tempfile.TemporaryDirectory() as room:
        cluster = Cluster(Path(room))
        cluster.start_workers(WORKERS)
        cluster.await_workers(WORKERS)
        threading.Thread(target=kill_in_the_middle, args=(cluster, database, count), daemon=True).start()
        words = [str(folder / "packs"), "--database", str(database), "--quiet", "--scheduler", cluster.address]
        measured(f"over Dask, {WORKERS} workers", count, [*COMMAND, "scan", *words], cluster)


def main() -> int:
    """Measures."""
    if len(sys.argv) not in (2, 3) or not sys.argv[1].isdigit():
        sys.exit(__doc__)
    count = int(sys.argv[1])
    with tempfile.TemporaryDirectory() as scratch:
        folder = Path(sys.argv[2] if len(sys.argv) == 3 else scratch).resolve()
        folder.mkdir(exist_ok=True)
        if not (folder / "packs").exists():
            make(os.fsencode(folder / "packs"), count)
        print(f"load before: {os.getloadavg()[0]:.1f}", flush=True)
        measured("cat", count, ["sh", "-c", f"find {folder}/packs -type f -print0 | xargs -0 -n 64 cat > /dev/null"])
        databases = {number: folder / f"by-{number}.db" for number in (1, 4)}
        for number, database in databases.items():
            database.unlink(missing_ok=True)
            words = [str(folder / "packs"), "--database", str(database), "--quiet", "--processes", str(number)]
            measured(f"scan, {number} processes", count, [*COMMAND, "scan", *words])
            measured("a second scan", count, [*COMMAND, "scan", *words])
            print(f"load: {os.getloadavg()[0]:.1f}", flush=True)
        if HAS_DASK:
            databases[0] = folder / "by-dask.db"
            databases[0].unlink(missing_ok=True)
            measure_dask(folder, databases[0], count)
            print(f"load: {os.getloadavg()[0]:.1f}", flush=True)
        first, *others = (rows_of(it) for it in databases.values())
        told = [line for other in others for line in differences(first, other)]
        print("\n".join(told) or f"the same rows; {databases[1].stat().st_size >> 20} MB", flush=True)
    return 1 if told else 0


if __name__ == "__main__":
    sys.exit(main())
