"""The same rows over Dask, with a worker that is killed in the middle: a scheduler and three workers, each a process of its own."""

from __future__ import annotations

import importlib
import importlib.util
import json
import os
import shutil
import signal
import subprocess
import sys
import time
import unittest
from pathlib import Path
from typing import Any
from unittest import mock

from archive import COUNT, HERE, Case, catalogue, packs, scanned, typed
from make_packs import plain
from scanned_rows import differences, rows_of

from dasd_catalogue.engines import BadEngine, Dask
from dasd_catalogue.store import Store

HAS_DASK = importlib.util.find_spec("distributed") is not None
WORKERS = 3
PATIENCE = 120.0


class Cluster:
    """A scheduler and its workers."""

    def __init__(self, folder: Path, settings: dict[str, str] | None = None) -> None:
        """Has a scheduler; with the settings that its environment names, by TLS."""
        self.folder, self.file, self.settings = folder, folder / "scheduler.json", settings or {}
        self.processes: list[subprocess.Popen[bytes]] = []
        self.start("dask_scheduler", "--host", "127.0.0.1", "--port", "0", "--no-dashboard", *(["--protocol", "tls"] if settings else []))
        until(self.is_ready, "the scheduler did not come")

    def is_ready(self) -> bool:
        """Whether the scheduler has written all that its file is to have."""
        try:
            return bool(self.address)
        except (OSError, ValueError):
            return False

    def start(self, module: str, *words: str) -> subprocess.Popen[bytes]:
        """Starts a process."""
        environment = {**os.environ, **self.settings, "PYTHONPATH": str(HERE.parent), "DASK_DISTRIBUTED__WORKER__MEMORY__TERMINATE": "False"}
        line = [sys.executable, "-m", f"distributed.cli.{module}", "--scheduler-file", str(self.file), *words]
        with open(self.folder / f"log-{len(self.processes)}", "wb") as log:
            process = subprocess.Popen(line, cwd=self.folder, env=environment, stdout=log, stderr=log)
        self.processes.append(process)
        return process

    def start_workers(self, count: int) -> None:
        """Starts workers of one thread each."""
        for number in range(count):
            folder = self.folder / f"worker-{len(self.processes)}-{number}"
            words = ["--nthreads", "1", "--no-nanny", "--no-dashboard", "--local-directory", str(folder), "--host", "127.0.0.1"]
            self.start("dask_worker", *words)

    @property
    def address(self) -> str:
        """Where the scheduler is."""
        return str(json.loads(self.file.read_text(encoding="utf-8"))["address"])

    def await_workers(self, count: int) -> None:
        """Waits until so many workers are there."""
        distributed: Any = importlib.import_module("distributed")
        with distributed.Client(self.address, set_as_default=False) as client:
            client.wait_for_workers(count, timeout=PATIENCE)

    def close(self) -> None:
        """Ends all, by their ids."""
        for process in reversed(self.processes):
            if process.poll() is None:
                process.kill()
            process.wait()


def settings_with_keys(folder: Path) -> dict[str, str]:
    """The environment by which Dask has the settings of docs/CATALOGUE.md, with keys that are made here."""
    line = ["openssl", "req", "-x509", "-newkey", "rsa:2048", "-nodes", "-days", "30", "-subj", "/CN=archive", "-keyout", "key.pem", "-out", "cert.pem"]
    subprocess.run(line, cwd=folder, check=True, capture_output=True)
    pair = f"{{cert: {folder}/cert.pem, key: {folder}/key.pem}}"
    tls = f"ca-file: {folder}/cert.pem, scheduler: {pair}, worker: {pair}, client: {pair}"
    text = f"distributed: {{comm: {{require-encryption: true, tls: {{{tls}}}}}}}\n"
    (folder / "dask.yaml").write_text(text, encoding="utf-8")
    return {"DASK_CONFIG": str(folder / "dask.yaml")}


def until(holds: object, why: str) -> None:
    """Waits until something holds."""
    assert callable(holds)
    end = time.monotonic() + PATIENCE
    while not holds():
        if time.monotonic() > end:
            raise AssertionError(why)
        time.sleep(0.05)


@unittest.skipUnless(HAS_DASK, "Debian's python3-distributed is not here")
class OverDask(Case):
    """Scans over a cluster of this machine."""

    def test_the_same_rows_although_a_worker_is_killed(self) -> None:
        """One of three, when a third has been answered; its packs are asked by the others."""
        cluster = Cluster(self.folder)
        self.addCleanup(cluster.close)
        with self.assertRaisesRegex(BadEngine, "no workers"):
            scanned(self.database, [packs()], Dask(cluster.address))
        cluster.start_workers(WORKERS)
        cluster.await_workers(WORKERS)
        victim, put, count = cluster.processes[2], Store.put, 0

        def put_and_kill(store: Store, answer: object) -> None:
            nonlocal count
            count += 1
            if count == COUNT // 3:
                victim.send_signal(signal.SIGKILL)
            put(store, answer)  # type: ignore[arg-type]

        database = catalogue().parent / "dask.db"
        with mock.patch.object(Store, "put", put_and_kill):
            came = scanned(database, [packs()], Dask(cluster.address))
        victim.wait()
        self.assertEqual(victim.returncode, -signal.SIGKILL)
        self.assertEqual(came.asked, COUNT + 3)
        self.assertEqual(differences(rows_of(catalogue()), rows_of(database)), [])
        with mock.patch("dasd_catalogue.engines.__version__", "0.0"):
            with self.assertRaisesRegex(BadEngine, "without this version"):
                scanned(self.database, [packs()], Dask(cluster.address))

    @unittest.skipUnless(shutil.which("openssl"), "openssl is not here")
    def test_by_tls_it_lets_in_who_has_the_keys(self) -> None:
        """And nobody else, who would have it run anything."""
        settings = settings_with_keys(self.folder)
        cluster = Cluster(self.folder, settings)
        self.addCleanup(cluster.close)
        self.assertTrue(cluster.address.startswith("tls://"))
        cluster.start_workers(1)
        (self.folder / "1.ckd").write_bytes(plain(1))
        words = ("scan", str(self.folder / "1.ckd"), "--scheduler", cluster.address, "--quiet")
        without = typed(*words, database=self.database)
        self.assertEqual((without.returncode, without.stdout), (1, ""))
        self.assertIn("dasd-catalogue: no scheduler answers at tls://", without.stderr)
        with mock.patch.dict(os.environ, settings):
            until(lambda: typed(*words, database=self.database).stdout == "1 names: 1 volume\n", "no worker asks")


if __name__ == "__main__":
    unittest.main()
