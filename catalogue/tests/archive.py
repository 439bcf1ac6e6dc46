"""The archive that the tests share: made and scanned once, in a folder that goes when they end."""

from __future__ import annotations

import atexit
import functools
import os
import shutil
import sqlite3
import subprocess
import sys
import tempfile
import unittest
from pathlib import Path

HERE = Path(__file__).resolve().parent
COMMAND = [sys.executable, str(HERE.parent / "dasd-catalogue")]
sys.path[:0] = [str(HERE.parent), str(HERE)]

from make_packs import make  # noqa: E402

from dasd_catalogue.database import open_to_read  # noqa: E402
from dasd_catalogue.engines import Alone, Engine, Pool  # noqa: E402
from dasd_catalogue.program import Way, find_program  # noqa: E402
from dasd_catalogue.scan import Sum, Wanted, scan  # noqa: E402

#: How many packs the shared archive has; catalogue/check says another number. Among a hundred there is each kind.
COUNT = max(100, int(os.environ.get("CATALOGUE_PACKS", "300")))


@functools.cache
def room() -> Path:
    """A folder of this run."""
    folder = Path(tempfile.mkdtemp(prefix="catalogue-test-"))
    atexit.register(shutil.rmtree, folder, True)
    return folder


@functools.cache
def program() -> str:
    """The program `dasd`."""
    return find_program()


def way() -> Way:
    """How volumes are asked."""
    return Way(program(), patience=120)


def scanned(database: Path, paths: list[Path], engine: Engine | None = None, everything: bool = False) -> Sum:
    """Scans, by this process alone where no engine is named."""
    return scan(Wanted(str(database), [os.fsencode(it) for it in paths], engine or Alone(), way(), everything, True))


@functools.cache
def packs() -> Path:
    """The shared archive."""
    folder = room() / "packs"
    make(os.fsencode(folder), COUNT)
    return folder


@functools.cache
def catalogue() -> Path:
    """Its catalogue, by four processes."""
    database = room() / "catalogue.db"
    scanned(database, [packs()], Pool(4))
    return database


@functools.cache
def reading() -> sqlite3.Connection:
    """A connection to its catalogue."""
    connection = open_to_read(str(catalogue()))
    atexit.register(connection.close)
    return connection


def typed(*words: str | bytes, database: Path | None = None) -> subprocess.CompletedProcess[str]:
    """Runs the command over the shared catalogue, or another one."""
    line = [*COMMAND, words[0], *words[1:], "--database", str(database or catalogue())]
    return subprocess.run(line, capture_output=True, text=True, timeout=300, check=False)


class Case(unittest.TestCase):
    """A test with an empty folder of its own."""

    def setUp(self) -> None:
        """Makes the folder."""
        self.folder = Path(tempfile.mkdtemp(dir=room()))
        self.database = self.folder / "catalogue.db"

    def rows(self, query: str, *words: object) -> list[tuple[object, ...]]:
        """What this test's own catalogue answers to a query."""
        connection = sqlite3.connect(self.database)
        try:
            return connection.execute(query, words).fetchall()
        finally:
            connection.close()

    def states(self) -> dict[str, str]:
        """The states of this test's files, by their last names."""
        return {Path(str(row[0])).name: str(row[1]) for row in self.rows("SELECT shown, state FROM files")}
