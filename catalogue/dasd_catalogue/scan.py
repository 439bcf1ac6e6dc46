"""A scan: folders are walked, what is new or has changed is asked, and all is kept. It goes on where an earlier one was ended."""

from __future__ import annotations

import os
import sqlite3
import sys
import time
from dataclasses import dataclass
from datetime import datetime, timezone

from . import says
from .database import open_to_write, told
from .engines import Engine
from .merge import Merge
from .names import Places
from .program import Way, version_of
from .progress import Progress
from .store import Store
from .walk import walk

#: Answers are committed when so many seconds have gone by.
COMMIT_SECONDS = 1.0
#: What SQLite puts beside a database.
BESIDE = ("", "-journal", "-wal", "-shm")


@dataclass(frozen=True)
class Wanted:
    """What is to be scanned: the database, the paths (none: those of earlier scans), by what, how, whether everything is asked again, and whether
    nothing is reported of how far it is."""

    database: str
    paths: list[bytes]
    engine: Engine
    way: Way
    everything: bool = False
    is_silent: bool = False


@dataclass(frozen=True)
class Sum:
    """What a scan came to: how many names are known, how many files were asked, in how many seconds, and how many names are in each state."""

    known: int
    asked: int
    seconds: float
    states: dict[str, int]


def scan(wanted: Wanted) -> Sum:
    """Scans."""
    with open_to_write(wanted.database) as connection:
        return Scan(connection, wanted).run()


def now() -> str:
    """The time, for the log of scans."""
    return datetime.now(timezone.utc).isoformat(timespec="seconds")


class Scan:
    """A scan over an open catalogue."""

    def __init__(self, connection: sqlite3.Connection, wanted: Wanted) -> None:
        self.connection, self.wanted = connection, wanted
        self.places = Places.beside(wanted.database)
        self.store = Store(connection, self.places)

    def run(self) -> Sum:
        """Walks, asks, and keeps."""
        began = time.monotonic()
        number = self._begin()
        self._walk()
        asked = self._ask(number)
        self._end(number, asked, time.monotonic() - began)
        states = {row[0]: row[1] for row in self.connection.execute("SELECT state, COUNT(*) FROM files GROUP BY state ORDER BY state")}
        return Sum(self.store.count_waiting()[1], asked, time.monotonic() - began, states)

    def _begin(self) -> int:
        """Writes the scan into the log; its number."""
        values = (now(), self.wanted.engine.name)
        cursor = self.connection.execute("INSERT INTO scans (began, engine, asked) VALUES (?, ?, 0)", values)
        return int(cursor.lastrowid or 0)

    def _walk(self) -> None:
        """Merges what there is with what is known. Where hashes are made otherwise than before, everything is asked."""
        everything = self.wanted.everything or told(self.connection, "hash") != says.FUNCTION
        roots = self.wanted.paths or [self.places.found(row["path"]) for row in self.connection.execute("SELECT path FROM roots ORDER BY path")]
        roots = sorted({os.path.abspath(it) for it in roots})
        own = os.path.abspath(os.fsencode(self.wanted.database))
        left_out = frozenset(own + os.fsencode(it) for it in BESIDE)
        Merge(self.connection, self.places, roots, everything).run(walk(roots, left_out))
        about = (("hash", says.FUNCTION), ("program", version_of(self.wanted.way.program)))
        self.connection.executemany("INSERT OR REPLACE INTO about VALUES (?, ?)", about)

    def _ask(self, number: int) -> int:
        """Asks what waits; how many were asked. Whatever ends it, what was answered until then is kept."""
        run = self.connection.execute
        progress = Progress(sys.stderr, self.store.count_waiting()[0], self.wanted.is_silent)
        kept = time.monotonic()
        run("BEGIN IMMEDIATE")
        try:
            for answer in self.wanted.engine.answers(self.store.tasks(), self.wanted.way):
                self.store.put(answer)
                progress.step()
                if time.monotonic() - kept > COMMIT_SECONDS:
                    self._keep(number, progress.done)
                    run("BEGIN IMMEDIATE")
                    kept = time.monotonic()
        finally:
            self._keep(number, progress.done)
            progress.end()
        return progress.done

    def _keep(self, number: int, asked: int) -> None:
        self.connection.execute("UPDATE scans SET asked = ? WHERE number = ?", (asked, number))
        self.connection.execute("COMMIT")

    def _end(self, number: int, asked: int, seconds: float) -> None:
        """Takes away what nobody has any more, and writes into the log that the scan has come to its end."""
        run = self.connection.execute
        run("BEGIN IMMEDIATE")
        self.store.clear_texts()
        run("UPDATE scans SET ended = ?, asked = ?, seconds = ? WHERE number = ?", (now(), asked, round(seconds, 3), number))
        run("COMMIT")
