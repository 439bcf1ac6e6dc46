"""What a walk met is merged with what the catalogue has: new and changed files wait to be asked, those that are no more there are gone.

Files are numbered in the order of their paths as they are first met, so that it doesn't matter in which order they are answered. A file that has
several names, by links of either kind, is asked once, by that of its names that is no symbolic link and stands first. A file at a new path that holds
the bytes of one that is gone is that file: it keeps its number, and what was answered.
"""

from __future__ import annotations

import os
import sqlite3
from collections.abc import Iterable

from .names import Places, shown
from .says import file_hash
from .walk import Met

SEEN = """CREATE TEMP TABLE seen (
    path BLOB PRIMARY KEY, kind TEXT, text TEXT, size INTEGER, modified INTEGER, device TEXT, inode TEXT, is_link INTEGER, named INTEGER, first BLOB,
    part INTEGER, owner BLOB) WITHOUT ROWID"""
OWNERS = """UPDATE seen SET owner = owners.owner FROM (
    SELECT path, FIRST_VALUE(path) OVER (PARTITION BY device, inode ORDER BY is_link, path) AS owner FROM seen WHERE kind = 'file') AS owners
    WHERE seen.path = owners.path AND owners.owner <> seen.path"""
#: Tables of what is known of a volume, with the column that has its number.
OF_VOLUMES = (("findings", "volume"), ("notes", "volume"), ("members", "volume"), ("data_sets", "volume"), ("volumes", "file"), ("faults", "file"))
#: Files that are asked again where nothing of them has changed: what could not be had of them was not their own fault.
AGAIN = "SELECT file FROM faults WHERE stage IN ('here', 'ask')"


def forget(connection: sqlite3.Connection, file: int) -> None:
    """Takes away what is known of the volume of a file."""
    for table, column in OF_VOLUMES:
        connection.execute(f"DELETE FROM {table} WHERE {column} = ?", (file,))


def digest_at(path: bytes) -> bytes:
    """SHA-256 of the file of a path; nothing where it can't be read, which is reported when it is asked."""
    try:
        return file_hash(path)
    except OSError:
        return b""


class Merge:
    """A merge of what was met at and below these paths."""

    def __init__(self, connection: sqlite3.Connection, places: Places, roots: list[bytes], everything: bool) -> None:
        self.connection, self.places, self.everything = connection, places, everything
        self.roots = [os.path.abspath(it) for it in roots]

    def run(self, names: Iterable[Met]) -> None:
        """Takes what was met, and leaves the tables as they must be."""
        run = self.connection.execute
        run("DROP TABLE IF EXISTS temp.seen")
        run(SEEN)
        run("BEGIN IMMEDIATE")
        self.connection.executemany("INSERT OR REPLACE INTO seen VALUES (?, ?, ?, ?, ?, ?, ?, ?, ?, ?, ?, NULL)", map(self._row, names))
        run(OWNERS)
        self._put_moved()
        self._put_files()
        self._put_gone()
        self.connection.executemany("INSERT OR IGNORE INTO roots VALUES (?)", [(self.places.kept(it),) for it in self.roots])
        run("COMMIT")
        run("DROP TABLE temp.seen")

    def _row(self, it: Met) -> tuple[object, ...]:
        first = self.places.kept(it.first) if it.first else b""
        numbers = (it.size, it.modified, str(it.device), str(it.inode), it.is_link, it.is_named)
        return (self.places.kept(it.path), it.kind, it.text, *numbers, first, it.part)

    def _put_moved(self) -> None:
        """Files that are at another path than before get it. Only where a file of its size is gone is a new one read. Of several that hold the same the
        first by their paths belong together."""
        run = self.connection.execute
        gone: dict[int, dict[bytes, list[int]]] = {}
        for row in run("SELECT id, path, state, size, digest FROM files WHERE digest NOTNULL AND path NOT IN (SELECT path FROM seen) ORDER BY path"):
            if row["state"] == "gone" or self._is_below(self.places.found(row["path"])):
                gone.setdefault(row["size"], {}).setdefault(row["digest"], []).append(row["id"])
        fresh = "SELECT * FROM seen WHERE kind = 'file' AND owner IS NULL AND path NOT IN (SELECT path FROM files) ORDER BY path"
        for row in run(fresh).fetchall() if gone else ():
            same = gone[row["size"]].get(digest_at(self.places.found(row["path"]))) if row["size"] in gone else None
            if same:
                change = "UPDATE files SET path = ?, shown = ?, modified = ? WHERE id = ?"
                run(change, (row["path"], shown(row["path"]), row["modified"], same.pop(0)))

    def _put_files(self) -> None:
        """New names get their numbers, and each name its state."""
        run = self.connection.execute
        fresh = run("SELECT path FROM seen WHERE path NOT IN (SELECT path FROM files) ORDER BY path").fetchall()
        rows = [(it["path"], shown(it["path"])) for it in fresh]
        self.connection.executemany("INSERT INTO files (path, shown, state) VALUES (?, ?, 'new')", rows)
        for row in run("SELECT seen.*, files.id FROM seen JOIN files USING (path) WHERE kind <> 'file' ORDER BY path").fetchall():
            self._put_no_file(row)
        self._put_links()
        self._put_parts()
        self._put_waiting()

    def _put_no_file(self, row: sqlite3.Row) -> None:
        """A name that is no file, or of which nothing can be had."""
        run = self.connection.execute
        forget(self.connection, row["id"])
        change = "UPDATE files SET state = ?, of = NULL, part = 1, named = 0, packing = '', size = NULL, modified = NULL, digest = NULL WHERE id = ?"
        run(change, (row["kind"], row["id"]))
        if row["text"]:
            run("INSERT INTO faults VALUES (?, 0, 'walk', ?)", (row["id"], row["text"]))

    def _put_links(self) -> None:
        """Further names of a file that has its own row."""
        links = """SELECT files.id, owners.id AS of FROM seen JOIN files USING (path) JOIN files AS owners ON owners.path = seen.owner
            WHERE seen.owner IS NOT NULL"""
        self._put_beside(links, "link", "1")

    def _put_parts(self) -> None:
        """Further files of an image. Where one has changed the image waits to be asked."""
        run = self.connection.execute
        parts = """SELECT files.id, firsts.id AS of, seen.part FROM seen JOIN files USING (path) JOIN files AS firsts ON firsts.path = seen.first
            WHERE seen.part > 1 AND seen.owner IS NULL"""
        other = "own.state <> 'part' OR own.of IS NOT parts.of OR own.size IS NOT seen.size OR own.modified IS NOT seen.modified"
        run(
            f"""UPDATE files SET state = 'waiting', digest = NULL WHERE id IN (SELECT parts.of FROM ({parts}) AS parts
            JOIN files AS own ON own.id = parts.id JOIN seen USING (path) WHERE {other})"""
        )
        run(
            """UPDATE files SET state = 'waiting', digest = NULL
            WHERE id IN (SELECT of FROM files WHERE state = 'part' AND path IN (SELECT path FROM seen WHERE part = 1))"""
        )
        self._put_beside(parts, "part", "parts.part")

    def _put_beside(self, rows: str, state: str, part: str) -> None:
        """Gives these files this state, beside the file that they belong to."""
        run = self.connection.execute
        for row in run(f"SELECT id FROM ({rows}) WHERE id IN (SELECT file FROM volumes UNION SELECT file FROM faults)").fetchall():
            forget(self.connection, row["id"])
        run(f"UPDATE files SET state = '{state}', of = parts.of, part = {part}, packing = '' FROM ({rows}) AS parts WHERE files.id = parts.id")

    def _put_waiting(self) -> None:
        """Files that are new, have changed, or must be asked again, wait."""
        run = self.connection.execute
        met = "SELECT path FROM seen WHERE kind = 'file' AND owner IS NULL AND part = 1"
        now = "(SELECT {} FROM seen WHERE seen.path = files.path)".format
        changed = f"size IS NOT {now('size')} OR modified IS NOT {now('modified')}"
        run(f"UPDATE files SET state = 'waiting' WHERE path IN ({met}) AND state IN ('volume', 'fault', 'other') AND ({changed})")
        other = f"state IN ('new', 'gone', 'link', 'part') OR id IN ({AGAIN}) OR (state = 'other' AND {now('named')} > named)"
        run(f"UPDATE files SET state = 'waiting', digest = NULL WHERE path IN ({met}) AND (? OR {other})", (self.everything,))
        run(f"UPDATE files SET of = NULL, part = 1, named = MAX(named, {now('named')}) WHERE path IN ({met})")

    def _put_gone(self) -> None:
        """What was at or below the paths that were walked, and was not met. An image of which a part is gone waits to be asked."""
        run = self.connection.execute
        for row in run("SELECT id, path, of, state FROM files WHERE state <> 'gone' AND path NOT IN (SELECT path FROM seen)").fetchall():
            if not self._is_below(self.places.found(row["path"])):
                continue
            if row["state"] == "part":
                run("UPDATE files SET state = 'waiting', digest = NULL WHERE id = ? AND state <> 'gone'", (row["of"],))
            forget(self.connection, row["id"])
            run("UPDATE files SET state = 'gone', of = NULL, part = 1 WHERE id = ?", (row["id"],))
            run("INSERT INTO faults VALUES (?, 0, 'walk', 'it is no more there')", (row["id"],))

    def _is_below(self, path: bytes) -> bool:
        """Whether a path is one of those that were walked, or below one."""
        return any(path == it or path.startswith(it.rstrip(b"/") + b"/") for it in self.roots)
