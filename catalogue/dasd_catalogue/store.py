"""Answers are written to the catalogue: all rows of a volume in the place of those that it had, and each text once."""

from __future__ import annotations

import json
import sqlite3
from collections.abc import Iterator

from .answers import Answer, Set, Task, Text, Unloaded
from .merge import forget
from .names import Places, plain_name, split_name
from .program import Object

#: So many files are looked up at a time.
PAGE = 1000
VOLUME = (
    "serial", "owner", "contents", "free_tracks", "free_blocks", "model", "cylinders", "heads", "slot_size", "errors", "warnings", "notes",
)  # fmt: skip
SET = ("organisation", "format", "record_length", "block_length", "key_length", "tracks", "used", "created", "expires")
#: An id is made of so many of the first bytes of a digest, without its sign.
ID_BYTES = 8
MOST_ID = 1 << 63


def marks(count: int) -> str:
    """So many places for values."""
    return ", ".join("?" * count)


class Store:
    """The catalogue of one scan."""

    def __init__(self, connection: sqlite3.Connection, places: Places) -> None:
        self.connection, self.places = connection, places

    def count_waiting(self) -> tuple[int, int]:
        """How many files wait to be asked, and how many are known in all."""
        row = self.connection.execute("SELECT COUNT(*) FILTER (WHERE state = 'waiting'), COUNT(*) FROM files").fetchone()
        return row[0], row[1]

    def tasks(self) -> Iterator[Task]:
        """What waits to be asked, in the order of the numbers of files."""
        last = 0
        while True:
            rows = self.connection.execute(
                "SELECT id, path, named, digest FROM files WHERE state = 'waiting' AND id > ? ORDER BY id LIMIT ?", (last, PAGE)
            ).fetchall()
            if not rows:
                return
            for row in rows:
                yield self._task(row)
            last = rows[-1]["id"]

    def _task(self, row: sqlite3.Row) -> Task:
        parts = self.connection.execute("SELECT id, path FROM files WHERE of = ? AND state = 'part' ORDER BY part", (row["id"],)).fetchall()
        files = [row, *parts]
        paths = tuple(self.places.found(it["path"]) for it in files)
        return Task(tuple(it["id"] for it in files), paths, bool(row["named"]), row["digest"] or b"")

    def put(self, answer: Answer) -> None:
        """Writes an answer."""
        for file, stamp in zip(answer.task.files, answer.stamps):
            self.connection.execute(
                "UPDATE files SET size = ?, modified = ?, digest = ?, packing = ? WHERE id = ?",
                (stamp.size, stamp.modified, stamp.digest, answer.packing, file),
            )
        if answer.state == "same":
            self._put_same(answer.task.volume)
            return
        file = answer.task.volume
        forget(self.connection, file)
        if not answer.stamps:
            self.connection.execute("UPDATE files SET size = NULL, modified = NULL, digest = NULL WHERE id = ?", (file,))
        self.connection.execute("UPDATE files SET state = ? WHERE id = ?", (answer.state, file))
        rows = [(file, number, stage, text) for number, (stage, text) in enumerate(answer.faults)]
        self.connection.executemany(f"INSERT INTO faults VALUES ({marks(4)})", rows)
        if answer.state == "volume":
            self._put_volume(file, answer)

    def _put_same(self, file: int) -> None:
        """A file whose bytes are what they were is in the state that it was in."""
        self.connection.execute(
            """UPDATE files SET state = CASE WHEN EXISTS (SELECT 1 FROM volumes WHERE file = id) THEN 'volume'
            WHEN EXISTS (SELECT 1 FROM faults WHERE file = id) THEN 'fault' ELSE 'other' END WHERE id = ?""",
            (file,),
        )

    def _put_volume(self, file: int, answer: Answer) -> None:
        told = {**answer.volume, "contents": json.dumps(answer.volume["contents"]) if "contents" in answer.volume else None}
        values = [told.get(it) for it in VOLUME]
        self.connection.execute(
            f"INSERT INTO volumes (file, {', '.join(VOLUME)}, said, tracks) VALUES ({marks(len(values) + 3)})",
            (file, *values, answer.said or None, answer.tracks or None),
        )
        rows = [self._finding(file, number, it.source, it.severity, it.told) for number, it in enumerate(answer.findings)]
        self.connection.executemany(f"INSERT INTO findings VALUES ({marks(11)})", rows)
        self.connection.executemany("INSERT INTO notes VALUES (?, ?, ?)", [(file, kind, count) for kind, count in sorted(answer.counts.items())])
        texts = {digest: self._text_id(text) for digest, text in sorted(answer.texts.items())}
        for number, found in enumerate(answer.sets):
            self._put_set(file, number, found, texts)

    @staticmethod
    def _finding(file: int, number: int, source: str, severity: str, told: Object) -> tuple[object, ...]:
        places = (told.get("file"), told.get("cylinder"), told.get("head"), told.get("record"), told.get("name"))
        return (file, number, source, severity, told.get("kind"), *places, told["text"])

    def _put_set(self, file: int, number: int, found: Set, texts: dict[bytes, int]) -> None:
        told = found.told
        own = self._unloaded(found.own, texts) if found.own else (None, None, None, None)
        types = json.dumps(told["extent_types"]) if "extent_types" in told else None
        values = (*(told[it] for it in SET), json.dumps(told["extents"]), types, *own)
        self.connection.execute(
            f"INSERT INTO data_sets VALUES ({marks(19)})", (file, number, told["name"], found.file_name or None, *values)
        )
        rows = []
        for place, member in enumerate(found.members):
            name = plain_name(split_name(member.file_name)[1])
            rows.append((file, number, place, name, member.file_name, *self._unloaded(member, texts)))
        self.connection.executemany(f"INSERT INTO members VALUES ({marks(9)})", rows)

    @staticmethod
    def _unloaded(it: Unloaded, texts: dict[bytes, int]) -> tuple[object, ...]:
        return (it.size, it.said, texts[it.text] if it.text else None, it.is_whole)

    def _text_id(self, text: Text) -> int:
        """The number of a text, which is made of its digest, so that it is the same whichever volume is answered first."""
        run = self.connection.execute
        found = run("SELECT id FROM texts WHERE digest = ?", (text.digest,)).fetchone()
        if found:
            return int(found[0])
        number = int.from_bytes(text.digest[:ID_BYTES], "big") >> 1
        while run("SELECT 1 FROM texts WHERE id = ?", (number,)).fetchone():
            number = (number + 1) % MOST_ID
        run("INSERT INTO texts VALUES (?, ?, ?, ?)", (number, text.digest, text.length, text.packed))
        run("INSERT INTO words (rowid, text) VALUES (?, ?)", (number, text.unpacked()))
        return number

    def clear_texts(self) -> None:
        """Takes away the texts that no data set and no member has any more."""
        used = "SELECT text FROM data_sets WHERE text IS NOT NULL UNION SELECT text FROM members WHERE text IS NOT NULL"
        for row in self.connection.execute(f"SELECT id, digest, length, packed FROM texts WHERE id NOT IN ({used})").fetchall():
            text = Text(row["digest"], row["length"], row["packed"]).unpacked()
            self.connection.execute("INSERT INTO words (words, rowid, text) VALUES ('delete', ?, ?)", (row["id"], text))
            self.connection.execute("DELETE FROM texts WHERE id = ?", (row["id"],))
