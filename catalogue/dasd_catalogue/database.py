"""The file of a catalogue: made, opened to be written by one scan at a time, or to be read."""

from __future__ import annotations

import fcntl
import os
import sqlite3
from collections.abc import Iterator
from contextlib import contextmanager
from importlib import resources
from pathlib import Path

from . import says

SCHEMA = 2
#: 'DASD' in ASCII, in the header of the file.
APPLICATION = 0x44415344
PATIENCE = 60.0


class BadCatalogue(Exception):
    """A file is no catalogue that this version reads, or is held by another scan; the text says which."""


def connect(path: str, mode: str) -> sqlite3.Connection:
    """A connection to the database of a file, which is made where the mode is `rwc`."""
    uri = Path(path).absolute().as_uri()
    connection = sqlite3.connect(f"{uri}?mode={mode}", uri=True, timeout=PATIENCE, isolation_level=None, check_same_thread=False)
    connection.row_factory = sqlite3.Row
    return connection


def examine(connection: sqlite3.Connection, path: str) -> None:
    """Looks whether this is a catalogue of this version."""
    try:
        application = connection.execute("PRAGMA application_id").fetchone()[0]
        version = connection.execute("PRAGMA user_version").fetchone()[0]
    except sqlite3.DatabaseError as fault:
        raise BadCatalogue(f"{path} is no catalogue: {fault}") from fault
    if application != APPLICATION:
        raise BadCatalogue(f"{path} is no catalogue")
    if version != SCHEMA:
        raise BadCatalogue(f"{path} has schema {version}, and this program reads {SCHEMA}")


def open_to_read(path: str) -> sqlite3.Connection:
    """The catalogue of a file, which can't be changed through this connection."""
    if not os.path.exists(path):
        raise BadCatalogue(f"there is no {path}; dasd-catalogue scan makes it")
    connection = connect(path, "ro")
    examine(connection, path)
    connection.execute("PRAGMA query_only = 1")
    return connection


@contextmanager
def open_to_write(path: str) -> Iterator[sqlite3.Connection]:
    """The catalogue of a file for one scan, made where there is none. Another scan is refused as long as this one has it."""
    held = os.open(path, os.O_RDWR | os.O_CREAT | os.O_CLOEXEC, 0o644)
    try:
        try:
            fcntl.flock(held, fcntl.LOCK_EX | fcntl.LOCK_NB)
        except BlockingIOError:
            raise BadCatalogue(f"another scan has {path}") from None
        connection = connect(path, "rwc")
        try:
            if os.fstat(held).st_size == 0:
                make(connection)
            examine(connection, path)
            yield connection
        finally:
            connection.close()
    finally:
        os.close(held)


def make(connection: sqlite3.Connection) -> None:
    """Makes the tables, all or none."""
    schema = resources.files(__package__).joinpath("schema.sql").read_text(encoding="utf-8")
    numbers = f"PRAGMA application_id = {APPLICATION}; PRAGMA user_version = {SCHEMA};"
    connection.executescript(f"PRAGMA encoding = 'UTF-8'; BEGIN; {numbers} {schema} COMMIT;")
    connection.execute("INSERT INTO about VALUES ('schema', ?), ('hash', ?), ('program', '')", (str(SCHEMA), says.FUNCTION))


def told(connection: sqlite3.Connection, name: str) -> str:
    """What the table `about` has by this name."""
    row = connection.execute("SELECT value FROM about WHERE name = ?", (name,)).fetchone()
    return str(row[0]) if row else ""
