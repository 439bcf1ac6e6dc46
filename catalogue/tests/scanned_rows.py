"""All rows of a catalogue but those of the log of scans, so that two catalogues can be compared row by row; also what the full-text index has."""

from __future__ import annotations

import sqlite3
import sys
from pathlib import Path

TABLES = {
    "about": "name",
    "roots": "path",
    "files": "id",
    "faults": "file, number",
    "volumes": "file",
    "findings": "volume, number",
    "notes": "volume, kind",
    "data_sets": "volume, number",
    "members": "volume, data_set, number",
    "texts": "id",
}
Rows = dict[str, list[tuple[object, ...]]]


def rows_of(database: str | Path) -> Rows:
    """The rows of each table in their order, and each word of the index with its text and its place there."""
    connection = sqlite3.connect(f"file:{database}?mode=ro", uri=True)
    try:
        rows: Rows = {name: connection.execute(f"SELECT * FROM {name} ORDER BY {order}").fetchall() for name, order in TABLES.items()}
        connection.execute("CREATE VIRTUAL TABLE temp.terms USING fts5vocab(main, words, instance)")
        rows["words"] = connection.execute("SELECT term, doc, col, offset FROM terms ORDER BY 1, 2, 3, 4").fetchall()
        return rows
    finally:
        connection.close()


def differences(first: Rows, second: Rows) -> list[str]:
    """What differs of two catalogues, in words."""
    told = []
    for name, rows in first.items():
        others = second[name]
        if len(rows) != len(others):
            told.append(f"{name}: {len(rows)} rows and {len(others)}")
        told += [f"{name}: {it} and {other}" for it, other in zip(rows, others) if it != other][:3]
    return told


def main() -> int:
    """Compares two catalogues: rows.py FIRST SECOND"""
    if len(sys.argv) != 3:
        sys.exit(main.__doc__)
    first, second = map(rows_of, sys.argv[1:])
    told = differences(first, second)
    print("\n".join(told) or f"the same, {sum(map(len, first.values()))} rows")
    return 1 if told else 0


if __name__ == "__main__":
    sys.exit(main())
