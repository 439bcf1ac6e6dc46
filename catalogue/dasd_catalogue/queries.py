"""What is asked of a catalogue: where a name stands, which packs are broken, what are copies, where a word stands.

Each answer is an object of plain values, which `--json` prints as it is. A path is as the catalogue shows it (docs/CATALOGUE.md); where that is not
its very bytes, `path_bytes` has them in hexadecimal.
"""

from __future__ import annotations

import sqlite3
import zlib
from collections.abc import Iterator
from dataclasses import dataclass

from .program import Object

#: So many lines of a text are reported in which a word stands.
LINES = 3
NO_LABEL = "(no label)"
#: What copies are looked for among: tables, by the kind that is reported.
KINDS = ("volume", "data set", "member")
SAME = {
    "volume": "SELECT said, file AS volume, NULL AS data_set, NULL AS member, slot_size * cylinders * heads AS size, serial AS name FROM volumes",
    "data set": "SELECT said, volume, number AS data_set, NULL AS member, size, name FROM data_sets",
    "member": "SELECT said, volume, data_set, number AS member, size, name FROM members",
}


def path_of(row: sqlite3.Row) -> Object:
    """The path of a row's file."""
    exact: bytes = row["path"]
    text: str = row["shown"]
    return {"path": text} if text.encode() == exact else {"path": text, "path_bytes": exact.hex()}


@dataclass(frozen=True)
class Place:
    """Where something stands: the number of its volume, of its data set and of its member, as far as it has them."""

    volume: int
    data_set: int | None = None
    member: int | None = None


class NothingThere(LookupError):
    """Nothing is at a place."""


def row_at(connection: sqlite3.Connection, place: Place) -> sqlite3.Row:
    """The row of what is at a place."""
    if place.data_set is None:
        query, key = "SELECT * FROM volumes JOIN files ON id = file WHERE file = ?", [place.volume]
    elif place.member is None:
        query, key = "SELECT * FROM data_sets WHERE volume = ? AND number = ?", [place.volume, place.data_set]
    else:
        query, key = "SELECT * FROM members WHERE volume = ? AND data_set = ? AND number = ?", [place.volume, place.data_set, place.member]
    row: sqlite3.Row | None = connection.execute(query, key).fetchone()
    if row is None:
        raise NothingThere
    return row


def described(connection: sqlite3.Connection, place: Place) -> Object:
    """What is at a place."""
    volume = row_at(connection, Place(place.volume))
    found: Object = {**path_of(volume), "volume": place.volume, "serial": volume["serial"]}
    if place.data_set is None:
        return {**found, "model": volume["model"], "cylinders": volume["cylinders"], "errors": volume["errors"], "warnings": volume["warnings"]}
    held = row_at(connection, Place(place.volume, place.data_set))
    found.update(data_set=held["name"], organisation=held["organisation"], format=held["format"])
    if place.member is not None:
        held = row_at(connection, place)
        found.update(member=held["name"])
    whole = None if held["whole"] is None else bool(held["whole"])
    return {**found, "bytes": held["size"], "hash": held["said"].hex() if held["said"] else None, "whole": whole, "file_name": held["file_name"]}


def label_of(connection: sqlite3.Connection, place: Place) -> str:
    """The path of a place's file, and the name of what is there, for people."""
    row = connection.execute(
        """SELECT shown, serial, data_sets.name, members.name FROM files JOIN volumes ON file = id
        LEFT JOIN data_sets ON data_sets.volume = file AND data_sets.number = ?
        LEFT JOIN members ON members.volume = file AND data_set = data_sets.number AND members.number = ? WHERE file = ?""",
        (place.data_set, place.member, place.volume),
    ).fetchone()
    if row is None:
        raise NothingThere
    name = row[1] or NO_LABEL if row[2] is None else row[2] if row[3] is None else f"{row[2]}({row[3]})"
    return f"{row[0]}: {name}"


def name_of(found: Object) -> str:
    """What is called so for people: a serial number, a data set, or a member in parentheses after its data set."""
    if "member" in found:
        return f"{found['data_set']}({found['member']})"
    return str(found.get("data_set", found["serial"] or NO_LABEL))


def pattern_of(text: str) -> str:
    """The pattern of SQLite for one with `*` and `?`, in capitals; a bracket stands for itself."""
    return text.upper().replace("[", "[[]")


def places_of_name(connection: sqlite3.Connection, name: str) -> Iterator[Place]:
    """Where a name stands: of volumes, data sets and members; or, as `NAME(MEMBER)`, of members of such data sets."""
    run = connection.execute
    if name.endswith(")") and "(" in name:
        data_set, _, member = name[:-1].partition("(")
        rows = run(
            """SELECT members.volume, members.data_set, members.number FROM members JOIN data_sets
            ON data_sets.volume = members.volume AND data_sets.number = members.data_set
            WHERE members.name GLOB ? AND data_sets.name GLOB ? ORDER BY 1, 2, 3""",
            (pattern_of(member), pattern_of(data_set)),
        )
        yield from (Place(*row) for row in rows)
        return
    pattern = pattern_of(name)
    yield from (Place(row[0]) for row in run("SELECT file FROM volumes WHERE serial GLOB ? ORDER BY 1", (pattern,)))
    yield from (Place(*row) for row in run("SELECT volume, number FROM data_sets WHERE name GLOB ? ORDER BY 1, 2", (pattern,)))
    rows = run("SELECT volume, data_set, number FROM members WHERE name GLOB ? ORDER BY 1, 2, 3", (pattern,))
    yield from (Place(*row) for row in rows)


def find(connection: sqlite3.Connection, name: str) -> Iterator[Object]:
    """What has a name."""
    return (described(connection, place) for place in places_of_name(connection, name))


def broken(connection: sqlite3.Connection, has_warnings: bool = False, most: int = -1, first: int = 0) -> Iterator[Object]:
    """What could not be had of a file, and what is wrong with a volume: errors, and warnings too where they are asked for."""
    severities = "('error', 'warning')" if has_warnings else "('error')"
    rows = connection.execute(
        f"""SELECT path, shown, volumes.file AS volume, 'fault' AS severity, stage AS source, NULL AS kind, NULL AS part, NULL AS cylinder,
            NULL AS head, NULL AS record, NULL AS name, text, number, 0 AS rank FROM faults JOIN files ON id = faults.file
            LEFT JOIN volumes ON volumes.file = id
        UNION ALL SELECT path, shown, volume, severity, source, kind, findings.part, cylinder, head, record, name, text, number, 1
            FROM findings JOIN files ON id = volume WHERE severity IN {severities} ORDER BY path, rank, number
        LIMIT ? OFFSET ?""",
        (most, first),
    )
    names = ("severity", "source", "volume", "kind", "part", "cylinder", "head", "record", "name", "text")
    for row in rows:
        yield {**path_of(row), **{it: row[it] for it in names if row[it] is not None}}


@dataclass(frozen=True)
class Copies:
    """Places that say the same: what they are, the hash, their size in bytes, how many there are, and under how many names."""

    kind: str
    said: bytes
    size: int
    count: int
    names: int

    def places(self, connection: sqlite3.Connection, most: int = -1) -> list[Place]:
        """The places, or so many of them."""
        query = f"SELECT * FROM ({SAME[self.kind]}) WHERE said = ? ORDER BY volume, data_set, member LIMIT ?"
        return [Place(row["volume"], row["data_set"], row["member"]) for row in connection.execute(query, (self.said, most))]


def groups(connection: sqlite3.Connection, kind: str, has_other_names: bool = False, most: int = -1, first: int = 0) -> list[Copies]:
    """Groups of copies of a kind, those first that take most room; or those alone that stand under more than one name. What is empty is left out."""
    rows = connection.execute(
        f"""SELECT said, MAX(size) AS size, COUNT(*) AS count, COUNT(DISTINCT name) AS names FROM ({SAME[kind]}) WHERE said IS NOT NULL AND size > 0
        GROUP BY said HAVING count > 1 AND names > ? ORDER BY (count - 1) * MAX(size) DESC, said LIMIT ? OFFSET ?""",
        (1 if has_other_names else -1, most, first),
    )
    return [Copies(kind, row["said"], row["size"], row["count"], row["names"]) for row in rows]


def copies(connection: sqlite3.Connection, kinds: list[str], has_other_names: bool, most: int) -> Iterator[Object]:
    """Groups of copies with their places."""
    for kind in kinds:
        for group in groups(connection, kind, has_other_names, most):
            places = [described(connection, it) for it in group.places(connection)]
            yield {"kind": kind, "hash": group.said.hex(), "bytes": group.size, "count": group.count, "names": group.names, "places": places}


def match_of(words: list[str]) -> str:
    """The expression of the full-text index for words that must all be there, each as it stands; one that ends with `*` begins so."""
    parts = []
    for word in words:
        body = word.rstrip("*")
        parts.append('"' + body.replace('"', '""').replace("\0", " ") + '"' + ("*" if body != word else ""))
    return " AND ".join(parts)


def text_of(connection: sqlite3.Connection, number: int) -> str:
    """A text by its number."""
    row = connection.execute("SELECT packed FROM texts WHERE id = ?", (number,)).fetchone()
    return zlib.decompress(row[0]).decode("utf-8") if row else ""


def places_of_text(connection: sqlite3.Connection, number: int) -> list[Place]:
    """Where a text stands."""
    rows = connection.execute(
        """SELECT volume, number, NULL FROM data_sets WHERE text = ? UNION ALL SELECT volume, data_set, number FROM members WHERE text = ?
        ORDER BY 1, 2, 3""",
        (number, number),
    )
    return [Place(*row) for row in rows]


def texts_with(connection: sqlite3.Connection, words: list[str], most: int = -1) -> list[int]:
    """The numbers of the texts that have all words, those first that have most of them."""
    expression = match_of(words)
    if not any(it.isalnum() or it in "@#$_" for it in expression):
        return []
    rows = connection.execute("SELECT rowid FROM words WHERE words MATCH ? ORDER BY rank, rowid LIMIT ?", (expression, most))
    return [row[0] for row in rows]


def lines_with(text: str, words: list[str], most: int = LINES) -> list[tuple[int, str]]:
    """The first lines of a text in which one of the words stands, each with its number; blanks between words are as many as there are."""
    wanted = [it for it in (" ".join(word.rstrip("*").casefold().split()) for word in words) if it]
    found = []
    for number, line in enumerate(text.splitlines(), 1):
        folded = " ".join(line.casefold().split())
        if any(it in folded for it in wanted):
            found.append((number, line))
            if len(found) == most:
                break
    return found


def text(connection: sqlite3.Connection, words: list[str], most: int) -> Iterator[Object]:
    """Where texts stand that have all words, each with the first lines that have one of them."""
    for number in texts_with(connection, words, most):
        lines = lines_with(text_of(connection, number), words)
        for place in places_of_text(connection, number):
            yield {**described(connection, place), "lines": [{"number": at, "text": line} for at, line in lines]}


def summary(connection: sqlite3.Connection) -> Object:
    """How much there is of what."""
    run = connection.execute
    counts = {row[0]: row[1] for row in run("SELECT state, COUNT(*) FROM files GROUP BY state ORDER BY state")}
    numbers = {name: run(f"SELECT COUNT(*) FROM {name}").fetchone()[0] for name in ("volumes", "data_sets", "members", "texts", "faults")}
    errors = run("SELECT COUNT(*) FROM volumes WHERE errors > 0").fetchone()[0]
    return {"files": counts, **numbers, "volumes_with_errors": errors}
