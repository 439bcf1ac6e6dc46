"""What was found is taken out of the packs: each to a file of a folder, by `dasd extract`."""

from __future__ import annotations

import os
import shutil
import sqlite3
from collections.abc import Iterable, Iterator
from dataclasses import dataclass
from itertools import groupby

from .images import BadPacking
from .names import Places
from .placing import placed
from .program import Fault, Object, Volume, Way
from .queries import Place, described
from .says import Hashes

ALL = "all"


@dataclass(frozen=True)
class Taking:
    """Where what is taken goes, how volumes are asked, and whether as lines of text."""

    folder: str
    places: Places
    way: Way
    is_text: bool


def take(connection: sqlite3.Connection, found: Iterable[Place], taking: Taking) -> Iterator[Object]:
    """Takes out what is at these places, volume by volume; of each what it is, and `file`, where it was put, or `fault`, why it was not. A data
    set with members is all of its members. A file that is there stays."""
    wanted = sorted({it for place in found for it in taken_at(connection, place)}, key=lambda it: (it.volume, it.data_set or 0, it.member or 0))
    for volume, places in groupby(wanted, key=lambda it: it.volume):
        told = [described(connection, it) for it in places]
        yield from take_of_volume(connection, volume, told, taking)


def taken_at(connection: sqlite3.Connection, place: Place) -> list[Place]:
    """The data sets without members and the members at a place."""
    if place.member is not None:
        return [place]
    rows = connection.execute(
        """SELECT volume, number, NULL FROM data_sets WHERE volume = ?1 AND (?2 IS NULL OR number = ?2) AND organisation NOT GLOB 'PO*'
        AND said IS NOT NULL UNION ALL SELECT volume, data_set, number FROM members WHERE volume = ?1 AND (?2 IS NULL OR data_set = ?2)""",
        (place.volume, place.data_set),
    )
    return [Place(*row) for row in rows]


def take_of_volume(connection: sqlite3.Connection, volume: int, told: list[Object], taking: Taking) -> Iterator[Object]:
    """Takes these out of one volume."""
    rows = connection.execute("SELECT path FROM files WHERE id = ?1 OR (of = ?1 AND state = 'part') ORDER BY part", (volume,))
    paths = [taking.places.found(it["path"]) for it in rows]
    try:
        with placed(paths, taking.way) as held:
            yield from take_of_files(held, told, taking)
    except (OSError, BadPacking) as why:
        yield from ({**it, "fault": str(why)} for it in told)


def take_of_files(volume: Volume, told: list[Object], taking: Taking) -> Iterator[Object]:
    """Takes these out of a volume whose files have their places."""
    hashes, fault = Hashes(), ""
    try:
        unload_all(volume, taking, hashes)
    except (OSError, Fault) as why:
        fault = str(why)
    for it in told:
        source = os.path.join(volume.folder, os.fsencode(ALL), os.fsencode(it["file_name"]))
        if not os.path.exists(source):
            yield {**it, "fault": fault or "the pack has it no more"}
        elif hashes.files.get(it["file_name"], b"").hex() != it["hash"]:
            yield {**it, "fault": "the pack says something else since it was scanned"}
        else:
            yield {**it, **put_file(it, source, taking)}


def unload_all(volume: Volume, taking: Taking, hashes: Hashes) -> None:
    """Unloads all of a volume into its folder, and takes the hashes of what it says now."""
    os.mkdir(os.path.join(volume.folder, os.fsencode(ALL)))
    hashes.ask(volume)
    for _ in volume.ask("extract", "--all", ALL, *(["--text"] if taking.is_text else [])):
        pass


def put_file(it: Object, source: bytes, taking: Taking) -> Object:
    """Puts what was unloaded where it belongs: a folder for its volume, by its number, and the name that `dasd` gives it."""
    target = os.path.join(taking.folder, str(it["volume"]), it["file_name"])
    try:
        os.makedirs(os.path.dirname(target), exist_ok=True)
        with open(source, "rb") as held, open(target, "xb") as out:
            shutil.copyfileobj(held, out)
    except FileExistsError:
        return {"fault": f"{target} is there"}
    except OSError as why:
        return {"fault": str(why)}
    return {"file": target}
