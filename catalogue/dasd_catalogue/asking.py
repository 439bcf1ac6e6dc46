"""One volume is asked once: its findings, its tracks, its contents, and all of its data sets and members with their hashes and texts.

It is only read. Objects of a kind that isn't known here are left alone. Whatever goes wrong is a fault in the answer, so no volume is lost, and no volume
stops the others.
"""

from __future__ import annotations

import json
import os
import zlib
from collections import Counter
from collections.abc import Callable
from functools import partial

from . import says
from .answers import Answer, Finding, Set, Stamp, Task
from .images import MAGIC, BadPacking, first_bytes, is_called_image, packing_at
from .placing import placed
from .program import Fault, Volume, Way
from .unloading import unload

#: Faults of this stage are of the machine at that time, and not of the volume: it is asked again by the next scan.
HERE = "here"
#: Asks a part of what there is to ask.
Part = Callable[[Answer, Volume], None]


def ask(task: Task, way: Way) -> Answer:
    """Asks the volume of a task."""
    answer = Answer(task)
    try:
        before = [stamp_of(it) for it in task.paths]
        _ask_files(answer, way)
        answer.stamps = [Stamp(size, modified, says.file_hash(path)) for path, (size, modified) in zip(task.paths, before)]
        if before != [stamp_of(it) for it in task.paths]:
            answer = Answer(task, "waiting", faults=[(HERE, "it changed while it was read")])
    except OSError as fault:
        answer = Answer(task, faults=[(HERE, os.strerror(fault.errno) if fault.errno else str(fault))])
    except Exception as fault:  # pylint: disable=broad-exception-caught
        answer = Answer(task, faults=[(HERE, f"{type(fault).__name__}: {fault}")])
    return answer


def stamp_of(path: bytes) -> tuple[int, int]:
    """A file's size and the time of its last change."""
    found = os.stat(path)
    return found.st_size, found.st_mtime_ns


def _ask_files(answer: Answer, way: Way) -> None:
    """Asks the files of a task, if they are an image and not what they were."""
    task = answer.task
    if task.digest and len(task.paths) == 1 and says.file_hash(task.paths[0]) == task.digest:
        answer.state = "same"
        return
    is_image = first_bytes(task.paths[0], len(MAGIC)) == MAGIC
    if not (is_image or task.is_named or is_called_image(task.paths[0])):
        answer.state = "other"
        return
    answer.packing = packing_at(task.paths[0])
    try:
        with placed(task.paths, way) as volume:
            ask_volume(answer, volume)
    except BadPacking as fault:
        answer.faults.append(("unpack", str(fault)))


def ask_volume(answer: Answer, volume: Volume) -> None:
    """Asks all that there is to ask. Where the program can't check it, it can't be read at all."""
    try:
        ask_findings(answer, volume)
    except Fault as fault:
        put_fault(answer, "check", fault)
        if not answer.volume:
            return
    answer.state = "volume"
    hashes = says.Hashes()
    parts: tuple[tuple[str, Part], ...] = (
        ("list", ask_tracks),
        ("hash", partial(ask_hash, hashes=hashes)),
        ("vtoc", ask_contents),
        ("extract", partial(unload, hashes=hashes)),
    )
    for name, part in parts:
        try:
            part(answer, volume)
        except Fault as fault:
            put_fault(answer, name, fault)


def put_fault(answer: Answer, command: str, fault: Fault) -> None:
    """Tells that a command came to no end. Where that is not the volume's own fault, it is asked again by the next scan."""
    if fault.is_of_volume:
        answer.faults.append((command, str(fault)))
    else:
        answer.faults.append((HERE, f"{command}: {fault}"))


def ask_findings(answer: Answer, volume: Volume) -> None:
    """What is wrong with its tracks. Notes are counted by their kind, since each data set and each member has one for its end of file."""
    notes: Counter[str] = Counter()
    for it in volume.ask("check", "--strict"):
        if "errors" in it:
            answer.volume.update({name: it[name] for name in ("errors", "warnings", "notes")})
        elif it.get("severity") == "note":
            notes[it["kind"]] += 1
        elif "severity" in it:
            answer.findings.append(Finding("check", it["severity"], it))
    answer.counts = dict(notes)


def ask_tracks(answer: Answer, volume: Volume) -> None:
    """Its geometry, and of each track the bytes that are used and the number of records."""
    tracks: list[list[int] | None] = []
    for it in volume.ask("list"):
        if "model" in it:
            answer.volume.update({name: it[name] for name in ("model", "cylinders", "heads", "slot_size")})
        elif "unreadable" in it:
            tracks.append(None)
        elif "records" in it:
            tracks.append([it["used"], len(it["records"])])
    answer.tracks = zlib.compress(json.dumps(tracks, separators=(",", ":")).encode())


def ask_hash(answer: Answer, volume: Volume, hashes: says.Hashes) -> None:
    """The hashes of what it says, and of what its data sets and members say."""
    try:
        hashes.ask(volume)
    finally:
        answer.said = hashes.volume


def ask_contents(answer: Answer, volume: Volume) -> None:
    """Its label, its data sets, and what is wrong with its table of contents."""
    for it in volume.ask("vtoc"):
        if "serial" in it:
            answer.volume.update({name: it[name] for name in ("serial", "owner", "contents", "free_tracks", "free_blocks") if name in it})
        elif "organisation" in it:
            answer.sets.append(Set(it))
        elif "kind" in it:
            answer.findings.append(Finding("vtoc", "error", it))
