"""All data sets and members of a volume, unloaded by `dasd extract --all`: as blocks, which are counted, and as lines of text."""

from __future__ import annotations

import os

from .answers import Answer, Finding, Set, Text, Unloaded
from .names import fits, split_name
from .program import Fault, Object, Volume
from .says import Hashes

#: A text of more bytes is not kept, and that is reported as a fault.
MOST_TEXT = 16 << 20
#: Of so many characters one may be a control character; what has more is no text.
CHARACTERS_A_CONTROL = 50
CONTROL = "\ufffd"
BLOCKS, TEXTS = "blocks", "texts"
#: What the program calls the table of contents, whose findings `dasd vtoc` has told already.
TABLE = "volume table of contents"
#: Organisations whose data sets have no end of file of their own.
ENDLESS = ("DA", "IS")
PARTITIONED = "PO"


def unload(answer: Answer, volume: Volume, hashes: Hashes) -> None:
    """Unloads all, to the answer's sets and texts, each with its hash. Where `dasd vtoc` and `dasd hash` have come to an end and found no data set, there is
    nothing to unload."""
    if not (answer.sets or hashes.files or answer.faults):
        return
    for folder in (BLOCKS, TEXTS):
        os.mkdir(os.path.join(volume.folder, os.fsencode(folder)))
    blocks = Unload(answer, volume, hashes.files)
    try:
        for it in volume.ask("extract", "--all", BLOCKS):
            blocks.take(it)
    finally:
        texts = unload_texts(answer, volume)
    for file_name, unloaded in blocks.unloaded.items():
        unloaded.text = texts.get(file_name)
    for found in answer.sets:
        if found.told["organisation"].startswith(PARTITIONED):
            found.own = library(found, hashes.files)


def library(found: Set, hashes: dict[str, bytes]) -> Unloaded | None:
    """A partitioned data set as all of its members, if it has a hash. One without members has no file, and is known by its name."""
    names = (it for it in hashes if not split_name(it)[1] and fits(found.told["name"], it))
    said = hashes.get(found.file_name or next(names, ""))
    if said is None:
        return None
    is_whole = found.is_whole and all(it.is_whole for it in found.members)
    return Unloaded(found.file_name, sum(it.size for it in found.members), said, None, is_whole)


class Unload:
    """What was unloaded as blocks so far. Files come in the order of the table of contents, so each belongs to the data set of the last one, if that
    was called the same, or to one after it."""

    def __init__(self, answer: Answer, volume: Volume, hashes: dict[str, bytes]) -> None:
        self.answer, self.volume, self.hashes, self.at, self.last = answer, volume, hashes, -1, ""
        self.unloaded: dict[str, Unloaded] = {}

    def take(self, told: Object) -> None:
        """Takes an object that the program printed."""
        if "bytes" in told:
            self._take_file(told["name"], told["bytes"])
        elif "text" in told and told.get("name", TABLE) != TABLE:
            found = self._set_of(split_name(told["name"])[0])
            is_endless = found is not None and found.told["organisation"][:2] in ENDLESS
            self.answer.findings.append(Finding("extract", "warning" if is_endless else "error", told))
            if told["name"] in self.unloaded:
                self.unloaded[told["name"]].is_whole = is_endless
            elif found is not None:
                found.is_whole = is_endless

    def _take_file(self, file_name: str, size: int) -> None:
        os.unlink(os.path.join(self.volume.folder, os.fsencode(BLOCKS), os.fsencode(file_name)))
        said = self.hashes.get(file_name)
        if said is None:
            self.answer.faults.append(("hash", f"{file_name} has no hash"))
            return
        unloaded = Unloaded(file_name, size, said)
        self.unloaded[file_name] = unloaded
        data_set, member = split_name(file_name)
        found = self._set_of(data_set)
        if found is None:
            self.answer.faults.append(("extract", f"{file_name} is of no data set that dasd vtoc prints"))
            return
        found.file_name = data_set
        if member:
            found.members.append(unloaded)
        else:
            found.own = unloaded

    def _set_of(self, data_set: str) -> Set | None:
        """The data set of a file."""
        sets = self.answer.sets
        if data_set == self.last and self.at >= 0:
            return sets[self.at]
        for at in range(self.at + 1, len(sets)):
            if fits(sets[at].told["name"], data_set):
                self.at, self.last = at, data_set
                return sets[at]
        return None


def unload_texts(answer: Answer, volume: Volume) -> dict[str, bytes]:
    """Unloads all as lines of text, and keeps those that are texts; their digests by the names of their files."""
    digests: dict[str, bytes] = {}
    try:
        for it in volume.ask("extract", "--all", TEXTS, "--text"):
            if "bytes" not in it:
                continue
            path = os.path.join(volume.folder, os.fsencode(TEXTS), os.fsencode(it["name"]))
            text = read_text(answer, it["name"], path)
            os.unlink(path)
            if text:
                answer.texts[text.digest] = text
                digests[it["name"]] = text.digest
    except Fault as fault:
        if fault.is_of_volume:
            answer.faults.append(("text", str(fault)))
        else:
            raise
    return digests


def read_text(answer: Answer, file_name: str, path: bytes) -> Text | None:
    """What is in a file, if it is a text: no more than one of fifty characters a control character, and not too long."""
    size = os.stat(path).st_size
    if size > MOST_TEXT:
        answer.faults.append(("text", f"{file_name} has {size} bytes of text, more than {MOST_TEXT}: it is not kept"))
        return None
    with open(path, "rb") as file:
        text = file.read().decode("utf-8", "replace")
    return Text.of(text) if text.strip() and is_text(text) else None


def is_text(text: str) -> bool:
    """Whether lines are a text, and no program or other data."""
    return text.count(CONTROL) * CHARACTERS_A_CONTROL <= len(text)
