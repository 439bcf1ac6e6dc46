"""Compares what `dasd vtoc` says of volumes with what Hercules' tools say of them, field by field.

    tools/run gate/compare_contents [DASD]

The volumes are those of tools/make/hercules_volumes.py: of both drives, with data sets of all organisations and record formats, of one to
sixteen extents, with dates of creation and of expiry. The program is the word, or else the built one of crates/dasd_cmd. It needs
Debian's package hercules. Each difference is a line; the last line is 'N compared, M differ', and the status 1 where M is not 0.

Compared are, for each volume and each data set in the order of the volume table of contents:

- serial number, names, dates, organisation, record format, lengths, tracks, number of extents: by `dasdls`, once with the lines of
  `dasd vtoc` and once with its objects of JSON (the length of keys is in the objects alone);
- the tracks that are used: by the percentage that `dasdls` has of them;
- each extent: by the places that `dasdload` named as it wrote the volume, and by `dasdseq -debug`, which prints the extents of sequential
  data sets of records of fixed length;
- free tracks, where the volume says them: by the tracks that `dasdload` gave to data sets;
- of a volume of `dasdinit`, which has a label and nothing else: that both list nothing.

What dasdls can't tell, or tells otherwise, is left out:

- the organisation IS, for which it prints blanks; and none (0), for which `dasd` has question marks;
- the record format of a data set that has none (0): it prints U, and `dasd` a question mark;
- a date of creation of zeros, for which it prints asterisks, and `dasd` a hyphen;
- tracks for user labels, which it counts as the data set's, and `dasd` does not;
- the percentage is of the image's slots, which are larger than tracks, and is rounded: where a data set has more than a hundred tracks, it
  is that of one track more or less too;
- owner, free tracks and free control blocks, which it does not print. `dasdload` writes no free tracks, so those of three volumes are
  none, and those of the other two were written by hercules_volumes.py; the number of free control blocks is compared with what that
  script or `dasdload` wrote into the format 4 block. The owner is the one that `dasdload` writes."""

import json
import pathlib
import re
import sys
from typing import Any

from tools.common import hercules_readings as readings, volume_layouts as layouts
from tools.common.images import Image
from tools.make import hercules_volumes as volumes

LABEL = re.compile(r"(\S+)  owner (.*)  VTOC (\w{4}) (\w{4}) \.\. (\w{4}) (\w{4})")
LINE = re.compile(r"(.{44}) (.{8}) (.{8}) (.{3}) (.{5}) (.{5}) (.{5}) (.{6}) (.{6}) (.{7})")
FREE = re.compile(r"free (\d+) tracks, (\d+) control blocks")
OWNER = "    HERCULES"
# What a line and an object of a data set have alike.
Fields = dict[str, Any]
FIELDS = ("name", "created", "expires", "organisation", "format", "record_length", "block_length", "tracks", "used", "extents")


def fields_of(line: str) -> Fields:
    """A line of `dasd vtoc` as the fields of the object, with the number of extents in their place."""
    found = LINE.fullmatch(line)
    if not found:
        return {"name": line}
    texts = [it.strip() for it in found.groups()]
    values = [None if it == "-" else it for it in texts[:5]] + [int(it) for it in texts[5:]]
    return dict(zip(FIELDS, values))


def allotted(messages: str, heads: int) -> dict[str, tuple[int, int]]:
    """Where dasdload put each data set: the numbers of its first and last tracks on the volume."""
    places = re.findall(r"Creating dataset (\S+) at cyl (\d+) head (\d+)", messages)
    counts = dict(re.findall(r"Dataset (\S+) contains (\d+) track", messages))
    found = {}
    for name, cylinder, head in places:
        first = int(cylinder) * heads + int(head)
        found[name] = (first, first + int(counts[name]) - 1)
    return found


def spelled(runs: list[tuple[int, int]], heads: int) -> list[list[int]]:
    """Runs of tracks as extents of the objects."""
    return [[*divmod(first, heads), *divmod(last, heads)] for first, last in runs]


def is_read_by_dasdseq(form: list[str]) -> bool:
    """Whether a data set is sequential and has records of fixed length."""
    return form[:1] == ["PS"] and form[1][0] == "F"


class Volume:
    """What each side says of a volume."""

    def __init__(self, comparison: readings.Comparison, dasd: str, folder: pathlib.Path, plan: volumes.Plan):
        self.comparison, self.plan, self.path = comparison, plan, folder / f"{plan.name}.ckd"
        self.image = Image(self.path)
        self.blocks = layouts.find_blocks(self.image)
        self.serial, self.listed = readings.list_by_dasdls(self.path)
        self.allotted = allotted(plan.messages, self.image.heads)
        self.table = self.allotted.pop("SYSVTOC")
        lines, objects = readings.run(dasd, "vtoc", self.path), readings.run(dasd, "vtoc", "--json", self.path)
        for ended in (lines, objects):
            self.same("status and faults", (ended.returncode, ended.stderr), (0, b""), "this script")
        self.lines = lines.stdout.decode().splitlines()
        self.objects = [json.loads(line) for line in objects.stdout.splitlines()]

    def same(self, what: str, found: object, wanted: object, reader: str) -> None:
        self.comparison.same(f"{self.plan.name} {what}", found, wanted, reader)

    def compare(self) -> None:
        """All that is compared of a volume."""
        self.compare_label()
        rows = self.lines[2:-1]
        names = [it.name for it in self.listed]
        self.same("names", [it.get("name") for it in self.objects[1:]], names, "dasdls")
        self.same("names in lines", [row[:44].rstrip() for row in rows], names, "dasdls")
        for row, found, listed in zip(rows, self.objects[1:], self.listed):
            self.compare_set(found, listed, "")
            self.compare_set(fields_of(row), listed, " in its line")
            self.same(f"{listed.name} key_length", found["key_length"], listed.key_length, "dasdls")
            self.compare_extents(found)

    def compare_label(self) -> None:
        """Serial number, owner, where the volume table of contents is, and what is free."""
        extent = spelled([self.table], self.image.heads)[0]
        said = [self.serial, OWNER, *(f"{it:04X}" for it in extent)]
        found = LABEL.fullmatch(self.lines[0])
        self.same("label in lines", list(found.groups()) if found else self.lines[0], said, "dasdls and dasdload")
        first = self.objects[0]
        self.same("label", [first["serial"], first["owner"], first["contents"]], [self.serial, OWNER, extent], "dasdls and dasdload")
        used = [self.table, *self.allotted.values()]
        free = self.image.tracks - 1 - sum(last + 1 - first for first, last in used) if self.plan.exact else 0
        table = next(data for _, _, data in layouts.control_blocks(self.image) if data[0] == 0xF4)
        wanted = (free, int.from_bytes(table[6:8], "big"))
        self.same("free", (first["free_tracks"], first["free_blocks"]), wanted, "dasdload")
        found = FREE.fullmatch(self.lines[-1])
        self.same("free in lines", tuple(map(int, found.groups())) if found else self.lines[-1], wanted, "dasdload")

    def compare_set(self, found: Fields, listed: readings.Listed, where: str) -> None:
        """A data set, field by field."""
        wanted = {name: getattr(listed, name) for name in ("name", "created", "expires", "record_length", "block_length")} | {
            "organisation": listed.organisation or found.get("organisation"),
            "format": listed.form if listed.block_length else found.get("format"),
            "tracks": listed.tracks - self.label_tracks(listed.name),
        }
        for field, value in wanted.items():
            self.same(f"{listed.name} {field}{where}", found.get(field), value, "dasdls")
        extents = found.get("extents")
        count = len(extents) if isinstance(extents, list) else extents
        self.same(f"{listed.name} number of extents{where}", count, listed.extents, "dasdls")
        used = found.get("used", -1)
        is_so = abs(self.percentage(listed, used) - listed.used_percent) <= 0.5
        what = f"{self.plan.name} {listed.name}{where}"
        self.comparison.holds(f"{what}: {used} of {listed.tracks} tracks used, and dasdls {listed.used_percent}%", is_so)

    def label_tracks(self, name: str) -> int:
        """How many tracks of a data set are for user labels."""
        first, last = self.allotted[name]
        return last + 1 - first if self.plan.has_labels(name) else 0

    def percentage(self, listed: readings.Listed, used: int) -> float:
        """What dasdls rounds: the tracks before the last one and what is used of it, each as large as a slot."""
        balance = int.from_bytes(self.image.block(self.blocks[listed.name])[1][57:59], "big")
        return (used - balance / self.image.slot) * 100 / listed.tracks

    def compare_extents(self, found: Fields) -> None:
        """The extents of a data set."""
        name = found["name"]
        held = self.plan.partitioned.get(name) or self.plan.blocked.get(name)
        parts = [name, *(held.parts if held else [])]
        wanted = spelled([self.allotted[it] for it in parts], self.image.heads)
        self.same(f"{name} extents", found["extents"], wanted, "dasdload")
        if is_read_by_dasdseq(self.plan.forms[name]):
            by_dasdseq = [list(it) for it in readings.extents_by_dasdseq(self.path, name)]
            self.same(f"{name} extents", found["extents"], by_dasdseq, "dasdseq")


def compare_labels_alone(comparison: readings.Comparison, dasd: str, folder: pathlib.Path) -> None:
    """Volumes of dasdinit, which have no volume table of contents."""
    for model in ("2311", "2314"):
        image = folder / f"{model}.ckd"
        readings.run("dasdinit", image, model, "INIT01", "3")
        listed = readings.run("dasdls", image).stdout.decode("latin-1").splitlines()
        found = readings.run(dasd, "vtoc", image)
        lines = found.stdout.decode("latin-1").splitlines()
        comparison.same(f"{image.name} of dasdinit: serial", lines[0][:6], "INIT01", "dasdinit")
        comparison.same(f"{image.name} of dasdinit: data sets", len(lines) - 2, len(listed[1:]), "dasdls")
        comparison.same(f"{image.name} of dasdinit: status", found.returncode, 1, "this script")


def compare_all(comparison: readings.Comparison, dasd: str, folder: pathlib.Path) -> None:
    """Each volume."""
    for plan in volumes.plans():
        plan.make(folder)
        Volume(comparison, dasd, folder, plan).compare()
    compare_labels_alone(comparison, dasd, folder)


if __name__ == "__main__":
    sys.exit(readings.compared(__doc__, compare_all))
