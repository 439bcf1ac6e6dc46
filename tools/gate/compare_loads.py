"""Takes volumes of Hercules' apart with `dasd extract --all`, puts them together with `dasd load --all`, and compares both volumes.

    tools/run gate/compare_loads [DASD]

The volumes are the sample pack and those of tools/make/hercules_volumes.py; the program is the word, or else the built one of crates/dasd_cmd. It needs
Debian's package hercules. Each is put onto a new volume of either drive, behind lengths and keys; those that have nothing but cards also as text and as
blocks. Compared are the hashes of each data set and member, what the labels say, and, by `dasdls`, `dasdseq`, `dasdcat` and `dasdpdsu`, what Hercules'
tools read of both. Each difference is a line; the last line is 'N compared, M differ', and the status 1 where M is not 0.

What can't go back is changed in the text of the folder before, as its keeper would: the lines of what a folder does not carry, and of data sets without
a record format, are taken out, and notes that lead to no block of their member are taken for user data. Of what has no end of file the blocks are compared."""

import json
import pathlib
import re
import sys
import tempfile
from dataclasses import dataclass

from tools import TOP
from tools.common import hercules_readings as readings
from tools.common.folder_texts import TEXT
from tools.common.images import Image
from tools.gate.compare_hashes import object_name
from tools.make import hercules_volumes as volumes

# So many tracks have the control blocks of each volume, and more than all tracks of its data sets are there.
TABLE, CYLINDERS = 8, 60
# A note that leads to no block of its member: its address, and the byte behind it.
NOTE = re.compile(r" @([0-9A-F]{6})/([0-9A-F]{2})( [0-9A-F]+)?$", re.M)
# The line of a data set that does not go back: a direct one or an indexed one, one without a record format, and one with other extents than plain ones.
LEFT_OUT = re.compile(r"data set \S+ ((DA|IS|X'[236-9A-F]...') |\S+ X'00' |.* extents X'..'$)", re.M)
# The plans whose records are all cards in full blocks.
CARDS_ALONE = ("SMALL1", "WIDE14")


@dataclass(frozen=True)
class Way:
    """How a volume is taken apart and put together: the word for its files, and the drive that it is put onto."""

    words: tuple[str, ...]
    model: str


def said_by_label(it: readings.Listed) -> tuple[object, ...]:
    """What the label of a data set says of it, but where it lies."""
    return it.name, it.created, it.expires, it.organisation, it.form, it.record_length, it.block_length, it.key_length


class Loads:
    """What is compared of volumes and of those that are made of their folders."""

    def __init__(self, comparison: readings.Comparison, dasd: str, folder: pathlib.Path):
        self.comparison, self.dasd, self.folder = comparison, dasd, folder

    def hashes(self, image: pathlib.Path) -> dict[str, tuple[str, bool]]:
        """The hashes of data sets and members by their names, and whether each is whole."""
        lines = readings.run(self.dasd, "hash", "--members", "--json", image).stdout.splitlines()[1:]
        return {object_name(it): (it["hash"], it["whole"]) for it in map(json.loads, lines)}

    def take(self, image: pathlib.Path, way: Way) -> pathlib.Path:
        """A folder with all of a volume, whose text says what can go onto another."""
        taken = pathlib.Path(tempfile.mkdtemp(dir=self.folder))
        readings.run(self.dasd, "extract", "--all", taken, *way.words, image)
        text = (taken / TEXT).read_text(encoding="ascii")
        sets = [it for it in re.split(r"(?=^data set )", text, flags=re.M) if it and not LEFT_OUT.match(it)]
        (taken / TEXT).write_text(NOTE.sub(lambda it: f" {it[1]}{it[2]}{(it[3] or '').strip()}", "".join(sets)), encoding="ascii")
        return taken

    def put(self, taken: pathlib.Path, way: Way) -> tuple[pathlib.Path, list[str]]:
        """A new volume with all of a folder, and the names of its data sets."""
        image = self.folder / f"{taken.name}.new"
        words = ["--model", way.model, "--cylinders", str(CYLINDERS), "--label", "AGAIN1", "--vtoc", str(TABLE)]
        readings.run(self.dasd, "format", image, *words)
        done = readings.run(self.dasd, "load", "--all", taken, *way.words, image)
        sets = [it.split()[2] for it in (taken / TEXT).read_text(encoding="ascii").splitlines() if it.startswith("data set ")]
        told = [it.split()[1] for it in done.stdout.decode().splitlines()]
        self.comparison.same(f"{taken} is loaded", (done.returncode, done.stderr, told), (0, b"", sets), "this script")
        return image, sets

    def compare(self, image: pathlib.Path, way: Way) -> None:
        """A volume and one that is made of it."""
        title = f"{image.name} {' '.join(way.words)} onto a {way.model}"
        taken = self.take(image, way)
        new, loaded = self.put(taken, way)
        before, after = self.hashes(image), self.hashes(new)
        wanted = {name: it for name, it in before.items() if name.split("(")[0] in loaded}
        self.comparison.same(f"{title} names", list(after), list(wanted), "the volume before")
        for name, it in wanted.items():
            if it[1]:
                self.comparison.same(f"{title} {name}", after.get(name), it, "the volume before")
        again = self.take(new, way)
        for file in sorted(taken.iterdir()):
            held = (again / file.name).read_bytes() if (again / file.name).exists() else b""
            if file.name == TEXT or file.name.split("(")[0] in loaded:
                self.comparison.same(f"{title} {file.name}", held, file.read_bytes(), "the folder before")
        self.comparison.same(f"{title} vtoc", readings.run(self.dasd, "vtoc", new).returncode, 0, "this script")
        self.compare_by_hercules(title, image, new, loaded)

    def compare_by_hercules(self, title: str, image: pathlib.Path, new: pathlib.Path, loaded: list[str]) -> None:
        """What Hercules' tools read of both."""
        _, before = readings.list_by_dasdls(image)
        serial, after = readings.list_by_dasdls(new)
        self.comparison.same(f"{title} serial number", serial, "AGAIN1", "dasdls")
        fields = [list(map(said_by_label, listed)) for listed in (after, [it for it in before if it.name in loaded])]
        self.comparison.same(f"{title} fields", fields[0], fields[1], "dasdls")
        for it in after:
            if it.organisation == "PO":
                self.compare_members(f"{title} {it.name}", image, new, it)
            elif it.form[:1] == "F" and it.organisation == "PS":
                found, wanted = (readings.records_by_dasdseq(path, it.name) for path in (new, image))
                self.comparison.same(f"{title} {it.name} by dasdseq", found, wanted, "dasdseq")

    def compare_members(self, title: str, image: pathlib.Path, new: pathlib.Path, it: readings.Listed) -> None:
        """What Hercules' tools read of the members of a library."""
        names = readings.members_by_dasdcat(image, it.name)
        self.comparison.same(f"{title} names", readings.members_by_dasdcat(new, it.name), names, "dasdcat")
        if it.form[:1] == "F":
            self.comparison.same(f"{title} members", readings.members_by_dasdpdsu(new, it.name), readings.members_by_dasdpdsu(image, it.name), "dasdpdsu")
            for name in names:
                found, wanted = (readings.member_by_dasdcat(path, it.name, name) for path in (new, image))
                self.comparison.same(f"{title}({name})", found, wanted, "dasdcat")


def compare_all(comparison: readings.Comparison, dasd: str, folder: pathlib.Path) -> None:
    """Each volume."""
    loads = Loads(comparison, dasd, folder)
    readings.run(sys.executable, TOP / "sample/make_sample.py", folder / "sample.ckd")
    for plan in volumes.plans():
        plan.make(folder)
    for image in sorted(folder.glob("*.ckd")):
        larger = [] if Image(image).volume.model.name == "2314" else ["2311"]
        for model in [*larger, "2314"]:
            loads.compare(image, Way(("--with-lengths",), model))
        if image.stem in CARDS_ALONE:
            loads.compare(image, Way(("--text",), "2314"))
            loads.compare(image, Way((), "2314"))


if __name__ == "__main__":
    sys.exit(readings.compared(__doc__, compare_all))
