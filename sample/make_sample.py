#!/usr/bin/env python3
"""Makes the sample pack: an IBM 2311 of five cylinders in the layout CKD_P370, on which the examples of the pages run.

    sample/make_sample.py FILE                  the pack
    sample/make_sample.py FILE_1 FILE_2 ..      the same, in two to four files of one image

The pack is called SAMPLE. Its data sets are those of the table below, and what is in them is text that is in the folder
`text`, line by line. The same texts give the same bytes. Nothing but Python is needed: `dasd` takes no part.

Layouts: System Control Blocks (GC28-6628), 'Volume Label', 'Data Set Control Block' and 'Partitioned Data Set Directory', by
tools/common/written_labels.py and tools/common/volume_layouts.py; record formats: Data Management Services (GC26-3746), by tools/common/record_forms.py."""

import sys
from dataclasses import dataclass, field
from pathlib import Path

sys.dont_write_bytecode = True
HERE = Path(__file__).resolve().parent
sys.path.insert(0, str(HERE.parent))

from conformance.suite.volumes import Volume
from tools.common.images import Image
from tools.common.record_forms import fixed_blocks, variable_blocks
from tools.common.volume_layouts import Extents, Member, count_free, partition
from tools.common.written_labels import DataSet, put_label

MODEL, CYLINDERS = "2311", 5
SERIAL, OWNER = "SAMPLE", "SIXAMBRA"
DIRECTORY_BLOCKS = 2


@dataclass
class Source:
    """A data set of the pack: organisation and form as job control has them, and its tracks on the volume. Of a partitioned one the
    members are the files of its folder, and some have another name too."""

    name: str
    organisation: str
    form: str
    record_length: int
    block_length: int
    runs: list[tuple[int, int]]
    aliases: dict[str, tuple[str, ...]] = field(default_factory=dict)

    def blocks(self, path: Path) -> list[bytes]:
        """The blocks of a file's lines."""
        records = [line.encode("cp037") for line in path.read_text(encoding="utf-8").splitlines()]
        longest = self.record_length - (4 if self.form == "VB" else 0)
        for number, record in enumerate(records, 1):
            if len(record) > longest:
                sys.exit(f"{path}: line {number} has {len(record)} characters, more than {longest}")
        if self.form == "VB":
            return variable_blocks(records, self.block_length)
        return fixed_blocks([record.ljust(self.record_length, b"\x40") for record in records], self.block_length)

    def members(self) -> dict[str, Member]:
        """The members of a partitioned data set."""
        paths = sorted((HERE / "text" / self.name).iterdir())
        return {path.name: Member(self.blocks(path), self.aliases.get(path.name, ())) for path in paths}

    def put(self, image: Image) -> DataSet:
        """Writes the blocks to the data set's tracks, with what ends them, and answers what its control block says."""
        extents = Extents(image, self.runs)
        if self.organisation == "PO":
            partition(extents, self.members(), DIRECTORY_BLOCKS)
        else:
            for block in [*self.blocks(HERE / "text" / self.name), b""]:
                extents.append(b"", block)
            extents.save()
        return DataSet(self.name, self.organisation, self.record_length, self.block_length, self.runs, extents.last(), self.form)


SOURCES = [
    Source("SAMPLE.JOBS", "PS", "FB", 80, 800, [(10, 11)]),
    Source("SAMPLE.NOTES", "PS", "VB", 128, 260, [(12, 12)]),
    Source("SAMPLE.STOCK", "PS", "FB", 40, 400, [(13, 14), (16, 17)]),
    Source("SYS1.MACLIB", "PO", "FB", 80, 400, [(20, 23)], {"RETURN": ("LEAVE",)}),
]


def pack(path: Path) -> Image:
    """The sample pack in memory, which is to stand in this file."""
    image = Image(path, Volume.new(MODEL, CYLINDERS).bytes())
    sets = [it.put(image) for it in SOURCES]
    put_label(image, SERIAL, sets, OWNER)
    count_free(image)
    return image


def in_files(image: Image, count: int) -> list[bytes]:
    """The image in so many files: two cylinders in the first of them, which must bear a highest cylinder above 0, one in each further
    one, and what is left in the last."""
    return (image.volume if count == 1 else image.volume.split(*range(2, count + 1))).files()


def main() -> int:
    """Makes the files that are named."""
    paths = [Path(it) for it in sys.argv[1:]]
    if not 1 <= len(paths) < CYLINDERS or str(paths[0]).startswith("-"):
        sys.exit(__doc__)
    image = pack(paths[0])
    for path, held in zip(paths, in_files(image, len(paths))):
        path.write_bytes(held)
    return 0


if __name__ == "__main__":
    sys.exit(main())
