"""Compares the hashes of data sets and of members that `dasd hash` prints with those that Python makes of what it reads.

    tools/run gate/compare_hashes [DASD]

The volumes are the sample pack, those of tools/make/hercules_volumes.py, and the two of tools/gate/made_packs.py, with shared cylinders and with
an alternate. What they say is read by tools/common/said_sets.py, which shares no code with `dasd`; of Hercules' volumes the blocks that were put
there are hashed too. The program is the word, or else the built one
of crates/dasd_cmd. It needs Debian's package hercules. Each difference is a line; the last line is 'N compared, M differ', and the status 1
where M is not 0.

Of each volume the lines and the objects of its data sets and members are compared, in their order, those of its data sets alone, and the
status. And over all volumes: what has one hash is one thing to `dasd extract` too."""

import json
import pathlib
import sys
import tempfile
from typing import Any

from tools import TOP
from tools.common import hercules_readings as readings
from tools.common.images import Image
from tools.common.said_sets import Said, blocks_hash, said_by
from tools.gate.made_packs import put_made
from tools.gate.compare_extract import pieces_of
from tools.make import hercules_volumes as volumes


def object_of(said: Said, path: pathlib.Path) -> dict[str, Any]:
    """The object of a data set or of a member."""
    member = {} if said.member is None else {"member": said.member}
    return {"path": str(path), "name": said.name, **member, "hash": said.digest, "whole": said.is_whole}


def object_name(found: dict[str, Any]) -> str:
    """The name of what an object is of."""
    return f"{found['name']}({found['member']})" if "member" in found else str(found["name"])


def line_of(found: dict[str, Any]) -> str:
    """The line that says the same as an object."""
    kind = "member" if "member" in found else "data set"
    return f"{found['hash']}  {kind}{'' if found['whole'] else ' that is not whole'} {object_name(found)} {found['path']}"


class Hashes:
    """What each side says of volumes."""

    def __init__(self, comparison: readings.Comparison, dasd: str):
        self.comparison, self.dasd = comparison, dasd
        self.raw: dict[str, bytes] = {}

    def hashes(self, image: pathlib.Path, *options: str) -> tuple[int, list[str]]:
        """The status, and the lines behind that of the volume."""
        ended = readings.run(self.dasd, "hash", *options, image)
        alone = readings.run(self.dasd, "hash", *(it for it in options if it == "--json"), image)
        self.comparison.same(f"{image.name} fault", ended.stderr, b"", "this script")
        lines = ended.stdout.splitlines(keepends=True)
        self.comparison.same(f"{image.name} line of the volume", b"".join(lines[:1]), alone.stdout, "dasd without an option")
        return ended.returncode, ended.stdout.decode().splitlines()[1:]

    def compare(self, image: pathlib.Path) -> None:
        """All that is compared of a volume."""
        said = [object_of(it, image) for it in said_by(Image(image))]
        status = 0 if all(it["whole"] for it in said) else 1
        sets = [it for it in said if "member" not in it]
        for options, wanted in ((("--members",), said), (("--sets",), sets), (("--sets", "--members"), said)):
            found, lines = self.hashes(image, *options)
            title = f"{image.name} {' '.join(options)}"
            self.comparison.same(f"{title} status", found, status, "Python")
            self.comparison.same(f"{title} number of lines", len(lines), len(wanted), "Python")
            for line, it in zip(lines, wanted):
                self.comparison.same(title, line, line_of(it), "Python")
            found, lines = self.hashes(image, *options, "--json")
            self.comparison.same(f"{title} --json status", found, status, "Python")
            self.comparison.same(f"{title} --json", [json.loads(it) for it in lines], wanted, "Python")
        self.compare_extracted(image, said)

    def compare_put(self, plan: volumes.Plan, folder: pathlib.Path) -> None:
        """The data sets and members of a volume, by the blocks that were put there. `dasdload` fills some with keys that it tells nobody."""
        image = folder / f"{plan.name}.ckd"
        found = {object_name(it): it["hash"] for it in map(json.loads, self.hashes(image, "--members", "--json")[1])}
        for piece in pieces_of(plan, folder / plan.name):
            if piece.name in plan.filled:
                continue
            blocks = plan.blocked[piece.name].blocks if piece.name in plan.blocked else [(b"", it) for it in piece.blocks]
            wanted = blocks_hash(list(blocks), piece.is_whole)
            self.comparison.same(f"{image.name} {piece.file}", found.get(piece.file), wanted, "what was put there")

    def compare_extracted(self, image: pathlib.Path, said: list[dict[str, Any]]) -> None:
        """What has one hash is one thing to `dasd extract` too. It takes no library out as one file."""
        with tempfile.TemporaryDirectory() as folder:
            readings.run(self.dasd, "extract", "--all", folder, image)
            for it in said:
                taken = pathlib.Path(folder, object_name(it))
                if taken.exists():
                    held = taken.read_bytes()
                    self.comparison.same(f"{image.name} {taken.name} of one hash", held, self.raw.setdefault(it["hash"], held), "another of it")


def compare_all(comparison: readings.Comparison, dasd: str, folder: pathlib.Path) -> None:
    """Each volume."""
    hashes = Hashes(comparison, dasd)
    readings.run(sys.executable, TOP / "sample/make_sample.py", folder / "sample.ckd")
    put_made(folder / "shared.ckd", "shared")
    put_made(folder / "defective.ckd", "worn")
    for plan in volumes.plans():
        plan.make(folder)
        hashes.compare_put(plan, folder)
    for image in sorted(folder.glob("*.ckd")):
        hashes.compare(image)


if __name__ == "__main__":
    sys.exit(readings.compared(__doc__, compare_all))
