"""Compares what `dasd extract` takes out of volumes with what was put there, and with what Hercules' tools read.

    tools/run gate/compare_extract [DASD]

The volumes are those of tools/make/hercules_volumes.py: data sets of all record formats over one to sixteen extents, and partitioned ones with
source, load modules and records of variable length. The program is the word, or else the built one of crates/dasd_cmd. It needs Debian's
package hercules. Each difference is a line; the last line is 'N compared, M differ', and the status 1 where M is not 0.

Each data set and each member is taken out to standard output, to a file with --to, and as text; and each volume by --all, raw, as text and with lines of
JSON, whose files must be those that were put there, and beside them the text of what labels and directories say (tools/common/folder_texts.py), and no
others. Members are listed with --list and by `dasd vtoc --members`. Beside what was put there are `dasdcat` for each member, as bytes and as text, and its
directory; `dasdpdsu` for members of cards; and `dasdseq` for sequential data sets of records of fixed length.

What Hercules' tools can't tell, or tell otherwise, is left out:

- `dasdpdsu` and the flag c take members of cards alone, and cut a card to 72 columns as text: the first 72 columns of a line are compared;
- `dasdseq` takes an extent for user labels for one of the data set's, and finds nothing behind the end of file in it;
- control characters, which they print and `dasd` shows as U+FFFD: two data sets of bytes by chance are compared with what was put there;
- they know no text in records of variable or undefined length, and none of them reads a data set that is not partitioned and has such
  records or is direct or indexed sequential: these are compared with what was put there alone, by a reading of record formats that shares
  no code with `dasd` (tools/common/record_forms.py);
- `dasdcat` shows names of members in small letters; data sets that share cylinders are runs of tracks to `dasdls` and `dasdseq`, and `dasdseq` ends at a
  defective track. That is so over the two volumes of tools/gate/made_packs.py, or else it is a difference; what `dasd` takes out is compared with what was
  put there. Of a spanned record `dasd` drops the blanks at the end of its last segment alone (docs/DECISIONS.md), and so does that reading.
"""

import json
import pathlib
import re
import sys
import tempfile
from dataclasses import dataclass

from tools.common import hercules_readings as readings, volume_layouts as layouts
from tools.common.folder_texts import TEXT, folder_text
from tools.common.images import Image
from tools.common.record_forms import cut, records_of, text_of
from tools.common.written_labels import LAST_VOLUME
from tools.gate import made_packs as packs
from tools.gate.made_packs import raw as cards
from tools.make import hercules_volumes as volumes

CARD, COLUMNS = 80, 72
NO_END = "the extents end before an end of file"
# Most writers of labels leave the bit of the last volume off, which is then told too where no end of file stands in the extents.
UNMARKED = "; its label does not mark this volume as its last"
INDICATORS_AT = 49


@dataclass
class Piece:
    """A data set or a member: its name for dasd, the name of its file, its blocks and its form; and whether it ends as it should."""

    name: str
    file: str
    blocks: list[bytes]
    form: list[str]
    is_whole: bool = True

    def raw(self) -> bytes:
        return b"".join(self.blocks)

    def text(self) -> bytes | None:
        """Its text; None where it has no record format."""
        return text_of(records_of(self.form[1], int(self.form[2]), self.blocks)) if self.form else None


def pieces_of(plan: volumes.Plan, contents: pathlib.Path) -> list[Piece]:
    """All that is on a volume."""
    pieces = []
    for name, form in plan.forms.items():
        if name in plan.partitioned:
            for member, made in plan.partitioned[name].members.items():
                for other in (member, *made.aliases):
                    pieces.append(Piece(f"{name}({other})", volumes.file_name(name, other), made.blocks, form))
            continue
        data = (contents / volumes.file_name(name)).read_bytes()
        if name in plan.blocked:
            blocks = [data for _, data in plan.blocked[name].blocks]
        else:
            blocks = cut(data, int(form[3]) if form else len(data))
        pieces.append(Piece(name, volumes.file_name(name), blocks, form, name not in plan.filled))
    return pieces


def columns_of(text: bytes) -> bytes:
    """Lines cut to the columns of a card that have no number, in the code page that Hercules' tools are asked for."""
    lines = text.decode().splitlines(keepends=True)
    return "".join(line.rstrip("\n")[:COLUMNS].rstrip(" ") + "\n" for line in lines).encode("latin-1")


def read_lines(lines: list[str]) -> tuple[dict[str, int], int, tuple[int, int]]:
    """What --all prints: the sizes of files, how many lines tell of something else, and the numbers of the last line."""
    found = [re.fullmatch(r"(\S+) (\d+) bytes", line) for line in lines]
    last = re.fullmatch(r"(\d+) files, (\d+) findings", lines[-1])
    sizes = {it[1]: int(it[2]) for it in found if it}
    return sizes, found.count(None) - 1, (int(last[1]), int(last[2])) if last else (-1, -1)


def read_objects(lines: list[str]) -> tuple[dict[str, int], int, tuple[int, int]]:
    """The same of objects of JSON."""
    *objects, last = [json.loads(line) for line in lines]
    sizes = {it["name"]: it["bytes"] for it in objects if "bytes" in it}
    return sizes, len(objects) - len(sizes), (last["files"], last["findings"])


class Extraction:
    """What each side reads of a volume."""

    def __init__(self, comparison: readings.Comparison, dasd: str, folder: pathlib.Path, plan: volumes.Plan):
        self.comparison, self.dasd, self.folder, self.plan = comparison, dasd, folder, plan
        self.image = folder / f"{plan.name}.ckd"
        self.pieces = pieces_of(plan, folder / plan.name)
        blocks = [(key, data) for _, key, data in layouts.control_blocks(Image(self.image)) if data[0] == 0xF1]
        self.marked = {key.decode("cp037").rstrip() for key, data in blocks if data[INDICATORS_AT] & LAST_VOLUME}

    def same(self, what: str, found: object, wanted: object, reader: str) -> None:
        self.comparison.same(f"{self.plan.name} {what}", found, wanted, reader)

    def compare(self) -> None:
        """All that is compared of a volume."""
        for piece in self.pieces:
            self.compare_piece(piece)
        for name in self.plan.partitioned:
            self.compare_library(name)
        for options in ((), ("--json",), ("--text",), ("--text", "--json")):
            self.compare_all(options)
        self.compare_refusals()

    def extract(self, name: str, *options: object) -> tuple[int, str, bytes]:
        """Status, fault and standard output of an extraction."""
        ended = readings.run(self.dasd, "extract", self.image, name, *options)
        return ended.returncode, ended.stderr.decode(), ended.stdout

    def compare_piece(self, piece: Piece) -> None:
        """One data set or member: to standard output, to a file, and as text."""
        status, fault, raw = self.extract(piece.name)
        self.same(f"{piece.name} status", status, 0 if piece.is_whole else 1, "this script")
        ending = NO_END if piece.name in self.marked else NO_END + UNMARKED
        self.same(f"{piece.name} fault", fault.rstrip("\n").endswith(ending), not piece.is_whole, "this script")
        self.same(piece.name, raw, piece.raw(), "what was put there")
        target = self.folder / "taken"
        target.unlink(missing_ok=True)
        ended = self.extract(piece.name, "--to", target)
        self.same(f"{piece.name} status with --to", (ended[0], ended[2]), (status, b""), "this script")
        self.same(f"{piece.name} with --to", target.read_bytes() if target.exists() else None, raw, "standard output")
        status, fault, text = self.extract(piece.name, "--text")
        if piece.text() is None:
            self.same(f"{piece.name} text", (status, fault, text), (1, "dasd: no record format\n", b""), "this script")
        else:
            self.same(f"{piece.name} text", text, piece.text(), "what was put there")
        if piece.form[:1] == ["PS"] and piece.form[1][0] == "F" and not self.plan.has_labels(piece.name):
            self.compare_sequential(piece, raw, text)

    def compare_sequential(self, piece: Piece, raw: bytes, text: bytes) -> None:
        """A sequential data set of records of fixed length, beside dasdseq."""
        self.same(piece.name, raw, readings.records_by_dasdseq(self.image, piece.name), "dasdseq")
        if "\ufffd".encode() not in text:
            lines = readings.records_by_dasdseq(self.image, piece.name, "-ascii")
            self.same(f"{piece.name} text", text.decode().encode("latin-1"), lines, "dasdseq -ascii")

    def compare_library(self, name: str) -> None:
        """The members of a partitioned data set, beside dasdcat and dasdpdsu."""
        pieces = {it.name.removeprefix(f"{name}(")[:-1]: it for it in self.pieces if it.name.startswith(f"{name}(")}
        self.same(f"{name} members", sorted(pieces), sorted(readings.members_by_dasdcat(self.image, name)), "dasdcat")
        self.compare_listed(name, {member: len(piece.raw()) for member, piece in pieces.items()})
        is_cards = self.plan.forms[name][1:3] == ["FB", str(CARD)]
        unloaded = readings.members_by_dasdpdsu(self.image, name) if is_cards else {}
        unloaded_text = readings.members_by_dasdpdsu(self.image, name, "ascii") if is_cards else {}
        for member, piece in pieces.items():
            raw = self.extract(piece.name)[2]
            self.same(piece.name, raw, readings.member_by_dasdcat(self.image, name, member), "dasdcat")
            if is_cards:
                text = columns_of(self.extract(piece.name, "--text")[2])
                self.same(piece.name, raw, unloaded.get(member), "dasdpdsu")
                self.same(f"{piece.name} text", text, unloaded_text.get(member), "dasdpdsu ascii")
                self.same(f"{piece.name} text", text, readings.member_by_dasdcat(self.image, name, member, ":c"), "dasdcat :c")

    def compare_listed(self, name: str, sizes: dict[str, int]) -> None:
        """What is listed of the members of a partitioned data set: in lines and in objects, by --list and by `dasd vtoc --members`."""
        put = self.plan.partitioned[name].members
        others = {other: made for made in put.values() for other in made.aliases}
        objects = [json.loads(line) for line in self.extract(name, "--list", "--json")[2].splitlines()]
        names = {volumes.file_name(name, member): member for member in sizes}
        listed = [names[f"{name}({it['member']})"] for it in objects]
        self.same(f"{name} listed", listed, readings.members_by_dasdcat(self.image, name), "dasdcat")
        places = self.places_of(name)
        for it, member in zip(objects, listed):
            made = others.get(member) or put[member]
            wanted = (name, member in others, made.user.hex().upper(), sizes[member])
            self.same(f"{name}({member}) listed", (it["data_set"], it["alias"], it["user_data"], it["bytes"]), wanted, "what was put there")
            first = (made.blocks or [b""])[0]
            self.same(f"{name}({member}) place", places.get((it["track"], it["record"])), first, "what was put there")
        lines = [
            f"{it['track']:04X}{it['record']:02X} {'yes' if it['alias'] else 'no ':3}   {len(it['user_data']) // 2:4} {it['bytes']:8} {it['member']}"
            for it in objects
        ]
        self.same(f"{name} lines", self.extract(name, "--list")[2].decode().splitlines()[1:], lines, "its objects")
        behind = readings.run(self.dasd, "vtoc", "--members", "--json", self.image).stdout.splitlines()
        of_table = [it for it in map(json.loads, behind) if it.get("data_set") == name]
        self.same(f"{name} behind the table", of_table, objects, "--list")

    def places_of(self, name: str) -> dict[tuple[int, int], bytes]:
        """The blocks of a data set, by relative track and the number of the record."""
        image = Image(self.image)
        runs = layouts.runs_of(image, layouts.find_blocks(image)[name])
        tracks = [track for first, last in runs for track in range(first, last + 1)]
        return {(i, it.identifier[4]): it.data for i, track in enumerate(tracks) for it in image.records(track)}

    def compare_all(self, options: tuple[str, ...]) -> None:
        """All that is on the volume, taken out into a folder."""
        is_text, title = "--text" in options, " ".join(["--all", *options])
        with tempfile.TemporaryDirectory(dir=self.folder) as name:
            ended = readings.run(self.dasd, "extract", "--all", name, *options, self.image)
            found = {path.name: path.read_bytes() for path in pathlib.Path(name).iterdir()}
        self.same(f"{title} {TEXT}", found.pop(TEXT, b"").decode(), folder_text(Image(self.image)), "Python")
        bodies = {it.file: it.text() if is_text else it.raw() for it in self.pieces}
        wanted = {file: body for file, body in bodies.items() if body is not None}
        self.same(f"{title} files", sorted(found), sorted(wanted), "what was put there")
        for file, body in wanted.items():
            self.same(f"{title} {file}", found.get(file), body, "what was put there")
        findings = sum(1 for it in self.pieces if not it.is_whole or is_text and it.text() is None)
        self.same(f"{title} status", (ended.returncode, ended.stderr), (1 if findings else 0, b""), "this script")
        read = read_objects if "--json" in options else read_lines
        printed, told, last = read(ended.stdout.decode().splitlines())
        self.same(f"{title} sizes", printed, {file: len(body) for file, body in wanted.items()}, "what was put there")
        self.same(f"{title} findings and last line", (told, last), (findings, (len(wanted), findings)), "this script")

    def compare_refusals(self) -> None:
        """What is not there, and what is there already."""
        first, library = self.pieces[0], next(iter(self.plan.partitioned))
        sequential = next(it.name for it in self.pieces if "(" not in it.name)
        taken = self.folder / "taken"
        taken.write_bytes(b"mine")
        for name, options, fault in (
            ("NOT.THERE", (), "no such data set"),
            (f"{library}(NOTHERE)", (), "no such member"),
            (f"{sequential}(MEMBER)", (), "no such member"),
            (library, (), "no member named"),
            (first.name, ("--to", taken), "file exists"),
        ):
            self.same(f"{name} refused", self.extract(name, *options), (1, f"dasd: {fault}\n", b""), "this script")
        self.same("file that was there", taken.read_bytes(), b"mine", "this script")


def compare_shared(comparison: readings.Comparison, dasd: str, image: pathlib.Path) -> None:
    """Two data sets that share cylinders, of which each has some heads."""
    packs.put_made(image, "shared")
    listed = {it.name: it.tracks for it in readings.list_by_dasdls(image)[1]}
    owners = {track: name for name, tracks in (("LEFT", packs.LEFT), ("RIGHT", packs.RIGHT)) for track in tracks}
    for name, (first, last) in (("LEFT", packs.LEFT_RUN), ("RIGHT", packs.RIGHT_RUN)):
        tracks = range(first, last + 1)
        own = cards(*(f"{name} ON {track}" for track in tracks if owners.get(track) == name))
        comparison.same(f"shared {name}", readings.run(dasd, "extract", image, name).stdout, own, "what was put there")
        comparison.holds(f"dasdls does not count {name} as one run of tracks", listed[name] == len(tracks))
        taken = readings.records_by_dasdseq(image, name) or b""
        run = cards(*(f"{owners[track]} ON {track}" for track in tracks if track in owners))
        comparison.holds(f"dasdseq does not read {name} as one run of tracks", run.startswith(taken) and not own.startswith(taken))


def compare_defective(comparison: readings.Comparison, dasd: str, image: pathlib.Path) -> None:
    """A data set of three tracks, of which the second is defective."""
    packs.put_made(image, "worn")
    ended = readings.run(dasd, "extract", image, "CARDS")
    comparison.same("defective CARDS", (ended.returncode, ended.stdout), (1, cards(*packs.CARDS)), "what was put there")
    taken = readings.records_by_dasdseq(image, "CARDS")
    comparison.holds("dasdseq does not end at a defective track", taken == cards(packs.CARDS[0]))


def compare_all(comparison: readings.Comparison, dasd: str, folder: pathlib.Path) -> None:
    """Each volume."""
    for plan in volumes.plans():
        plan.make(folder)
        Extraction(comparison, dasd, folder, plan).compare()
    compare_shared(comparison, dasd, folder / "shared.ckd")
    compare_defective(comparison, dasd, folder / "defective.ckd")


if __name__ == "__main__":
    sys.exit(readings.compared(__doc__, compare_all))
