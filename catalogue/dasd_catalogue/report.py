"""The pages over a catalogue as files: without searches and sides, and, if they are asked for, with a page for each pack that has it inside."""

from __future__ import annotations

import os
import sqlite3
import sys
from pathlib import Path
from urllib.parse import quote

from .database import BadCatalogue, open_to_read
from .names import Places
from .pack_page import GIVEN, BadPage, PackPage, place_in
from .packs import NotGiven, Pack
from .pages import View
from .progress import Progress
from .queries import KINDS, Place
from .serving import style_sheet

WORDS = {kind: kind.replace(" ", "-") for kind in KINDS}


class FileLinks:
    """Where the files of a report are, from a folder so many levels below it; and of each volume whose pack was to be put there, why that was not, or an
    empty text."""

    def __init__(self, depth: int, packs: dict[int, str]) -> None:
        self.up, self.packs_put = "../" * depth, packs

    def packs(self, page: int = 0) -> str:
        """A page of the list of packs."""
        return f"{self.up}packs-{page}.html" if page else f"{self.up}index.html"

    def broken(self, page: int = 0) -> str:
        """A page of the list of what is broken."""
        return f"{self.up}broken-{page}.html"

    def copies(self, kind: str, page: int = 0) -> str:
        """A page of the copies of a kind."""
        return f"{self.up}copies-{quote(WORDS[kind])}-{page}.html"

    def place(self, place: Place) -> str:
        """The page of a volume, a data set or a member."""
        return f"{self.up}{file_of(place)}"

    def compare(self, first: Place, second: Place) -> str:
        """There are none."""
        del first, second
        return ""

    def search(self) -> str:
        """There is none."""
        return ""

    def style(self) -> str:
        """The style sheet."""
        return f"{self.up}page.css"

    def pack(self, volume: sqlite3.Row, track: tuple[int, int] | None = None) -> str:
        """The page that has the pack of a volume inside."""
        number = volume["file"]
        return f"{self.up}{file_of_pack(number)}{place_in(GIVEN, track)}" if self.packs_put.get(number) == "" else ""

    def pack_fault(self, volume: sqlite3.Row) -> str:
        """Why there is none."""
        return self.packs_put.get(volume["file"], "")


def file_of(place: Place) -> str:
    """The file of a place, below the report's folder."""
    if place.data_set is None:
        return f"volumes/{place.volume}/index.html"
    return f"volumes/{place.volume}/{place.data_set}{'' if place.member is None else f'-{place.member}'}.html"


def file_of_pack(volume: int) -> str:
    """The file of the page that has the pack of a volume inside, below the report's folder."""
    return f"volumes/{volume}/pack.html"


class Report:
    """A report that is written to a folder, with the packs inside such pages if there is one."""

    def __init__(self, database: str, folder: str, page: PackPage | None = None) -> None:
        self.connection, self.places = open_to_read(database), Places.beside(database)
        self.folder, self.count = Path(folder), 0
        self.page = page
        self.packs: dict[int, str] = {}

    def put(self, name: str, page: str) -> None:
        """Writes a page."""
        path = self.folder / name
        path.parent.mkdir(parents=True, exist_ok=True)
        path.write_text(page, encoding="utf-8", errors="replace")
        self.count += 1

    def put_lists(self) -> None:
        """The pages that list packs, what is broken, and copies; each list as long as it has a next page."""
        view = View(self.connection, FileLinks(0, self.packs))
        self.put_list(view.packs, view.links.packs)
        self.put_list(view.broken, view.links.broken)
        for kind in KINDS:
            self.put_list(lambda at, kind=kind: view.copies(kind, at), lambda at, kind=kind: view.links.copies(kind, at))

    def put_list(self, page: object, name: object) -> None:
        """All pages of a list."""
        assert callable(page) and callable(name)
        at = 0
        while True:
            text = page(at)
            self.put(name(at), text)
            at += 1
            if f'href="{name(at)}"' not in text:
                return

    def put_packs(self) -> None:
        """The pages that have packs inside; says on standard error which are left out, and how far it is."""
        volumes = self.connection.execute("SELECT file, shown FROM volumes JOIN files ON id = file ORDER BY file").fetchall()
        progress = Progress(sys.stderr, len(volumes), False)
        for row in volumes:
            self.packs[row["file"]] = fault = self.put_pack(row["file"])
            if fault:
                print(f"dasd-catalogue: {row['shown']} is left out: {fault}", file=sys.stderr)
            progress.step()
        progress.end()

    def put_pack(self, volume: int) -> str:
        """The page that has the pack of a volume inside; an empty text, or why there is none."""
        assert self.page is not None
        path = self.folder / file_of_pack(volume)
        path.parent.mkdir(parents=True, exist_ok=True)
        try:
            with Pack(self.connection, self.places, volume) as pack, open(path, "wb") as file:
                file.writelines(self.page.with_pack(pack.name, pack.slices()))
        except (NotGiven, BadPage) as fault:
            path.unlink(missing_ok=True)
            return str(fault)
        self.count += 1
        return ""

    def put_places(self) -> None:
        """The pages of all volumes, data sets and members."""
        view = View(self.connection, FileLinks(2, self.packs))
        for row in self.connection.execute("SELECT file FROM volumes ORDER BY file"):
            self.put(file_of(Place(row[0])), view.volume(row[0]))
        for row in self.connection.execute("SELECT volume, number FROM data_sets ORDER BY 1, 2"):
            self.put(file_of(Place(*row)), view.data_set(Place(*row)))
        for row in self.connection.execute("SELECT volume, data_set, number FROM members ORDER BY 1, 2, 3"):
            self.put(file_of(Place(*row)), view.member(Place(*row)))


def write_report(database: str, folder: str, page: PackPage | None = None) -> tuple[int, bool]:
    """Writes a report to a folder that is not there yet, with packs inside copies of the page if it is given; how many pages, and whether all packs that
    were to be there are."""
    report = Report(database, folder, page)
    if os.path.lexists(folder):
        raise BadCatalogue(f"{folder} is there")
    report.folder.mkdir(parents=True)
    (report.folder / "page.css").write_bytes(style_sheet())
    if page:
        report.put_packs()
    report.put_lists()
    report.put_places()
    return report.count, not any(report.packs.values())
