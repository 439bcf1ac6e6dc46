"""Packs are opened in the page: which are given, as what, and which not; served, and inside pages of a report."""

from __future__ import annotations

import base64
import gzip
import html
import http.client
import lzma
import os
import re
import socket
import sqlite3
import subprocess
import sys
import threading
import tracemalloc
import unittest
from pathlib import Path
from typing import ClassVar
from unittest import mock
from urllib.parse import unquote

from archive import COMMAND, Case, scanned, typed
from conformance.suite.volumes import Volume
from make_packs import hostile, pack, plain, with_broken_track

from dasd_catalogue import pack_page, packs
from dasd_catalogue.database import open_to_read
from dasd_catalogue.names import Places
from dasd_catalogue.pack_page import BadPage, PackPage, page_at
from dasd_catalogue.packs import NotGiven, Pack, is_too_large
from dasd_catalogue.queries import NothingThere
from dasd_catalogue.report import write_report
from dasd_catalogue.serving import ServedLinks, server_for

#: What is in for the page: a pack goes where the comment is.
STAND_IN = b"<!doctype html><title>stand-in</title><p>before</p><!--GIVEN-->\n<p>after</p>"
NAME = b"<b>&'\"%41?#@,\xe9 x.ckd.gz"
BLOCK = re.compile(rb'<script type="application/octet-stream" id="given-pack" data-name="([^"]*)">([A-Za-z0-9+/=]*)</script>')


class Packs(Case):
    """An archive with packs of each kind, and the page's stand-in."""

    files: ClassVar[dict[bytes, bytes]] = {
        b"1.ckd": plain(1),
        b"2.ckd.xz": lzma.compress(plain(2)),
        NAME: gzip.compress(hostile(61)),
        b"broken.ckd": with_broken_track(17),
    }

    def setUp(self) -> None:
        """Makes and scans it."""
        super().setUp()
        self.archive = self.folder / "packs"
        self.archive.mkdir()
        for name, held in self.files.items():
            Path(os.fsdecode(os.fsencode(self.archive) + b"/" + name)).write_bytes(held)
        self.whole = pack(1, 3).volume.bytes()
        for number, held in enumerate(Volume.read([self.whole]).split(2).files(), 1):
            (self.archive / f"big_{number}.ckd").write_bytes(held)
        scanned(self.database, [self.archive])
        (self.folder / "page.html").write_bytes(STAND_IN)
        self.page = PackPage(self.folder / "page.html")
        self.connection = open_to_read(str(self.database))
        self.addCleanup(self.connection.close)

    def number(self, name: bytes) -> int:
        """The number of the volume of a file."""
        row = self.connection.execute("SELECT id FROM files WHERE path = ?", (b"packs/" + name,)).fetchone()
        return int(row[0])

    def given(self, number: int) -> bytes:
        """The pack of a volume."""
        with Pack(self.connection, Places.beside(str(self.database)), number) as it:
            return b"".join(it.slices())


class Given(Packs):
    """Which packs are given, and as what."""

    def test_each_as_it_was_scanned(self) -> None:
        """Unpacked; of several files one image, by the conformance suite."""
        for name, wanted in ((b"1.ckd", plain(1)), (b"2.ckd.xz", plain(2)), (NAME, hostile(61)), (b"big_1.ckd", self.whole)):
            self.assertEqual(self.given(self.number(name)), wanted, name)

    def test_what_is_no_volume(self) -> None:
        """Numbers of nothing and of a further file, which is no volume of its own."""
        for number in (0, -1, 99, 1 << 62, self.number(b"big_2.ckd")):
            with self.assertRaises(NothingThere):
                self.given(number)

    def test_what_is_another_file_by_now(self) -> None:
        """Longer, of another time, a pipe that would never answer, gone, or a part of it changed."""
        first, part = self.archive / "1.ckd", self.archive / "big_2.ckd"
        number, at = self.number(b"1.ckd"), first.stat().st_mtime_ns
        os.utime(first, ns=(at, at + 1))
        self.refused(number, "packs/1.ckd has changed since it was scanned; dasd-catalogue scan asks it again")
        first.write_bytes(plain(1) + b"x")
        os.utime(first, ns=(at, at))
        self.refused(number, "has changed")
        first.unlink()
        self.refused(number, "packs/1.ckd can't be read: No such file or directory")
        os.mkfifo(first)
        self.refused(number, "has changed")
        part.write_bytes(part.read_bytes() + b"x")
        self.refused(self.number(b"big_1.ckd"), "packs/big_2.ckd has changed")

    def refused(self, number: int, why: str) -> None:
        """The pack is not given, for this reason."""
        with self.assertRaisesRegex(NotGiven, re.escape(why)):
            self.given(number)

    def test_one_that_changes_meanwhile_or_is_damaged(self) -> None:
        """It is not given to its end."""
        path = self.archive / "1.ckd"
        with Pack(self.connection, Places.beside(str(self.database)), self.number(b"1.ckd")) as it:
            slices = it.slices()
            next(slices)
            os.utime(path, ns=(1, 1))
            with self.assertRaisesRegex(NotGiven, "has changed"):
                list(slices)
        xz = self.archive / "2.ckd.xz"
        at, held = xz.stat().st_mtime_ns, bytearray(xz.read_bytes())
        held[len(held) // 2] ^= 0xFF
        xz.write_bytes(held)
        os.utime(xz, ns=(at, at))
        self.refused(self.number(b"2.ckd.xz"), "packs/2.ckd.xz can't be read")

    def test_limits(self) -> None:
        """What holds more is not given; 64 MB unpacked take few; nothing links to what is too large."""
        with mock.patch.object(packs, "MOST", len(plain(2)) - 1):
            self.refused(self.number(b"2.ckd.xz"), "which the page does not open")
        xz = self.archive / "2.ckd.xz"
        with lzma.open(xz, "wb", preset=0) as file:
            for _ in range(64):
                file.write(bytes(1 << 20))
        own = self.folder / "own.db"
        own.write_bytes(self.database.read_bytes())
        changed = sqlite3.connect(own)
        changed.execute("UPDATE files SET size = ?, modified = ? WHERE path = ?", (xz.stat().st_size, xz.stat().st_mtime_ns, b"packs/2.ckd.xz"))
        changed.commit()
        changed.close()
        self.connection = open_to_read(str(own))
        tracemalloc.start()
        self.addCleanup(tracemalloc.stop)
        with Pack(self.connection, Places.beside(str(own)), self.number(b"2.ckd.xz")) as it:
            self.assertEqual(sum(map(len, it.slices())), 64 << 20)
        self.assertLess(tracemalloc.get_traced_memory()[1], 16 << 20)
        large = {"file": 1, "shown": "a", "slot_size": 65536, "cylinders": 820, "heads": 10}
        self.assertTrue(is_too_large(large))  # type: ignore[arg-type]
        links = ServedLinks(True)
        self.assertEqual((links.pack(large), links.pack_fault(large)), ("", packs.TOO_LARGE))  # type: ignore[arg-type]


class Served(Packs):
    """Packs and the page, served."""

    def setUp(self) -> None:
        """Serves them."""
        super().setUp()
        self.port = self.serve(self.page)

    def serve(self, page: PackPage | None) -> int:
        """The port of a server."""
        server = server_for(str(self.database), "127.0.0.1", 0, page)
        threading.Thread(target=server.serve_forever, daemon=True).start()
        self.addCleanup(server.server_close)
        self.addCleanup(server.shutdown)
        return int(server.server_address[1])

    def get(self, path: str, method: str = "GET", port: int = 0, **heads: str) -> tuple[http.client.HTTPResponse, bytes]:
        """An answer and its body."""
        connection = http.client.HTTPConnection("127.0.0.1", port or self.port, timeout=60)
        self.addCleanup(connection.close)
        connection.request(method, path, headers=heads)
        answer = connection.getresponse()
        return answer, answer.read()

    def test_links_lead_to_packs(self) -> None:
        """Of each volume, data set and finding that has a track; as the page reads them (web/src/address.mjs), by a name that is only shown."""
        seen = set()
        for name, wanted in ((b"1.ckd", plain(1)), (NAME, hostile(61)), (b"broken.ckd", with_broken_track(17))):
            number = self.number(name)
            body = self.get(f"/at/{number}")[1].decode() + self.get(f"/at/{number}-0")[1].decode() + self.get("/broken")[1].decode()
            links = [html.unescape(it) for it in re.findall(r'href="(/page[^"]*)"', body) if f"packs/{number}/" in it]
            seen |= {it.partition("&")[2] for it in links}
            path = unquote(links[0].removeprefix("/page#pack=").partition("&")[0])
            answer, held = self.get(path)
            self.assertEqual((answer.status, held, answer.headers["Content-Type"]), (200, wanted, "application/octet-stream"))
            self.assertNotIn("<script", body)
        self.assertLessEqual({"", "track=0.2", "track=0.3"}, seen)
        self.assertIn(b"track=0.3\">cylinder 0 head 3</a>", self.get("/broken")[1])
        answer, held = self.get("/page")
        self.assertEqual((answer.status, held), (200, STAND_IN))
        self.assertEqual(answer.headers["Content-Security-Policy"], "frame-ancestors 'none'")

    def test_what_is_not_given(self) -> None:
        """Other numbers and paths; other hosts; HEAD has no body; a changed file is reported by its name, in the status too."""
        for path in ("0", "x", "-1", "1-0", "99999999999999999999", "", "%2e%2e", "../etc/passwd", "1/a/b", "1.ckd", "packs%2f1.ckd"):
            self.assertEqual(self.get(f"/packs/{path}")[0].status, 404, path)
        number = self.number(b"1.ckd")
        self.assertEqual(self.get(f"/packs/{number}", Host="evil.example")[0].status, 403)
        self.assertEqual(self.get("/page", Host="evil.example")[0].status, 403)
        self.assertEqual(self.get(f"/packs/{number}", "POST")[0].status, 501)
        self.assertEqual(self.get(f"/packs/{number}", "HEAD")[1], b"")
        with socket.create_connection(("127.0.0.1", self.port), 60) as raw:
            raw.sendall(f"GET /packs/{number} HTTP/1.0\r\nHost: localhost:{self.port}\r\n\r\n".encode())
            self.assertIn(b" 505 ", raw.recv(100))
        (self.archive / "1.ckd").write_bytes(b"")
        answer, body = self.get(f"/packs/{number}")
        self.assertEqual((answer.status, answer.reason), (409, "packs/1.ckd has changed since it was scanned; dasd-catalogue scan asks it again"))
        self.assertIn(b"<h1>This pack is not given</h1><p>packs/1.ckd has changed", body)
        with self.assertRaises(http.client.IncompleteRead):
            with mock.patch.object(packs, "MOST", 600):
                self.get(f"/packs/{self.number(b'2.ckd.xz')}")

    def test_without_the_page(self) -> None:
        """Nothing links to it, and neither it nor a pack is served."""
        port, number = self.serve(None), self.number(b"1.ckd")
        self.assertNotIn(b"/page#", self.get(f"/at/{number}", port=port)[1])
        for path in ("/page", f"/packs/{number}"):
            self.assertEqual(self.get(path, port=port)[0].status, 404)


class Inside(Packs):
    """A report whose pages have packs inside."""

    def test_each_pack_has_its_page(self) -> None:
        """Which has the pack, and its name as text; volumes, data sets and findings link to it."""
        folder = self.folder / "report"
        self.assertEqual(write_report(str(self.database), str(folder), self.page)[1], True)
        for name, wanted in ((b"1.ckd", plain(1)), (b"2.ckd.xz", plain(2)), (NAME, hostile(61)), (b"big_1.ckd", self.whole)):
            place = folder / f"volumes/{self.number(name)}"
            before, said, held, after = BLOCK.split((place / "pack.html").read_bytes())
            self.assertEqual((before + b"<!--GIVEN-->" + after, gzip.decompress(base64.b64decode(held))), (STAND_IN, wanted))
            self.assertNotIn(b"<", said)
            for page in ("index", "0"):
                self.assertRegex((place / f"{page}.html").read_text(encoding="utf-8"), r'href="(\.\./\.\./volumes/\d+/)pack.html#pack=given')
        self.assertIn("#pack=given&amp;track=0.3", (folder / f"volumes/{self.number(b'broken.ckd')}/index.html").read_text(encoding="utf-8"))
        plainly = self.folder / "without"
        write_report(str(self.database), str(plainly))
        self.assertEqual(list(plainly.rglob("pack.html")), [])
        self.assertFalse(any("pack.html" in it.read_text(encoding="utf-8") for it in plainly.rglob("*.html")))

    def test_a_pack_that_is_left_out(self) -> None:
        """It has no page, its volume's page says why, and so does the command, whose status is 1."""
        (self.archive / "1.ckd").write_bytes(b"")
        done = typed("report", "--packs", "--page", str(self.folder / "page.html"), "--to", str(self.folder / "out"), database=self.database)
        self.assertEqual((done.returncode, done.stderr.count("\n")), (1, 1))
        why = "packs/1.ckd has changed since it was scanned; dasd-catalogue scan asks it again"
        self.assertEqual(done.stderr, f"dasd-catalogue: packs/1.ckd is left out: {why}\n")
        page = self.folder / f"out/volumes/{self.number(b'1.ckd')}"
        self.assertIn(f"This pack is not opened here: {why}.", (page / "index.html").read_text(encoding="utf-8"))
        self.assertFalse((page / "pack.html").exists())
        with mock.patch.object(pack_page, "MOST_LETTERS", 1000), self.assertRaisesRegex(BadPage, "which no browser reads"):
            list(self.page.with_pack("a", [os.urandom(1000)]))

    def test_files_that_are_not_the_page(self) -> None:
        """Each is refused by its name; without any, `report --packs` is refused, and `serve` says so once and goes on."""
        for name, held in (("none.html", b"<body>"), ("large.html", STAND_IN + bytes(pack_page.MOST_PAGE)), ("twice.html", STAND_IN * 2)):
            (self.folder / name).write_bytes(held)
            with self.assertRaisesRegex(BadPage, "is not the page that shows packs"):
                page_at(str(self.folder / name))
        done = typed("serve", "--port", "0", "--page", str(self.folder / "lost.html"), database=self.database)
        self.assertEqual((done.returncode, done.stdout), (1, ""))
        self.assertIn("lost.html can't be read: No such file or directory\n", done.stderr)
        with mock.patch.object(pack_page, "FOUND_AT", ()), self.assertRaisesRegex(BadPage, "there is no page that shows packs"):
            page_at("")
        package = self.folder / "package/dasd_catalogue"
        package.mkdir(parents=True)
        for path in (Path(COMMAND[1]).parent / "dasd_catalogue").iterdir():
            if path.is_file() and path.name != "pack_page.html":
                (package / path.name).write_bytes(path.read_bytes())
        line = [sys.executable, "-m", "dasd_catalogue", "serve", "--port", "0", "--database", str(self.database)]
        with subprocess.Popen(line, cwd=package.parent, stdout=subprocess.PIPE, stderr=subprocess.PIPE, text=True) as process:
            assert process.stdout and process.stderr
            self.assertIn("until it is ended", process.stdout.readline())
            process.terminate()
            told = process.stderr.read()
        self.assertEqual(told.count("packs are not opened: there is no page that shows packs"), 1)


if __name__ == "__main__":
    unittest.main()
