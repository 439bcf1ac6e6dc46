"""The pages: served and as files."""

from __future__ import annotations

import html.parser
import http.client
import re
import socket
import threading
import unittest
from typing import ClassVar
from urllib.parse import quote, unquote

from archive import COUNT, Case, catalogue, reading

from dasd_catalogue.markup import Html, escaped, tag
from dasd_catalogue.queries import Place, places_of_name
from dasd_catalogue.report import write_report
from dasd_catalogue.serving import BadAddress, place_of, server_for, spelled
from dasd_catalogue.sides import aligned

VOID = {"meta", "link", "input"}
ALLOWED = set(
    "html head meta title link body nav b a form input button main section h1 h2 h3 p table thead tbody tr th td span dl dt dd div svg g rect path i"
    " ul li pre code defs pattern text use".split()
)


class Reader(html.parser.HTMLParser):
    """Reads a page as a browser does: its elements must be those of the pages and be closed, and no attribute may run anything."""

    def __init__(self) -> None:
        super().__init__()
        self.open: list[str] = []
        self.links: list[str] = []
        self.wrong: list[str] = []

    def handle_starttag(self, tag: str, attrs: list[tuple[str, str | None]]) -> None:
        """An element begins."""
        if tag not in ALLOWED:
            self.wrong.append(tag)
        self.wrong += [name for name, _ in attrs if name.startswith("on") or name == "style"]
        self.links += [value or "" for name, value in attrs if name == "href" and tag != "use"]
        if tag not in VOID:
            self.open.append(tag)

    def handle_endtag(self, tag: str) -> None:
        """An element ends."""
        if not self.open or self.open.pop() != tag:
            self.wrong.append(f"/{tag}")


def read(page: str) -> Reader:
    """A page, read."""
    reader = Reader()
    reader.feed(page)
    reader.close()
    return reader


class Served(unittest.TestCase):
    """The pages as they are served."""

    port: ClassVar[int]

    @classmethod
    def setUpClass(cls) -> None:
        """Serves the shared catalogue."""
        server = server_for(str(catalogue()), "127.0.0.1", 0)
        cls.port = server.server_address[1]
        threading.Thread(target=server.serve_forever, daemon=True).start()
        cls.addClassCleanup(server.server_close)
        cls.addClassCleanup(server.shutdown)

    def get(self, path: str, method: str = "GET", **heads: str) -> tuple[int, str, dict[str, str]]:
        """Status, body and heads of an answer."""
        connection = http.client.HTTPConnection("127.0.0.1", self.port, timeout=60)
        try:
            connection.request(method, path, headers=heads)
            answer = connection.getresponse()
            return answer.status, answer.read().decode(), dict(answer.getheaders())
        finally:
            connection.close()

    def test_each_link_leads_to_a_page(self) -> None:
        """From the first page on, some hundred of them: all are whole, and none runs anything."""
        left = ["/", "/search?q=" + quote("<b>*"), "/search?q=IEBCOPY", "/search?q=" + quote("drop table")]
        seen: set[str] = set()
        while left and len(seen) < 150:
            path = left.pop(0)
            if path in seen:
                continue
            seen.add(path)
            status, body, heads = self.get(path)
            self.assertEqual(status, 200, path)
            self.assertIn("default-src 'none'", heads["Content-Security-Policy"])
            if not path.endswith(".css"):
                reader = read(body)
                self.assertEqual((reader.wrong, reader.open), ([], []), path)
                left += reader.links[:: max(1, len(reader.links) // 40)]
        self.assertEqual(len(seen), 150)

    def test_hostile_names_are_text(self) -> None:
        """On the page of a pack that has them."""
        place = next(places_of_name(reading(), "<B>&'\""))
        body = self.get(f"/at/{spelled(place)}")[1]
        self.assertIn("&lt;B&gt;A&amp;B&#x27;&quot;&lt;/B&gt;", body)
        self.assertNotIn("<B>", body)
        self.assertNotIn("<script", self.get(f"/at/{spelled(place)}-0")[1].lower())

    def test_what_is_not_there(self) -> None:
        """Other paths, places and methods."""
        places = ("0", "1-2-3-4", "x", "99999999999999999999", "-1", "1/2", "")
        for path in (*(f"/at/{it}" for it in places), "/at", "/../x", "/sides/1", "/sides/0/1", "/page.css/x"):
            self.assertEqual(self.get(path)[0], 404, path)
        self.assertEqual(self.get("/", "POST")[0], 501)
        with socket.create_connection(("127.0.0.1", self.port), 60) as raw:
            raw.sendall(f"GET http://[/ HTTP/1.1\r\nHost: localhost:{self.port}\r\n\r\n".encode())
            self.assertIn(b" 400 ", raw.recv(100))
        self.assertEqual(self.get("/", "HEAD")[1], "")
        for path in ("/?page=-1", "/?page=x", "/?page=99999", "/copies?kind=x", "/search?q=", "/search?q=%00%ff%22*", "/broken?page=999999999"):
            self.assertEqual(self.get(path)[0], 200, path)

    def test_other_hosts_are_refused(self) -> None:
        """A page of another host that leads a browser here under its own name."""
        self.assertEqual(self.get("/", Host="evil.example")[0], 403)
        self.assertEqual(self.get("/", Host=f"localhost:{self.port}")[0], 200)

    def test_sides(self) -> None:
        """A copy with its pack; two members that differ."""
        query = "SELECT volume, data_set, number FROM members WHERE name = 'GET' GROUP BY said ORDER BY 1 LIMIT 2"
        first, second = (Place(*row) for row in reading().execute(query))
        body = self.get(f"/sides/{spelled(first)}/{spelled(second)}")[1]
        self.assertIn("They differ.", body)
        self.assertEqual(body.count('class="changed"'), 2)
        same = self.get(f"/sides/{spelled(first)}/{spelled(first)}")[1]
        self.assertIn("They say the same.", same)
        pair = reading().execute("SELECT MIN(file), MAX(file) FROM volumes GROUP BY said HAVING COUNT(*) = 2 LIMIT 1").fetchone()
        body = self.get(f"/sides/{pair[0]}/{pair[1]}")[1]
        self.assertIn("They say the same.", body)
        self.assertEqual(body.count("<svg"), 2)

    def test_an_address_that_is_none(self) -> None:
        """It is refused."""
        for address, port in (("256.0.0.1", 0), ("127.0.0.1", 70000), ("127.0.0.1", self.port)):
            with self.assertRaises(BadAddress):
                server_for(str(catalogue()), address, port)


class Written(Case):
    """The pages as files."""

    def test_a_report(self) -> None:
        """Each link leads to a file of it; each volume, data set and member has its page."""
        folder = self.folder / "report"
        count, has_all = write_report(str(catalogue()), str(folder))
        self.assertTrue(has_all)
        files = sorted(folder.rglob("*.html"))
        self.assertEqual(count, len(files))
        for path in files[:: max(1, len(files) // 200)]:
            reader = read(path.read_text(encoding="utf-8"))
            self.assertEqual((reader.wrong, reader.open), ([], []), path)
            for link in reader.links:
                self.assertTrue((path.parent / unquote(link)).is_file(), (path, link))
        numbers = {table: reading().execute(f"SELECT COUNT(*) FROM {table}").fetchone()[0] for table in ("volumes", "data_sets", "members")}
        self.assertEqual(len(list(folder.glob("volumes/*/*.html"))), sum(numbers.values()))
        told = (folder / "index.html").read_text(encoding="utf-8")
        self.assertIn(f"{numbers['volumes']} volumes", told)
        self.assertEqual(len(re.findall("<tr>", told)), min(200, numbers["volumes"]) + 1)
        self.assertGreater(COUNT, 0)


class Parts(unittest.TestCase):
    """What pages are made of."""

    def test_markup(self) -> None:
        """Text is escaped, also in attributes, and characters that HTML can't hold."""
        self.assertEqual(tag("a", "<&>'\"", href='x"y'), "<a href=\"x&quot;y\">&lt;&amp;&gt;&#x27;&quot;</a>")
        self.assertEqual(escaped("a\x1b\x00\x7fb\ud800"), "a\ufffd\ufffd\ufffdb?")
        self.assertEqual(tag("p", Html("<b>x</b>"), None, 5, class_="n", hidden=None), '<p class="n"><b>x</b>5</p>')

    def test_places(self) -> None:
        """Spelled and read again."""
        for place in (Place(1), Place(1, 0), Place(12, 3, 45)):
            self.assertEqual(place_of(spelled(place)), place)
        for text in ("", "a", "1-", "-1", "1--2", "\u0661", "1-2-3-4", "1" * 19):
            self.assertIsNone(place_of(text), text)

    def test_lines_side_by_side(self) -> None:
        """Equal ones in one row; long texts line by line."""
        self.assertEqual(list(aligned(["a", "b", "c"], ["a", "c", "d"])), [("a", "a"), ("b", ""), ("c", "c"), ("", "d")])
        left, right = ["x"] * 5001, ["x"] * 2
        self.assertEqual(sum(a != b for a, b in aligned(left, right)), 4999)


if __name__ == "__main__":
    unittest.main()
