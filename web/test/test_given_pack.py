"""What given_pack.py puts into a page, and what it refuses: `python3 test/test_given_pack.py`. Its page is a few words, its packs small."""

import base64
import gzip
import os
import random
import subprocess
import sys
import tempfile
import unittest
from html.parser import HTMLParser
from pathlib import Path
from unittest import mock

sys.dont_write_bytecode = True
HERE = Path(__file__).resolve().parent
sys.path.insert(0, str(HERE.parent))

import given_pack

PAGE = "<p>before</p>\n<!--GIVEN-->\n<script>after()</script>\n"


class Blocks(HTMLParser):
    """The scripts of a page: their attributes and their texts."""

    def __init__(self, text: str):
        super().__init__()
        self.found: list[dict[str, str | None]] = []
        self.feed(text)

    def handle_starttag(self, tag: str, attrs: list[tuple[str, str | None]]) -> None:
        """Takes a script."""
        if tag == "script":
            self.found.append(dict(attrs))

    def handle_data(self, data: str) -> None:
        """Takes what is in it."""
        if self.found and "text" not in self.found[-1]:
            self.found[-1]["text"] = data


class GivenPack(unittest.TestCase):
    """A folder with a page and a pack for each test."""

    def setUp(self) -> None:
        folder = tempfile.TemporaryDirectory()
        self.addCleanup(folder.cleanup)
        self.top = Path(folder.name)
        self.page, self.out, self.pack = self.top / "page.html", self.top / "out.html", self.top / "p.ckd"
        self.page.write_text(PAGE, encoding="utf-8")
        small = mock.patch.object(given_pack, "PIECE", 3000)
        small.start()
        self.addCleanup(small.stop)
        self.image = random.Random(5).randbytes(3 * given_pack.PIECE + 11)
        self.pack.write_bytes(self.image)

    def block(self) -> dict[str, str | None]:
        """The block of what was made."""
        text = self.out.read_text(encoding="utf-8")
        self.assertTrue(text.startswith("<p>before</p>\n<script ") and text.endswith("</script>\n<script>after()</script>\n"))
        found = Blocks(text).found
        self.assertEqual(len(found), 2)
        return found[0]

    def refused(self, why: str) -> None:
        """Looks that nothing is made, and that what was there stays, with nothing beside it."""
        self.out.write_text("before", encoding="utf-8")
        here = sorted(os.listdir(self.top))
        with self.assertRaisesRegex(given_pack.Refused, why):
            given_pack.put(self.page, self.out, self.pack)
        self.assertEqual((self.out.read_text(encoding="utf-8"), sorted(os.listdir(self.top))), ("before", here))

    def test_an_image_and_its_gzip_are_put_in_whole(self) -> None:
        for data in (self.image, gzip.compress(self.image, 1), gzip.compress(self.image[:99]) + gzip.compress(self.image[99:])):
            self.pack.write_bytes(data)
            given_pack.put(self.page, self.out, self.pack)
            block = self.block()
            self.assertEqual((block["type"], block["id"], block["data-name"]), ("application/octet-stream", "given-pack", "p.ckd"))
            self.assertEqual(gzip.decompress(base64.b64decode(block["text"] or "", validate=True)), self.image)

    def test_any_name_is_escaped(self) -> None:
        for name in ('"><script>x()</script>', "a&amp;'\"<", "</script>", "\u00e4 \n\t", "\udcff"):
            given_pack.put(self.page, self.out, self.pack, name)
            self.assertEqual(self.block()["data-name"], name.replace("\udcff", "?"))

    def test_what_is_no_pack(self) -> None:
        packed = gzip.compress(self.image)
        for data, why in ((b"", "it is empty"), (gzip.compress(b""), "it is empty"), (packed[:-9], "its gzip is damaged"),
                          (packed[:5000] + b"\0\xff" * 9 + packed[5018:], "its gzip is damaged")):
            self.pack.write_bytes(data)
            self.refused(why)

    def test_what_is_too_large(self) -> None:
        with mock.patch.object(given_pack, "MOST", len(self.image) - 1):
            self.refused("more than [0-9,]+ bytes")
            self.pack.write_bytes(gzip.compress(self.image))
            self.refused("more than [0-9,]+ bytes")
        with mock.patch.object(given_pack, "MOST", len(self.image)):
            given_pack.put(self.page, self.out, self.pack)
        with mock.patch.object(given_pack, "MOST_LETTERS", len(self.image)):
            self.refused("letters, which no browser reads")

    def test_a_page_without_one_place(self) -> None:
        for text in ("<p>", PAGE + PAGE):
            self.page.write_text(text, encoding="utf-8")
            self.refused("no one place for a pack")
        self.page.write_text(PAGE, encoding="utf-8")
        given_pack.put(self.page, self.out, self.pack)
        self.page = self.out
        with self.assertRaisesRegex(given_pack.Refused, "no one place for a pack"):
            given_pack.put(self.page, self.top / "twice.html", self.pack)

    def test_the_command(self) -> None:
        command = [sys.executable, str(HERE.parent / "given_pack.py"), str(self.page), str(self.out), "--pack", str(self.pack)]
        ran = subprocess.run([*command, "--name", "mine"], capture_output=True, text=True, check=False)
        self.assertEqual((ran.returncode, ran.stdout, self.block()["data-name"]), (0, f"{self.out}: {self.out.stat().st_size} bytes\n", "mine"))
        self.pack.unlink()
        ran = subprocess.run(command, capture_output=True, text=True, check=False)
        self.assertEqual((ran.returncode, "p.ckd" in ran.stderr), (1, True))


if __name__ == "__main__":
    unittest.main()
