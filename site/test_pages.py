"""Tests of pages.py, over a small repository that is made for each: `python3 site/test_pages.py`."""

import tempfile
import unittest
from pathlib import Path
from unittest import mock

import pages

FILES = {
    "README.md": "# First\n\n[a deck](docs/DECKS.md), [the crates](crates), [one of them](crates/low)\n\n## A first run\n",
    "docs/DECKS.md": "# Decks\n\n[first](../README.md#get-it), [`dasd.h`](../c/dasd.h), [form](form.json)\n\n```sh\necho '[x](y)'\n```\n",
    "docs/NEW.md": '# New\n\n<picture><source srcset="pictures/a-dark.png"><img alt="A pack" src="pictures/a.png"></picture>\n',
    "docs/form.json": "{}\n",
    "docs/pictures/a.png": "",
    "c/dasd.h": "/* calls */\n",
    "crates/low/README.md": "# `low`\n",
    "release/out/README.md": "# Not a page\n",
    "site/contents.txt": "# The order.\n\nProgram\ndocs/DECKS.md How decks are written\n\nThe rest\n*\n",
}
DECKS = {"vector": {"one-read"}, "deck": {"A read"}}


class Pages(unittest.TestCase):
    """What the folder for Sphinx has."""

    def filled(self, changed: dict[str, str]) -> dict[str, str]:
        """The texts of the folder, by their paths."""
        with tempfile.TemporaryDirectory() as top, tempfile.TemporaryDirectory() as folder:
            for name, text in {**FILES, **changed}.items():
                Path(top, name).parent.mkdir(parents=True, exist_ok=True)
                Path(top, name).write_text(text, encoding="utf-8")
            with mock.patch.object(pages, "TOP", Path(top)):
                pages.Site(Path(folder), DECKS).fill()
            found = [it for it in Path(folder).rglob("*") if it.is_file()]
            return {str(it.relative_to(folder)): it.read_text(encoding="utf-8") for it in found}

    def test_pages_and_what_they_lead_to(self) -> None:
        wanted = {"index.md", "docs/DECKS.md", "docs/NEW.md", "crates/low/README.md", "c/dasd.h.txt", "docs/form.json", "docs/pictures/a.png"}
        self.assertEqual(set(self.filled({})), wanted)

    def test_links(self) -> None:
        made = self.filled({})
        self.assertIn("[a deck](docs/DECKS.md), the crates (`crates/`), [one of them](crates/low/README.md)\n", made["index.md"])
        self.assertIn("[first](../index.md#get-it), [`dasd.h`](../c/dasd.h.txt), [form](form.json)\n", made["docs/DECKS.md"])

    def test_fenced_blocks_stay(self) -> None:
        self.assertIn("echo '[x](y)'\n", self.filled({})["docs/DECKS.md"])

    def test_pictures(self) -> None:
        self.assertIn("\n![A pack](pictures/a.png)\n", self.filled({})["docs/NEW.md"])

    def test_contents(self) -> None:
        lists = self.filled({})["index.md"].split("```{toctree}\n")[1:]
        self.assertEqual(lists[0], ":hidden:\n:caption: Program\n\nHow decks are written <docs/DECKS.md>\n```\n\n")
        self.assertEqual(lists[1], ":hidden:\n:caption: The rest\n\ncrates/low/README.md\ndocs/NEW.md\n```\n")

    def test_link_to_nothing(self) -> None:
        with self.assertRaisesRegex(pages.BadLink, "docs/NEW.md: nothing at TIMES.md"):
            self.filled({"docs/NEW.md": "# New\n\n[times](TIMES.md)\n"})

    def test_what_the_first_page_leads_to(self) -> None:
        made = self.filled({})["index.md"]
        self.assertTrue(made.startswith('# First\n\n<p class="leads"><a href="try/index.html">'))
        self.assertIn('<a href="#a-first-run">A first run</a>', made)
        self.assertIn('<a href="#five-minutes-from-nothing">', self.filled({"README.md": "# First\n\n## Five minutes from nothing\n"})["index.md"])
        with self.assertRaisesRegex(pages.BadLink, "README.md: no heading for the first steps"):
            self.filled({"README.md": "# First\n"})

    def test_links_into_the_page(self) -> None:
        page = "# New\n\n[`read`](../try/#vector=one-read), [a deck](../try/#deck=A%20read), [the page](../try/)\n"
        made = self.filled({"docs/NEW.md": page})["docs/NEW.md"]
        self.assertIn('<a href="../try/index.html#vector=one-read">`read`</a>, <a href="../try/index.html#deck=A%20read">a deck</a>, ', made)
        self.assertIn('<a href="../try/index.html">the page</a>\n', made)
        self.assertIn('<a href="try/index.html">it</a>', self.filled({"README.md": "# First\n\n## A first run\n\n[it](try)\n"})["index.md"])

    def test_addresses(self) -> None:
        for link in ("pack=example&track=45.7", "pack=2314.5@191,2311.3", "deck=~deJy", "vector=one-read&pack=example"):
            self.assertIn(f"#{link}", self.filled({"docs/NEW.md": f"# New\n\n[it](../try/#{link})\n"})["docs/NEW.md"])

    def test_link_to_no_deck(self) -> None:
        bad = [("vector=two-reads", "no vector two-reads"), ("deck=A%20write", "no deck A write"), ("pack=example&track=45", "no track 45")]
        for link, why in [*bad, ("vectors=one-read", "no vectors one-read"), ("pack=2312.5", "no pack 2312.5")]:
            with self.assertRaisesRegex(pages.BadLink, f"docs/NEW.md: the page in the browser has {why}"):
                self.filled({"docs/NEW.md": f"# New\n\n[it](../try/#{link})\n"})


if __name__ == "__main__":
    unittest.main()
