"""Puts the pages of the repository into a folder for Sphinx.

    site/pages.py FOLDER EXAMPLES.json

Each page has its own path there; README.md is index.md at the top, with what it leads to first, and with the contents at its end. Links are
made for that folder: a link to a page stays; a file that is no page is copied beside the pages, as text where a browser would not show it; a
folder without a page is named by its path.

`try/` is the page in the browser, which site/check puts there. A link to it is printed, and its address looked at, as web/src/address.mjs reads
it: `vector=NAME` and `deck=NAME` name decks of EXAMPLES.json, which web/examples.py makes. A link that leads nowhere stops this, with status 1. The
last line is 'N pages, M files, L links into the page'."""

import json
import os
import re
import shutil
import sys
from fnmatch import fnmatch
from pathlib import Path
from urllib.parse import unquote

TOP = Path(__file__).resolve().parent.parent
FIRST, INDEX = "README.md", "index.md"
# The page in the browser, and what the first page of the site leads to, below its title: that page, a release, and the first steps.
TRY = "try"
LEADS = '''
<p class="leads"><a href="try/index.html">Try it in the browser</a>
<a href="docs/RELEASES.html">Get a release</a>
<a href="#{steps}">{heading}</a></p>
'''
# The other words of an address: packs, a track, and a deck that is packed into it.
ADDRESS = re.compile(r"pack=(example|231[14]\.\d{1,3})(@[0-6][0-9A-Fa-f]{2})?(,|$)|track=\d{1,5}\.\d{1,5}$|deck=~[dw][\w-]+$")
STEPS = re.compile(r"(?m)^## (.*\bminutes\b.*|A first run)$")
# What a browser shows by itself; every other file is copied as text.
SHOWN = {".png", ".svg", ".json", ".txt"}

LINK = re.compile(r"(?<!!)\[([^\[\]]+)\]\((?![a-z]+:)([^()#\s]+)(#[^()\s]*)?\)")
IMAGE = re.compile(r"!\[[^\]]*\]\(([^()\s]+)\)")
PICTURE = re.compile(r'<picture>.*<img alt="([^"]*)" src="([^"]*)"></picture>')


class BadLink(Exception):
    """A link that leads nowhere; the text says where it stands."""


def pages() -> list[str]:
    """The paths of all pages: not what was built."""
    found = {*TOP.glob("*.md"), *TOP.glob("docs/**/*.md"), *TOP.glob("conformance/**/*.md"), *TOP.glob("*/README.md"), *TOP.glob("*/*/README.md")}
    paths = (it.relative_to(TOP) for it in found)
    return sorted(str(it) for it in paths if "out" not in it.parts)


def decks_of(examples: Path) -> dict[str, set[str]]:
    """The names of the page's decks, by the words with which an address begins."""
    decks: dict[str, set[str]] = {"vector": set(), "deck": set()}
    for it in json.loads(examples.read_text(encoding="utf-8"))["examples"]:
        decks["vector" if it["kind"] == "vector" else "deck"].add(it["name"])
    return decks


class Site:
    """The folder that is filled."""

    def __init__(self, folder: Path, decks: dict[str, set[str]]) -> None:
        self.folder, self.pages, self.decks = folder, pages(), decks
        self.files: set[str] = set()
        self.tried: list[str] = []

    def place_of(self, path: str) -> str:
        """Where a page or a file is in the folder."""
        if path == FIRST:
            return INDEX
        return path if path in self.pages or Path(path).suffix in SHOWN else f"{path}.txt"

    def target(self, page: str, link: str) -> str:
        """The path of the repository to which a link of a page leads: a page where a folder has one."""
        path = os.path.normpath(os.path.join(os.path.dirname(page), link))
        if not (TOP / path).exists():
            raise BadLink(f"{page}: nothing at {link}")
        first = os.path.normpath(os.path.join(path, FIRST))
        return first if first in self.pages else path

    def link_to_try(self, page: str, text: str, fragment: str) -> str:
        """A link into the page in the browser: as HTML, since Sphinx does not know that page."""
        for part in fragment.removeprefix("#").split("&") if fragment else []:
            word, _, name = part.partition("=")
            if unquote(name) not in self.decks.get(word, set()) and not ADDRESS.match(part):
                raise BadLink(f"{page}: the page in the browser has no {word} {unquote(name)}")
        self.tried.append(f"{page}: {fragment}")
        place = os.path.relpath(TRY, os.path.dirname(page) or ".")
        return f'<a href="{place}/index.html{fragment}">{text}</a>'

    def linked(self, page: str, link: re.Match[str]) -> str:
        """A link of a page as it is in the folder."""
        if os.path.normpath(os.path.join(os.path.dirname(page), link[2])) == TRY:
            return self.link_to_try(page, link[1], link[3] or "")
        text, path = link[1], self.target(page, link[2])
        if (TOP / path).is_dir():
            return f"`{path}/`" if text.strip("`") in (path, link[2]) else f"{text} (`{path}/`)"
        if path not in self.pages:
            self.files.add(path)
        place = os.path.relpath(self.place_of(path), os.path.dirname(page) or ".")
        return f"[{text}]({place}{link[3] or ''})"

    def pictured(self, page: str, line: str) -> str:
        """A line with its picture as Markdown has it."""
        line = PICTURE.sub(r"![\1](\2)", line)
        self.files.update(self.target(page, it) for it in IMAGE.findall(line))
        return line

    def text_of(self, page: str) -> str:
        """The text of a page for the folder: all but its fenced blocks may have links."""
        lines: list[str] = []
        is_open = False
        for line in (TOP / page).read_text(encoding="utf-8").splitlines():
            fence = line.startswith("```")
            is_open ^= fence
            plain = fence or is_open
            lines.append(line if plain else LINK.sub(lambda it: self.linked(page, it), self.pictured(page, line)))
        return "\n".join(lines) + "\n"

    def first(self, text: str) -> str:
        """The first page with what it leads to below its title."""
        title, _, rest = text.partition("\n")
        heading = STEPS.search(text)
        if not heading:
            raise BadLink(f"{FIRST}: no heading for the first steps")
        steps = re.sub(r"[^a-z0-9]+", "-", heading[1].lower())
        return f"{title}\n{LEADS.format(steps=steps, heading=heading[1])}{rest}"

    def contents(self) -> str:
        """The contents at the end of the first page: a list of pages for each heading of contents.txt, in which each page is once."""
        left = [it for it in self.pages if it != FIRST]
        lists: list[str] = []
        for block in (TOP / "site/contents.txt").read_text(encoding="utf-8").strip().split("\n\n")[1:]:
            heading, *lines = block.splitlines()
            entries: list[str] = []
            for pattern, _, title in (line.partition(" ") for line in lines):
                named = [it for it in left if fnmatch(it, pattern)]
                left = [it for it in left if it not in named]
                entries += [f"{title} <{it}>" if title else it for it in named]
            if entries:
                lists.append("\n".join(["```{toctree}", ":hidden:", f":caption: {heading}", "", *entries, "```"]))
        return "\n" + "\n\n".join(lists) + "\n"

    def fill(self) -> None:
        """Writes all pages, and copies what they lead to."""
        texts = {self.place_of(it): self.text_of(it) for it in self.pages}
        texts[INDEX] = self.first(texts[INDEX]) + self.contents()
        for place, text in texts.items():
            (self.folder / place).parent.mkdir(parents=True, exist_ok=True)
            (self.folder / place).write_text(text, encoding="utf-8")
        for path in self.files:
            copy = self.folder / self.place_of(path)
            copy.parent.mkdir(parents=True, exist_ok=True)
            shutil.copyfile(TOP / path, copy)


def main() -> int:
    """Fills the folder that is named."""
    if len(sys.argv) != 3:
        print(__doc__, file=sys.stderr)
        return 2
    site = Site(Path(sys.argv[1]), decks_of(Path(sys.argv[2])))
    try:
        site.fill()
    except BadLink as why:
        print(why)
        return 1
    print(*site.tried, f"{len(site.pages)} pages, {len(site.files)} files, {len(site.tried)} links into the page", sep="\n")
    return 0


if __name__ == "__main__":
    sys.exit(main())
