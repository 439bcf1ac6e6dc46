#!/usr/bin/env python3
"""Copies the pages of a release's tree for a package that has the pages alone, and follows their links.

    release/package_pages.py TREE FOLDER
    release/package_pages.py --text FOLDER
    release/package_pages.py --check FOLDER..

README.md, docs/ and its pictures are put into FOLDER as they are laid out in the tree, and the page in the browser as try/index.html, of the
modules in compiled/. A link into that page names its file, since no server would find it in its folder. A link to another file that is not
among them becomes its text, so that none leads nowhere. The last line is 'N pages, M links became text'.

--text does the same with the pages that a FOLDER has, in their places.

--check follows the links of each FOLDER, as it was made or as a package installed it: each leads to a file, and one into the page in the browser to
a deck that the page has. The last line is 'N links, M into the page, K wrong', with status 1 where K is not 0."""

import base64
import gzip
import json
import os
import re
import shutil
import subprocess
import sys
from pathlib import Path
from typing import Any
from urllib.parse import unquote

TRY = Path("try")
LINK = re.compile(r"(!?)\[([^\]]*)\]\((?!\w+:|#)([^)#\s]+)(#[^)\s]*)?\)")
EXAMPLES = re.compile(r'id="examples\.json">([^<]*)<')


def taken(tree: Path) -> list[Path]:
    """The files that the package has, as paths below the tree."""
    found = [tree / "README.md", *(tree / "docs").glob("*.md"), *(tree / "docs" / "pictures").glob("*")]
    return sorted(it.relative_to(tree) for it in found)


def target(page: Path, link: str) -> Path:
    """Where a link of a page leads, as a path below the folder."""
    return Path(os.path.normpath(page.parent / link))


def linked(page: Path, text: str, known: set[Path]) -> tuple[str, int]:
    """The page's text with those links alone that lead to a known file, or into the page in the browser; and how many others there were."""
    dropped = 0

    def kept(found: re.Match[str]) -> str:
        nonlocal dropped
        path = target(page, found[3])
        if path == TRY:
            return f"{found[1]}[{found[2]}]({os.path.relpath(TRY / 'index.html', page.parent)}{found[4] or ''})"
        if path in known:
            return found[0]
        dropped += 1
        return found[2]

    return LINK.sub(kept, text), dropped


def put(tree: Path, folder: Path) -> tuple[int, int]:
    """Puts the pages into the folder: how many, and how many links became text."""
    files, pages, dropped = taken(tree), 0, 0
    for it in files:
        (folder / it).parent.mkdir(parents=True, exist_ok=True)
        if it.suffix != ".md":
            shutil.copyfile(tree / it, folder / it)
            continue
        text, count = linked(it, (tree / it).read_text(encoding="utf-8"), set(files))
        (folder / it).write_text(text, encoding="utf-8")
        pages, dropped = pages + 1, dropped + count
    return pages, dropped


def put_text(folder: Path) -> tuple[int, int]:
    """Makes text of what leads out of the folder, or nowhere, in each of its pages: how many pages, and how many links."""
    known, pages, dropped = {it.relative_to(folder) for it in folder.rglob("*")}, 0, 0
    for it in sorted(folder.rglob("*.md")):
        text, count = linked(it.relative_to(folder), it.read_text(encoding="utf-8"), known)
        it.write_text(text, encoding="utf-8")
        pages, dropped = pages + 1, dropped + count
    return pages, dropped


def decks(page: Path) -> set[str]:
    """The decks of a page in the browser, as its addresses name them; none where there is no such page."""
    found = EXAMPLES.search(page.read_text(encoding="utf-8")) if page.is_file() else None
    if not found:
        return set()
    examples: Any = json.loads(gzip.decompress(base64.b64decode(found[1])))["examples"]
    return {f"#{'vector' if it['kind'] == 'vector' else 'deck'}={it['name']}" for it in examples}


def fault(folder: Path, page: Path, link: str, fragment: str, known: set[str]) -> str | None:
    """What is wrong with a link of a page, if anything is."""
    path = target(page, link)
    if not (folder / path).is_file():
        return f"{page}: no file {path}"
    if path.parent == TRY and fragment.startswith(("#vector=", "#deck=")) and unquote(fragment) not in known:
        return f"{page}: the page in the browser has no {unquote(fragment)}"
    return None


def check(folder: Path) -> tuple[int, int, list[str]]:
    """How many links the folder's pages have, how many of them lead into the page in the browser, and what is wrong with them."""
    known, count, inside, wrong = decks(folder / TRY / "index.html"), 0, 0, []
    for it in sorted(folder.rglob("*.md*")):
        page, data = it.relative_to(folder), it.read_bytes()
        text = (gzip.decompress(data) if it.suffix == ".gz" else data).decode()
        for _, _, link, fragment in LINK.findall(text):
            count, inside = count + 1, inside + (target(page, link).parent == TRY)
            wrong += [why for why in [fault(folder, page, link, fragment, known)] if why]
    return count, inside, wrong


def main() -> int:
    """Does as the words say."""
    if len(sys.argv) > 2 and sys.argv[1] == "--check":
        counts, insides, wrongs = zip(*(check(Path(it)) for it in sys.argv[2:]))
        wrong = [it for each in wrongs for it in each]
        print(*wrong, f"{sum(counts)} links, {sum(insides)} into the page, {len(wrong)} wrong", sep="\n")
        return 1 if wrong or not sum(insides) else 0
    if len(sys.argv) == 3 and sys.argv[1] == "--text":
        pages, dropped = put_text(Path(sys.argv[2]))
        print(f"{pages} pages, {dropped} links became text")
        return 0
    if len(sys.argv) != 3 or sys.argv[1].startswith("-"):
        sys.exit(__doc__)
    tree, folder = Path(sys.argv[1]), Path(sys.argv[2])
    subprocess.run([str(tree / "web" / "make_page"), str(folder / TRY / "index.html")], check=True)
    pages, dropped = put(tree, folder)
    print(f"{pages} pages, {dropped} links became text")
    return 0


if __name__ == "__main__":
    sys.exit(main())
