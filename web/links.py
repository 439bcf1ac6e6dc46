#!/usr/bin/env python3
"""Links of the pages into the page in the browser: docs/TRY.md has them all.

    links.py EXAMPLES.json            writes docs/TRY.md
    links.py EXAMPLES.json --check    it is as it would be written; each link of docs/ leads to a deck that is there, and each deck of
                                      docs/DECKS.md, docs/TRACING.md and docs/HERCULES.md is linked where it stands

EXAMPLES.json is what examples.py makes. The last line is 'N links into the page, M wrong'."""

import json
import re
import sys
from collections import defaultdict
from pathlib import Path
from typing import Any
from urllib.parse import quote

TOP = Path(__file__).resolve().parent.parent
PAGE = TOP / "docs" / "TRY.md"
LINK = re.compile(r"\]\(\.\./try/(#[^)\s]+)\)")
HEAD = """# Decks to try in the browser

Each link opens the page of [WEB.md](WEB.md), where the deck runs over its packs and is stepped through, forwards and back. `web/links.py` writes this list.
"""
TITLES = {"docs/DECKS.md": "Decks of the pages", "docs/TRACING.md": "Programs that fail", "docs/HERCULES.md": "Where Hercules 3.13 differs"}


def address(example: dict[str, Any]) -> str:
    """The address of a deck."""
    return f"#{'vector' if example['kind'] == 'vector' else 'deck'}={quote(example['name'], safe='')}"


def listed(examples: list[dict[str, Any]]) -> str:
    """The page with all of them."""
    groups: dict[str, list[str]] = defaultdict(list)
    for it in examples:
        groups[it["group"]].append(f"[{it['name']}](../try/{address(it)})")
    parts = [HEAD]
    for group, links in sorted(groups.items(), key=lambda it: (it[0] not in TITLES, list(TITLES).index(it[0]) if it[0] in TITLES else 0)):
        if group in TITLES:
            parts.append(f"## {TITLES[group]}\n\n" + "\n".join(f"- {it}" for it in links) + "\n")
        else:
            parts.append(f"## Vectors: {group}\n\n" + ",\n".join(links) + "\n")
    return "\n".join(parts)


def wrong_links(examples: list[dict[str, Any]]) -> tuple[int, list[str]]:
    """How many links the pages have, and what is wrong with them."""
    known = {address(it) for it in examples}
    found = {page.name: LINK.findall(page.read_text(encoding="utf-8")) for page in sorted(TOP.glob("docs/*.md"))}
    wrong = [f"docs/{page}: no deck {it}" for page, its in found.items() for it in its if it.startswith(("#vector=", "#deck=")) and it not in known]
    for it in examples:
        page = it["group"].removeprefix("docs/")
        if it["group"] in TITLES and address(it) not in found[page]:
            wrong.append(f"docs/{page}: no link to {address(it)}")
    return sum(map(len, found.values())), wrong


def main() -> int:
    """Writes the page, or checks all links."""
    if len(sys.argv) < 2 or sys.argv[2:] not in ([], ["--check"]):
        print(__doc__, file=sys.stderr)
        return 2
    examples = json.loads(Path(sys.argv[1]).read_text(encoding="utf-8"))["examples"]
    if sys.argv[2:]:
        stale = [] if PAGE.read_text(encoding="utf-8") == listed(examples) else ["docs/TRY.md is not what web/links.py writes"]
    else:
        PAGE.write_text(listed(examples), encoding="utf-8")
        stale = []
    count, wrong = wrong_links(examples)
    wrong += stale
    print(*wrong, f"{count} links into the page, {len(wrong)} wrong", sep="\n")
    return 1 if wrong else 0


if __name__ == "__main__":
    sys.exit(main())
