"""Counts the words of the pages, and looks for words that no engineer of the field writes.

    tools/run gate/check_words [--write] [PAGE ..]

Of each page: its words, words per sentence, semicolons per 1,000 words, and hits of the word list. Words are those of the whole page, its code
too. Sentences, semicolons and hits are those of the text without code, quotations and the targets of links; a cell of a table is no sentence.
README.md has a limit, each page in docs/ one, each crate's README one, and all pages together one. What a tool writes is counted and not limited:
whole pages, the parts between comments `NAME: begin` and `NAME: end`, and what was played for a page.

tools/gate/page_words.txt has the pages that are over a limit or have hits, with both numbers, which may only fall: `--write` writes down those that
fell. With pages, these alone are looked at, and each hit is printed with its line. The last line is 'N pages, W words that no tool wrote, at most L,
M wrong', and the status 1 where M is not 0."""

import argparse
import re
import sys
from collections.abc import Iterator, Mapping, Sequence
from dataclasses import dataclass
from pathlib import Path

from tools import TOP
from tools.gate.check_documents import documents

LIST = "tools/gate/page_words.txt"
HEAD = "# Pages over their limit, and pages with hits of the word list, by tools/gate/check_words.py: PAGE WORDS HITS. '-' is within the limit.\n"
# Pages that a tool writes whole.
GENERATED = ("docs/ASSUMPTIONS.md", "docs/RULES.md", "docs/TRY.md")
# Pages whose blocks of code a tool writes, of what it played.
PLAYED = ("docs/HERCULES.md",)
# How many words that no tool wrote all pages may have together.
TOGETHER = 75_000
# The first pattern that a page's path matches says how many words it may have.
LIMITS = ((r"README\.md", 1200), (r"docs/.*\.md", 4000), (r"crates/[^/]*/README\.md", 150))
WORDS = (
    r"behind",
    r"stands?(?!-| for)|stood",
    r"(?:is|are|was|were|be|been|gets?) told",
    r"anew",
    r"as ever",
    r"where it",
    r"but for",
    r"bears?",
    r"a volume says",
)
HIT = re.compile(rf"(?i)\b(?:{'|'.join(WORDS).replace(' ', chr(92) + 's+')})\b")
SENTENCE_END = re.compile(r"[.!?][\"')*_]*(?=\s|$)")
# What is no prose: blocks of code, comments and quoted lines; and what is one word in a sentence, code and quotations.
BLOCKS = (re.compile(r"(?ms)^ *(```+|~~~+).*?^ *\1 *$"), re.compile(r"(?s)<!--.*?-->"), re.compile(r"(?m)^>.*$"))
SPANS = (re.compile(r"(`+)[^`].*?\1"), re.compile(r'"(?:[^"\n]|\n(?!\n))*"'))
TARGET = re.compile(r"\]\([^)\s]*\)")
MADE = re.compile(r"(?s)<!-- ([^>]*): begin -->.*?<!-- \1: end -->")


@dataclass(frozen=True)
class Count:
    """What a page has: its words, and those that no tool wrote; words of paragraphs, and their sentences; semicolons in 1,000 words; hits, each
    with its line."""

    words: int
    written: int
    prose: int
    sentences: int
    semicolons: float
    hits: tuple[tuple[int, str], ...]

    def row(self, page: str, limit: int | None) -> str:
        """A row of the table."""
        length = f"{self.prose / self.sentences:.1f}" if self.sentences else "-"
        return f"| {page} | {self.words} | {self.words - self.written} | {limit or '-'} | {length} | {self.semicolons:.1f} | {len(self.hits)} |"


@dataclass(frozen=True)
class Allowed:
    """What the list allows to a page: words, or None where the limit does, and hits."""

    words: int | None = None
    hits: int = 0


def newlines(it: re.Match[str]) -> str:
    """The ends of the lines that something has."""
    return "\n" * it[0].count("\n")


def one_word(it: re.Match[str]) -> str:
    """One word in the place of several, on as many lines."""
    return "X" + newlines(it)


def prose_of(text: str) -> str:
    """A page's text without what is no prose, in as many lines."""
    for pattern in BLOCKS:
        text = pattern.sub(newlines, text)
    for pattern in SPANS:
        text = pattern.sub(one_word, text)
    return TARGET.sub("]", text)


def sentences_of(prose: str) -> tuple[int, int]:
    """The words and the sentences of all paragraphs and list items; neither headings nor tables have any."""
    words = sentences = 0
    for block in re.split(r"\n\s*\n|\n(?=\s*(?:[-*]|\d+\.|\|.*\||#+)\s)", prose):
        if block.strip() and not re.match(r"\s*(?:\||#)", block):
            words += len(block.split())
            sentences += len(SENTENCE_END.findall(block)) + (not SENTENCE_END.search(block.rstrip()[-4:]))
    return words, sentences


def count_of(text: str, page: str = "") -> Count:
    """What a page has."""
    own = MADE.sub(newlines, text)
    if page in PLAYED:
        own = BLOCKS[0].sub(newlines, own)
    prose = prose_of(own)
    hits = ((prose.count("\n", 0, it.start()) + 1, " ".join(it[0].split())) for it in HIT.finditer(prose))
    semicolons = 1000 * prose.count(";") / (len(prose.split()) or 1)
    return Count(len(text.split()), len(own.split()), *sentences_of(prose), semicolons, tuple(hits))


def by_hand(page: str, count: Count) -> int:
    """The words of a page that no tool wrote."""
    return 0 if page in GENERATED else count.written


def limit_of(page: str) -> int | None:
    """How many words a page may have, where there is a limit."""
    if page in GENERATED:
        return None
    return next((limit for pattern, limit in LIMITS if re.fullmatch(pattern, page)), None)


def allowed_by(text: str) -> dict[str, Allowed]:
    """The entries of the list."""
    rows = [line.split() for line in text.splitlines() if line and not line.startswith("#")]
    return {page: Allowed(None if words == "-" else int(words), int(hits)) for page, words, hits in rows}


def needed(page: str, count: Count) -> Allowed:
    """The entry that a page needs as it is."""
    limit = limit_of(page)
    is_over = limit is not None and count.written > limit
    return Allowed(count.written if is_over else None, 0 if page in GENERATED else len(count.hits))


def faults_of(page: str, count: Count, allowed: Allowed) -> Iterator[str]:
    """What is wrong with a page."""
    now, limit = needed(page, count), limit_of(page)
    if now.words is not None and now.words > (allowed.words or 0):
        than = f"{allowed.words} are listed, and may only fall" if allowed.words else f"the limit is {limit}"
        yield f"{page}: {now.words} words; {than}"
    if now.hits > allowed.hits:
        where = ", ".join(f"{word} (line {line})" for line, word in count.hits)
        yield f"{page}: {now.hits} hits of the word list, {allowed.hits} listed: {where}"


def lowered(page: str, count: Count, allowed: Allowed) -> Allowed:
    """An entry no higher than it was or needs to be."""
    now = needed(page, count)
    words = None if now.words is None or allowed.words is None else min(now.words, allowed.words)
    return Allowed(words, min(now.hits, allowed.hits))


def written_list(entries: Mapping[str, Allowed]) -> str:
    """The list with these entries, without those that allow nothing."""
    kept = sorted((page, it) for page, it in entries.items() if it != Allowed())
    return HEAD + "".join(f"{page} {it.words or '-'} {it.hits}\n" for page, it in kept)


def report(top: Path, named: Sequence[str], listed: Mapping[str, Allowed]) -> tuple[int, dict[str, Allowed]]:
    """Prints what pages have and what is wrong; how much is, and the list's entries, lowered to what is needed."""
    here = {str(it.relative_to(top)): it for it in documents(top)}
    entries = {page: it for page, it in listed.items() if page in here}
    wrong = words = 0
    print("| Page | Words | Of these generated | Limit of others | Words per sentence | Semicolons per 1,000 words | Hits |", "|---" * 7 + "|", sep="\n")
    for page in named or here:
        count, allowed = count_of((top / page).read_text(encoding="utf-8"), page), listed.get(page, Allowed())
        print(count.row(page, limit_of(page)))
        for line, word in count.hits if named else ():
            print(f"{page}:{line}: {word}")
        for fault in faults_of(page, count, allowed):
            print(fault)
            wrong += 1
        entries[page] = lowered(page, count, allowed)
        words += by_hand(page, count)
    for page in sorted(page for page in listed if listed[page] != entries.get(page, Allowed())):
        print(f"{page}: its entry in {LIST} can {'go' if entries.get(page, Allowed()) == Allowed() else 'fall'}: tools/run gate/check_words --write")
    wrong += words > TOGETHER
    print(f"{len(named or here)} pages, {words:,} words that no tool wrote, at most {TOGETHER:,}, {wrong} wrong")
    return wrong, entries


def main() -> int:
    """Looks at the pages."""
    words = argparse.ArgumentParser(description=__doc__, formatter_class=argparse.RawDescriptionHelpFormatter)
    words.add_argument("--write", action="store_true", help="write down numbers that fell")
    words.add_argument("pages", nargs="*", metavar="PAGE", help="look at these pages alone")
    asked = words.parse_args()
    before = (TOP / LIST).read_text(encoding="utf-8")
    wrong, entries = report(TOP, asked.pages, allowed_by(before))
    if asked.write:
        (TOP / LIST).write_text(written_list(entries), encoding="utf-8")
    return 1 if wrong else 0


if __name__ == "__main__":
    sys.exit(main())
