"""Looks for what is stale in the documents.

- Each crate of crates.txt has a README.md, and a row in docs/MAP.md.
- README.md has the repository's address of release/identity; while that is not set, it says so, and no page has an address that is not set. LICENSE and
  CITATION.cff name the maintainer of release/identity, and no other file of a package has an address of people.
- Each link of a document leads to a file that is there.
- tools/edits/README.md names the must-fail edits of the gate, each of them.
- Each file of Rattle or antt that a document names is there: `crates/NAME/src/x.rt`, `NAME/specs/X.antt`; a name without a folder, as `Geometry.antt`,
  is looked for in the folder that was named last in its paragraph.
- Each file in a table of docs/EXTENDING.md is there and has the first word in code beside it; and each source of a crate in which the pattern before the
  table, `<!-- sources: PATTERN -->`, is found is in the table.
- Each name that the last column of a table in a crate's README has in code, as `Drive::new` or `Follows`, stands in the crate's own files.
- docs/RULES.md is what tools/make/rules.py writes of this tree: each definition, function and vector that it names is there, and no rule of the
  conformance suite and none of docs/DEFINITIONS.md is without a row.

Prints what is wrong; the last line is 'N things looked at in the documents, M wrong', and the status 1 where M is not 0.
"""

import re
import sys
from collections.abc import Iterator
from pathlib import Path

from release import identity
from tools import TOP
from tools.gate.check_crates import crates_of
from tools.make import rules

CODE = re.compile(r"`([^`\n]+)`")
LINK = re.compile(r"\]\((?!https?:)([^)#\s]+)[^)]*\)")
FILE = re.compile(r"(?:[a-z0-9_]+/)*[A-Za-z0-9_]+\.(?:rt|antt)")
MAIL = re.compile(r"[\w.-]+@[\w-]+(?:\.[a-zA-Z]{2,})+")
# What names people in packages.
PACKAGED = ("CITATION.cff", "adapters/*/make_package", "release/make_*", "release/debian/**/*", "**/Cargo.toml", "**/pyproject.toml")
WORD = re.compile(r"(?:[A-Z]\w*::)?([A-Za-z_]\w*)")
# The files of a change: its example in sources, and several paths in one.
EXTENDING = "docs/EXTENDING.md"
SOURCES = re.compile(r"<!-- sources: (.*) -->")
BRACES = re.compile(r"`([^`{]*)\{?([^`{}]*)\}?([^`}]*)`")


class Findings:
    """What was looked at, and what of it is wrong."""

    def __init__(self) -> None:
        self.looked, self.wrong = 0, 0

    def expect(self, holds: bool, what: str) -> None:
        """Counts something, and prints what is wrong with it unless it holds."""
        self.looked += 1
        if not holds:
            print(what)
            self.wrong += 1


def documents(top: Path) -> list[Path]:
    """All pages of a repository: not what was built."""
    pages = {*top.glob("*.md"), *top.glob("docs/**/*.md"), *top.glob("*/*.md"), *top.glob("*/*/README.md")}
    return sorted(it for it in pages if "out" not in it.relative_to(top).parts)


def check_crates(findings: Findings) -> None:
    """Each crate has its page and its row."""
    rows = (TOP / "docs/MAP.md").read_text(encoding="utf-8").split("## Which definitions live where")[0]
    for name in (it.name for it in crates_of((TOP / "crates.txt").read_text(encoding="utf-8"))):
        findings.expect((TOP / "crates" / name / "README.md").is_file(), f"crates/{name}: no README.md")
        findings.expect(f"`{name}`" in rows, f"docs/MAP.md: no row of {name}")


def check_edits(findings: Findings) -> None:
    """The gate's must-fail edits are those of the page's table."""
    page = TOP / "tools/edits/README.md"
    if not page.is_file():
        return
    rows = [line.split("|")[2] for line in page.read_text(encoding="utf-8").splitlines() if line.startswith("| ")]
    named = {code for row in rows for code in CODE.findall(row)}
    here = {f"{it.parent.parent.name}/{it.stem}" for it in TOP.glob("crates/*/must-fail/*.edit")}
    for name in sorted(named | here):
        findings.expect(name in here, f"tools/edits/README.md: no must-fail edit {name}")
        findings.expect(name in named, f"tools/edits/README.md: no row of {name}")


def check_addresses(findings: Findings) -> None:
    """README.md leads to the repository, or says that it can't yet."""
    names = TOP / "release/identity"
    if not names.is_file():
        return
    text = (TOP / "README.md").read_text(encoding="utf-8")
    is_missing, address = "There is no public address" in text, identity.value("REPOSITORY", names)
    if identity.UNSET in address:
        findings.expect(is_missing, "README.md does not say that there is no public address yet")
    else:
        findings.expect(address in text and not is_missing, "README.md has not the repository's address of release/identity")
    maintainer = identity.value("MAINTAINER", names)
    for name in ("LICENSE", "CITATION.cff"):
        findings.expect(maintainer in (TOP / name).read_text(encoding="utf-8"), f"{name} does not name {maintainer}, as release/identity does")
    for file in sorted(it for pattern in PACKAGED for it in TOP.glob(pattern) if it.is_file()):
        found = MAIL.search(file.read_text(encoding="utf-8"))
        findings.expect(not found, f"{file.relative_to(TOP)} has an address that is not taken from release/identity")
    for page in documents(TOP):
        findings.expect(identity.UNSET + "/" not in page.read_text(encoding="utf-8"), f"{page.relative_to(TOP)}: an address that is not set")


def check_links(findings: Findings, page: Path, text: str) -> None:
    """Each link leads somewhere. The site and packages have the page in the browser at try/, and site/pages.py looks at links to it."""
    for link in LINK.findall(text):
        path = page.parent / link
        findings.expect(path.exists() or path.resolve() == TOP / "try", f"{page.relative_to(TOP)}: nothing at {link}")


def files_named(paragraph: str, own: str | None) -> Iterator[str]:
    """Files that a paragraph names, each as a path below crates/; own is the crate of the page, if it has one."""
    crate, folder = own, "src"
    for code in CODE.findall(paragraph):
        for named in re.split(r"[\s,]+", code):
            if not FILE.fullmatch(named):
                continue
            *folders, file = named.removeprefix("crates/").split("/")
            if folders and folders[0] not in ("src", "specs", "proofs"):
                crate = folders.pop(0)
            folder = "/".join(folders) or folder
            if crate:
                yield f"{crate}/{folder}/{file}"


def check_files(findings: Findings, page: Path, text: str) -> None:
    """Each file that is named is there."""
    own = page.parent.name if page.parent.parent.name == "crates" else None
    for paragraph in re.split(r"\n(?=\||- |\n)", text):
        for path in files_named(paragraph, own):
            findings.expect((TOP / "crates" / path).is_file(), f"{page.relative_to(TOP)}: no file crates/{path}")


def check_names(findings: Findings, page: Path, text: str) -> None:
    """Each name of a table's last column is one of the crate's own."""
    sources = [*page.parent.rglob("src/**/*.rt"), *page.parent.rglob("specs/*.antt")]
    words = set(re.findall(r"\w+", "\n".join(source.read_text(encoding="utf-8") for source in sources)))
    for line in text.splitlines():
        if line.startswith("|") and line.count("|") == 3:
            for code in CODE.findall(line.split("|")[2]):
                name = WORD.fullmatch(code)
                if name:
                    findings.expect(name.group(1) in words, f"{page.relative_to(TOP)}: {code} is no name of the crate")


def check_change(findings: Findings, part: str, sources: dict[Path, str]) -> None:
    """The files of a change are there, have its example, and are all."""
    listed: set[Path] = set()
    for cells, says in re.findall(r"^\| (`.*?`) \| (.*)$", part, re.MULTILINE):
        word = (CODE.findall(says) or [""])[0]
        for before, names, after in BRACES.findall(cells):
            for path in (TOP / (before + name + after) for name in names.split(",")):
                listed.add(path)
                findings.expect(path.is_file(), f"{EXTENDING}: no file {path.relative_to(TOP)}")
                has_it = not path.is_file() or word in path.read_text(encoding="utf-8")
                findings.expect(has_it, f"{EXTENDING}: {path.relative_to(TOP)} has no {word}")
    pattern, title = SOURCES.search(part), part.splitlines()[0]
    findings.expect(bool(pattern), f"{EXTENDING}: {title}: no pattern of its sources")
    for path in sorted(it for it, text in sources.items() if pattern and re.search(pattern[1], text)):
        findings.expect(path in listed, f"{EXTENDING}: {title}: no row of {path.relative_to(TOP)}")


def check_changes(findings: Findings) -> None:
    """The tables of docs/EXTENDING.md are those of this tree."""
    if (TOP / EXTENDING).is_file():
        found = [it for kind in ("src/**/*.rt", "specs/**/*.antt") for it in TOP.glob(f"crates/*/{kind}")]
        sources = {it: it.read_text(encoding="utf-8") for it in found}
        for part in (TOP / EXTENDING).read_text(encoding="utf-8").split("\n## ")[1:]:
            check_change(findings, part, sources)


def check_rules(findings: Findings) -> None:
    """The index of rules is whole, and the page is what its files say."""
    if not (TOP / "tools/make/rule_places.txt").is_file():
        return
    rows, wrong, text = rules.look_at(TOP)
    findings.looked += rows
    for line in wrong:
        findings.expect(False, line)
    findings.expect(not rules.is_stale(TOP, text), "docs/RULES.md is not what tools/make/rules.py writes")


def main() -> int:
    """Looks at all of it."""
    findings = Findings()
    check_crates(findings)
    check_edits(findings)
    check_rules(findings)
    check_addresses(findings)
    check_changes(findings)
    for page in documents(TOP):
        text = page.read_text(encoding="utf-8")
        check_links(findings, page, text)
        check_files(findings, page, text)
        if page.parent.parent.name == "crates":
            check_names(findings, page, text)
    print(f"{findings.looked} things looked at in the documents, {findings.wrong} wrong")
    return 1 if findings.wrong else 0


if __name__ == "__main__":
    sys.exit(main())
