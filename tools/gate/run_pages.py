"""Runs the examples of the pages as they stand there, and compares what they print with what the pages say.

    tools/run gate/run_pages [--built FILE] [--with WORD] [PAGE ..]

PAGES below has the pages; `--help` is the help of the program and of each command. How an example is told from other blocks says
tools/gate/page_examples.py. Each page has an empty folder of its own, in which its examples run one after another by bash: with `dasd` and
`dasd-catalogue` on the path, the folders of the repository and its Makefile under their names, and the sample pack as pack.ckd, and as big_1.ckd
and big_2.ckd in two files.
Their output is what standard output and standard error have together.

The program is crates/dasd_cmd/out/dasd_cmd, or FILE. What an example needs beside it, and where that is to be had, says NEEDS below;
an example whose need is not there, or is costly and not asked for by `--with`, is not run, and named. The last line is 'N examples of M
pages run, K came out wrong, L not run', and the status 1 where K is not 0."""

import functools
import os
import re
import shutil
import subprocess
import sys
import tempfile
from collections.abc import Callable
from dataclasses import dataclass
from pathlib import Path

from tools import TOP
from tools.gate import parser
from tools.gate.page_examples import BadPage, Example, is_printed, of_help, read

HELP = "--help"
PAGES = [
    "README.md",
    "docs/IMAGE.md",
    "docs/DECKS.md",
    "docs/ASSEMBLER.md",
    "docs/TRACING.md",
    "docs/ARCHIVES.md",
    "docs/CATALOGUE.md",
    "docs/JSON.md",
    "docs/EMBEDDING.md",
    "docs/DRIVE.md",
    "docs/CALLING.md",
    "docs/CONFORMANCE.md",
    "docs/RELEASES.md",
    "compiled/README.md",
    "docs/WEB.md",
    "python/README.md",
    "docs/dasd.1",
    HELP,
]
# What of the repository is in a page's folder: its folders, and what `make` there reads.
FOLDERS = ["c", "catalogue", "compiled", "completions", "conformance", "crates", "docs", "python", "release", "rows", "rust", "sample", "tools", "web"]
FILES = ["Makefile", "VERSION"]
# So many lines are shown of what an example printed that ended as it must not.
LAST_LINES = 20
# How long an example may take, in seconds: one for the kit may build and prove, and Hercules is started anew for each vector.
SECONDS = {"kit": 7200, "gate": 86400, "hercules": 3600, "": 300}


@dataclass
class Need:
    """What an example may need: in words, whether it is here, and whether it is asked for by `--with` alone."""

    words: str
    is_here: Callable[[], bool]
    is_costly: bool = False


def has(*names: str) -> Callable[[], bool]:
    """Whether there are such commands, and such files of the repository: these have a period in their names."""
    return lambda: all((TOP / it).exists() if "." in it else shutil.which(it) for it in names)


NEEDS = {
    "kit": Need("the kit", has("rt"), True),
    "library": Need("libdasd.a, which `make` makes, a C compiler and pkg-config", has("libdasd.a", "cc", "pkg-config")),
    "shared": Need("libdasd.so.1, which `make` makes", has("libdasd.so.1")),
    "drive": Need("libdasd_drive.a, which `make` makes, and a C compiler", has("libdasd_drive.a", "cc")),
    "web": Need("web/out/program.wasm, which `make -C web` makes, and node", has("web/out/program.wasm", "node")),
    "check": Need("half a minute, and not `make check`, which runs the other examples", has("make"), True),
    "page": Need("compiled/dasd.wasm, which `release/check --write` makes", has("compiled/dasd.wasm")),
    "hercules": Need("Hercules", has("hercules"), True),
    "sqlite3": Need("sqlite3", has("sqlite3")),
    "release": Need("the files of a release", lambda: False),
    "gate": Need("hours, and the kit", has("rt"), True),
}


def put_library(folder: Path) -> Path:
    """The library as `make install` would leave it, in a folder of its own; answers that of its description for pkg-config."""
    prefix = folder / "prefix"
    for name in ("include", "lib/pkgconfig"):
        (prefix / name).mkdir(parents=True)
    for header in ("c/dasd.h", "c/dasd.hpp"):
        shutil.copy(TOP / header, prefix / "include")
    for library in TOP.glob("libdasd.[as]*"):
        shutil.copy(library, prefix / "lib")
    if (prefix / "lib/libdasd.so.1").exists():
        (prefix / "lib/libdasd.so").symlink_to("libdasd.so.1")
    described = (TOP / "c/dasd.pc.in").read_text(encoding="utf-8")
    version = (TOP / "VERSION").read_text(encoding="utf-8").strip()
    for word, value in (("PREFIX", prefix), ("LIBDIR", prefix / "lib"), ("INCLUDEDIR", prefix / "include"), ("VERSION", version)):
        described = described.replace(f"@{word}@", str(value))
    (prefix / "lib/pkgconfig/dasd.pc").write_text(described, encoding="utf-8")
    return prefix / "lib/pkgconfig"


@functools.cache
def sample_files() -> dict[str, bytes]:
    """The sample pack, in one file and in two."""
    names = ["pack.ckd", "big_1.ckd", "big_2.ckd"]
    with tempfile.TemporaryDirectory() as folder:
        for paths in (names[:1], names[1:]):
            subprocess.run([TOP / "sample/make_sample.py", *paths], cwd=folder, check=True)
        return {it: Path(folder, it).read_bytes() for it in names}


class Reader:
    """A reader who types a page's examples, in a folder of the page's own."""

    def __init__(self, dasd: Path, room: Path):
        self.folder, commands = room / "page", room / "bin"
        self.folder.mkdir()
        commands.mkdir()
        (commands / "dasd").symlink_to(dasd)
        (commands / "dasd-catalogue").symlink_to(TOP / "catalogue/dasd-catalogue")
        for name in [*FOLDERS, *FILES]:
            if (TOP / name).exists():
                (self.folder / name).symlink_to(TOP / name)
        for name, held in sample_files().items():
            (self.folder / name).write_bytes(held)
        (room / "home").mkdir()
        found = {"PATH": f"{commands}:{os.environ['PATH']}", "HOME": str(room / "home"), "LC_ALL": "C.UTF-8"}
        python = {"PYTHONDONTWRITEBYTECODE": "1", "PYTHONPATH": str(TOP / "python"), "DASD_LIBRARY": str(TOP / "libdasd.so.1")}
        self.environment = {**found, **python, "PKG_CONFIG_PATH": str(put_library(room))}

    def prepare(self, page: str) -> None:
        """The files that a help names, since a help can't make them: a pack with two data sets, two of which one was changed, a deck, and a text."""
        if page == HELP:
            for names in (["SAMPLE.JOBS", "PAYROLL"], ["SAMPLE.NOTES", "PAYROLL.OLD"]):
                words = ["dasd", "rename", "pack.ckd", *names]
                subprocess.run(words, cwd=self.folder, env=self.environment, stdout=subprocess.DEVNULL, check=True)
            for name in ("monday.ckd", "tuesday.ckd"):
                shutil.copy(self.folder / "pack.ckd", self.folder / name)
            shutil.copy(TOP / "sample/decks/three-records.deck", self.folder / "deck.txt")
            (self.folder / "cards.txt").write_text("FIRST CARD\nSECOND CARD\n", encoding="utf-8")

    def typed(self, example: Example) -> tuple[int, list[str]]:
        """Runs a script; its status and the lines that it prints."""
        done = subprocess.run(
            ["bash", "-e", "-c", example.script],
            cwd=self.folder,
            env=self.environment,
            stdin=subprocess.DEVNULL,
            stdout=subprocess.PIPE,
            stderr=subprocess.STDOUT,
            timeout=SECONDS.get(example.needs, SECONDS[""]),
            check=False,
        )
        return done.returncode, done.stdout.decode("utf-8", "replace").splitlines()

    def wrong(self, example: Example) -> str:
        """Runs an example; what is wrong, or an empty text."""
        if example.source:
            held = (TOP / example.source).read_text(encoding="utf-8")
            return "" if f"\n{example.script}\n" in f"\n{held}\n" else f"it does not stand so in {example.source}"
        if example.file:
            (self.folder / example.file).write_text(example.script + "\n", encoding="utf-8")
            return ""
        try:
            status, found = self.typed(example)
        except subprocess.TimeoutExpired:
            return "it does not end"
        told = [] if status == example.status else [f"it ends with {status}, and must with {example.status}"]
        if example.printed is not None and not is_printed(found, example.printed):
            told += ["it prints", *(f"  {line}" for line in found), "and the page has", *(f"  {line}" for line in example.printed)]
        elif told:
            told += ["at its end it prints", *(f"  {line}" for line in found[-LAST_LINES:])]
        return "\n".join(told)


@dataclass
class Count:
    """How many examples were run, came out wrong, and were not run."""

    run: int = 0
    wrong: int = 0
    left_out: int = 0


def why_left_out(example: Example, asked: list[str]) -> str:
    """Why an example is not run; an empty text where it is."""
    if not example.needs:
        return ""
    if example.needs not in NEEDS:
        raise BadPage(f"{example.page}:{example.line}: needs={example.needs} is no need that is known")
    need = NEEDS[example.needs]
    if not need.is_here():
        return f"needs {need.words}"
    return f"needs {need.words}; --with {example.needs} runs it" if need.is_costly and example.needs not in asked else ""


def helps(dasd: Path) -> list[Example]:
    """The examples of the helps, that of the program first and then those of its commands in their order."""
    said = subprocess.run([dasd, HELP], capture_output=True, text=True, check=False).stdout
    commands = [line.split()[0] for line in said.split("Commands:\n")[1].split("\n\n")[0].splitlines()]
    examples: list[Example] = []
    for command in (it for it in commands if it != "help"):
        text = subprocess.run([dasd, command, HELP], capture_output=True, text=True, check=False).stdout
        examples += of_help(f"dasd {command} {HELP}", text)
    return examples + of_help(f"dasd {HELP}", said)


def run_page(page: str, dasd: Path, asked: list[str], count: Count) -> None:
    """Runs the examples of a page."""
    examples = helps(dasd) if page == HELP else read(TOP, page)
    with tempfile.TemporaryDirectory() as room:
        reader = Reader(dasd, Path(room))
        reader.prepare(page)
        for example in examples:
            why = why_left_out(example, asked)
            if why:
                count.left_out += 1
                print(f"not run: {example.page}:{example.line}: {why}")
                continue
            count.run += 1
            wrong = reader.wrong(example)
            if wrong:
                count.wrong += 1
                print(f"{example.page}:{example.line}: {example.script.splitlines()[0]}\n{wrong}")


def forgotten() -> list[str]:
    """Pages that have examples to be run, and are not among PAGES."""
    found = sorted({*TOP.glob("*.md"), *TOP.glob("docs/*.md"), *TOP.glob("*/README.md"), *TOP.glob("*/*/README.md")})
    has_examples = re.compile(r"^```(?:console|sh|output)\b", re.MULTILINE)
    names = [str(it.relative_to(TOP)) for it in found if has_examples.search(it.read_text(encoding="utf-8"))]
    return [it for it in names if it not in PAGES]


def main() -> int:
    """Runs the pages that are named, or all."""
    words = parser(__doc__)
    words.add_argument("--with", action="append", default=[], dest="asked", metavar="WORD", help="runs examples with this costly need too")
    words.add_argument("pages", nargs="*", metavar="PAGE", help="pages, and 'help' for --help; without any, all")
    given = words.parse_args()
    count = Count()
    pages = [HELP if it == "help" else it for it in given.pages] or PAGES
    for page in [] if given.pages else forgotten():
        count.wrong += 1
        print(f"{page} has examples, and is not among the pages of tools/gate/run_pages.py")
    for page in pages:
        try:
            run_page(page, given.built, given.asked, count)
        except BadPage as why:
            count.wrong += 1
            print(why)
    print(f"{count.run} examples of {len(pages)} pages run, {count.wrong} came out wrong, {count.left_out} not run")
    return 1 if count.wrong else 0


if __name__ == "__main__":
    sys.exit(main())
