"""The examples of the pages: what a reader would type, and what must come of it, as it stands in the page.

In Markdown an example is a fenced block, by the first word behind its fence:

    console         a session: each line behind `$ ` is a command, and the lines below it are what it prints
    sh              commands, run as one script
    output          what the block `sh` above it prints, all of it
    others          shown and not run; with `file=NAME` the text goes into a file of that name, and with `from=PATH` it must stand in
                    that file of the repository, line for line

Further words behind the fence, which no reader of the page sees:

    status=N        the last command of the block ends with N, and not with 0
    needs=WORD      it is run only where WORD is to be had (tools/gate/run_pages.py says which words there are)

A line of three periods alone stands for any lines. An indented block is none of these, and is told as a mistake.

In a manual page the examples are the displays of its section EXAMPLES: scripts, whose output is not shown. Where `mandoc` is installed they are
taken as it shows them to a reader, since a wrong escape is seen only there. In the help of a command the example is what comes after `Example: `."""

import re
import shutil
import subprocess
from dataclasses import dataclass, replace
from pathlib import Path

FENCE = re.compile(r"^```(.*)$")
MARKS = {"status", "needs", "file", "from"}
HERE_DOCUMENT = re.compile(r"<<-? *'?(\w+)'?")
# A display of a manual page as mandoc shows it: lines further in than text. Its marks for bold and underlined characters are left out.
DISPLAYED = re.compile(r" {11}(.*)")
STRUCK_OVER = re.compile(".\b")


class BadPage(Exception):
    """A page whose blocks can't be read; the text says where and why."""


@dataclass
class Block:
    """A fenced block: its page, the line of its fence, its first word, its marks and its lines."""

    page: str
    line: int
    word: str
    marks: dict[str, str]
    lines: list[str]


@dataclass
class Example:
    """A script, where it stands, and what must come of it. Where `printed` is None its output is not compared. Where `file` is given, the
    script is text that goes into that file; where `source` is, text that must stand in that one."""

    page: str
    line: int
    script: str
    printed: list[str] | None = None
    status: int = 0
    needs: str = ""
    file: str = ""
    source: str = ""


def marks_of(page: str, line: int, words: list[str]) -> dict[str, str]:
    """The marks behind a fence."""
    marks = dict(it.split("=", 1) for it in words if "=" in it)
    if len(marks) != len(words) or not set(marks) <= MARKS:
        raise BadPage(f"{page}:{line}: the fence has words that nobody knows: {' '.join(words)}")
    return marks


def blocks_of(page: str, text: str) -> list[Block]:
    """All blocks of a page in Markdown, in their order."""
    blocks: list[Block] = []
    is_open, before = False, ""
    for number, line in enumerate(text.splitlines(), 1):
        fence = FENCE.match(line)
        if fence and is_open:
            is_open = False
        elif fence:
            words = fence[1].split()
            blocks.append(Block(page, number, words[0] if words else "", marks_of(page, number, words[1:]), []))
            is_open = True
        elif is_open:
            blocks[-1].lines.append(line)
        elif line.startswith("    ") and not before:
            raise BadPage(f"{page}:{number}: an indented block; what is to be run, and what not, is said by a fence")
        before = line
    if is_open:
        raise BadPage(f"{page}:{blocks[-1].line}: the block has no end")
    return blocks


def command_end(lines: list[str], first: int) -> int:
    """The line behind a command of a session that begins in this line: one that goes on, or brings a text with it, has more lines."""
    end = first + 1
    for word in HERE_DOCUMENT.findall(lines[first]):
        while end < len(lines) and lines[end] != word:
            end += 1
        end += 1
    while lines[end - 1].endswith("\\") and end < len(lines):
        end += 1
    return end


def session(block: Block) -> list[Example]:
    """The commands of a session, each with what it prints."""
    examples: list[Example] = []
    at = 0
    while at < len(block.lines):
        if block.lines[at].startswith("$ "):
            end = command_end(block.lines, at)
            script = "\n".join([block.lines[at][2:], *block.lines[at + 1 : end]])
            examples.append(Example(block.page, block.line + at + 1, script, [], needs=block.marks.get("needs", "")))
            at = end
            continue
        if not examples or examples[-1].printed is None:
            raise BadPage(f"{block.page}:{block.line + at + 1}: a session that begins with no command")
        examples[-1].printed.append(block.lines[at])
        at += 1
    if examples:
        examples[-1].status = int(block.marks.get("status", "0"))
    return examples


def examples_of(page: str, text: str) -> list[Example]:
    """The examples of a page in Markdown."""
    examples: list[Example] = []
    awaits_output = False
    for block in blocks_of(page, text):
        needs = block.marks.get("needs", "")
        if block.word == "console":
            examples += session(block)
        elif block.word == "sh":
            status = int(block.marks.get("status", "0"))
            examples.append(Example(page, block.line, "\n".join(block.lines), None, status, needs))
        elif block.word == "output":
            if not awaits_output:
                raise BadPage(f"{page}:{block.line}: output, and no script above it")
            examples[-1].printed = block.lines
        elif "file" in block.marks or "from" in block.marks:
            file, source = block.marks.get("file", ""), block.marks.get("from", "")
            examples.append(Example(page, block.line, "\n".join(block.lines), None, 0, needs, file, source))
        awaits_output = block.word == "sh"
    return examples


def plain(line: str) -> str:
    """A line of a display of a manual page as a reader sees it."""
    for escape, shown in (("\\(aq", "'"), ("\\&", ""), ("\\-", "-"), ("\\e", "\\")):
        line = line.replace(escape, shown)
    return line


def shown_displays(text: str) -> list[str]:
    """The displays of the section EXAMPLES of a manual page, as mandoc shows them."""
    shown = subprocess.run(["mandoc", "-T", "utf8"], input=text, encoding="utf-8", stdout=subprocess.PIPE, check=True).stdout
    _, _, section = STRUCK_OVER.sub("", shown).partition("\nEXAMPLES\n")
    displays: list[list[str]] = []
    was_display = False
    for line in re.split(r"\n(?=\S)", section)[0].splitlines():
        displayed = DISPLAYED.fullmatch(line)
        if displayed:
            if not was_display:
                displays.append([])
            displays[-1].append(displayed[1])
        was_display = displayed is not None
    return ["\n".join(it) for it in displays]


def as_shown(page: str, text: str, examples: list[Example]) -> list[Example]:
    """The examples of a manual page with the scripts that a reader sees."""
    shown = shown_displays(text)
    if len(shown) != len(examples):
        raise BadPage(f"{page}: {len(examples)} displays in EXAMPLES, and mandoc shows {len(shown)}")
    return [replace(example, script=script) for example, script in zip(examples, shown)]


def of_manual(page: str, text: str) -> list[Example]:
    """The examples of a manual page: each display of its section EXAMPLES."""
    examples: list[Example] = []
    section, needs, first = "", "", 0
    lines: list[str] | None = None
    for number, line in enumerate(text.splitlines(), 1):
        if line.startswith(".Sh "):
            section = line[4:]
        elif line.startswith('.\\" needs='):
            needs = line.split("=", 1)[1]
        elif section == "EXAMPLES" and line.startswith(".Bd "):
            lines, first = [], number
        elif lines is not None and line == ".Ed":
            examples.append(Example(page, first, "\n".join(lines), needs=needs))
            lines, needs = None, ""
        elif lines is not None:
            lines.append(plain(line))
    return as_shown(page, text, examples) if shutil.which("mandoc") else examples


def of_help(page: str, text: str) -> list[Example]:
    """The examples of the help of a command."""
    lines = enumerate(text.splitlines(), 1)
    return [Example(page, number, line.removeprefix("Example: ")) for number, line in lines if line.startswith("Example: ")]


def is_printed(found: list[str], wanted: list[str]) -> bool:
    """Whether lines are those that stand in a page, where three periods alone stand for any lines."""
    if not wanted:
        return not found
    if wanted[0] == "...":
        return any(is_printed(found[skipped:], wanted[1:]) for skipped in range(len(found) + 1))
    return bool(found) and found[0] == wanted[0] and is_printed(found[1:], wanted[1:])


def read(top: Path, page: str) -> list[Example]:
    """The examples of a page of the repository."""
    text = (top / page).read_text(encoding="utf-8")
    return examples_of(page, text) if page.endswith(".md") else of_manual(page, text)
