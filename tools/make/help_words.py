"""The words of `dasd --help` and of the help of each command, read as data: commands, arguments and options."""

import re
import subprocess
from dataclasses import dataclass, field
from pathlib import Path

ARGUMENT = re.compile(r"  (<\S.*?>(?:\.\.\.)?|\[[A-Z]+\])  +(\S.*)")
OPTION = re.compile(r"  (?:(-\w), |    )(--[a-z-]+)(?: <([^>]+)>)?(?:  +(\S.*))?")
VALUES = re.compile(r"\[possible values: ([^\]]*)\]")
DEFAULT = re.compile(r"\[default: ([^\]]*)\]")
# What can stand at a place, by the first word of its name in the help.
FILES, FOLDERS, VOLUMES, NOTHING = "files", "folders", "volumes", "nothing"
KINDS = {
    "PATH": FILES,
    "WORD": FILES,
    "A": FILES,
    "B": FILES,
    "PLACE": FILES,
    "FROM": FILES,
    "TO": FILES,
    "FILE": FILES,
    "DECK": FILES,
    "DIR": FOLDERS,
    "VOLUME": VOLUMES,
    "M": NOTHING,
    "MEMBER": NOTHING,
    "N": NOTHING,
    "A-B": NOTHING,
    "NUMBER": NOTHING,
    "DIGITS": NOTHING,
    "FORMAT": NOTHING,
    "SERIAL": NOTHING,
    "TEXT": NOTHING,
    "TRACKS": NOTHING,
    "C:H": NOTHING,
    "BYTES": NOTHING,
}


@dataclass
class Word:
    """What may stand at a place, as the help has it: its name, as PATH or A-B, what it is, its values where they are few, and what it is
    where it is not given."""

    name: str
    words: str
    values: list[str] = field(default_factory=list)
    default: str = ""


@dataclass
class Option:
    """An option, with what is after it, if anything does."""

    long: str
    short: str
    words: str
    takes: Word | None


@dataclass
class Command:
    """A command of the program; the program itself is one without a name."""

    name: str
    words: str
    arguments: list[Word]
    options: list[Option]


def plain(words: str) -> str:
    """What a word or an option is, without its values and what it is where it is not given."""
    return DEFAULT.sub("", VALUES.sub("", words)).strip()


def word(name: str, words: str) -> Word:
    """A word, with the values that its help names."""
    values, default = VALUES.search(words), DEFAULT.search(words)
    return Word(name, plain(words), values[1].split(", ") if values else [], default[1] if default else "")


def sections(text: str) -> dict[str, list[str]]:
    """The lines of the sections of a help, by their headings; what is above them is under the empty one."""
    parts: dict[str, list[str]] = {"": []}
    heading = ""
    for line in text.splitlines():
        if line in ("Commands:", "Arguments:", "Options:"):
            heading = line[:-1]
            parts[heading] = []
        elif not line and heading:
            heading = "behind " + heading
            parts[heading] = []
        else:
            parts[heading].append(line)
    return parts


def argument(line: str) -> Word:
    """A line of the arguments; one that may be left out is in brackets. One that names several words, as PATH.. NAME, comes as often as it
    is wanted at least."""
    found = ARGUMENT.fullmatch(line)
    if not found:
        raise ValueError(f"no argument: {line}")
    names = re.findall(r"[<[]([^]>]+)[]>]", found[1])
    return word(names[0] + (".." if found[1].endswith("...") and ".." not in names[0] else ""), found[2])


def option(line: str) -> Option:
    """A line of the options."""
    found = OPTION.fullmatch(line)
    if not found:
        raise ValueError(f"no option: {line}")
    short, long, takes, words = found.groups(default="")
    return Option(long, short, plain(words), word(takes, words) if takes else None)


def command(name: str, text: str) -> Command:
    """A command, by its help."""
    parts = sections(text)
    arguments = [argument(line) for line in parts.get("Arguments", [])]
    return Command(name, parts[""][0], arguments, [option(line) for line in parts["Options"]])


def help_of(dasd: Path, *words: str) -> str:
    """The help of the program or of a command."""
    return subprocess.run([dasd, *words, "--help"], stdin=subprocess.DEVNULL, capture_output=True, text=True, check=False).stdout


def read(dasd: Path) -> tuple[Command, list[Command]]:
    """The program and its commands, `help` among them."""
    said = help_of(dasd)
    commands: list[Command] = []
    for line in sections(said)["Commands"]:
        name, words = line.split(None, 1)
        commands.append(Command(name, words, [], []) if name == "help" else command(name, help_of(dasd, name)))
    return command("", said), commands


def kind(it: Word) -> str:
    """What a shell may complete at this place, beside the word's values."""
    name = it.name.split()[0].rstrip(".")
    if name not in KINDS:
        raise ValueError(f"nobody says what a {name} is: tools/make/help_words.py")
    return KINDS[name]
