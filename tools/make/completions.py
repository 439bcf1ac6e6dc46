"""Makes what shells complete of the words of `dasd`, and the options of its manual page, of the words of `dasd --help`.

    tools/run make/completions [--built FILE]             writes completions/ and the section OPTIONS of docs/dasd.1
    tools/run make/completions --check [--built FILE]     compares them with what would be written

The program is crates/dasd_cmd/out/dasd_cmd, or FILE. `--check` also looks whether the synopsis of the manual page has each option of each
command, and no other. The last line is 'N files looked at, M are not as --help has it', and the status 1 where M is not 0."""

import argparse
import re
import sys
from collections.abc import Callable
from pathlib import Path

from tools import TOP
from tools.make import completions_bash, completions_fish, completions_zsh
from tools.make.help_words import Command, Option, read

MANUAL = "docs/dasd.1"
WRITERS: dict[str, Callable[[Command, list[Command]], str]] = {
    "completions/dasd.bash": completions_bash.write,
    "completions/_dasd": completions_zsh.write,
    "completions/dasd.fish": completions_fish.write,
}
MADE = '.\\" Made by tools/make/completions.py of the words of the help.\n'


def item(option: Option) -> str:
    """An option of the manual page."""
    takes = option.takes
    more = [" or ".join(takes.values)] if takes and takes.values else []
    more += [f"{takes.default} where it is not given"] if takes and takes.default else []
    short = f"Fl {option.short[1:]} , " if option.short else ""
    name = f" Ar {takes.name}" if takes else ""
    return f".It {short}Fl Fl {option.long[2:]}{name}\n{option.words}" + (f" ({'; '.join(more)})" if more else "") + "\n"


def options_section(program: Command, commands: list[Command]) -> str:
    """The section OPTIONS: what every command takes, and then what each takes beside it."""
    named = [it for it in commands if it.options]
    common = [it for it in named[0].options if all(it in other.options for other in named)]
    text = f".Sh OPTIONS\n{MADE}Every command takes\n.Bl -tag -width Ds\n{''.join(map(item, common))}.El\n"
    text += f".Pp\nand\n.Nm\nitself\n.Bl -tag -width Ds\n{''.join(map(item, program.options))}.El\n"
    for command in named:
        own = "".join(item(it) for it in command.options if it not in common)
        text += f".Ss {command.name}\n.Bl -tag -width Ds\n{own}.El\n" if own else ""
    return text


def with_options(manual: str, section: str) -> str:
    """The manual page with this section OPTIONS, which is before its section FILES."""
    without = re.sub(r"^\.Sh OPTIONS\n.*?(?=^\.Sh )", "", manual, flags=re.MULTILINE | re.DOTALL)
    before, files, behind = without.partition(".Sh FILES\n")
    return before + section + files + behind


def synopsis_faults(manual: str, commands: list[Command]) -> list[str]:
    """Options that the synopsis lacks, or has beside those of the help."""
    synopsis = manual.split(".Sh SYNOPSIS\n")[1].split(".Sh ")[0]
    shown: dict[str, set[str]] = {}
    for form in synopsis.split(".Nm\n")[1:]:
        name = re.findall(r"^\.Cm (\w+)", form, re.MULTILINE)[0]
        shown.setdefault(name, set()).update(re.findall(r"Fl Fl ([a-z-]+)", form))
    wanted = {it.name: {option.long[2:] for option in it.options} - {"help"} for it in commands if it.options}
    faults = [f"{MANUAL}: the synopsis has {name}, which is no command" for name in sorted(set(shown) - set(wanted))]
    for name, options in wanted.items():
        for option in sorted(options ^ shown.get(name, set())):
            lacks = "lacks" if option in options else "has another option:"
            faults.append(f"{MANUAL}: the synopsis of {name} {lacks} --{option}")
    return faults


def made(program: Command, commands: list[Command]) -> dict[str, str]:
    """Each file that is made, whole."""
    files = {name: write(program, commands) for name, write in WRITERS.items()}
    manual = (TOP / MANUAL).read_text(encoding="utf-8")
    return {**files, MANUAL: with_options(manual, options_section(program, commands))}


def check(files: dict[str, str], commands: list[Command]) -> int:
    """How many files are not as they would be made; each is named."""
    wrong = 0
    for name, text in files.items():
        path = TOP / name
        faults = synopsis_faults(text, commands) if name == MANUAL else []
        if not path.is_file() or path.read_text(encoding="utf-8") != text:
            faults.append(f"{name} is not as --help has it: tools/make/completions.py makes it")
        print("".join(f"{it}\n" for it in faults), end="")
        wrong += bool(faults)
    return wrong


def main() -> int:
    """Writes the files, or compares them."""
    words = argparse.ArgumentParser(description="Makes the completions and the options of the manual page.")
    words.add_argument("--built", default=str(TOP / "crates/dasd_cmd/out/dasd_cmd"), metavar="FILE", help="the program dasd")
    words.add_argument("--check", action="store_true", help="compares what is there")
    given = words.parse_args()
    dasd = Path(given.built).resolve()
    if not dasd.is_file():
        sys.exit(f"there is no {dasd}")
    program, commands = read(dasd)
    files, wrong = made(program, commands), 0
    if given.check:
        wrong = check(files, commands)
    else:
        (TOP / "completions").mkdir(exist_ok=True)
        for name, text in files.items():
            (TOP / name).write_text(text, encoding="utf-8")
    print(f"{len(files)} files looked at, {wrong} are not as --help has it")
    return 1 if wrong else 0


if __name__ == "__main__":
    sys.exit(main())
