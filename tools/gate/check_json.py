"""Looks whether each line that `dasd` prints with `--json` is what docs/dasd.schema.json says.

    tools/run gate/check_json [--built FILE] [--suites]

Each command runs over the sample pack, over copies of it with faults, and over the images of the conformance suite. With `--suites` the
scripts below run too, with a program in the place of `dasd` that keeps what is printed with `--json`: it takes some minutes. The program is
crates/dasd_cmd/out/dasd_cmd, or FILE.

Each member of a definition, and each word of a list of words, should have been met: what was not is named, and is no fault. The last line
is 'N lines of JSON, M are not as the schema has them', and the status 1 where M is not 0. It needs Debian's python3-jsonschema."""

import json
import os
import subprocess
import sys
import tempfile
from collections.abc import Iterator
from pathlib import Path
from typing import Any

from rows.player.files import put_setup
from tools import TOP
from tools.gate import parser

DEBIAN = "/usr/bin/python3"
try:
    import jsonschema
except ImportError:
    # a Python beside the system's does not see Debian's package
    if Path(DEBIAN).exists() and not os.path.samefile(DEBIAN, sys.executable):
        os.execv(DEBIAN, [DEBIAN, "-m", "tools.gate.check_json", *sys.argv[1:]])
    sys.exit("no jsonschema here: apt-get install python3-jsonschema")

SCHEMA = TOP / "docs/dasd.schema.json"
SUITES = [
    ["gate/real_files", "--built"],
    ["gate/play_archives"],
    ["gate/compare_contents"],
    ["gate/compare_extract"],
    ["gate/compare_hashes"],
]
# Keeps the command and the output of each run with --json.
KEEPING = """#!/bin/sh
for word in "$@"; do
    if [ "$word" = --json ]; then
        kept=$(mktemp "{kept}/XXXXXX")
        "{dasd}" "$@" > "$kept"
        status=$?
        cat "$kept"
        printf '%s\\n' "$1" > "$kept.command"
        exit $status
    fi
done
exec "{dasd}" "$@"
"""

# How each is read: as it is, and as far as its files go.
READINGS: tuple[list[str], ...] = ([], ["--as-far-as-it-goes"])


class Lines:
    """The lines that were looked at, how many are wrong, and what of the schema was met."""

    def __init__(self) -> None:
        schema = json.loads(SCHEMA.read_text(encoding="utf-8"))
        jsonschema.Draft202012Validator.check_schema(schema)
        self.definitions: dict[str, Any] = schema["$defs"]
        self.validators = {
            name: jsonschema.Draft202012Validator({"$ref": f"#/$defs/{name}", "$defs": self.definitions})
            for name in (it["$ref"].rsplit("/", 1)[1] for it in schema["anyOf"])
        }
        self.looked, self.wrong = 0, 0
        self.met: set[tuple[str, str]] = set()

    def look(self, command: str, output: str) -> None:
        """Looks at the output of a command."""
        for line in output.splitlines():
            self.looked += 1
            why = self.fault(command, line)
            if why:
                self.wrong += 1
                print(f"dasd {command}: {why}: {line}")

    def look_at_fault(self, command: str, output: str, told: str) -> None:
        """Looks whether a fault that was told on standard error, as `dasd: ..`, is the last object too, and no other line is one."""
        of_faults = ['"fault":' in it for it in output.splitlines()]
        wanted = any(it.startswith("dasd: ") for it in told.splitlines())
        if any(of_faults[:-1]) or wanted != any(of_faults[-1:]):
            self.wrong += 1
            print(f"dasd {command}: its last object, and no other, is to have the fault that it told: {told.strip()}")

    def fault(self, command: str, line: str) -> str:
        """What is wrong with a line, or an empty text."""
        try:
            held = json.loads(line)
        except ValueError:
            return "this is no JSON"
        faults = list(self.validators[command].iter_errors(held))
        if not faults:
            self.keep(command, held)
        return str(faults[0].message) if faults else ""

    def keep(self, command: str, held: dict[str, Any]) -> None:
        """Remembers what an object has."""
        for name, value in held.items():
            self.met.add((command, name))
            if isinstance(value, str):
                self.met.add((command, f"{name}={value}"))

    def not_met(self) -> Iterator[str]:
        """What the schema has, and no line had."""
        for command in self.validators:
            for form in self.definitions[command]["oneOf"]:
                if "$ref" in form:
                    form = self.definitions[form["$ref"].rsplit("/", 1)[1]]
                for name, says in form["properties"].items():
                    words = [f"{name}={it}" for it in says.get("enum", []) if isinstance(it, str)]
                    yield from (f"{command}: {it}" for it in words or [name] if (command, it) not in self.met)


def make_packs(folder: Path) -> list[list[str]]:
    """The packs, each as the names of its files."""
    for names in (["pack.ckd"], ["half_1.ckd", "half_2.ckd"]):
        subprocess.run([TOP / "sample/make_sample.py", *names], cwd=folder, check=True)
    put_setup(folder, "copies with faults")
    copies = sorted([it.name] for it in folder.iterdir() if not it.name.startswith(("pack", "half")))
    (folder / "short.ckd").write_bytes((folder / "pack.ckd").read_bytes()[:-1])
    vectors = sorted((TOP / "conformance/vectors").glob("*.img"))
    return [["pack.ckd"], ["half_1.ckd", "half_2.ckd"], *copies, ["short.ckd"], *[[str(it)] for it in vectors]]


def play(dasd: Path, folder: Path, lines: Lines) -> None:
    """Runs each command over each pack, and again as far as its files go."""
    for number, files in enumerate(make_packs(folder)):
        taken = folder / f"taken{number}"
        taken.mkdir()
        joined = "+".join(files)
        for words in (
            ["list", "--json", *files],
            ["check", "--strict", "--json", *files],
            ["check", "--contents", "--json", *files],
            ["dump", "--json", *[f"./{it}" if "/" not in it else it for it in files], "0", "0-9"],
            ["hash", "--members", "--json", *files],
            ["vtoc", "--json", *files],
            ["vtoc", "--members", "--long", "--json", *files],
            ["extract", "--list", "--json", *files, "SYS1.MACLIB"],
            ["extract", "--all", str(taken), "--text", "--json", *files],
            ["compare", "--json", "pack.ckd", joined],
            ["compare", "--json", "--tracks", "pack.ckd", joined],
        ):
            for options in READINGS:
                done = subprocess.run([dasd, *words, *options], cwd=folder, stdin=subprocess.DEVNULL, capture_output=True, text=True, check=False)
                lines.look(words[0], done.stdout)
                lines.look_at_fault(words[0], done.stdout, done.stderr)


def play_suites(dasd: Path, folder: Path, lines: Lines) -> None:
    """Runs the suites, and looks at what their runs with --json printed."""
    kept, program = folder / "kept", folder / "keeping"
    kept.mkdir()
    for it in (folder, kept):
        it.chmod(0o777)
    program.write_text(KEEPING.format(kept=kept, dasd=dasd), encoding="utf-8")
    program.chmod(0o755)
    for suite in SUITES:
        done = subprocess.run([TOP / "tools/run", *suite, program], cwd=TOP, capture_output=True, text=True, check=False)
        print(f"{suite[0]}: {(done.stdout.splitlines() or [''])[-1]}{done.stderr[-200:]}")
    for command in sorted(kept.glob("*.command")):
        lines.look(command.read_text(encoding="utf-8").strip(), command.with_suffix("").read_text(encoding="utf-8"))


def main() -> int:
    """Looks at all of it."""
    words = parser(__doc__)
    words.add_argument("--suites", action="store_true", help="runs the suites over real files too")
    given, lines = words.parse_args(), Lines()
    with tempfile.TemporaryDirectory() as name:
        play(given.built, Path(name), lines)
        if given.suites:
            play_suites(given.built, Path(name), lines)
    for it in lines.not_met():
        print(f"not met: {it}")
    print(f"{lines.looked} lines of JSON, {lines.wrong} are not as the schema has them")
    return 1 if lines.wrong else 0


if __name__ == "__main__":
    sys.exit(main())
