"""Measures how sharp the suites are: which wrong bodies a suite catches, of those that are in must-fail edits and in tools/edits.

    tools/run measure/sharpness [--crates CRATE,..] SUITE..

A suite is rows that are played at the stage or at `dasd` (`rows/channel` is the suite `channel` of rows/play.py), or a script that asks a
built `dasd` (`differ`, lists by chance beside the conformance suite's model, `fail_calls` and `lose_power`). Its status is 0 where all is
right. For each suite the wrong bodies of the crates that it is meant to watch (or of those named) are put beside the right ones, with a
number that says which of them is taken. All suites that play one program share one unproved build of it (see unproved_dasd.py), and
each is run once a number. A wrong body is caught if the status is another, or if the suite does not end in the time that it has. For each
suite one line tells how many were caught, and then which were not.

A suite may have wrong bodies of its own in tools/wrong_bodies/SUITE: files of the form of a must-fail edit, whose `file:` begins at
`crates`. They stand for what no must-fail edit shows, or none shows any more, and the gate does not look at them.

What is outside a function (an edit of a definition, of a table, or of a function of a trait) is not tried, and is counted; so is
what NO_RUN_SHOWS names.
NOTHING THAT IS BUILT HERE IS PROVED, and the gate does not run this.
"""

from __future__ import annotations

import argparse
import importlib.util
import os
import re
import shutil
import signal
import subprocess
import sys
import tempfile
import time
from dataclasses import dataclass, replace
from pathlib import Path
from types import ModuleType
from typing import Iterable, Iterator, NamedTuple

from tools import TOP

SECONDS = 1800  # at most, for the right bodies
TIMES = 8  # so much longer may a wrong body take
DASD, STAGE = "dasd_cmd", "test_stage"


@dataclass(frozen=True)
class Suite:
    """A suite: the crates that it is meant to watch; the crate of the program that it plays; the words of its script, with MADE for the
    program; the folder of its own wrong bodies; those that it leaves to other suites, since it has no word for their calls; and those
    of tools/edits that it takes over from such a suite."""

    crates: tuple[str, ...]
    program: str
    script: tuple[str, ...]
    own: str = ""
    leaves: tuple[str, ...] = ()
    takes: tuple[str, ...] = ()


def played(name: str, crates: str, own: str, program: str = STAGE, leaves: tuple[str, ...] = ()) -> Suite:
    """A suite of rows/play.py."""
    words = ("MADE",) if program == STAGE else ("none", "--dasd", "MADE")
    return Suite(tuple(crates.split()), program, ("rows/play.py", *words, "--first", "--seconds", "60", *name.split()), own, leaves)


DRIVE = "ckd_position ckd_sense ckd_command ckd_slot ckd_drive"
# calls of a channel for which a deck has no word: `rows/lists` and `rows/channel` make them
NO_EVENTS = ("s360_channel/attach_reuses_an_address", "s360_channel/detach_takes_a_drive_whose_device_end_is_owed",
             "s360_channel/image_is_that_of_the_first_drive", "s360_channel/storage_is_exchanged_without_its_keys")
# a drive compares piece by piece, by another function: `rows/tables` asks this one
NO_SEARCH = ("ckd_position/search_compares_at_most_four_bytes",)
# a program alone has a drive pass by records at once: `rows/programs` tries these
ROUNDS = tuple("ckd_drive/" + it for it in ("area_more_than_asked_for_passes_by", "equal_record_passes_by", "key_more_than_was_passed_is_told",
                                            "one_record_too_many_passes_by"))
# neither the stage nor `dasd` copies, saves or restores what it plays at: c/tests/copies.c, states.c and drive_words.c do
NO_STATES = ("ckd_drive/copy_forgets_the_credit", "ckd_drive/copy_forgets_the_lap", "ckd_drive/restore_forgets_the_sense_bytes",
             "ckd_drive/restore_takes_a_cylinder_that_the_volume_lacks", "ckd_slot/copy_drops_the_changed_track",
             "s360_program/copy_forgets_the_residual_count", "s360_channel/channel_with_other_drives_is_put_back",
             "s360_channel/copy_loses_the_pending_ending", "s360_channel/device_end_pends_beside_an_arm_that_moves",
             "s360_channel/saved_channel_loses_the_word_that_pends", "s360_channel/status_pends_that_no_channel_owes",
             "s360_channel/word_pends_for_a_drive_that_is_not_there")
FILES = "dasd_volumes dasd_archive volume_labels dasd_jobs dasd_run dasd_cmd"
SUITES = {
    "rows/channel": played("channel", "s360_program s360_channel s360_deck", "channel", leaves=NO_STATES),
    "rows/lists": played("lists failing_lists", "s360_program s360_channel", "lists", leaves=NO_STATES),
    "rows/decks": played("traces cut_programs hostile_decks", "s360_program s360_channel s360_deck", "", leaves=NO_EVENTS + NO_STATES),
    "rows/drives": played("drives", DRIVE, "drives", leaves=NO_SEARCH + ROUNDS + NO_STATES),
    "rows/programs": replace(played("programs", "s360_words s360_program", "programs", leaves=NO_STATES), takes=ROUNDS),
    "rows/images": played("images", "ckd_image", "images"),
    "rows/tracks": played("tracks", "ckd_track", "tracks"),
    "rows/tables": played("tables", "s360_words ckd_position ckd_sense", "tables"),
    "rows/memory": played("memory", "", "memory"),
    "rows/dasd": played("dasd words", "dasd_volumes dasd_jobs dasd_run", "dasd", DASD),
    "rows/extracts": played("extracts dasd", "dasd_extract volume_contents dasd_contents volume_labels", "", DASD),
    "rows/hashes": played("hashes", "volume_hash", "", DASD),
    "rows/files": played("dasd hostile_checks", FILES, "real_files", DASD),
    "rows/hostile": played("hostile_slots images tracks", "ckd_track ckd_image", ""),
    "differ": Suite(("s360_words", *DRIVE.split(), "s360_program", "s360_channel"), DASD,
                    ("conformance/differ.py", "--lists", "200", "model", "dasd=MADE"), leaves=NO_SEARCH + NO_STATES),
    "real_files": played("files", FILES, "real_files", DASD),
    "fail_calls": Suite((), DASD, ("tools/run", "gate/fail_calls", "--built", "MADE"), "fail_calls"),
    "lose_power": Suite(("atomic_save", "file_journals", "journal_text"), DASD, ("tools/run", "gate/lose_power", "--built", "MADE")),
}
# Wrong bodies that no run of a suite can show, and why.
NO_RUN_SHOWS = {
    "ckd_image/failure_not_counted": "only proofs read that count",
    "ckd_drive/key_never_passes_by": "a round that does not pass at once comes to the same unit by unit",
    "s360_channel/halt_forgets_the_size_of_storage": "no call reads that size of a channel, and proofs alone do",
    "s360_deck/watcher_is_told_a_unit_before_the_first_event": "a trace prints nothing at a unit before which it saw no program",
    "s360_words/caw_takes_any_low_bits": "the fetch of the first word refuses such an address with the same answer",
    "ckd_slot/bytes_behind_the_end_mark_are_left": "no drive puts bytes behind an end mark; the contract alone leaves it open",
    "ckd_slot/bytes_in_pieces_leave_the_slot_known_as_exact": "what a drive puts lies within a record, and the slot stays exact",
    "dasd_run/volume_that_is_not_saved_is_told_as_not_opened": "both faults have the same words and the same status",
    "fail_calls: header_that_was_not_read_again_is_told_as_read": "the header is among the bytes that were read ahead with it",
}
HEAD = re.compile(r"^(?P<indent> *)(?P<before>(?:pub(?:\([a-z]+\))? )?(?:const )?)fn (?P<name>\w+)", re.M)
CALL = re.compile(r"^if crate::wrong_body::number\(\) == .*\n", re.M)
NUMBER_MADE = re.compile(r'^(define internal [^\n]*@"\w+::wrong_body::number"\([^\n]*\)[^\n{]*)\{\n.*?^\}\n', re.M | re.S)
NUMBER = """//! Which wrong body is taken.

/// Its number, or 0: what stands here is read from the environment once the program is built.
pub fn number() -> u32 {
    0
}
"""
READ = """{
  %known = load i32, ptr @wrong_body_number
  %is_known = icmp sge i32 %known, 0
  br i1 %is_known, label %answer, label %ask
answer:
  ret i32 %known
ask:
  %text = call ptr @getenv(ptr @wrong_body_name)
  %none = icmp eq ptr %text, null
  br i1 %none, label %right, label %wrong
right:
  store i32 0, ptr @wrong_body_number
  ret i32 0
wrong:
  %number = call i32 @atoi(ptr %text)
  store i32 %number, ptr @wrong_body_number
  ret i32 %number
}
"""


def unproved() -> ModuleType:
    """The script that makes unproved builds."""
    loaded = importlib.util.spec_from_file_location("unproved_dasd", TOP / "tools" / "make" / "unproved_dasd.py")
    if loaded is None or loaded.loader is None:
        sys.exit("sharpness.py: there is no unproved_dasd.py")
    module = importlib.util.module_from_spec(loaded)
    loaded.loader.exec_module(module)
    return module


def crates_below(program: str) -> list[str]:
    """The crates of this repository that a program depends on."""
    lines = [it.split(":", 1) for it in (TOP / "crates.txt").read_text().splitlines() if re.match(r"\w", it)]
    needs = {name.split()[0]: words.split() for name, words in lines}
    found: list[str] = []
    waiting = [program]
    while waiting:
        for name in needs.get(waiting.pop(), []):
            if name in needs and name not in found:
                found.append(name)
                waiting.append(name)
    return found


def closing(text: str, at: int) -> int:
    """The place after the bracket that closes the one at `at`."""
    depth = 0
    for place in range(at, len(text)):
        depth += {"(": 1, "[": 1, "{": 1, ")": -1, "]": -1, "}": -1}.get(text[place], 0)
        if depth == 0:
            return place + 1
    raise ValueError("a bracket is not closed")


def function_at(text: str, place: int) -> tuple[re.Match[str], int, int] | None:
    """Begin, body and end of the function in which `place` lies, with its head, or none."""
    heads = [it for it in HEAD.finditer(text) if it.start() <= place]
    for head in reversed(heads):
        indent = head["indent"]
        end = text.find(f"\n{indent}}}\n", head.end())
        if end < 0 or end < place:
            continue
        body = re.compile(rf"^{indent}\{{\n|[^\n]\{{\n", re.M)
        parameters = closing(text, text.index("(", head.end()))
        for it in body.finditer(text, parameters):
            line = text[text.rfind("\n", 0, it.end() - 1) + 1 : it.end()]
            if line.strip() == "{" or not re.match(r" *(requires|ensures|decreases)\b", line):
                return head, it.end(), end + len(indent) + 3
    return None


def arguments(text: str, head: re.Match[str]) -> tuple[str | None, list[str]] | None:
    """What calls the function with what it was called with, up to its name: the receiver, and the arguments."""
    begin = text.index("(", head.end())
    inside = text[begin + 1 : closing(text, begin) - 1]
    names: list[str] = []
    receiver: str | None = None
    depth, word = 0, ""
    for sign in inside + ",":
        depth += {"(": 1, "[": 1, "<": 1, "{": 1, ")": -1, "]": -1, ">": -1, "}": -1}.get(sign, 0)
        if sign != "," or depth > 0:
            word += sign
            continue
        word, part = "", word.strip()
        if re.fullmatch(r"(&(mut )?)?(mut )?self", part):
            receiver = "self."
        elif part:
            name = re.match(r"(?:mut )?(\w+)\s*:", part)
            if not name:
                return None
            names.append(name[1])
    return receiver, names


def read_edit(path: Path) -> tuple[str, list[list[str]]]:
    """The file of an edit, and its pairs."""
    file = ""
    pairs: list[list[str]] = []
    for line in path.read_text().splitlines():
        key, _, rest = line.partition(": ")
        if key == "file":
            file = rest
        elif key == "old":
            pairs.append([rest, ""])
        elif line.startswith("new:"):
            pairs[-1][1] = line[5:]
    return file, pairs


def right_one(text: str, old: str) -> tuple[re.Match[str], int, int] | None:
    """The function at hand in which this text stands, as `function_at` answers it: no wrong copy that was planted before."""
    for place in re.finditer(re.escape(old), text):
        found = function_at(text, place.start())
        if found and "_wrong_" not in found[0]["name"]:
            return found
    return None


def beside(text: str, pairs: list[list[str]], number: int) -> str | None:
    """The file with a wrong copy of the function after the right one, which calls it where its number is asked for; or none."""
    found = right_one(text, pairs[0][0])
    if not found:
        return None
    head, body, end = found
    blocks = re.findall(r"^(?:unsafe )?impl\b[^\n]*", text[: head.start()], re.M)
    if head["indent"] and blocks and " for " in blocks[-1]:
        return None
    whole, called = CALL.sub("", text[head.start() : end]), arguments(text, head)
    if called is None or any(old not in whole for old, _ in pairs):
        return None
    wrong = whole
    for old, new in pairs:
        wrong = wrong.replace(old, new, 1)
    name = f"{head['name']}_wrong_{number}"
    wrong = HEAD.sub(lambda it: f"{it['indent']}fn {name}" if it["name"] == head["name"] else it[0], wrong, count=1)
    receiver, names = called
    receiver = receiver or ("Self::" if head["indent"] else "")
    taken = f"if crate::wrong_body::number() == {number} {{ return {receiver}{name}({', '.join(names)}); }}\n"  # as CALL reads it
    return text[:body] + taken + text[body:end] + "\n" + wrong + text[end:]


class Edit(NamedTuple):
    """A wrong body: its name, the folder in which its `file:` begins, and its file."""

    name: str
    folder: Path
    file: Path


def edits_of(top: Path, suite: Suite, crates: Iterable[str]) -> Iterator[Edit]:
    """The wrong bodies to try of a suite: those of these crates, those that it takes over, and its own."""
    for crate in crates:
        folder = top / "crates" / crate
        for edits in (folder / "must-fail", TOP / "tools" / "edits" / crate):
            for edit in sorted(edits.glob("*.edit")):
                if f"{crate}/{edit.stem}" not in suite.leaves:
                    yield Edit(f"{crate}/{edit.stem}", folder, edit)
    for name in suite.takes:
        crate, _, stem = name.partition("/")
        yield Edit(name, top / "crates" / crate, TOP / "tools" / "edits" / crate / f"{stem}.edit")
    if suite.own:
        for edit in sorted((TOP / "tools" / "wrong_bodies" / suite.own).glob("*.edit")):
            yield Edit(f"{suite.own}: {edit.stem}", top, edit)


def make_number(folder: Path) -> None:
    """Gives a crate the function that says which wrong body is taken."""
    (folder / "src" / "wrong_body.rt").write_text(NUMBER)
    root = next(it for it in (folder / "src" / "lib.rt", folder / "src" / "main.rt") if it.exists())
    lines = root.read_text()
    found = re.search(r"^(pub )?mod ", lines, re.M)
    at = found.start() if found else len(lines)
    root.write_text(lines[:at] + "mod wrong_body;\n" + lines[at:])


class Planted:
    """A copy in which wrong bodies are beside the right ones: their numbers by name, and the names of those that can't be tried."""

    def __init__(self, top: Path) -> None:
        self.top = top
        self.numbers: dict[str, int] = {}
        self.left_out: set[str] = set()
        self.crates: set[str] = set()

    def plant(self, edits: Iterable[Edit]) -> None:
        """Puts wrong bodies beside the right ones, each once."""
        for edit in edits:
            if edit.name in self.numbers or edit.name in self.left_out:
                continue
            file, pairs = read_edit(edit.file)
            source = edit.folder / file
            number, code = len(self.numbers) + 1, source.relative_to(self.top / "crates").parts
            tried = code[1] == "src" and edit.name not in NO_RUN_SHOWS
            changed = beside(source.read_text(), pairs, number) if tried else None
            if changed is None:
                self.left_out.add(edit.name)
                continue
            source.write_text(changed)
            self.numbers[edit.name] = number
            if code[0] not in self.crates:
                make_number(self.top / "crates" / code[0])
            self.crates.add(code[0])


def reading_the_environment(text: str) -> str:
    """The module's text, with the number of each crate read from the environment."""
    text, found = NUMBER_MADE.subn(lambda it: it[1] + READ, text)
    if not found:
        sys.exit("sharpness.py: no wrong body stands in the module")
    name = b"WRONG_BODY\0"
    text += f'@wrong_body_name = private constant [{len(name)} x i8] c"WRONG_BODY\\00"\n'
    text += "@wrong_body_number = internal global i32 -1\n"
    for declared in ("declare ptr @getenv(ptr)", "declare i32 @atoi(ptr)"):
        if not re.search(re.escape(declared.partition("(")[0]) + r"\(", text):
            text += declared + "\n"
    return text


def build(tools: ModuleType, top: Path, program: str, made: Path, room: Path) -> None:
    """An unproved build of a program in a copy, with its wrong bodies."""
    setattr(tools, "TOP", top)
    setattr(tools, "CRATES", top / "crates")
    (room / program).mkdir()
    module = tools.module_of_try(tools.kit(), room / program, program)
    tools.compile_module(tools.kit(), module, made, room / program, reading_the_environment)


def verdict(made: Path, suite: Suite, number: int, seconds: float) -> int | None:
    """The status of a suite's script; none if it did not end in these seconds."""
    words, environment = [word.replace("MADE", str(made)) for word in suite.script], dict(os.environ, WRONG_BODY=str(number))
    running = subprocess.Popen(words, cwd=TOP, stdin=subprocess.DEVNULL, stdout=subprocess.DEVNULL, stderr=subprocess.DEVNULL,
                               env=environment, start_new_session=True)
    try:
        return running.wait(seconds)
    except subprocess.TimeoutExpired:
        return None
    finally:
        end_group(running.pid)
        running.wait()


def end_group(leader: int) -> None:
    """Ends all that a script has started and left, as a program that does not end."""
    try:
        os.killpg(leader, signal.SIGKILL)
    except ProcessLookupError:
        pass


def copied(top: Path) -> None:
    """A copy of the crates, without what checks leave there."""
    shutil.copytree(TOP / "crates", top / "crates", ignore=shutil.ignore_patterns("out", ".git"))
    shutil.copy(TOP / "crates.txt", top)
    shutil.copy(TOP / "HANDLES", top)


def try_all(made: Path, name: str, numbers: dict[str, int], left_out: list[str]) -> None:
    """Plays a suite with each of its wrong bodies, and prints what it catches."""
    suite = SUITES[name]
    began = time.monotonic()
    right = verdict(made, suite, 0, SECONDS)
    seconds = 2 + TIMES * (time.monotonic() - began)
    if right != 0:
        print(f"{name}: does not come out right with the right bodies", flush=True)
        return
    missed = [it for it, number in numbers.items() if verdict(made, suite, number, seconds) == 0]
    print(f"{name}: {len(numbers) - len(missed)} of {len(numbers)} wrong bodies caught, {len(left_out)} not tried", flush=True)
    for it in missed:
        print(f"    not caught: {it}", flush=True)
    for it in left_out:
        print(f"    not tried: {it}", flush=True)


def measure(tools: ModuleType, program: str, names: list[str], crates: list[str]) -> None:
    """Measures the suites that play one program, with one build of it."""
    with tempfile.TemporaryDirectory() as folder:
        # a row over real files has `dasd` run by a user who is not this one
        os.chmod(folder, 0o755)
        room, top = Path(folder), Path(folder) / "copy"
        copied(top)
        below, planted = [*crates_below(program), program], Planted(top)
        edits = {}
        for name in names:
            watched = crates or SUITES[name].crates
            edits[name] = list(edits_of(top, SUITES[name], [it for it in below if it in watched]))
            planted.plant(edits[name])
        if not planted.numbers:
            sys.exit(f"sharpness.py: no wrong body of {', '.join(names)} can be tried")
        build(tools, top, program, room / "built", room)
        for name in names:
            numbers = {it.name: planted.numbers[it.name] for it in edits[name] if it.name in planted.numbers}
            try_all(room / "built", name, numbers, [it.name for it in edits[name] if it.name in planted.left_out])


def main() -> None:
    words = argparse.ArgumentParser(description=__doc__, formatter_class=argparse.RawDescriptionHelpFormatter)
    words.add_argument("--crates", default="", help="of these crates alone, with commas between")
    words.add_argument("suites", nargs="+", metavar="SUITE", choices=SUITES, help=", ".join(SUITES))
    given = words.parse_args()
    tools = unproved()
    programs: dict[str, list[str]] = {}
    for name in given.suites:
        programs.setdefault(SUITES[name].program, []).append(name)
    for program, names in programs.items():
        measure(tools, program, names, [it for it in given.crates.split(",") if it])


if __name__ == "__main__":
    main()
