"""Takes the power away at each moment of each command of the built `dasd` that writes volumes, and looks at what is left.

    tools/run gate/lose_power [--built FILE] [--jobs N] [COMMAND..]

A command is run once under Debian's `strace`. From its calls follow the disks that a loss of power may leave (tools/gate/lost_power.py). On each of them
a reader, and then the next run, must find the volumes of the command as they were, or as the command leaves them: all of them the same. With `--replace`
files take their places one by one, so each must be its old or its new one. The run that takes up what was cut off is cut off itself, from some of these
disks on. And each sync of a command fails in turn, and the disk keeps none, all, one or all but one of what was not synced: the next run finds all of it in
the system's memory, or only what the disk kept. Files keep their numbers and their times of birth, by which a save knows them. Last, the first sync of
each command is left out, and what the next run writes after a sync that failed: then some disk must be wrong.

It runs crates/dasd_cmd/out/dasd_cmd, as `rt ci` leaves it; with --built FILE that program; with words after these, the commands whose names have one
of them. The last line is 'N disks of N commands, M wrong', and the status 1 where M is not 0."""

import os
import subprocess
import sys
import tempfile
from collections import Counter
from collections.abc import Iterable, Iterator
from dataclasses import dataclass
from pathlib import Path

from tools import TOP
from tools.gate.fail_calls import CARDS, CHANGES, COMMANDS, Command, deck_for, fill, is_journal, try_all
from tools.gate.lost_power import TRACED, Call, Node, State, Sync, Traced, Write, left_after, once, states

AGAIN = 4  # from so many of the disks of a command, or a few more, the next run is cut off too
MANY = ["--from", "many", *CARDS[2:], "--text"]
ASIDE = "aside"  # a folder beside that of the command, where files wait that no name leads to
BIG = ["big_1.ckd", "big_2.ckd"]
WRITERS = [
    Command("run", ["run", "90=one.ckd"], deck_for("190")),
    Command("run --replace", ["run", "--replace", "90=one.ckd"], deck_for("190")),
    *(it for it in COMMANDS if it.words[0] in ("format", *CHANGES) and not it.begun or "volumes" in it.name),
    Command("load onto two files", ["load", *BIG, "NEW.CARDS", *MANY]),
    Command("load --replace onto two files", ["load", "--replace", *BIG, "NEW.CARDS", *MANY]),
    Command("delete in two files", ["delete", *BIG, "SAMPLE.STOCK"]),
]

Held = dict[str, bytes | None]  # by names; none of a file that is not there


def volumes_of(writer: Command) -> list[list[str]]:
    """The volumes that a command writes, each by its files: a run's are of one file each."""
    files = [it.split("=")[-1] for it in writer.words if it.endswith(".ckd")]
    return [[it] for it in files] if writer.words[0] == "run" else [files]


class Room:
    """A folder in which a disk is laid out, with files that keep their numbers."""

    def __init__(self, dasd: Path, folder: Path) -> None:
        self.dasd, self.folder = dasd, folder / "work"
        self.aside = folder / ASIDE
        self.folder.mkdir()
        self.aside.mkdir()
        fill(self.folder)
        subprocess.run([sys.executable, TOP / "sample/make_sample.py", *BIG], cwd=self.folder, capture_output=True, check=True)
        (self.folder / "many").write_text("".join(f"NEW CARD {it}\n" for it in range(700)), encoding="ascii")
        paths = [it for it in sorted(self.folder.rglob("*")) if it.is_file()]
        self.begun = State({str(it.relative_to(self.folder)): at for at, it in enumerate(paths)}, {at: it.read_bytes() for at, it in enumerate(paths)})
        self.numbers = {it.stat().st_ino: at for at, it in enumerate(paths)}

    def lay_out(self, disk: State) -> None:
        """Lays out a disk. A file that was there at first is that same file."""
        for path in [it for it in self.folder.rglob("*") if it.is_file()]:
            node = self.numbers.get(path.stat().st_ino)
            if node is None or (self.aside / str(node)).exists():
                path.unlink()
            else:
                path.rename(self.aside / str(node))
        made: dict[Node, Path] = {}
        for name, node in disk.names.items():
            path = self.folder / name
            if node in made:
                os.link(made[node], path)
                continue
            if (self.aside / str(node)).exists():
                (self.aside / str(node)).rename(path)
            if not path.exists() or path.read_bytes() != disk.held.get(node, b""):
                path.write_bytes(disk.held.get(node, b""))
            made[node] = path

    def dasd_says(self, *words: str) -> subprocess.CompletedProcess[bytes]:
        """Runs a command that is given nothing to read."""
        return subprocess.run([str(self.dasd), *words], cwd=self.folder, input=b"", capture_output=True, timeout=60, check=False)

    def trace(self, words: list[str], given: bytes, disk: State, fails: str = "") -> list[Call]:
        """Runs a command from a disk on, perhaps with a sync that fails; its calls that do not fail."""
        self.lay_out(disk)
        with tempfile.NamedTemporaryFile(prefix="lose_power-") as trace:
            tracing = ["strace", "-qq", "-xx", "-s", "99999999", "-e", f"trace={TRACED}", *(["-e", f"inject={fails}"] if fails else [])]
            tracing += ["-o", trace.name, str(self.dasd), *words]
            ran = subprocess.run(tracing, cwd=self.folder, input=given, capture_output=True, timeout=60, check=False)
            if bool(ran.returncode) != bool(fails):
                raise AssertionError(f"{words} ends with {ran.returncode}: {ran.stderr!r}")
            lines = Path(trace.name).read_text(encoding="ascii").splitlines()
        return Traced(self.folder, dict(disk.names), 1 + max([*disk.names.values(), *disk.held])).read(lines)

    def held(self, writer: Command) -> Held:
        """What the files of a command's volumes hold."""
        paths = {name: self.folder / name for volume in volumes_of(writer) for name in volume}
        return {name: path.read_bytes() if path.exists() else None for name, path in paths.items()}

    def hashes(self, writer: Command) -> list[bytes]:
        """What a reader says of each volume."""
        return [self.dasd_says("hash", *volume).stdout for volume in volumes_of(writer)]


@dataclass
class Ends:
    """The volumes of a command before it and after it: what their files hold, and their hashes."""

    held: tuple[Held, Held]
    hashes: tuple[list[bytes], list[bytes]]


def next_run(writer: Command) -> list[str]:
    """The words of a run that changes nothing, over the same volumes."""
    return ["run", "--verbose", *(f"9{at}={name}" for at, volume in enumerate(volumes_of(writer)) for name in volume)]


def has_parted(found: Held, ends: tuple[Held, Held]) -> bool:
    """Whether each of several files is its old or its new one, and not all are the same."""
    return found not in ends and all(found[name] in (ends[0][name], ends[1][name]) for name in found)


def wrong_with(room: Room, writer: Command, ends: Ends) -> str | None:
    """What is wrong with the disk that is laid out, if anything is."""
    if "--replace" in writer.words and has_parted(room.held(writer), ends.held):
        return None
    hashes = room.hashes(writer)
    if hashes not in ends.hashes:
        return f"a reader finds neither the old nor the new volumes: {hashes}"
    if None in room.held(writer).values():
        return None
    ran = room.dasd_says(*next_run(writer))
    if ran.returncode:
        return f"the next run ends with {ran.returncode}: {ran.stderr!r}"
    if room.held(writer) not in ends.held:
        return "the next run leaves neither the old nor the new volumes"
    return None if room.hashes(writer) == hashes else "the next run leaves other volumes than a reader found before it"


def failed_syncs(room: Room, writer: Command, calls: list[Call]) -> Iterator[tuple[State, list[Call]]]:
    """After each sync of a command that fails: disks that have some of what was not synced, each with the calls of the next run, which is shown all of it."""
    for number in range(1, 1 + sum(isinstance(it, Sync) for it in calls)):
        failed = room.trace(writer.words, writer.given, room.begun, f"fsync:error=EIO:when={number}")
        shown = room.begun.after([it for it in failed if not isinstance(it, Sync)])
        if all(name in shown.names for volume in volumes_of(writer) for name in volume):
            again = room.trace(next_run(writer), b"", shown)
            yield from ((disk, again) for disk in once(left_after(room.begun, failed)))


def disks(room: Room, writer: Command, calls: list[Call], failed: list[tuple[State, list[Call]]]) -> Iterator[State]:
    """The disks that a loss of power leaves: in the command, in the next run after some of these, and before and after the next run after a failed sync."""
    left = list(once(states(room.begun, calls)))
    yield from left
    saves = [it for it in left if any(map(is_journal, it.names))]
    for disk in saves[:: max(1, len(saves) // AGAIN)]:
        yield from states(disk, room.trace(next_run(writer), b"", disk))
    for disk, again in failed:
        yield disk
        yield from left_after(disk, again)


def wrong_disks(room: Room, writer: Command, ends: Ends, left: Iterable[State]) -> Iterator[str | None]:
    """What is wrong with each of these disks, if anything is."""
    for disk in left:
        room.lay_out(disk)
        yield wrong_with(room, writer, ends)


def try_writer(dasd: Path, writer: Command) -> tuple[int, list[str]]:
    """How many disks of a command were looked at, and what was wrong with them."""
    with tempfile.TemporaryDirectory(prefix="lose_power-") as folder:
        room = Room(dasd, Path(folder))
        before, found = room.held(writer), room.hashes(writer)
        calls = room.trace(writer.words, writer.given, room.begun)
        ends = Ends((before, room.held(writer)), (found, room.hashes(writer)))
        assert ends.held[0] != ends.held[1], f"{writer.name} changes nothing"
        failed = list(failed_syncs(room, writer, calls))
        came = Counter(wrong_disks(room, writer, ends, once(disks(room, writer, calls, failed))))
        wrong = [f"{writer.name}: {number} times: {said}" for said, number in came.items() if said]
        first = next(at for at, call in enumerate(calls) if isinstance(call, Sync))
        if not any(wrong_disks(room, writer, ends, once(states(room.begun, calls[:first] + calls[first + 1 :])))):
            wrong.append(f"{writer.name}: a sync that is left out leaves no wrong disk")
        trusting = [(disk, [it for it in again if not (isinstance(it, Write) and it.node in room.begun.held)]) for disk, again in failed]
        believed = [it for it in trusting if it not in failed]
        if believed and not any(wrong_disks(room, writer, ends, once(it for disk, again in believed for it in left_after(disk, again)))):
            wrong.append(f"{writer.name}: a next run that writes nothing after a failed sync leaves no wrong disk")
        return came.total(), wrong


if __name__ == "__main__":
    sys.exit(try_all(__doc__, WRITERS, "disks", lambda dasd, chosen, pool: pool.map(lambda it: try_writer(dasd, it), chosen)))
