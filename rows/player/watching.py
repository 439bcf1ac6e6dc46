"""Lists of events, one by one: each answer, and what the channel shows after it, must be those of the rules (rules.py); the channel
status word is in storage as it was told; no program changes a block that its key protects; an event calls stores so often at
most; and each call that fails is reported by its event, whether it fails once or for good."""
from __future__ import annotations

import re
from dataclasses import dataclass, field

from conformance.suite.decks import Event, parse_line
from conformance.suite.volumes import HEADER, Volume

from .answers import Arm, Program, View, status_told, word_told
from .chance import Trial
from .channels import Left, start_sense
from .rules import FirstWord, Ledger, Shown, breach
from .stage import Stage
from .sweeps import EQUIPMENT_CHECK, INCORRECT_LENGTH, UNIT_CHECK, most_calls
from .text import StoreCalls, Wrong, answered, calls_told, same

SIZE = 65536
KEY_BLOCK = 2048
UNIT = re.compile(r"UNIT (\d+) CYLINDERS (\d+) ARM (\w+) AT \d+ \d+ SENSE [0-9A-F]{12}$")


@dataclass
class Fault:
    """A call of a store that failed: the drive, the number of its event, and the place in its file of the slot that could not be saved."""
    device: int
    event: int
    lost: int | None


@dataclass
class Came:
    """What came of a list: its answers, how many programs were accepted, the calls that failed, and what it left."""
    answers: list[str] = field(default_factory=list)
    programs: int = 0
    faults: list[Fault] = field(default_factory=list)
    left: Left | None = None


class Watcher:
    """A channel whose events are watched."""

    def __init__(self, stage: Stage, trial: Trial) -> None:
        self.stage, self.trial = stage, trial
        self.row = trial.channel(stage)
        self.volumes = trial.volumes()
        self.keys = [0] * (SIZE // KEY_BLOCK)
        self.ledger, self.came = Ledger(), Came()
        self.names = {device: names[0] for device, names in self.row.files.items()}
        self.shown, self.calls = self.look()

    def look(self) -> tuple[Shown, dict[int, StoreCalls]]:
        """What the channel shows, and how often its stores were called."""
        state, view, *calls = self.stage.ask_all(["STATE", "VIEW", *("CALLS %s" % it for it in self.names.values())])
        told = {device: calls_told(it) for device, it in zip(self.names, calls)}
        return Shown(View.of(state), Program.of(view)), told

    def first_word(self) -> FirstWord | None:
        """The word with which a program begins that starts now."""
        at = answered(self.stage.ask("PEEK 48 4"), "PEEK")
        word = self.stage.ask("PEEK %X 8" % int.from_bytes(at[1:4], "big"))
        return FirstWord.of(at, None if word == "OUTSIDE" else answered(word, "PEEK"))

    def protected(self) -> bytes:
        """The bytes of all blocks that have another key than the program that runs; none where its key is 0."""
        key = self.shown.program.key if self.shown.program else 0
        if not key:
            return b""
        storage = answered(self.stage.ask("PEEK 0 %d" % SIZE), "PEEK")
        return b"".join(storage[at * KEY_BLOCK:][:KEY_BLOCK] for at, own in enumerate(self.keys) if own != key)

    def does(self, number: int, line: str) -> None:
        """Does an event, and looks at all that it must come to."""
        event = parse_line(line.encode("ascii"))
        if event is None:
            return
        before, calls = self.shown, self.calls
        if event.name == "SIO":
            before = Shown(before.view, before.program, self.first_word())
        kept = self.protected() if event.name in ("STEP", "RUN") else b""
        answer = self.stage.ask(line)
        if event.name == "KEY" and answer == "KEY OK":
            self.keys[event.address // KEY_BLOCK] = event.number
        after = self.protected() if kept else b""
        self.shown, self.calls = self.look()
        self.came.answers.append(answer)
        self.rules(before, event, answer)
        same("a protected block behind event %d: %s" % (number + 1, line), True, kept == after)
        self.stores(number, calls, answer)

    def rules(self, before: Shown, event: Event, answer: str) -> None:
        """That an answer may come, and the word that it tells is in storage."""
        where = "event %d: %s" % (len(self.came.answers), event.line())
        why = breach(before, event, answer, self.shown)
        if why:
            raise Wrong(where, "by the manual's rules, behind %s" % (before.view,), "%s: %s, %s" % (why, answer, self.shown.view))
        if not self.ledger.takes(answer, self.shown.view):
            raise Wrong(where, "each end stored once", "an end stored twice or lost: %s" % answer)
        told, status = word_told(answer), status_told(answer)
        if told:
            same(where, told[1].to_bytes(), answered(self.stage.ask("PEEK 40 8"), "PEEK"))
        elif status:
            same(where, bytes(status), answered(self.stage.ask("PEEK 44 2"), "PEEK"))

    def stores(self, number: int, before: dict[int, StoreCalls], answer: str) -> None:
        """That an event calls stores so often at most, and tells each call that fails."""
        where = "event %d: %s" % (number + 1, answer)
        made = sum(self.calls[it].count - before[it].count for it in before)
        if made > most_calls(answer):
            raise Wrong(where, "at most %d calls of stores" % most_calls(answer), str(made))
        failed = [it for it in before if self.calls[it].failed > before[it].failed]
        if not failed:
            same(where, True, not answer.startswith("RESET UNSAVED"))
            return
        device = failed[0]
        wrote = self.calls[device].failed_writes.number > before[device].failed_writes.number
        lost = self.calls[device].failed_writes.at if wrote else None
        same("%s: calls that failed" % where, 1, sum(self.calls[it].failed - before[it].failed for it in failed))
        same("%s: the fault is told" % where, True, tells(self.volumes[device], device, lost, answer, self.shown.view))
        self.came.faults.append(Fault(device, number, lost))

    def asks(self) -> None:
        """Asks what is no event: the drives and their images, a drive off which something is owed, and another storage. Nothing changes."""
        same("PENDING", "PENDING %s" % ("YES" if is_pending(self.shown.view) else "NO"), self.stage.ask("PENDING"))
        for device, volume in self.volumes.items():
            model, cylinders = volume.model.name, volume.cylinders
            image = "IMAGE %s CYLINDERS %d SLOTS %d" % (model, cylinders, volume.slot_size)
            same("IMAGE %02X" % device, image, self.stage.ask("IMAGE %02X" % device))
            unit = UNIT.match(self.stage.ask("UNIT %02X" % device))
            arm = self.shown.view.arm(device)
            same("UNIT %02X" % device, (model, str(cylinders), arm.value if arm else ""), unit.groups() if unit else None)
            owed = owed_of(self.shown.view, device)
            refused = ("DETACH %02X" % device, owed) if owed else ("DETACH 7F", "no drive with this address is attached")
            same(refused[0], "REFUSED %s" % refused[1], self.stage.ask(refused[0]))
        self.swaps()
        same("what is asked changes nothing", (self.shown, self.calls), self.look())

    def swaps(self) -> None:
        """Puts another storage in the place of the channel's own, bytes and keys, and back."""
        own = self.stage.ask_all(["KEYOF 1000", "PEEK 1000 1"])
        other = ["STORAGE NEW %d" % SIZE, "STORAGE PUT 1000 5A", "STORAGE KEY 1000 5", "SWAP"]
        same("another storage", ["OK"] * 4, self.stage.ask_all(other))
        same("SWAP, its key and byte", ["KEYOF 5", "PEEK 5A"], self.stage.ask_all(["KEYOF 1000", "PEEK 1000 1"]))
        same("SWAP, and the own one", own, self.stage.ask_all(["STORAGE KEYOF 1000", "STORAGE PEEK 1000 1"]))
        same("SWAP back", ["OK", *own], self.stage.ask_all(["SWAP", "KEYOF 1000", "PEEK 1000 1"]))

    def finish(self) -> Came:
        """Ends the channel."""
        self.came.programs = self.ledger.programs
        self.came.left = self.row.finish()
        return self.came


def tells(volume: Volume, device: int, lost: int | None, answer: str, view: View) -> bool:
    """Whether an event tells the fault that it met: a step and a halt by unit check, a reset by the track that is lost."""
    if answer.startswith("RESET"):
        if lost is None:
            return False
        cylinder, head = divmod((lost - HEADER) // volume.slot_size, volume.model.heads)
        return answer == "RESET UNSAVED 1%02X %04X %04X" % (device, cylinder, head)
    return answer.startswith(("STEP", "RUN", "HIO")) and has_unit_check(view)


def has_unit_check(view: View) -> bool:
    """Whether a program is over with unit check and without incorrect length."""
    return view.csw is not None and bool(view.csw.unit & UNIT_CHECK) and not view.csw.channel & INCORRECT_LENGTH


def senses_equipment_check(stage: Stage) -> bool:
    """Whether the program that is over has unit check, and the sense bytes of its drive equipment check."""
    view = View.of(stage.ask("STATE"))
    if not has_unit_check(view):
        return False
    stage.ask_all(["INT", "ARRIVE 1%02X" % view.device, "TIO 1%02X" % view.device])
    sense = start_sense(stage, 0x100 | view.device)
    return len(sense) == 12 and bool(int(sense[:2], 16) & EQUIPMENT_CHECK)


def is_pending(view: View) -> bool:
    """Whether an interruption waits."""
    if view.kind == "idle":
        return any(arm is Arm.ARRIVED for _, arm in view.arms)
    return view.kind == "pending" or view.asks


def owed_of(view: View, device: int) -> str:
    """What is owed of a drive, in the words of the refusal to take it off."""
    if view.kind != "idle" and view.device == device:
        return "a program runs at this drive" if view.kind == "working" else "an ending of this drive is pending"
    return "" if view.arm(device) is Arm.AT_REST else "this drive owes a device end"


def watch(stage: Stage, trial: Trial, asks: bool = True) -> Came:
    """Does a list's events one by one, past each call that fails."""
    watcher = Watcher(stage, trial)
    for number, line in enumerate(trial.events):
        watcher.does(number, line)
        if asks and number % 4 == 3:
            watcher.asks()
    return watcher.finish()
