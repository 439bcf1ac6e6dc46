"""Lists of events over stores of which a call fails: up to the first fault all is as without it, and at most the slot differs that could
not be saved; the fault is reported by its event, and the sense bytes tell it; and the list goes on past it with answers that may come."""
from __future__ import annotations

from dataclasses import replace

from conformance.suite.decks import parse
from conformance.suite.volumes import HEADER

from .chance import Trial
from .channels import Left
from .stage import Stage
from .sweeps import most_calls
from .text import StoreCalls, Wrong, calls_told, same
from .watching import senses_equipment_check, watch

# of a step or a run at most so many units are done
MOST_UNITS = 300


def units(trial: Trial) -> list[str]:
    """The events of a list, each step and run unit by unit."""
    lines: list[str] = []
    for event in parse(trial.vector.deck):
        alone = event.name in ("STEP", "RUN")
        lines += ["STEP 1"] * min(event.number, MOST_UNITS) if alone else [event.line()]
    return lines


def fail_list(stage: Stage, trial: Trial) -> None:
    """Plays a list unit by unit at a channel, up to the first call that fails; and as far at another whose stores do not fail."""
    if trial.failing is None or not trial.vector.volumes:
        return
    failing = trial.channel(stage)
    name = failing.files.get(trial.failing.device, [""])[0]
    if not name:
        return
    lines = units(trial)
    done, answers, states, calls = up_to_fault(stage, lines, name)
    is_met = calls.failed > 0
    if is_met and not answers[-1].startswith("RESET"):
        same("%s: the fault is told" % lines[done - 1], True, senses_equipment_check(stage))
    elif is_met:
        same("the fault is told", True, answers[-1].startswith("RESET UNSAVED"))
    faulty = failing.finish()
    calls = calls_told(stage.ask("CALLS %s" % name))
    plain = replace(trial, failing=None).channel(stage)
    both = stage.ask_all(line for it in lines[:done] for line in (it, "STATE"))
    before = done - 1 if is_met else done
    same("answers without a fault", both[::2][:before], answers[:before])
    same("states without a fault", both[1::2][:before], states[:before])
    judge(trial, plain.finish(), faulty, calls)


def up_to_fault(stage: Stage, lines: list[str], name: str) -> tuple[int, list[str], list[str], StoreCalls]:
    """Does events up to the first whose call of a store fails: how many, their answers, what the channel shows after each, and how the
    store was called."""
    answers: list[str] = []
    states: list[str] = []
    calls = calls_told(stage.ask("CALLS %s" % name))
    for number, line in enumerate(lines, 1):
        before = calls
        answer, state, told = stage.ask_all([line, "STATE", "CALLS %s" % name])
        calls = calls_told(told)
        answers.append(answer)
        states.append(state)
        if calls.count - before.count > most_calls(answer):
            raise Wrong("%s: calls of the store" % line, "at most %d" % most_calls(answer), str(calls.count - before.count))
        if calls.failed:
            return number, answers, states, calls
    return len(lines), answers, states, calls


def judge(trial: Trial, plain: Left, faulty: Left, calls: StoreCalls) -> None:
    """That only the slot is another that could not be saved; where no event met a fault, the last reset may meet it, and tells it."""
    if not calls.failed:
        same("what is left without a fault", None, plain.same_as(faulty))
        return
    lost = [calls.failed_writes.at] if calls.failed_writes.number else []
    for device, drive in plain.drives.items():
        is_failing = trial.failing is not None and trial.failing.device == device
        size = trial.volumes()[device].slot_size
        came = others(drive.files[0], faulty.drives[device].files[0], size, lost if is_failing else [])
        same("slots of %02X that are others" % device, [], came)


def others(one: bytes, other: bytes, size: int, lost: list[int]) -> list[int]:
    """Where slots begin in which two files differ, except for those at these places."""
    places = [0, *range(HEADER, max(len(one), len(other)), size)]
    ends = [HEADER, *(it + size for it in places[1:])]
    return [at for at, end in zip(places, ends) if one[at:end] != other[at:end] and at not in lost]


def past_faults(stage: Stage, trial: Trial) -> None:
    """Does a list past each call that fails: by the rules of the manual, and with sense bytes that tell each fault. Where a store fails
    for good, it holds at the end what it held after the first fault, except for the slots that could not be saved."""
    came = watch(stage, trial)
    first: Left | None = None
    for fault in came.faults:
        row = trial.channel(stage)
        answers = stage.ask_all(trial.events[:fault.event + 1])
        if not answers[-1].startswith("RESET"):
            same("%s: the sense bytes tell the fault" % trial.events[fault.event], True, senses_equipment_check(stage))
        left = row.finish()
        first = first or left
    if first and came.left and trial.failing and trial.failing.for_good:
        device = trial.failing.device
        lost = [it.lost for it in came.faults if it.lost is not None]
        size = trial.volumes()[device].slot_size
        behind, held = first.drives[device].files[0], came.left.drives[device].files[0]
        same("slots of %02X that are others" % device, [], others(behind, held, size, lost))
