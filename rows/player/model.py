"""The conformance suite's model beside a channel of the stage: answers, storage and volumes must be the same."""
from __future__ import annotations

from typing import Mapping, Sequence

from conformance.suite.decks import Event
from conformance.suite.machine import Machine
from conformance.suite.vectors import changed_tracks
from conformance.suite.volumes import Volume

from .channels import Left
from .text import Wrong, same


def compare_answers(machine: Machine, events: Sequence[Event], answers: Sequence[str]) -> None:
    """Does events at the model, and compares its answers with those that came."""
    same("answers beside the model", len(events), len(answers))
    for event, answer in zip(events, answers):
        same("%s, beside the model" % event.line(), machine.play(event), answer)


def compare_left(machine: Machine, before: Mapping[int, Volume], left: Left) -> None:
    """Resets the model, and compares storage and volumes with those that were left of these."""
    machine.do_reset()
    same("storage, beside the model", True, left.storage == bytes(machine.storage.bytes))
    for device, unit in machine.units.items():
        volume, came = unit.drive.volume, Volume.read(left.drives[device].files)
        if came.bytes() != volume.bytes():
            raise Wrong("image %02X, beside the model" % device, changed_tracks(before[device], volume), changed_tracks(before[device], came))
