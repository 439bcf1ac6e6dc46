"""The program `dasd`, or any that takes the same words: each vector is one run, its deck on standard input.

A traced program also writes a trace of each run: its answers and volumes must be those without, and the trace tells of each Start I/O what
its answer says.
"""
from __future__ import annotations

import os
import shlex
import subprocess
import tempfile
from typing import Dict, Iterable, List, Mapping

from ..vectors import Outcome, Vector
from ..volumes import BadImage, Volume
from . import Emulator


def starts(lines: Iterable[str]) -> List[List[str]]:
    """Of each Start I/O that these lines tell of: its unit and its condition code."""
    return [line.replace(",", "").split()[1:4] for line in lines if line.startswith("SIO ")]


def tells_of(outcome: Outcome, trace: str) -> bool:
    """Whether a trace has the starts that the answers have. A run that ends with a fault may not have printed its last answers."""
    try:
        with open(trace, encoding="latin1") as text:
            traced = starts(text)
    except FileNotFoundError:
        return outcome.fault is not None
    answered = starts(outcome.answers)
    return traced[: len(answered)] == answered and (outcome.fault is not None or len(traced) == len(answered))


class DasdProgram(Emulator):
    def __init__(self, command: str, traced: bool = False, seconds: float = 60) -> None:
        self.name = command + (", traced" if traced else "")
        self.command, self.traced, self.seconds = shlex.split(command), traced, seconds

    def play(self, vector: Vector) -> Outcome:
        with tempfile.TemporaryDirectory() as room:
            paths, trace = self.written(vector, room), os.path.join(room, "trace")
            words = ["%02X=%s" % (unit, path) for unit, files in paths.items() for path in files]
            options = ["run", "--storage", str(vector.storage), "--channel", str(vector.channel)]
            if self.traced:
                options += ["--trace-to", trace]
            try:
                ran = subprocess.run([*self.command, *options, *words], input=vector.deck, capture_output=True, timeout=self.seconds)
            except (OSError, subprocess.TimeoutExpired) as fault:
                return Outcome(broke="the program did not end well: %s" % fault)
            outcome = self.outcome(ran, paths)
            if self.traced and outcome.broke is None and not tells_of(outcome, trace):
                return Outcome(broke="the trace tells of other starts than the answers")
            return outcome

    @staticmethod
    def written(vector: Vector, room: str) -> Dict[int, List[str]]:
        """Writes a vector's volumes into a folder; their files by unit."""
        paths: Dict[int, List[str]] = {}
        for unit, volume in vector.before().items():
            paths[unit] = []
            for number, data in enumerate(volume.files()):
                path = os.path.join(room, "%02X_%d.ckd" % (unit, number + 1))
                with open(path, "wb") as it:
                    it.write(data)
                paths[unit].append(path)
        return paths

    @staticmethod
    def outcome(ran: subprocess.CompletedProcess[bytes], paths: Mapping[int, List[str]]) -> Outcome:
        """What a run's output says. Only the first line on standard error is the fault; what follows explains it to a person."""
        said = ran.stderr.decode("latin1").split("\n")[0]
        if ran.returncode not in (0, 1):
            return Outcome(broke="the program ended with status %d: %s" % (ran.returncode, said))
        fault = said[6:] if ran.returncode == 1 and said.startswith("dasd: ") else said if ran.returncode else None
        after = {}
        for unit, files in paths.items():
            try:
                after[unit] = Volume.load(files)
            except (OSError, BadImage) as why:
                return Outcome(broke="the image of %02X is spoilt: %s" % (unit, why))
        return Outcome(ran.stdout.decode("latin1").split("\n")[:-1], fault, after)
