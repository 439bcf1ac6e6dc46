"""The program `dasd` beside the page: another build of it, on this machine, whose answers the page's are compared with."""

import json
import pathlib
import subprocess
from typing import Any


class Native:
    """A command that is `dasd`, as words."""

    def __init__(self, command: list[str], folder: pathlib.Path):
        self.command = command
        self.folder = folder

    def run(self, *words: object, deck: str = "") -> subprocess.CompletedProcess[bytes]:
        """Runs it in its folder."""
        return subprocess.run([*self.command, *map(str, words)], cwd=self.folder, input=deck.encode(), capture_output=True, check=False)

    def text(self, *words: object) -> str:
        """What it prints."""
        return self.run(*words).stdout.decode()

    def objects(self, *words: object) -> list[dict[str, Any]]:
        """What it prints with --json, an object a line."""
        return [json.loads(line) for line in self.text(words[0], "--json", *words[1:]).splitlines()]

    def answers(self, deck: str, *volumes: object) -> list[str]:
        """The answers to a deck, over copies of no volume: what it writes stays in the folder."""
        return self.run("run", *volumes, deck=deck).stdout.decode().splitlines()
