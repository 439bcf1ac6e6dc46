"""Checks the messages of all commits since this check was added: whether a stranger can read them.

A subject has a place and what is done there, as `file_journals: refuse a foreign journal`, in at most 100 characters; a body says why, and of a
merge what it brings. No message names a folder of somebody's machine, and none is a note to oneself. Prints each message that is wrong; the last
line is 'N messages, M wrong', and the status 1 where M is not 0. Without git, or where the history is not here, nothing is checked.
"""

import re
import subprocess
import sys
from collections.abc import Iterator
from dataclasses import dataclass

from tools import TOP
from tools.gate import told

# The last commit before messages were checked.
BEFORE = "459879a1b603"
LONGEST_SUBJECT = 100
PLACE = re.compile(r"[\w./,* -]+: \S")
FOLDER = re.compile(r"(?<![\w.])/(?:tmp|home|root|opt|work|farm|mnt|var)/|\broom/")
NOTE = re.compile(r"(?i)^(?:wip|fixup|squash|tmp|todo)\b")


@dataclass(frozen=True)
class Commit:
    """A commit: its short name, how many it follows, its subject and its body."""

    name: str
    parents: int
    subject: str
    body: str


def git(*words: str) -> str | None:
    """What git prints, or None where it can't answer."""
    try:
        ended = subprocess.run(["git", "-C", str(TOP), *words], capture_output=True, text=True, check=False)
    except FileNotFoundError:
        return None
    return ended.stdout if ended.returncode == 0 else None


def commits_in(log: str) -> Iterator[Commit]:
    """The commits of a log whose parts end with NUL and whose commits end with SOH."""
    for entry in filter(str.strip, log.split("\1")):
        name, parents, subject, body = entry.strip("\n").split("\0")
        yield Commit(name, len(parents.split()), subject, body.strip())


def faults_of(commit: Commit) -> Iterator[str]:
    """What is wrong with a message."""
    if commit.parents < 2 and not PLACE.match(commit.subject):
        yield "the subject has no place, as `file_journals: refuse a foreign journal`"
    if len(commit.subject) > LONGEST_SUBJECT:
        yield f"the subject has more than {LONGEST_SUBJECT} characters"
    if NOTE.match(commit.subject):
        yield "the subject is a note to oneself"
    if not commit.body:
        yield "there is no body that says why, or of a merge what it brings"
    if FOLDER.search(f"{commit.subject}\n{commit.body}"):
        yield "it names a folder of a machine"


def main() -> int:
    """Checks them all."""
    log = git("log", "--format=%h%x00%p%x00%s%x00%b%x01", f"{BEFORE}..HEAD")
    if log is None:
        print("skipped: no history here")
        return 0
    commits = list(commits_in(log))
    faults = (f"{it.name} {it.subject}: {fault}" for it in commits for fault in faults_of(it))
    return told(faults, f"{len(commits)} messages")


if __name__ == "__main__":
    sys.exit(main())
