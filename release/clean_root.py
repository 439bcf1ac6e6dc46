"""A clean Debian root, in which nothing is but what is asked for, and what is counted in it: packages, commands, vectors, files."""

from __future__ import annotations

import hashlib
import os
import re
import shutil
import subprocess
import time
from pathlib import Path
from typing import Dict, List, Set

#: What apt, dpkg and the loader keep for themselves, and what a try leaves on purpose.
OWN = ("proc/", "sys/", "dev/", "given/", "try/", "var/log/", "var/cache/", "var/lib/apt/", "var/lib/dpkg/", "etc/ld.so.cache", "root/")
#: Of dpkg's own files those that it keeps for a package.
OF_PACKAGES = "var/lib/dpkg/info/"
#: The environment of a command.
PLAIN = {
    "PATH": "/usr/local/sbin:/usr/local/bin:/usr/sbin:/usr/bin:/sbin:/bin",
    "HOME": "/root",
    "LC_ALL": "C.UTF-8",
    "DEBIAN_FRONTEND": "noninteractive",
}
#: The number of an ordinary user.
USER = 1000
SUITE, MIRROR = "bookworm", "http://deb.debian.org/debian"


class Failed(Exception):
    """What was tried and did not come out as it must."""


def make_root(place: Path, variant: str, *words: str, suite: str = SUITE) -> None:
    """Makes a root, as a folder or a tar; variant and words are mmdebstrap's. `minbase` is what Debian calls essential, and apt."""
    new = place.with_name(f"new-{place.name}")
    asked = ["mmdebstrap", "--quiet", f"--variant={variant}", *words, suite, str(new), MIRROR]
    made = subprocess.run(asked, capture_output=True, text=True, check=False)
    if made.returncode:
        raise Failed(f"mmdebstrap: {made.stderr.strip()}")
    new.rename(place)


class Root:
    """A root that is unpacked into a folder of its own. What is given stands in /given, and commands run in /try."""

    def __init__(self, name: str, tar: Path, given: Path, room: Path) -> None:
        self.name, self.place = name, room / name
        self.commands, self.vectors, self.wrong, self.packages, self.left = 0, 0, 0, 0, 0
        self.place.mkdir()
        subprocess.run(["tar", "-C", str(self.place), "-xf", str(tar)], check=True)
        shutil.copy("/etc/resolv.conf", self.place / "etc" / "resolv.conf")
        shutil.copytree(given, self.place / "given", ignore=shutil.ignore_patterns("modules"))
        (self.place / "try").mkdir()

    def run(self, command: str, **named: str) -> str:
        """What a shell's command prints in /try of the root; names are variables of its environment. It must end with status 0."""
        return self.run_as("root", "/try", command, **named)

    def run_by_user(self, command: str) -> str:
        """The same by an ordinary user, in a home of its own in /try; and how many seconds it took is printed."""
        (self.place / "try" / "home").mkdir(exist_ok=True)
        os.chown(self.place / "try" / "home", USER, USER)
        began = time.monotonic()
        text = self.run_as(f"{USER}:{USER}", "/try/home", command, HOME="/try/home")
        last = text.strip().rpartition("\n")[2]
        print(f"{self.name}: {time.monotonic() - began:.1f} s: {command}{f': {last}' if last else ''}", flush=True)
        return text

    def run_as(self, user: str, folder: str, command: str, **named: str) -> str:
        """What a shell's command prints, by this user in this folder of the root."""
        inside = 'mount -t proc proc "$1/proc" && mount --rbind /dev "$1/dev" && exec chroot --userspec="$2" "$1" /bin/sh -euc "cd $3; $4"'
        environment = {**PLAIN, **named}
        words = ["unshare", "--mount", "--fork", "sh", "-c", inside, "sh", str(self.place), user, folder, command]
        nothing, both = subprocess.DEVNULL, subprocess.STDOUT
        done = subprocess.run(words, env=environment, stdin=nothing, stdout=subprocess.PIPE, stderr=both, check=False)
        text = done.stdout.decode(errors="replace")
        self.commands += 1
        if done.returncode:
            raise Failed(f"{self.name}: `{command}` ended with {done.returncode}:\n{text[-4000:]}")
        self.count_vectors(text)
        return text

    def count_vectors(self, text: str) -> None:
        """Adds the vectors of which a text says how they came out: by a line 'N of M vectors', by the suite's table, or as `make check` does."""
        for right, all_of_them in re.findall(r"(\d+) of (\d+) vectors", text):
            self.vectors, self.wrong = self.vectors + int(right), self.wrong + int(all_of_them) - int(right)
        for total, right in re.findall(r"(?m)^all +(\d+) +(\d+) ", text):
            self.vectors, self.wrong = self.vectors + int(right), self.wrong + int(total) - int(right)

        for right, wrong in re.findall(r"(?m)^vectors, .*: (\d+) passed, (\d+) failed$", text):
            self.vectors, self.wrong = self.vectors + int(right), self.wrong + int(wrong)

    def play(self, vectors: int, command: str, **named: str) -> None:
        """Runs a command that must play so many vectors, and find all of them right."""
        before = self.vectors
        text = self.run(command, **named)
        if self.vectors - before != vectors or self.wrong:
            raise Failed(f"{self.name}: `{command}` found {self.vectors - before} vectors right, and not {vectors}:\n{text[-4000:]}")

    def expect(self, command: str, wanted: str) -> None:
        """Runs a command that must print this."""
        found = self.run(command)
        if found.strip() != wanted.strip():
            raise Failed(f"{self.name}: `{command}` printed\n{found}\nand not\n{wanted}")

    def known(self) -> Set[str]:
        """The names of the installed packages."""
        listed = subprocess.run(
            ["dpkg-query", f"--admindir={self.place}/var/lib/dpkg", "-W", "-f", "${db:Status-Abbrev} ${Package}:${Architecture}\n"],
            check=True, capture_output=True, text=True,
        )  # fmt: skip
        return {line.split()[1] for line in listed.stdout.splitlines() if line.startswith("ii")}

    def install(self, *packages: str) -> List[str]:
        """Installs packages, by name or by path, with what they depend on and nothing else; all that is new."""
        before = self.known()
        self.run(f"apt-get -q update && apt-get install -qy --no-install-recommends {' '.join(packages)}")
        return sorted(self.known() - before)

    def purge(self, *packages: str) -> None:
        """Takes packages off again, with what came for their sake."""
        self.run(f"apt-get purge -qy --autoremove {' '.join(packages)}")

    def files(self) -> Dict[str, str]:
        """Each file of the root with a digest, each link with where it leads, each folder; but for what apt and dpkg keep."""
        found: Dict[str, str] = {}
        for folder, folders, names in os.walk(self.place):
            for name in [*folders, *names]:
                path = Path(folder, name)
                seen = str(path.relative_to(self.place))
                if f"{seen}/".startswith(OWN) and not seen.startswith(OF_PACKAGES):
                    continue
                found[seen] = digest(path)
        return found

    def drop_new_folders(self, before: Dict[str, str]) -> None:
        """Takes off the empty folders that were not there before: those that `make uninstall` leaves, as it may not know whose they are."""
        new = [it for it, kind in self.files().items() if kind == "folder" and it not in before]
        for it in sorted(new, key=len, reverse=True):
            if not any((self.place / it).iterdir()):
                (self.place / it).rmdir()

    def compare(self, before: Dict[str, str]) -> None:
        """Counts the files that are not as they were."""
        after = self.files()
        changed = sorted(it for it in before.keys() | after.keys() if before.get(it) != after.get(it))
        self.left += len(changed)
        for it in changed:
            print(f"{self.name}: {'left' if it not in before else 'changed' if it in after else 'missing'}: {it}")

    def report(self) -> str:
        """The root's numbers, in a line."""
        return (
            f"{self.name}: {self.packages} packages tried, {self.commands} commands run, {self.vectors} vectors right, {self.wrong} wrong, "
            f"{self.left} files left behind"
        )


def digest(path: Path) -> str:
    """What a path is: a link, a folder, or a file by its bytes."""
    if path.is_symlink():
        return f"link {os.readlink(path)}"
    if path.is_dir():
        return "folder"
    return hashlib.sha256(path.read_bytes()).hexdigest() if path.is_file() else "special"
