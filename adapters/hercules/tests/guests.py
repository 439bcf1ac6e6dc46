#!/usr/bin/env python3
"""Runs guests in Hercules over a module, and looks at what they type and leave: the worked utility by IPL, the copier, and programs under
which Hercules is killed, the disk is full, or a file is in use.

    guests.py MODULE WORK TEST [--times N]

MODULE is a folder with hdtdasd.so and hdtchan.so, and WORK one with what `make -C c emulator` makes: mkvolumes, mkpacks, utility.bin and
copier.bin. TEST is one of those below, or `all`. The last line is 'N guests run, M came out wrong', and the status 1 where M is not 0."""
from __future__ import annotations

import argparse
import fcntl
import hashlib
import os
import signal
import subprocess
import sys
import tempfile
import time
from dataclasses import dataclass, field
from pathlib import Path
from typing import Callable, Dict, List, Tuple

import supervisor

EXAMPLES = Path(__file__).resolve().parents[3] / "c" / "examples"
CONFIGURATION = """CPUSERIAL 000001
CPUMODEL 0145
MAINSIZE 16
XPNDSIZE 0
NUMCPU 1
ARCHMODE %s
CNSLPORT 0
OSTAILOR QUIET
LDMOD %s
0009 1052-C
"""
SECONDS = 120
#: What a supervisor of few words does: it starts the program at 400 for 190, and again, for ever.
WRITES = bytes.fromhex("41F001909C00F0004780021047F002049D00F000472002104780020447F00210")
RESTART = bytes.fromhex("0000000000000200")
#: Seek, Search ID, Transfer, Write Data of four bytes in cylinder 0.
PROGRAM = bytes.fromhex("0700080040000006310008104000000508000408000000000500090020000004")


class Wrong(Exception):
    """What came out otherwise than it must."""


def expect(what: str, found: object, wanted: object) -> None:
    """Two things are the same."""
    if found != wanted:
        raise Wrong("%s: %s\nand not: %s" % (what, found, wanted))


def digest(path: Path) -> str:
    """A file in a few letters."""
    return hashlib.sha256(path.read_bytes()).hexdigest()[:16]


@dataclass
class Room:
    """A folder in which Hercules runs with a module, and what it is given."""

    module: Path
    work: Path
    folder: Path
    devices: List[str] = field(default_factory=list)
    commands: List[str] = field(default_factory=list)
    mode: str = "S/370"

    def put(self, name: str, data: bytes) -> Path:
        """A file of this folder."""
        path = self.folder / name
        path.write_bytes(data)
        return path

    def start(self) -> subprocess.Popen[bytes]:
        """Starts Hercules; its console goes into `log`."""
        conf = self.put("conf", (CONFIGURATION % (self.mode, self.module) + "".join("%s\n" % it for it in self.devices)).encode())
        rc = self.put("rc", "".join("%s\n" % it for it in self.commands).encode())
        with (self.folder / "log").open("wb") as log:
            return subprocess.Popen(["hercules", "-d", "-f", str(conf)], stdin=subprocess.DEVNULL, stdout=log, stderr=subprocess.STDOUT,
                                    cwd=self.folder, env=dict(os.environ, HERCULES_RC=str(rc)))

    def log(self) -> str:
        """What the console has said."""
        return (self.folder / "log").read_text(encoding="latin1")

    def wait_for(self, word: str, running: subprocess.Popen[bytes]) -> None:
        """Waits until the console has said it."""
        begun = time.monotonic()
        while word not in self.log():
            if running.poll() is not None or time.monotonic() - begun > SECONDS:
                raise Wrong("no %s on the console:\n%s" % (word, self.log()[-1500:]))
            time.sleep(0.02)

    def run(self) -> str:
        """Runs Hercules to its end: what the console said."""
        running = self.start()
        try:
            running.wait(SECONDS)
        except subprocess.TimeoutExpired as late:
            raise Wrong("Hercules did not end:\n" + self.log()[-1500:]) from late
        finally:
            running.kill()
            running.wait()
        return self.log()

    def until_wait(self, *more: str) -> None:
        """Hercules ends when the guest waits with interruptions shut."""
        self.put("end", b"psw\nsh sleep 0.2\nquit\n")
        self.commands[:0] = ["hao tgt HHCCP011I", "hao cmd script %s/end" % self.folder, *more]

    def make(self, maker: str, program: str, packs: List[str]) -> Dict[str, Path]:
        """The packs of an example."""
        paths = {name: self.folder / ("%s.ckd" % name) for name in packs}
        subprocess.run([self.work / maker, self.work / program, *paths.values()], check=True, capture_output=True)
        return paths


def typed(log: str, wanted: str) -> str:
    """The lines of the console that the guest may have typed, of those that it must type."""
    known = set(wanted.splitlines())
    return "".join(line + "\n" for line in log.splitlines() if line in known)


def utility(room: Room) -> None:
    """The worked utility, loaded by IPL, comes to DONE."""
    packs = room.make("mkvolumes", "utility.bin", ["resident", "work"])
    room.devices = ["0190 2314 %s arms" % packs["resident"], "0191 2311 %s arms" % packs["work"]]
    room.until_wait()
    room.commands.append("ipl 190")
    wanted = (EXAMPLES / "expected.txt").read_text(encoding="ascii")
    expect("the utility types", typed(room.run(), wanted), wanted)


def copier(room: Room) -> None:
    """The copier, which goes by program-controlled interruptions of two channels and a pack change, comes to its end."""
    packs = room.make("mkpacks", "copier.bin", ["resident", "source", "first", "second"])
    room.devices = ["0190 2314 %s arms" % packs["resident"], "0191 2311 %s arms" % packs["source"], "0290 2311 %s arms" % packs["first"]]
    room.put("mount", b"sh sleep 0.3\ndevinit 290 %s arms\n" % str(packs["second"]).encode())
    room.until_wait("hao tgt MOUNT COPY02", "hao cmd script %s/mount" % room.folder)
    room.commands.append("ipl 190")
    wanted = (EXAMPLES / "copied.txt").read_text(encoding="ascii")
    expect("the copier types", typed(room.run(), wanted), wanted)


def writer(room: Room, text: bytes, options: str = "") -> Path:
    """A guest that writes a record of 190 for ever."""
    pack = room.folder / "pack.ckd"
    pack.write_bytes((EXAMPLES.parents[1] / "conformance/vectors/x.img").read_bytes())
    core = bytearray(0x1000)
    core[0:8] = RESTART
    core[0x48:0x4C] = bytes.fromhex("00000400")
    core[0x200:0x200 + len(WRITES)] = WRITES
    core[0x400:0x400 + len(PROGRAM)] = PROGRAM
    core[0x810:0x815] = bytes.fromhex("0000000001")
    core[0x900:0x904] = text
    room.put("core", bytes(core))
    room.devices = ["0190 2311 %s%s" % (pack, options)]
    room.commands = ["loadcore %s/core 0" % room.folder, "restart"]
    return pack


def wait_for_bytes(pack: Path, text: bytes) -> None:
    """Waits until the file has the record that is written."""
    begun = time.monotonic()
    while text not in pack.read_bytes():
        if time.monotonic() - begun > SECONDS:
            raise Wrong("the record never came into the file")
        time.sleep(0.02)


def killed(room: Room) -> None:
    """A Hercules that is killed while a guest writes leaves the tracks of programs that had ended, an image, and no lock."""
    text = "KILL".encode("cp037")
    pack = writer(room, text)
    before = pack.read_bytes()
    running = room.start()
    wait_for_bytes(pack, text)
    running.send_signal(signal.SIGKILL)
    running.wait()
    at = pack.read_bytes().index(text)
    # a record of 80 bytes: what a write is not given is zeros
    expect("all but the record", pack.read_bytes() == before[:at] + text + bytes(76) + before[at + 80:], True)
    with pack.open("rb+") as file:
        fcntl.flock(file, fcntl.LOCK_EX | fcntl.LOCK_NB)


def instructions(room: Room) -> None:
    """The instructions that no deck has, prefixing, the masks of EC mode, reference and change bits: each result is as the supervisor wants it."""
    core, wanted = supervisor.guest()
    room.put("core", core)
    volume = (EXAMPLES.parents[1] / "conformance/vectors/x.img").read_bytes()
    room.devices = ["019%d 2311 %s" % (unit, room.put("%d.ckd" % unit, volume)) for unit in (0, 1)]
    room.until_wait()
    saving = "sh sleep 0.2\nsavecore %s/kept 0 9FFF\n" % room.folder
    room.put("end", ("psw\n" + saving * 2 + "sh sleep 0.1\nquit\n").encode())
    room.commands += ["loadcore %s/core 0" % room.folder, "restart"]
    log = room.run()
    if not (room.folder / "kept").exists():
        raise Wrong("nothing was kept:\n" + log[-1500:])
    kept = (room.folder / "kept").read_bytes()
    wrong = ["%s is %s and not %s" % (what, kept[at:at + len(it) // 2].hex().upper(), it)
             for what, at, it in wanted if kept[at:at + len(it) // 2].hex().upper() != it]
    if wrong:
        raise Wrong("\n".join(wrong))


def refused(room: Room) -> None:
    """Other modes than System/370, and other devices on a channel of the module, are refused by name."""
    pack = writer(room, bytes(4))
    drive, tape = "0190 2311 %s" % pack, "0192 3420"
    asks = bytearray(0x1000)
    asks[0:8] = RESTART
    asks[0x200:0x208] = bytes.fromhex("9D00019282000208")
    asks[0x208:0x210] = bytes.fromhex("0002000000000ACE")
    room.put("core", asks)
    restart = list(room.commands)
    cases: List[Tuple[str, List[str], List[str], str]] = [
        ("ESA/390", [drive], [], "0190 %s: ARCHMODE S/370 is wanted before it" % pack),
        ("z/Arch", [drive], [], "0190 %s: ARCHMODE S/370 is wanted before it" % pack),
        ("S/370", [drive], ["archmode ESA/390", "ipl 190"], "0190 works in System/370 mode alone"),
        ("S/370", [tape, drive], [], "0190 %s: a channel with a drive of this module has no other devices" % pack),
        ("S/370", [drive, tape], restart, "0192 3420 is not found: a channel with a drive of this module has no other devices"),
    ]
    for mode, devices, commands, wanted in cases:
        room.mode, room.devices = mode, devices
        room.commands = [*commands, "sh sleep 0.3", "quit"]
        expect("%s is refused in %s" % (wanted, mode), wanted in room.run(), True)


def in_use(room: Room) -> None:
    """A pack that another program has locked is refused by name, and stays."""
    pack = writer(room, bytes(4))
    room.commands = ["quit"]
    before = digest(pack)
    with pack.open("rb+") as file:
        fcntl.flock(file, fcntl.LOCK_EX | fcntl.LOCK_NB)
        log = room.run()
    expect("it is refused", "%s: image in use" % pack in log, True)
    expect("the pack", digest(pack), before)


def read_only(room: Room) -> None:
    """With `ro` what is written is read again, and dropped; attach says so."""
    pack = writer(room, "DROP".encode("cp037"), " ro")
    before = digest(pack)
    room.commands += ["sh sleep 1", "quit"]
    log = room.run()
    expect("attach says it", "read only: what is written is kept in memory, and dropped at close" in log, True)
    expect("the pack", digest(pack), before)


def full(room: Room) -> None:
    """The console names the file whose track can't be written. The track is lost when the drive is detached."""
    if os.geteuid():
        print("skipped: full (only root makes a disk that is full)")
        return
    disk = room.folder / "disk"
    disk.mkdir()
    subprocess.run(["mount", "-t", "tmpfs", "-o", "size=4m", "none", disk], check=True)
    try:
        writer(room, "FULL".encode("cp037"))
        pack = disk / "pack.ckd"
        subprocess.run(["dasdinit", "-r", pack, "2314", "1"], check=True, capture_output=True)
        core = bytearray((room.folder / "core").read_bytes())
        core[0x814] = 0  # record 0, the only one of a new track; the rest of the track's slot is pages of zeros
        room.put("core", bytes(core))
        fill(disk, pack)
        room.devices = ["0190 2314 %s" % pack]
        room.commands += ["sh sleep 1", "detach 0190", "sh sleep 1", "quit"]  # Hercules may cut off its last lines as it ends
        log = room.run()
        expect("it is told", "%s is not written: No space left on device" % pack in log, True)
        expect("and at the end", "%s: written tracks are lost" % pack in log, True)
    finally:
        subprocess.run(["umount", disk], check=True)


def fill(disk: Path, pack: Path) -> None:
    """Leaves no room on the disk: the file's pages without bytes are holes, as in an image that was copied sparsely."""
    subprocess.run(["fallocate", "--dig-holes", pack], check=True)
    with (disk / "filler").open("wb", buffering=0) as filler:
        try:
            while filler.write(bytes(4096)):
                pass
        except OSError:
            return


TESTS: Dict[str, Tuple[Tuple[str, ...], Callable[[Room], None]]] = {
    "utility": (("hdtdasd", "hdtchan"), utility),
    "copier": (("hdtchan",), copier),
    "instructions": (("hdtchan",), instructions),
    "refused": (("hdtchan",), refused),
    "killed": (("hdtdasd", "hdtchan"), killed),
    "in_use": (("hdtdasd", "hdtchan"), in_use),
    "read_only": (("hdtdasd", "hdtchan"), read_only),
    "full": (("hdtdasd", "hdtchan"), full),
}


def main() -> int:
    """Runs the tests that are named."""
    words = argparse.ArgumentParser(description=__doc__, formatter_class=argparse.RawDescriptionHelpFormatter)
    words.add_argument("module", type=Path)
    words.add_argument("work", type=Path)
    words.add_argument("test", choices=[*TESTS, "all"])
    words.add_argument("--times", type=int, default=1, metavar="N")
    said = words.parse_args()
    done, wrong = 0, 0
    for name in TESTS if said.test == "all" else [said.test]:
        modules, test = TESTS[name]
        for module in modules * said.times:
            done += 1
            with tempfile.TemporaryDirectory() as folder:
                try:
                    test(Room(said.module.resolve() / (module + ".so"), said.work.resolve(), Path(folder)))
                except Wrong as why:
                    wrong += 1
                    print("%s over %s: %s" % (name, module, why))
    print("%d guests run, %d came out wrong" % (done, wrong))
    return 1 if wrong else 0


if __name__ == "__main__":
    sys.exit(main())
