"""Counts the instructions that Hercules executes for the channel programs of crates/bench, by callgrind, and prints a table of them.

    tools/run measure/hercules [--cylinders N] [WORK..]

The volume is a 2314 of 203 cylinders, of which each track has the records that the work reads; the works are those of crates/bench that are
done by channel programs (A B C D S U W), or those of the words. Each is done once in each of three ways: by a Start I/O for each track
(C: for each cylinder); the same where the drive has Hercules' option nosyncio, without which Start I/O first tries each program in the
processor's thread, and leaves it to another where a track must be read; and by one Start I/O, whose program is all of these joined by
command chaining. All programs stand in storage, with their operands, before the processor begins. It is a System/370, whose own program
goes down a list of channel address words: it stores each, starts, waits for the interruption, and compares the channel status word
with the one that must come: its address is behind the last word, nothing but channel end and device end is reported, and no count is
left. Afterwards each track must hold what it should, and storage what was read last. Where anything is otherwise, the status is 1.

Counted is what Hercules' process executes in user mode, in all its threads: what the system executes for it, as it reads and writes the
file and changes threads, is in no count. The first number of a way is what stands within the function that executes a channel program,
s370_execute_ccw_chain, with all that it calls. The second has this in it, and what else stands within the instruction Start I/O, the
device's thread and the interruption (s370_start_io, device_thread, s370_perform_io_interrupt). From both is taken what they are in a
run whose list is empty. Whole processes are not compared: other threads go by the clock, with millions of instructions a run.
Clears are counted as stores of vectors, and not by byte (GLIBC_TUNABLES below).

It needs Debian's packages hercules (3.13) and valgrind. There are four runs for each work, of five to fifteen seconds each."""

import argparse
import os
import pathlib
import re
import subprocess
import sys
import tempfile
from dataclasses import dataclass, field

from conformance.suite.volumes import MODELS, Record, address
from tools.common.images import Image

SEEK, SEARCH_HOME_ADDRESS, SEARCH_ID, TRANSFER = 0x07, 0x39, 0x31, 0x08
READ_R0, READ_DATA, READ_DATA_MULTI_TRACK, READ_COUNT_KEY_AND_DATA = 0x16, 0x06, 0x86, 0x1E
WRITE_DATA, WRITE_COUNT_KEY_AND_DATA = 0x05, 0x1D
DATA_CHAINING, COMMAND_CHAINING = 0x80, 0x40
MODEL = MODELS["2314"]
HEADS, RECORDS, DATA, LONG_DATA = MODEL.heads, 7, 900, MODEL.capacity
WRITTEN = b"\xc2"
# Where things stand in storage: how many programs there are, how many did not end well, data, the list of programs, their words, and
# the operands of each track.
COUNT, LEFT, CSW = 0x180, 0x184, 0x40
BUFFER, LIST, WORDS, OPERANDS, OPERAND_ROOM, SIZE = 0x2000, 0x4000, 0x10000, 0x100000, 64, 0x200000
# The processor's own program, and what it names, by address: all of it is reached without a base register.
PROCESSOR = {
    0x000: "00000000 00000200",  # PSW of a restart
    0x068: "00020000 00000BAD",  # new PSW of a program interruption: a wait for ever
    0x078: "00000000 00000220",  # new PSW of an input/output interruption
    0x184: "FFFFFFFF",
    0x188: "FE020000 00000000",  # PSW of a wait that the channel ends
    0x190: "00020000 00000ACE",  # PSW of the last wait
    0x198: "00004000",  # the address of the list
    0x200: "58A0 0180",  # L     10,COUNT
    0x204: "58B0 0198",  # L     11,the list
    0x208: "12AA",  # LTR   10,10
    0x20A: "4780 0232",  # BZ    the end
    0x20E: "D203 0048 B000",  # MVC   72(4),0(11): the channel address word
    0x214: "9C00 0190",  # SIO   190
    0x218: "4770 0232",  # BNZ   the end
    0x21C: "8200 0188",  # LPSW  wait
    0x220: "D507 0040 B004",  # CLC   64(8),4(11): the channel status word
    0x226: "4770 0232",  # BNE   the end
    0x22A: "41B0 B00C",  # LA    11,12(11)
    0x22E: "46A0 020E",  # BCT   10,the next program
    0x232: "50A0 0184",  # ST    10,LEFT
    0x236: "8200 0190",  # LPSW  the last wait
}
CONFIGURATION = "CPUMODEL 0145\nMAINSIZE 2\nNUMCPU 1\nARCHMODE S/370\nCNSLPORT 0\nOSTAILOR QUIET\n0190 2314 volume {options}\n"
# Once the last wait is told, storage is saved and Hercules ends; the processor may not have stopped the first time.
COMMANDS = "hao tgt HHCCP011I\nhao cmd script end\nloadcore storage\nrestart\n"
END = "pause 1\nsavecore saved 0 3FFF\npause 1\nsavecore saved 0 3FFF\nquit\n"
TUNABLES = "glibc.cpu.x86_rep_stosb_threshold=1000000"
CHANNEL = {"s370_execute_ccw_chain"}
# None of these calls another of them.
START = {"s370_start_io", "device_thread", "s370_perform_io_interrupt"}
PATIENCE = 900
WORKS = "ABCDSUW"
# The ways in which a work is done: the heading of the column, whether all is one program, and options of the drive.
Way = tuple[str, bool, str]
WAYS: list[Way] = [("A Start I/O a track", False, ""), ("The same with `nosyncio`", False, "nosyncio"), ("Chains joined", True, "")]


def place_of(track: int) -> bytes:
    """Cylinder and head of a track."""
    return address(*divmod(track, HEADS))


def count_area(track: int, record: int, length: int) -> bytes:
    """The count area of a record without key."""
    return place_of(track) + bytes([record, 0]) + length.to_bytes(2, "big")


@dataclass
class Program:
    """Channel command words from an address on, each of which is chained to the next."""

    at: int
    operands: int
    words: bytearray = field(default_factory=bytearray)

    def next(self) -> int:
        """The address behind the last word."""
        return self.at + len(self.words)

    def add(self, code: int, at: int, length: int, flags: int = COMMAND_CHAINING) -> None:
        self.words += bytes([code]) + at.to_bytes(3, "big") + bytes([flags, 0]) + length.to_bytes(2, "big")

    def search(self, code: int, length: int) -> None:
        """A search that is done again until it is satisfied; the home address begins its argument."""
        at = self.next()
        self.add(code, self.operands + 2, length)
        self.add(TRANSFER, at, 0, 0)

    def read(self, times: int, code: int, length: int) -> None:
        for _ in range(times):
            self.add(code, BUFFER, length)

    def format(self) -> None:
        """Records behind R0: the count area of each is chained to its data."""
        for number in range(RECORDS):
            self.add(WRITE_COUNT_KEY_AND_DATA, self.operands + 8 + 8 * number, 8, DATA_CHAINING)
            self.add(0, BUFFER, DATA)


def put_work(work: str, program: Program) -> None:
    """What a work does on a track, or on a cylinder."""
    program.add(SEEK, program.operands, 6)
    if work in "ADUW":
        program.search(SEARCH_ID, 5)
    if work == "S":
        program.search(SEARCH_HOME_ADDRESS, 4)
        program.read(1, READ_R0, 16)
    if work in "AS":
        program.read(RECORDS, READ_DATA, DATA)
    elif work == "B":
        program.read(RECORDS, READ_COUNT_KEY_AND_DATA, 8 + DATA)
    elif work == "C":
        program.read(HEADS * RECORDS, READ_DATA_MULTI_TRACK, DATA)
    elif work == "D":
        program.read(1, READ_DATA, LONG_DATA)
    elif work == "U":
        program.add(WRITE_DATA, BUFFER, DATA)
    else:
        program.format()


def data_of(work: str, track: int, number: int, is_done: bool) -> bytes:
    """The data of a record, before the work or where it is done. What is written stands nowhere else."""
    is_written = work == "W" or (work == "U" and is_done and number == 1)
    return (WRITTEN if is_written else bytes([(track + number) % 128])) * (LONG_DATA if work == "D" else DATA)


def records_of(work: str, track: int, is_done: bool) -> list[Record]:
    """The records of a track behind R0, before the work or where it is done."""
    last = 1 if work == "D" else 0 if work == "W" and not is_done else RECORDS
    return [Record(place_of(track) + bytes([it]), b"", data_of(work, track, it, is_done)) for it in range(1, last + 1)]


def buffer_of(work: str, cylinders: int) -> bytes:
    """What is written, or what is read last."""
    if work in "UW":
        return WRITTEN * DATA
    track, number = cylinders * HEADS - 1, 1 if work == "D" else RECORDS
    area = count_area(track, number, DATA) if work == "B" else b""
    return area + data_of(work, track, number, True)


def put_operands(storage: bytearray, work: str, track: int) -> int:
    """Stores what a program names of a track, and answers where: the address of a seek, a record, and count areas of new records."""
    at = OPERANDS + OPERAND_ROOM * track
    spelled = bytes(2) + place_of(track) + bytes([0 if work == "W" else 1, 0])
    spelled += b"".join(count_area(track, number, DATA) for number in range(1, RECORDS + 1))
    storage[at : at + OPERAND_ROOM] = spelled
    return at


def programs_of(storage: bytearray, work: str, cylinders: int, is_joined: bool) -> list[Program]:
    """Stores the words and the operands of a work, and answers its programs."""
    programs: list[Program] = []
    for track in range(0, cylinders * HEADS, HEADS if work == "C" else 1):
        at = programs[-1].next() if programs else WORDS
        programs.append(Program(at, put_operands(storage, work, track)))
        put_work(work, programs[-1])
    if is_joined:
        programs = [Program(WORDS, OPERANDS, bytearray(b"".join(it.words for it in programs)))]
    for program in programs:
        program.words[-4] = 0  # the last word is chained to none
        storage[program.at : program.next()] = program.words
    assert programs[-1].next() <= OPERANDS
    return programs


def storage_of(work: str, cylinders: int, is_joined: bool, passes: int) -> bytearray:
    """Storage as the processor begins: each entry of the list is a channel address word and the status word that must come."""
    storage = bytearray(SIZE)
    for at, digits in PROCESSOR.items():
        spelled = bytes.fromhex(digits)
        storage[at : at + len(spelled)] = spelled
    programs = programs_of(storage, work, cylinders, is_joined)
    listed = b"".join(it.at.to_bytes(4, "big") + it.next().to_bytes(4, "big") + b"\x0c\0\0\0" for it in programs)
    assert LIST + len(listed) <= WORDS
    storage[LIST : LIST + len(listed)] = listed
    storage[COUNT : COUNT + 4] = (len(programs) * passes).to_bytes(4, "big")
    if work in "UW":
        data = buffer_of(work, cylinders)
        storage[BUFFER : BUFFER + len(data)] = data
    return storage


def make_volume(path: pathlib.Path, work: str, cylinders: int) -> None:
    """A volume with the records that a work reads."""
    subprocess.run(["dasdinit", "-r", path, "2314", str(cylinders)], check=True, stdout=subprocess.DEVNULL, stderr=subprocess.DEVNULL)
    image = Image(path)
    for track in range(cylinders * HEADS):
        image.put_records(track, image.records(track)[:1] + records_of(work, track, False))
    image.save()


@dataclass
class Counted:
    """Instructions within the execution of channel programs, and with Start I/O, the device's thread and the interruption."""

    channel: int
    start: int

    def shown(self, none: "Counted") -> str:
        """Both in millions, less those of a run without programs."""
        return f"{(self.channel - none.channel) / 1e6:.2f} M | {(self.start - none.start) / 1e6:.2f} M"


def run_hercules(folder: pathlib.Path) -> None:
    """Runs Hercules in a folder with its files, by callgrind, to its end."""
    words = ["valgrind", "--tool=callgrind", "--callgrind-out-file=counts", "hercules", "-f", "configuration", "-d"]
    environment = dict(os.environ, GLIBC_TUNABLES=TUNABLES, HERCULES_RC="commands")
    try:
        with open(folder / "log", "wb") as log:
            given = subprocess.DEVNULL
            subprocess.run(words, timeout=PATIENCE, check=False, cwd=folder, env=environment, stdin=given, stdout=log, stderr=log)
    except subprocess.TimeoutExpired:
        sys.exit(f"Hercules did not end within {PATIENCE} seconds:\n{(folder / 'log').read_text(errors='replace')}")


def counted_in(folder: pathlib.Path) -> Counted:
    """What callgrind left there; a function that was not called is not listed."""
    annotate = ["callgrind_annotate", "--inclusive=yes", "--threshold=100", "counts"]
    printed = subprocess.run(annotate, cwd=folder, capture_output=True, text=True, check=True).stdout
    listed = re.findall(r"^ *([\d,]+) .*?:(\w+) \[.*libherc.so\]$", printed, re.M)
    numbers = {name: int(digits.replace(",", "")) for digits, name in listed}
    return Counted(*(sum(numbers.get(name, 0) for name in names) for names in (CHANNEL, START)))


def check(folder: pathlib.Path, work: str, cylinders: int, is_done: bool) -> None:
    """Ends the script where a run did not do what it should."""
    if not (folder / "saved").is_file():
        sys.exit(f"{work}: Hercules left no storage:\n{(folder / 'log').read_text(errors='replace')}")
    saved, data = (folder / "saved").read_bytes(), buffer_of(work, cylinders)
    left = int.from_bytes(saved[LEFT : LEFT + 4], "big")
    if left:
        sys.exit(f"{work}: {left} programs are left; the last status word is {saved[CSW : CSW + 8].hex()}")
    if is_done and saved[BUFFER : BUFFER + len(data)] != data:
        sys.exit(f"{work}: storage does not hold what was read last")
    image = Image(folder / "volume")
    for track in range(cylinders * HEADS):
        if image.records(track)[1:] != records_of(work, track, is_done):
            sys.exit(f"{work}: track {track} does not hold what it should")


def count(work: str, cylinders: int, way: Way, passes: int) -> Counted:
    """What Hercules executes for so many passes of a work."""
    _, is_joined, options = way
    with tempfile.TemporaryDirectory() as name:
        folder = pathlib.Path(name)
        make_volume(folder / "volume", work, cylinders)
        (folder / "storage").write_bytes(storage_of(work, cylinders, is_joined, passes))
        for file, text in (("configuration", CONFIGURATION.format(options=options)), ("commands", COMMANDS), ("end", END)):
            (folder / file).write_text(text, encoding="ascii")
        run_hercules(folder)
        check(folder, work, cylinders, passes > 0)
        return counted_in(folder)


def main() -> int:
    parser = argparse.ArgumentParser(description=__doc__, formatter_class=argparse.RawDescriptionHelpFormatter)
    parser.add_argument("--cylinders", type=int, default=203)
    parser.add_argument("works", nargs="*", metavar="WORK")
    asked = parser.parse_args()
    if not set(asked.works) <= set(WORKS) or not 1 <= asked.cylinders <= 203:
        parser.error(f"the works are {' '.join(WORKS)}, and a volume has 1 to 203 cylinders")
    print("| Work | " + " | ".join(f"{heading} | with Start I/O" for heading, _, _ in WAYS) + " |")
    print("|---|" + "---|---|" * len(WAYS))
    for work in asked.works or WORKS:
        none = count(work, asked.cylinders, WAYS[0], 0)
        print(f"| {work} | " + " | ".join(count(work, asked.cylinders, way, 1).shown(none) for way in WAYS) + " |", flush=True)
    return 0


if __name__ == "__main__":
    sys.exit(main())
