"""A guest that issues the instructions which no deck has: SIOF, CLRIO, HDV, CLRCH and STIDC, Start I/O in a prefixed page, and an interruption
by the masks of EC mode; and that asks for the reference and change bits which channel programs leave.

Its code begins at 200, is reached without a base register, and keeps what came of each instruction from E00 on."""
from __future__ import annotations

from typing import List, Tuple

RESULTS, PREFIX, LONG = 0xE00, 0x8000, 80
#: By address: new PSWs, constants, the words of channel programs, and the operands of their commands.
STORAGE = {
    0x000: "0000000000000200",
    0x068: "0002000000000BAD",  # a program interruption: a wait for ever, from which nothing is saved
    0x0A8: "FFFFFFFF",
    0xF00: "00002000" "00002100" "10002200",  # channel address words
    0xF10: "0002000000000ACE",
    0xF18: "00000000" "40000000" "00008000" "00000000" "00000020",  # control register 2 without and with channel 1; the prefix; keys
    0x2000: "0700280040000006" "3100280240000005" "0800200800000000" "0600300040000050" "3100280240000005" "0800202000000000"
            "0500380040000050" "0600480030000004",
    0x2100: "0300000060000001" "0800210000000000",
    0x2200: "0700280040000006" "3100280240000005" "0800220800000000" "0600500000000050",
    0x2800: "00000000000001",
    0x3800: "C1" * LONG,
}


class Code:
    """Instructions from 200 on, and what they are to leave."""

    def __init__(self) -> None:
        self.bytes = bytearray()
        self.page, self.next = 0, RESULTS
        self.wanted: List[Tuple[str, int, str]] = []

    def here(self) -> int:
        """Where the next instruction stands."""
        return 0x200 + len(self.bytes)

    def add(self, digits: str) -> None:
        """Instructions."""
        self.bytes += bytes.fromhex(digits)

    def place(self, what: str, wanted: str) -> int:
        """Where the next result goes, which is to be `wanted`."""
        at = self.next
        self.wanted.append((what, self.page + at, wanted))
        self.next += len(wanted) // 2
        return at

    def code(self, what: str, digits: str, wanted: int) -> None:
        """An instruction whose condition code is kept."""
        self.add(digits + "05108810001C")  # BALR 1,0; SRL 1,28: the length code of BALR, and the condition code
        self.add("4210%04X" % self.place(what, "%02X" % (4 + wanted)))

    def keep(self, what: str, at: int, wanted: str) -> None:
        """Bytes of storage are kept."""
        self.add("D2%02X%04X%04X" % (len(wanted) // 2 - 1, self.place(what, wanted), at))

    def start(self, program: int, instruction: str = "9C00") -> None:
        """Start I/O of 190 by a channel address word of those at F00."""
        self.add("D2030048%04X" % (0xF00 + 4 * program))
        self.code("start of program %d" % program, instruction + "0190", 0)

    def wait(self, instruction: str = "9D00") -> None:
        """Test I/O until the program has ended, and its channel status word is stored."""
        at = self.here()
        self.add(instruction + "0190" + "4720%04X" % at)
        self.code("nothing pends any more", "9D000190", 0)

    def key(self, what: str, block: int, wanted: str) -> None:
        """The storage key of a block, with its reference and change bits."""
        self.add("4120%04X" % (block >> 4) + "89200004" + "0912" + "4210%04X" % self.place(what, wanted))

    def set_key(self, block: int, at: int) -> None:
        """The storage key of a block becomes that of a constant."""
        self.add("4120%04X" % (block >> 4) + "89200004" + "5810%04X" % at + "0812")


def instructions(c: Code) -> None:
    """The instructions of the System/370 alone."""
    c.code("STIDC", "B2030100", 0)
    c.keep("the channel's identification", 0xA8, "00000000")
    c.start(0, "9C01")
    c.wait("9D01")
    c.keep("the status of SIOF's program", 0x44, "0C000000")
    c.start(1)
    c.code("HDV of another drive", "9E010191", 2)
    c.code("TCH: its program goes on", "9F000100", 2)
    c.code("HDV", "9E010190", 2)
    c.code("TCH: an ending pends", "9F000100", 1)
    c.wait()
    c.start(1)
    c.code("CLRCH", "9F010100", 0)
    c.code("TCH: nothing runs", "9F000100", 0)
    c.code("TIO: nothing pends", "9D000190", 0)


def keys(c: Code) -> None:
    """Reference and change bits, in EC mode, where ISK has them."""
    c.add("82000F80")
    STORAGE[0xF80] = "00080000%08X" % c.here()
    blocks = [("words", 0x2000, "04"), ("operands", 0x2800, "04"), ("an area that is read into", 0x3000, "06"), ("one that is written", 0x3800, "04"),
              ("one beside it", 0x4000, "00"), ("one that is skipped", 0x4800, "00"), ("a protected one", 0x5000, "20")]
    for _, block, _ in blocks:
        c.set_key(block, 0xF28 if block == 0x5000 else 0xF24)
    c.start(0)
    c.wait()
    c.start(2)
    c.wait()
    c.keep("protection check", 0x44, "0C100050")
    for what, block, wanted in blocks:
        c.key("the key of " + what, block, wanted)


def masks(c: Code) -> None:
    """An interruption that waits for the mask of its channel in control register 2, in EC mode."""
    c.add("B7220F18")
    c.start(0)
    at = c.here()
    c.add("9F000100" + "4720%04X" % at)
    c.add("82000F88")
    STORAGE[0xF88] = "02080000%08X" % c.here()
    c.keep("no interruption without the mask of channel 1", 0x78, "00080000")
    c.add("B7220F1C")
    STORAGE[0x078] = "00080000%08X" % c.here()
    c.keep("the interruption's old PSW", 0x38, "02080000%08X" % c.here())
    c.keep("its address", 0xBA, "0190")
    c.keep("its status", 0x44, "0C000000")


def prefix(c: Code) -> None:
    """Start I/O where the processor has a prefix: its channel address word and channel status word are in its own page."""
    c.add("D70700400040" + "B2100F20")  # XC 64(8),64; SPX
    c.page = PREFIX
    c.start(0)
    c.wait()
    c.keep("the status in the prefixed page", 0x44, "0C000000")
    c.wanted.append(("the channel status word of absolute storage stays", 0x40, "00" * 8))


def guest() -> Tuple[bytes, List[Tuple[str, int, str]]]:
    """Storage with the guest, and what is to be found afterwards: what it is of, its absolute address, and its bytes."""
    c = Code()
    for part in (instructions, keys, masks, prefix):
        part(c)
    c.add("82000F10")
    core = bytearray(0xA000)
    for at, digits in {**STORAGE, 0x200: c.bytes.hex()}.items():
        core[at:at + len(digits) // 2] = bytes.fromhex(digits)
    core[PREFIX:PREFIX + 0x1000] = core[:0x1000]
    return bytes(core), c.wanted
