"""A small supervisor for System/370 in machine code: it does a list of operations, one after another, and keeps what came of each.

It is above the storage that decks use, and leaves locations below 4,096 as a deck finds and leaves them, but the new PSW at 78
while it takes an interruption. Each operation is an entry of 160 bytes.
"""
from __future__ import annotations

import struct
from typing import Dict, List, Tuple

SUPERVISOR, ENTRIES, WORDS = 0xE00000, 0xE10000, 0xE80000
ENTRY = 160
END, SIO, TIO, HIO, TCH, STORE, SHOW, KEY, INT, WAIT = range(10)
# how often Test Channel is asked whether a program ended: some seconds
PATIENCE = 20_000_000


class Assembler:
    """Instructions into bytes, with labels that register 12 reaches."""

    def __init__(self, origin: int) -> None:
        self.origin, self.code = origin, bytearray()
        self.labels: Dict[str, int] = {}
        self.fixes: List[Tuple[int, str]] = []

    def label(self, name: str) -> None:
        self.labels[name] = len(self.code)

    def raw(self, digits: str) -> None:
        self.code += bytes.fromhex(digits)

    def to(self, digits: str, label: str, more: str = "") -> None:
        """An instruction with the address of a label after its first half word or later."""
        self.raw(digits)
        self.fixes.append((len(self.code), label))
        self.raw("0000" + more)

    def branch(self, mask: int, label: str) -> None:
        self.to("47%X0" % mask, label)

    def done(self) -> bytes:
        for at, label in self.fixes:
            struct.pack_into(">H", self.code, at, 0xC000 | self.labels[label])
        return bytes(self.code)


def supervisor() -> bytes:
    """Register 12 is the base, 11 the entry, 10 whether a program was started, 3 the unit, 4 the address, 5 length less one."""
    a = Assembler(SUPERVISOR)
    put_loop(a)
    put_instructions(a)
    put_storage(a)
    put_wait(a)
    put_interruption(a)
    put_constants(a)
    return a.done()


def put_loop(a: Assembler) -> None:
    """The entries one after another: each one's number chooses a branch."""
    a.raw("05C0")                                   # BALR 12,0
    a.raw("06C006C0")                               # BCTR 12,0 twice: the base is the first instruction
    a.raw("D70F00000000")                           # XC 0(16),0: what the restart left
    a.to("58B0", "entries")                         # L 11,entries
    a.raw("1BAA")                                   # SR 10,10
    a.label("next")
    a.raw("4810B0001211")                           # LH 1,0(11); LTR 1,1
    a.branch(8, "stop")
    a.raw("4830B0025840B0045850B008")               # LH 3,2(11); L 4,4(11); L 5,8(11)
    a.raw("89100002")                               # SLL 1,2
    a.to("47F1", "jumps")                           # BC 15,jumps(1)
    a.label("jumps")
    for name in ("stop", "sio", "tio", "hio", "tch", "store", "show", "key", "int", "wait"):
        a.branch(15, name)


def put_instructions(a: Assembler) -> None:
    """Start I/O, perhaps with another channel address word, Test I/O, Halt I/O, Test Channel; and what came of them is kept."""
    a.label("sio")
    a.raw("586000481244")                           # L 6,72: the deck's own channel address word; LTR 4,4
    a.branch(8, "start")
    a.raw("50400048")                               # ST 4,72: that of a program with a Seek before it
    a.label("start")
    a.raw("9C003000052050600048")                   # SIO 0(3); BALR 2,0; ST 6,72
    a.raw("1872")                                   # LR 7,2
    a.to("5470", "code")                            # N 7,code
    a.branch(7, "keep")
    a.raw("41A00001")                               # LA 10,1: it was started
    a.branch(15, "keep")
    a.label("tio")
    a.raw("9D0030000520")                           # TIO 0(3); BALR 2,0
    a.branch(15, "keep")
    a.label("hio")
    a.raw("9E0030000520")                           # HIO 0(3); BALR 2,0
    a.branch(15, "keep")
    a.label("tch")
    a.raw("9F0030000520")                           # TCH 0(3); BALR 2,0
    a.label("keep")
    a.raw("5020B00CD207B0100040")                   # ST 2,12(11); MVC 16(8,11),64
    a.label("more")
    a.raw("41B0B0A0")                               # LA 11,160(11)
    a.branch(15, "next")


def put_storage(a: Assembler) -> None:
    """Bytes into storage, bytes out of it, a key."""
    for name, move in (("store", "mvc in"), ("show", "mvc out")):
        a.label(name)
        a.to("4450", move)                          # EX 5,..
        a.branch(15, "more")
    a.label("key")
    a.raw("0854")                                   # SSK 5,4
    a.branch(15, "more")


def put_wait(a: Assembler) -> None:
    """Where a program was started: until an interruption pends in its channel, or patience ends."""
    a.label("wait")
    a.raw("12AA")                                   # LTR 10,10
    a.branch(8, "more")
    a.to("5880", "patience")                        # L 8,patience
    a.label("again")
    a.raw("9F003000")                               # TCH 0(3)
    a.branch(4, "ended")
    a.to("4680", "again")                           # BCT 8,again
    a.raw("5080B00C")                               # ST 8,12(11)
    a.label("ended")
    a.raw("1BAA")                                   # SR 10,10
    a.branch(15, "more")


def put_interruption(a: Assembler) -> None:
    """An interruption is let come, by a new PSW that is at 120 for that moment."""
    a.label("int")
    a.to("D207", "saved", "0078")                   # MVC saved(8),120
    a.to("D2070078", "taken psw")                   # MVC 120(8),taken psw
    a.to("8000", "open")                            # SSM open
    a.raw("07000700")                               # NOPR; NOPR
    a.to("8000", "shut")                            # SSM shut
    a.branch(15, "none")
    a.label("taken")
    a.raw("412000015020B00C")                       # LA 2,1; ST 2,12(11)
    a.raw("D207B0100040D207B0180038")               # MVC 16(8,11),64; MVC 24(8,11),56: the old PSW has the unit
    a.raw("1BAA")                                   # SR 10,10
    a.label("none")
    a.to("D2070078", "saved")                       # MVC 120(8),saved
    a.branch(15, "more")


def put_constants(a: Assembler) -> None:
    """The end, and what the instructions name."""
    a.label("stop")
    a.to("8200", "wait psw")                        # LPSW
    while len(a.code) % 8:
        a.raw("00")
    for name, digits in (("taken psw", "00000000%08X" % (SUPERVISOR + a.labels["taken"])), ("wait psw", "0002000000000ACE"), ("saved", "00" * 8),
                         ("entries", "%08X" % ENTRIES), ("patience", "%08X" % PATIENCE), ("code", "30000000"),
                         ("mvc in", "D2004000B020"), ("mvc out", "D200B0204000"), ("open", "FE"), ("shut", "00")):
        a.label(name)
        a.raw(digits)


def entry(operation: int, unit: int = 0, address: int = 0, length: int = 0, data: bytes = b"") -> bytes:
    """An operation's entry; a length of bytes is kept less one, a storage key as it is."""
    return (struct.pack(">HHII", operation, unit, address, length) + bytes(20) + data).ljust(ENTRY, b"\0")


def read_entry(data: bytes) -> Tuple[int, int, bytes, bytes, bytes]:
    """The condition code, the number that is there, eight bytes of status, eight of an old PSW, and the data of an entry."""
    number = int.from_bytes(data[12:16], "big")
    return data[12] >> 4 & 3, number, data[16:24], data[24:32], data[32:]
