#!/usr/bin/env python3
"""An emulator with no device at all, over the plain protocol: each address answers condition code 3. It shows how one joins."""
import sys
from typing import Callable, Dict, List

storage = bytearray()


def begin(words: List[str]) -> str:
    """A new channel, whose number does not matter, and its storage."""
    storage[:] = bytes(int(words[1]))
    return "OK"


def store(words: List[str]) -> str:
    at, data = int(words[0], 16), bytes.fromhex("".join(words[1:]))
    if at + len(data) > len(storage):
        return "STORE OUTSIDE"
    storage[at:at + len(data)] = data
    return "STORE OK"


def show(words: List[str]) -> str:
    at, length = int(words[0], 16), int(words[1])
    if at + length > len(storage):
        return "SHOW OUTSIDE"
    return "SHOW %06X %s" % (at, storage[at:at + length].hex().upper())


ANSWERS: Dict[str, Callable[[List[str]], str]] = {
    "HELLO": lambda words: "HELLO 1 nothing-there lacks steps arrivals pci run",
    "BEGIN": begin,
    "VOLUME": lambda words: "OK",
    "END": lambda words: "OK",
    "SIO": lambda words: "SIO %s CC 3" % words[0],
    "TIO": lambda words: "TIO %s CC 3" % words[0],
    "HIO": lambda words: "HIO %s CC 3" % words[0],
    "TCH": lambda words: "TCH CC 3",
    "STEP": lambda words: "STEP 0",
    "ARRIVE": lambda words: "ARRIVE %s NO" % words[0],
    "INT": lambda words: "INT NONE",
    "RESET": lambda words: "RESET CLEAN",
    "STORE": store,
    "KEY": lambda words: "KEY OK",
    "SHOW": show,
}

for line in sys.stdin:
    name, *operands = line.split()
    print(ANSWERS[name](operands) if name in ANSWERS else "NO such word", flush=True)
