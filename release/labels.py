"""Names in LLVM's assembly as an old assembler and git want them. What is linked of a text stays the same, byte for byte.

A local label has the number of its function in the file, so that a function that is put in changes the labels of all below it. Here it has
a sum of the function's name instead. And names in quotes, which GNU as reads since 2.37 alone, become plain ones with a sum at the end."""

import hashlib
import re
from collections import Counter
from collections.abc import Iterable

FUNCTION = re.compile(r"(?m)^\t\.type\t(.+),[@%]function$|^\.Lfunc_end(\d+):")
LOCAL = re.compile(r"\.L(BB|JTI|CPI|func_end|tmp_)(\d+)(?=_|\b)")
QUOTED = re.compile(r'"([^"\n]*)"')
# Directives whose quoted words are no names.
TEXTS = re.compile(r"\t\.(?:ascii|asciz|string|file|ident|section)\b")
# The digits of a sum; names whose sums begin alike get the next length.
LENGTHS = (7, 12, 20)


class SameSum(Exception):
    """Two names whose sums are the same."""


def short_sums(names: Iterable[str]) -> dict[str, str]:
    """A sum for each name, as short as tells it from all others."""
    left = {it: hashlib.sha256(it.encode()).hexdigest() for it in names}
    found: dict[str, str] = {}
    for length in LENGTHS:
        heads = Counter(value[:length] for value in left.values())
        found |= {it: value[:length] for it, value in left.items() if heads[value[:length]] == 1}
        left = {it: value for it, value in left.items() if it not in found}
    if left:
        raise SameSum(f"these names have the same sum: {', '.join(left)}")
    return found


def own_labels(text: str) -> str:
    """Local labels by their function's name: a label's number is that of the `.Lfunc_end` at the function's end."""
    owners, last = {}, ""
    for found in FUNCTION.finditer(text):
        if found[2]:
            owners[found[2]] = last
        else:
            last = found[1]
    sums = short_sums(owners.values())
    own = {number: sums[name] for number, name in owners.items()}
    return LOCAL.sub(lambda it: f".L{it[1]}{own.get(it[2], it[2])}", text)


def plain_names(text: str) -> str:
    """Names in quotes as letters, digits, `_` and `.`, with a sum of the name behind them."""
    lines = text.splitlines(keepends=True)
    quoting = [number for number, line in enumerate(lines) if '"' in line and not TEXTS.match(line)]
    sums = short_sums({name for number in quoting for name in QUOTED.findall(lines[number])})
    plain = {name: re.sub(r"[^A-Za-z0-9_.]+", "_", name) + "." + value for name, value in sums.items()}
    for number in quoting:
        lines[number] = QUOTED.sub(lambda it: plain[it[1]], lines[number])
    return "".join(lines)


def settled(text: str) -> str:
    """The text with both."""
    return plain_names(own_labels(text))
