"""Reports of a run: a table by rule, what was wrong, and JUnit's XML."""
from __future__ import annotations

import xml.etree.ElementTree as xml
from collections import Counter
from dataclasses import dataclass
from typing import Dict, Iterable, List, Optional, Sequence

from .vectors import Vector

RIGHT, WRONG, LEFT_OUT, DECLINED = "right", "wrong", "left out", "declined"


@dataclass
class Result:
    """What came of a vector: one of the words above, and why."""
    vector: Vector
    verdict: str
    why: Optional[str] = None


def count(results: Iterable[Result], verdict: str) -> int:
    return sum(it.verdict == verdict for it in results)


def row(name: str, results: Sequence[Result]) -> str:
    right, wrong, absent, declined = (count(results, it) for it in (RIGHT, WRONG, LEFT_OUT, DECLINED))
    return "%-24s %7d %7d %7d %9d %9d" % (name, len(results), right, wrong, absent, declined)


def table(results: Sequence[Result], rules: Iterable[str]) -> str:
    """The table by rule, in the order of the file of rules; a vector is in the row of each of its rules. Rules that no vector
    of the run names are left away."""
    lines = ["%-24s %7s %7s %7s %9s %9s" % ("Rule", "vectors", "right", "wrong", "left out", "declined")]
    for name in rules:
        own = [it for it in results if name in it.vector.rules]
        if own:
            lines.append(row(name, own))
    lines.append("")
    lines.append(row("on manuals alone", [it for it in results if not it.vector.profile]))
    lines.append(row("on the profile too", [it for it in results if it.vector.profile]))
    lines.append(row("all", results))
    return "\n".join(lines)


def left_out(results: Iterable[Result]) -> List[str]:
    """Why vectors were left out, with their numbers."""
    reasons = Counter(it.why for it in results if it.verdict == LEFT_OUT)
    return ["%d left out: %s" % (number, why) for why, number in reasons.most_common()]


def junit(results: Sequence[Result], name: str) -> xml.Element:
    """The results as an element `testsuites`, with a suite for each group of vectors."""
    top = xml.Element("testsuites", name=name, tests=str(len(results)), failures=str(count(results, WRONG)))
    groups: Dict[str, List[Result]] = {}
    for it in results:
        groups.setdefault(it.vector.group, []).append(it)
    for group, own in groups.items():
        skipped = count(own, LEFT_OUT) + count(own, DECLINED)
        suite = xml.SubElement(top, "testsuite", name=group, tests=str(len(own)), failures=str(count(own, WRONG)), errors="0", skipped=str(skipped))
        for it in own:
            case = xml.SubElement(suite, "testcase", classname="%s.%s" % (name, group), name=it.vector.name)
            if it.verdict == WRONG:
                xml.SubElement(case, "failure", message=clean(it.why)).text = clean("%s\nrules: %s" % (it.vector.about, ", ".join(it.vector.rules)))
            elif it.verdict != RIGHT:
                xml.SubElement(case, "skipped", message=clean(it.why))
    return top


def clean(text: Optional[str]) -> str:
    """The text without what XML can't hold."""
    return "".join(it if it == "\n" or 32 <= ord(it) < 0xD800 else "?" for it in text or "")
