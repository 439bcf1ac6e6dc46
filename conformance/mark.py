#!/usr/bin/env python3
"""Writes the lines `manual`, `profile` and `needs` of vectors again, from their lines `rule` and from what the suite's model does.

  mark.py [--check] FILE.vectors ..

`needs pci` is a vector's author's to say, and stays. With --check nothing is written; status 1 where a line would be another."""
from __future__ import annotations

import argparse
import sys
from typing import List, Mapping

from suite.marks import Rule, manual_of, needs_of, profile_of, read_rules
from suite.vectors import read_vectors

MARKS = ("manual", "profile", "needs")


def marked(path: str, rules: Mapping[str, Rule]) -> str:
    """The text of a file with the marks as they must be."""
    vectors = {}
    for vector in read_vectors(path):
        vector.needs = needs_of(vector)
        lines = [("manual", it) for it in manual_of(vector, rules)] + [("profile", it) for it in profile_of(vector)]
        vectors[vector.name] = ["  %s  %s" % it for it in lines] + ["  needs %s" % it for it in vector.needs]
    out: List[str] = []
    waiting: List[str] = []
    with open(path, encoding="ascii") as text:
        for line in text.read().split("\n"):
            word = line[2:].split(" ")[0] if line.startswith("  ") else ""
            if line.startswith("vector "):
                waiting = vectors[line[7:]]
            if word in MARKS:
                continue
            if waiting and word and word not in ("about", "rule"):
                out += waiting
                waiting = []
            out.append(line)
    return "\n".join(out)


def main() -> int:
    words = argparse.ArgumentParser(description=__doc__, formatter_class=argparse.RawDescriptionHelpFormatter)
    words.add_argument("--check", action="store_true")
    words.add_argument("files", nargs="+")
    said = words.parse_args()
    rules, status = read_rules(), 0
    for path in said.files:
        text = marked(path, rules)
        with open(path, encoding="ascii") as old:
            same = old.read() == text
        if not same and said.check:
            print("%s: its marks are others" % path)
            status = 1
        elif not same:
            with open(path, "w", encoding="ascii") as new:
                new.write(text)
    return status


if __name__ == "__main__":
    sys.exit(main())
