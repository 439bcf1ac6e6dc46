#!/usr/bin/env python3
"""Writes the whole suite into one archive that runs by itself.

  bundle.py FILE.tar.gz
"""
from __future__ import annotations

import os
import sys
import tarfile
from typing import Optional

from suite.vectors import HERE

NAME = "ckd-conformance"


def keep(member: tarfile.TarInfo) -> Optional[tarfile.TarInfo]:
    """Leaves out what Python leaves after, and who made the files."""
    if "__pycache__" in member.name:
        return None
    member.uid = member.gid = 0
    member.uname = member.gname = ""
    return member


def main() -> int:
    if len(sys.argv) != 2:
        print(__doc__, file=sys.stderr)
        return 2
    license_file = os.path.join(os.path.dirname(HERE), "LICENSE")
    with tarfile.open(sys.argv[1], "w:gz") as archive:
        archive.add(HERE, NAME, filter=keep)
        if os.path.exists(license_file):
            archive.add(license_file, NAME + "/LICENSE", filter=keep)
    return 0


if __name__ == "__main__":
    sys.exit(main())
