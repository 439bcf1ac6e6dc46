"""The names and addresses of the file identity, for Python."""

import re
from pathlib import Path

FILE = Path(__file__).resolve().parent / "identity"
# The end of a name that leads nowhere, by RFC 2606: an address with it is not set yet.
UNSET = ".invalid"


def value(name: str, file: Path = FILE) -> str:
    """What identity has for a name."""
    found = re.search(rf"(?m)^{name}='([^']*)'$", file.read_text(encoding="utf-8"))
    if not found:
        raise KeyError(f"release/identity has no {name}")
    return found[1]
