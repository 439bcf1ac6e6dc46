"""What earlier runs on this machine have made, or have seen pass, for later ones in any checkout: as `rt ci` keeps its proofs.

An entry is named by the sum of all that it was made from, so it is never stale; it is written apart and then renamed, so that nobody meets
half of it. It is in $DASD_KEPT, else in the user's folder for what can be made again. An entry is removed where its kind has too many
that were used since. With $ANEW set to anything nothing is taken of what was kept."""

import functools
import hashlib
import os
import shutil
import tempfile
from collections.abc import Iterable
from pathlib import Path

from tools.common.kit import kit

# How many entries of a kind stay.
MOST = 24


def folder() -> Path:
    """Where things are kept."""
    given = os.environ.get("DASD_KEPT")
    caches = Path(os.environ.get("XDG_CACHE_HOME") or Path.home() / ".cache")
    return Path(given) if given else caches / "dasd"


def sum_of(parts: Iterable[bytes | str | Path]) -> str:
    """A sum of texts, of bytes, and of files' bytes, each apart from the next."""
    total = hashlib.sha256()
    for part in parts:
        if isinstance(part, Path):
            with part.open("rb") as file:
                total.update(hashlib.file_digest(file, "sha256").digest())
        else:
            total.update(hashlib.sha256(part.encode() if isinstance(part, str) else part).digest())
    return total.hexdigest()


@functools.cache
def kit_name() -> str:
    """What tells this kit from another."""
    return (kit() / "KIT-ID").read_text(encoding="utf-8")


def is_anew() -> bool:
    """Whether all is to be made again."""
    return bool(os.environ.get("ANEW"))


def find(kind: str, name: str) -> Path | None:
    """The entry of this name, if there is one and it may be taken."""
    entry = folder() / kind / name
    if is_anew() or not entry.is_dir():
        return None
    os.utime(entry)
    return entry


def keep(kind: str, name: str, files: dict[str, Path | bytes]) -> Path:
    """Keeps these files, or bytes, as the entry of this name."""
    of_kind = folder() / kind
    of_kind.mkdir(parents=True, exist_ok=True)
    made = Path(tempfile.mkdtemp(prefix="new-", dir=of_kind))
    for it, content in files.items():
        if isinstance(content, Path):
            shutil.copyfile(content, made / it)
        else:
            (made / it).write_bytes(content)
    if is_anew():
        shutil.rmtree(of_kind / name, ignore_errors=True)
    try:
        made.rename(of_kind / name)
    except OSError:  # another run has kept the same
        shutil.rmtree(made)
    shrink(of_kind)
    return of_kind / name


def shrink(of_kind: Path) -> None:
    """Removes the entries of a kind that were not used for longest, down to the most that stay."""
    entries = sorted((it for it in of_kind.iterdir() if not it.name.startswith("new-")), key=lambda it: it.stat().st_mtime)
    for it in entries[:-MOST]:
        shutil.rmtree(it, ignore_errors=True)
