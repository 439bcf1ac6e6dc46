"""The tree of a release, which is what git has of the commit, with PROVED.txt; and the tarball of it."""

import lzma
import os
import shutil
import subprocess
import tempfile
from pathlib import Path

TOP = Path(__file__).resolve().parent.parent


def version() -> str:
    """The version, as the file VERSION has it."""
    return (TOP / "VERSION").read_text(encoding="utf-8").strip()


def git(*words: str, index: Path | None = None) -> bytes:
    """What git prints of the repository, by another index if one is named."""
    how = os.environ | ({"GIT_INDEX_FILE": str(index)} if index else {})
    return subprocess.run(["git", "-C", str(TOP), *words], check=True, stdout=subprocess.PIPE, env=how).stdout


def commit_time() -> int:
    """When the last commit was made, in seconds: the time of every file in a tarball."""
    return int(git("log", "-1", "--format=%ct"))


def tree_of_crates() -> str:
    """The id that git gives to crates/ as it is here, once that is committed."""
    with tempfile.TemporaryDirectory() as folder:
        index = Path(folder, "index")
        shutil.copyfile(TOP / git("rev-parse", "--git-path", "index").decode().strip(), index)
        git("add", "--all", "--", "crates", index=index)
        return git("write-tree", "--prefix=crates/", index=index).decode().strip()


def lay_out(tree: Path) -> None:
    """Makes the tree anew, of the files that git knows here and of new ones that it does not ignore, as they are now."""
    shutil.rmtree(tree, ignore_errors=True)
    listed = git("ls-files", "-z", "--cached", "--others", "--exclude-standard", "--deduplicate").decode()
    for name in (it for it in listed.split("\0") if it and (TOP / it).is_file()):
        (tree / name).parent.mkdir(parents=True, exist_ok=True)
        shutil.copy(TOP / name, tree / name)


def pack(made: Path, name: str, *added: Path) -> None:
    """Packs the commit, in a folder of this name, with files added to it. The same commit and files give the same bytes."""
    words = [f"--add-file={it}" for it in added]
    packed = git("archive", "--format=tar", f"--prefix={name}/", *words, "HEAD")
    made.write_bytes(lzma.compress(packed, preset=9))


def unpack(packed: Path, folder: Path) -> None:
    """Unpacks a tarball."""
    subprocess.run(["tar", "-C", str(folder), "-xf", str(packed)], check=True)
