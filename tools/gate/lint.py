"""Looks at the Python, the shell, the C and the C++ of this repository with Debian's tools: mypy, pylint, shellcheck, clang-format, clang-tidy.

    tools/run gate/lint [TOOL..]

Settings are those of pyproject.toml, .clang-format and .clang-tidy. Python is looked at a tree at a time, since each has folders of its own
from which its modules import. Beside the tools it looks whether a function has more than 40 lines, or more than five parameters, `self`
apart. With words only these tools are run. A tool that is not there is skipped, by its name. The last line is 'N tools looked at F files,
M found something', and the status 1 where M is not 0."""

import argparse
import ast
import os
import shutil
import subprocess
import sys
import tempfile
from collections.abc import Callable
from concurrent.futures import ThreadPoolExecutor
from dataclasses import dataclass, field
from functools import partial
from pathlib import Path

from tools import TOP

MOST_LINES, MOST_PARAMETERS = 40, 5
C_WORDS = [f"-I{it}" for it in ("c", "c/tests", "web")]
# Of the modules of Hercules, where `adapters/hercules/fetch` has left its headers.
HERCULES = Path("adapters/hercules/out/hercules-3.13")
HERCULES_WORDS = ["-DHAVE_CONFIG_H", "-DEXTERNALGUI", *(f"-isystem{HERCULES / it}" for it in (".", "decNumber", "softfloat"))]
STANDARDS = {".c": "-std=gnu11", ".cpp": "-std=gnu++17"}
AT_ONCE = 2


@dataclass
class Tree:
    """A tree of Python: how the paths of its files begin, and the folders from which its modules import."""

    begins: tuple[str, ...]
    imports: tuple[str, ...]
    leaves: tuple[str, ...] = ()  # what pylint would say beside the settings' own, and is not held to yet
    files: list[str] = field(default_factory=list)


# The suite's own programs are to be held to these too.
LEFT_OPEN = (
    *("missing-class-docstring", "missing-function-docstring", "too-many-arguments", "inconsistent-return-statements", "unused-argument"),
    *("subprocess-run-check", "import-outside-toplevel", "cyclic-import", "redefined-outer-name", "cell-var-from-loop", "no-member"),
    *("unpacking-non-sequence", "consider-using-enumerate", "unused-import", "global-statement"),
)
# A file is of the first tree whose begins it has.
TREES = [
    Tree(("tools/", "sample/"), (".",)),
    Tree(("conformance/",), ("conformance",), LEFT_OPEN),
    Tree(("rows/",), ("rows", ".")),
    Tree(("catalogue/",), ("catalogue", "catalogue/tests", "."), ("wrong-import-order", "redefined-outer-name", "invalid-name", "protected-access")),
    Tree(("release/",), ("release", "release/tests", ".")),
    Tree(("fuzz/",), ("fuzz", "catalogue"), ("wrong-import-order",)),
    Tree(("python/",), ("python",)),
    Tree(("site/",), ("site",)),
    Tree(("adapters/",), ("adapters/hercules/tests",)),
    Tree(("web/examples.py",), ("web", "conformance")),
    Tree(("web/",), ("web", "web/test", ".")),
]


def first_line(path: str) -> str:
    """The first line of a file."""
    with (TOP / path).open("rb") as file:
        return file.readline().decode("utf-8", "replace")


class Files:
    """The files that git knows, by what they are."""

    def __init__(self) -> None:
        listed = subprocess.run(["git", "ls-files", "-z"], cwd=TOP, check=True, capture_output=True, text=True).stdout
        self.all = [it for it in listed.split("\0") if (TOP / it).is_file() and not (TOP / it).is_symlink()]
        scripts = {it: first_line(it) for it in self.all if "." not in Path(it).name or Path(it).suffix == ".sh"}
        starting = {it: line for it, line in scripts.items() if line.startswith("#!")}
        self.shell = [it for it in scripts if it.endswith(".sh") or starting.get(it, "").rstrip().endswith("sh")]
        self.c = [it for it in self.all if it.endswith((".c", ".h", ".cpp", ".hpp"))]
        self.python = [it for it in self.all if it.endswith(".py")] + [it for it in starting if "python" in starting[it]]
        self.trees = TREES
        for it in self.python:
            of = next((tree for tree in self.trees if it.startswith(tree.begins)), None)
            if of is not None:
                of.files.append(it)


def ran(command: list[str], **environment: str) -> str:
    """What a command says that ends with a fault, or nothing."""
    how = os.environ | {"PYTHONDONTWRITEBYTECODE": "1"} | environment
    done = subprocess.run(command, cwd=TOP, env=how, stdin=subprocess.DEVNULL, capture_output=True, text=True, check=False)
    return (done.stdout + done.stderr).strip() or f"status {done.returncode}: {' '.join(command)}" if done.returncode else ""


def all_of(commands: list[Callable[[], str]]) -> list[str]:
    """What several commands say, a few of them at once."""
    with ThreadPoolExecutor(AT_ONCE) as pool:
        running = [pool.submit(command) for command in commands]
        return [said for it in running if (said := it.result())]


def by_mypy(files: Files) -> list[str]:
    """Types, a tree at a time, over one store of what was read before."""
    with tempfile.TemporaryDirectory() as kept:
        words = ["mypy", "--scripts-are-modules", "--no-error-summary", "--cache-dir", kept]
        return [said for it in files.trees if (said := ran([*words, *it.files], MYPYPATH=":".join(it.imports)))]


def by_pylint(files: Files) -> list[str]:
    """What good Python is, and functions that do too much."""
    paths = [":".join(str(TOP / name) for name in it.imports) for it in files.trees]
    words = ["pylint", "--score=n", "--output-format=text"]
    given = [[*words, *(f"--disable={name}" for name in it.leaves), *it.files] for it in files.trees]
    return all_of([partial(ran, command, PYTHONPATH=path) for command, path in zip(given, paths)])


def by_shellcheck(files: Files) -> list[str]:
    """Shell scripts."""
    return all_of([partial(ran, ["shellcheck", "--external-sources", *files.shell])])


def by_clang_format(files: Files) -> list[str]:
    """How C and C++ are laid out."""
    return all_of([partial(ran, ["clang-format", "--dry-run", "-Werror", *files.c])])


def by_clang_tidy(files: Files) -> list[str]:
    """C and C++, file by file, and a header of C++ with the file that includes it."""
    looked = [(it, STANDARDS[Path(it).suffix]) for it in files.c if Path(it).suffix in STANDARDS]
    words = ["clang-tidy", "--quiet", r"--header-filter=\.hpp$"]
    given = C_WORDS
    if (TOP / HERCULES / "hercules.h").exists():
        given = [*C_WORDS, *HERCULES_WORDS]
    else:
        print("skipped: clang-tidy over adapters/hercules (no headers of Hercules here)")
        looked = [(it, standard) for it, standard in looked if not it.startswith("adapters/hercules/")]
    return all_of([partial(ran, [*words, it, "--", standard, *given]) for it, standard in looked])


def by_size(files: Files) -> list[str]:
    """Functions that are too long, but for tables of rows, or that take too much."""
    found = []
    for path in files.python:
        for it in ast.walk(ast.parse((TOP / path).read_text(encoding="utf-8"))):
            if isinstance(it, (ast.FunctionDef, ast.AsyncFunctionDef)):
                length = (it.end_lineno or it.lineno) - it.lineno + 1
                names = [*it.args.posonlyargs, *it.args.args, *it.args.kwonlyargs]
                count = len(names) - (names[:1] != [] and names[0].arg in ("self", "cls"))
                if length > MOST_LINES and not it.name.endswith("_rows"):
                    found.append(f"{path}:{it.lineno}: {it.name} has {length} lines, more than {MOST_LINES}")
                if count > MOST_PARAMETERS:
                    found.append(f"{path}:{it.lineno}: {it.name} has {count} parameters, more than {MOST_PARAMETERS}")
    return found


LOOKS = {
    "sizes": by_size,
    "shellcheck": by_shellcheck,
    "clang-format": by_clang_format,
    "clang-tidy": by_clang_tidy,
    "pylint": by_pylint,
    "mypy": by_mypy,
}


def main() -> int:
    """Runs the tools that are asked for."""
    words = argparse.ArgumentParser(description=__doc__, formatter_class=argparse.RawDescriptionHelpFormatter)
    words.add_argument("tools", nargs="*", metavar="TOOL", choices=[[], *LOOKS], help=", ".join(LOOKS))
    asked = words.parse_args().tools or list(LOOKS)
    files, looked, wrong = Files(), 0, 0
    for name in asked:
        if name != "sizes" and shutil.which(name) is None:
            print(f"skipped: no {name} here")
            continue
        looked += 1
        found = LOOKS[name](files)
        wrong += bool(found)
        print(*found, f"{name}: {'something is wrong' if found else 'nothing is wrong'}", sep="\n", flush=True)
    count = len(files.python) + len(files.shell) + len(files.c)
    print(f"{looked} tools looked at {count} files, {wrong} found something")
    return 1 if wrong else 0


if __name__ == "__main__":
    sys.exit(main())
