#!/usr/bin/env python3
"""Packs the page into one file: its words and colours, its scripts, both modules, the examples and the example pack.

    pack.py OUT      OUT/index.html of OUT/program.wasm, library.wasm, examples.json and example.ckd, and of src/

The scripts are modules that import each other; in the page each is a function of its own that returns what it exports, in an order in
which each comes behind those that it imports. The rest stands there as base64 of a gzip. The page's policy names its script and its
style by their hashes, so no other script can run in it."""

import base64
import gzip
import hashlib
import json
import pathlib
import re
import subprocess
import sys

SOURCE = pathlib.Path(__file__).resolve().parent / "src"
MOST = 2_000_000
TOP = SOURCE.parent.parent
PACKED = ["program.wasm", "library.wasm", "examples.json", "example.ckd"]
IMPORT = re.compile(r"^import \{([^}]*)\} from '\./([\w.]+)';$", re.M)
EXPORT = re.compile(r"^export (?=(?:async )?(?:const|function|class) (\w+))", re.M)
OTHER = re.compile(r"^(?:import|export)\b.*", re.M)


class Bundle:
    """Modules in the order in which they are to stand."""

    def __init__(self, root: str):
        self.texts: dict[str, str] = {}
        self.add(root, [])

    def add(self, name: str, above: list[str]) -> None:
        """Adds a module behind all that it imports."""
        if name in above:
            sys.exit(f"pack.py: these import each other: {' '.join([*above, name])}")
        if name in self.texts:
            return
        text = (SOURCE / name).read_text(encoding="utf-8")
        for found in IMPORT.finditer(text):
            self.add(found[2], [*above, name])
        self.texts[name] = text

    def script(self) -> str:
        """All of them as one script."""
        return "\n".join(["const packedModules = {};", *(wrapped(name, text) for name, text in self.texts.items())])


def wrapped(name: str, text: str) -> str:
    """A module as a function of its own."""
    exported = [found[1] for found in EXPORT.finditer(text)]
    text = IMPORT.sub(lambda it: f"const {{{it[1].replace(' as ', ': ')}}} = packedModules['{it[2]}'];", text)
    text = EXPORT.sub("", text).replace("\nexport {};\n", "\n")
    left = OTHER.search(text)
    if left:
        sys.exit(f"pack.py: {name} has an import or an export that is not known here: {left[0]}")
    return f"packedModules['{name}'] = (() => {{\n{text}return {{ {', '.join(exported)} }};\n}})();"


def held(name: str, data: bytes) -> str:
    """Bytes that stand in the page under a name."""
    return f'<script type="text/plain" id="{name}">{base64.b64encode(gzip.compress(data, 9, mtime=0)).decode()}</script>\n'


def hash_of(text: str) -> str:
    """A text as the page's policy names it."""
    return f"'sha256-{base64.b64encode(hashlib.sha256(text.encode()).digest()).decode()}'"


def origin() -> bytes:
    """What the page says of itself: its version and commit, where it is at home, and the licences of all code in it."""
    asked = ["git", "-C", str(TOP), "describe", "--always", "--dirty", "--abbrev=12", "--exclude=*"]
    said = subprocess.run(asked, capture_output=True, text=True, check=False) if (TOP / ".git").exists() else None
    home = re.search(r"(?m)^HOMEPAGE='([^']*)'$", (TOP / "release" / "identity").read_text(encoding="utf-8"))
    notices = [(TOP / name).read_text(encoding="utf-8") for name in ["LICENSE", "THIRD_PARTY"]]
    told = {
        "version": (TOP / "VERSION").read_text(encoding="utf-8").strip(),
        "commit": f"commit {said.stdout.strip()}" if said and not said.returncode else "",
        "home": home[1] if home else "",
        "notices": f"\n{'=' * 72}\n\n".join(notices),
    }
    return json.dumps(told).encode()


def page(out: pathlib.Path) -> str:
    """The whole page."""
    script, worker, style = Bundle("page.mjs").script(), Bundle("worker.mjs").script(), (SOURCE / "page.css").read_text(encoding="utf-8")
    for text in [script, worker, style]:
        if re.search(r"</(script|style)", text, re.I):
            sys.exit("pack.py: a script or a style has its own end in it")
    parts = [held(name, (out / name).read_bytes()) for name in PACKED]
    parts.append(held("origin.json", origin()))
    parts.append(f'<script type="text/plain" id="worker">{worker}</script>')
    text = (SOURCE / "page.html").read_text(encoding="utf-8")
    for mark, put in {
        "SCRIPT-HASH": hash_of(script),
        "STYLE-HASH": hash_of(style),
        "/*STYLE*/": style,
        "<!--PACKED-->": "".join(parts),
        "/*SCRIPT*/": script,
    }.items():
        if text.count(mark) != 1:
            sys.exit(f"pack.py: page.html has no one {mark}")
        before, behind = text.split(mark)
        text = before + put + behind
    return text


def main() -> int:
    """Writes the page."""
    if len(sys.argv) != 2:
        print(__doc__, file=sys.stderr)
        return 2
    out = pathlib.Path(sys.argv[1])
    made = page(out).encode()
    if len(made) > MOST:
        sys.exit(f"pack.py: {len(made)} bytes, of {MOST} at most")
    (out / "index.html").write_bytes(made)
    print(f"{out / 'index.html'}: {len(made)} bytes")
    return 0


if __name__ == "__main__":
    sys.exit(main())
