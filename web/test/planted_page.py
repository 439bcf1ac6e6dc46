#!/usr/bin/env python3
"""Plants faults in the page, each in a copy of it, and looks whether its checks see them: planted_page.py OUT DASD..

Each fault is text that stands once in a file of src/, with what is planted in its place, and the check of page.py that has to see it,
by words of its line. The status is 1 where one was not seen."""

import pathlib
import shutil
import subprocess
import sys
import tempfile
from dataclasses import dataclass

sys.dont_write_bytecode = True
WEB = pathlib.Path(__file__).resolve().parent.parent


@dataclass
class Fault:
    """A planted fault: where, what stands there, what is put there, and which check sees it."""

    name: str
    file: str
    old: str
    new: str
    part: str
    seen_by: str


FAULTS = [
    Fault(
        "heads and cylinders are exchanged in the picture",
        "picture_tracks.mjs",
        "const track = shownIn(volume, column * per, per, head), owner = volume.owner[track];",
        "const turned = (head * cylinders + column) % (heads * cylinders), track = turned, owner = volume.owner[track];",
        "picture",
        "have the colour of their data set",
    ),
    Fault(
        "a finding is not drawn",
        "picture_tracks.mjs",
        "if (it.track < 0 || it.severity === 'note') continue;",
        "if (it.track < 0 || it.severity !== 'warning') continue;",
        "findings",
        "is drawn at cylinder",
    ),
    Fault(
        "the panel is stale after a step back",
        "deck_view.mjs",
        "this.panel.show(state,",
        (
            "const last = Number(find('time').dataset.last ?? 0);\n    find('time').dataset.last = String(moment);\n    if (moment >= last)"
            " this.panel.show(state,"
        ),
        "steps",
        "the panel, storage and trace are what dasd gives",
    ),
    Fault(
        "the trace is a line too far",
        "timeline.mjs",
        "this.numberOf(it) > number)",
        "this.numberOf(it) > number + 1)",
        "steps",
        "the panel, storage and trace are what dasd gives",
    ),
    Fault(
        "a picture's pointer is a head off",
        "picture.mjs",
        "return cylinder < cylinders ? cylinder * heads + head : null;",
        "return cylinder < cylinders ? cylinder * heads + (head + 1) % heads : null;",
        "pointer",
        "a track under the pointer is told in words",
    ),
    Fault(
        "a member's tracks end too early",
        "directory.mjs",
        "if (records.slice(from).some(it => it.dataLength === 0)) break;",
        "break;",
        "members",
        "a member's tracks light up",
    ),
    Fault(
        "what differs is not framed", "picture_tracks.mjs", "pen.strokeStyle = blue;", "continue;", "changes", "by a frame that is drawn"
    ),
    Fault(
        "a large file is read whatever its size",
        "files.mjs",
        "if (bytes > MOST_BYTES)",
        "if (bytes > 4 * MOST_BYTES)",
        "hostile",
        "800,000,000 bytes",
    ),
    Fault("the page has no policy", "page.html", "default-src 'none'; ", "default-src *; ", "network", "no network"),
    Fault("the policy lets the page ask any server", "page.html", "connect-src 'self'", "connect-src *", "fetched", "the page's policy refuses another server"),
    Fault("a redirect is followed", "sources.mjs", "redirect: 'manual'", "redirect: 'follow'", "fetched", "no redirect was followed"),
    Fault("another server is named, and asked", "sources.mjs", " || url.host !== home.host", "", "fetched", "a file of this page's own server"),
    Fault(
        "a fetch goes on that another address has overtaken",
        "places.mjs",
        "this.#going?.abort();",
        "",
        "fetched",
        "closing the message ends it",
    ),
    Fault(
        "a text has the ends of lines of its field",
        "deck_editor.mjs",
        "return this.field.value === this.put.shown ? this.put.text : this.field.value;",
        "return this.field.value;",
        "returns",
        "and has its own address",
    ),
]


def planted(fault: Fault, out: pathlib.Path, room: pathlib.Path) -> pathlib.Path:
    """A page with the fault, beside the examples."""
    web, made = room / "web", room / "out"
    shutil.copytree(WEB / "src", web / "src")
    for name in ["web/pack.py", "VERSION", "LICENSE", "THIRD_PARTY", "release/identity"]:
        (room / name).parent.mkdir(exist_ok=True)
        shutil.copy(WEB.parent / name, room / name)
    shutil.copytree(out, made)
    path = web / "src" / fault.file
    text = path.read_text(encoding="utf-8")
    if text.count(fault.old) != 1:
        sys.exit(f"planted_page.py: {fault.file} has not once: {fault.old}")
    path.write_text(text.replace(fault.old, fault.new), encoding="utf-8")
    subprocess.run([sys.executable, web / "pack.py", made], check=True, stdout=subprocess.DEVNULL)
    return made


def is_seen(fault: Fault, out: pathlib.Path, dasd: list[str]) -> bool:
    """Whether the check that has to see the fault comes out wrong."""
    with tempfile.TemporaryDirectory() as folder:
        made = planted(fault, out, pathlib.Path(folder))
        tried = subprocess.run(
            [sys.executable, WEB / "test" / "page.py", "--only", fault.part, made, *dasd], capture_output=True, text=True, check=False
        )
    wrong = [line for line in tried.stdout.splitlines() if line.startswith("WRONG")]
    seen = any(fault.seen_by in line for line in wrong)
    print(
        f"{'seen ' if seen else 'WRONG'} {fault.name}: {len(wrong)} checks came out wrong"
        + ("" if seen else f"\n{tried.stdout[-1500:]}{tried.stderr[-800:]}"),
        flush=True,
    )
    return seen


def main() -> int:
    """Plants each of them."""
    if len(sys.argv) < 3:
        print(__doc__, file=sys.stderr)
        return 2
    out, dasd = pathlib.Path(sys.argv[1]), sys.argv[2:]
    seen = [is_seen(fault, out, dasd) for fault in FAULTS]
    print(f"{sum(seen)} of {len(seen)} planted faults were seen")
    return 0 if all(seen) else 1


if __name__ == "__main__":
    sys.exit(main())
