"""An SPDX document (version 2.3, JSON) of a release: the tarball's files with their sums, and whatever THIRD_PARTY names as compiled into it."""

import hashlib
import json
import re
import time
from pathlib import Path

import identity

# The licences of which THIRD_PARTY has the notices, as SPDX's list calls them: MIT, but for these.
OTHERS = {"ryu": "Apache-2.0 AND MIT", "memchr": "Unlicense", "compiler-rt": "Apache-2.0 WITH LLVM-exception"}
OURS = "MIT"
C_LIBRARY = ("glibc", "NOASSERTION", "LGPL-2.1-or-later")


def entry_of(path: Path, tree: Path, number: int) -> dict[str, object]:
    """A file of the tree."""
    held = path.read_bytes()
    sums = [{"algorithm": name, "checksumValue": hashlib.new(name.lower(), held).hexdigest()} for name in ("SHA1", "SHA256")]
    return {
        "SPDXID": f"SPDXRef-File-{number}",
        "fileName": f"./{path.relative_to(tree)}",
        "checksums": sums,
        "licenseConcluded": "NOASSERTION",
        "licenseInfoInFiles": ["NOASSERTION"],
        "copyrightText": "NOASSERTION",
    }


def package_of(name: str, version: str, licence: str, is_whole: bool) -> dict[str, object]:
    """A package: the release itself, or a crate in it."""
    return {
        "SPDXID": f"SPDXRef-Package-{name.replace('_', '-')}",
        "name": name,
        "versionInfo": version,
        "downloadLocation": "NOASSERTION",
        "filesAnalyzed": is_whole,
        "licenseConcluded": licence,
        "licenseDeclared": licence,
        "copyrightText": "NOASSERTION",
    }


def verification_code(files: list[dict[str, object]]) -> str:
    """SPDX's sum over the files: SHA-1 of their SHA-1 sums in order (7.9 of the specification)."""
    sums = [it["checksums"] for it in files]
    values = sorted(str(each[0]["checksumValue"]) for each in sums if isinstance(each, list))
    return hashlib.sha1("".join(values).encode()).hexdigest()


def parts_of(notices: str) -> list[tuple[str, str, str]]:
    """What THIRD_PARTY names: each with its version and its licence, which are NOASSERTION where they are not known."""
    crates = [(name, "NOASSERTION", OTHERS.get(name, "MIT")) for name in re.findall(r"(?m)^([\w-]+), in the (?:library|program|modules)", notices)]
    own = re.search(r"(?ms)^Rattle's own libraries, .*?\n\n(.*?):\n", notices)
    kit = [(f"rattle-{it}", "NOASSERTION", "NOASSERTION") for it in own[1].split(", ")] if own else []
    followed = [(name, known, OTHERS.get(name, "MIT")) for name, known in re.findall(r"Rust\s+crate `([\w-]+)` ([\d.]+\d)", notices)]
    unicode = [("unicode-data", "NOASSERTION", "Unicode-3.0")] if "\nThe Unicode License\n" in notices else []
    return [*crates, *kit, *followed, *unicode, *([C_LIBRARY] if "\nThe GNU C library" in notices else [])]


def document(tree: Path, version: str, when: int, notices: str) -> str:
    """The document's text. `notices` is that of THIRD_PARTY."""
    files = [entry_of(it, tree, number) for number, it in enumerate(sorted(it for it in tree.rglob("*") if it.is_file()), 1)]
    named, home = parts_of(notices), identity.value("HOMEPAGE")
    licences = sorted({OURS, *(it for _, _, licence in named if licence != "NOASSERTION" for it in licence.split(" AND "))})
    whole = package_of("dasd", version, " AND ".join(licences), is_whole=True)
    whole["packageVerificationCode"] = {"packageVerificationCodeValue": verification_code(files)}
    whole["hasFiles"] = [it["SPDXID"] for it in files]
    parts = [package_of(name, known, licence, is_whole=False) for name, known, licence in named]
    relations: list[tuple[object, str, object]] = [("SPDXRef-DOCUMENT", "DESCRIBES", whole["SPDXID"])]
    relations += [(whole["SPDXID"], "CONTAINS", it["SPDXID"]) for it in [*files, *parts]]
    return json.dumps(
        {
            "spdxVersion": "SPDX-2.3",
            "dataLicense": "CC0-1.0",
            "SPDXID": "SPDXRef-DOCUMENT",
            "name": f"dasd-{version}",
            "documentNamespace": f"{home}/spdx/dasd-{version}-{verification_code(files)}",
            "creationInfo": {
                "created": time.strftime("%Y-%m-%dT%H:%M:%SZ", time.gmtime(when)),
                "creators": [f"Organization: {identity.value('ORGANIZATION')}"],
            },
            "packages": [whole, *parts],
            "files": files,
            "relationships": [
                {"spdxElementId": one, "relationshipType": kind, "relatedSpdxElement": other} for one, kind, other in relations
            ],
        },
        indent=1,
    ) + "\n"
