"""What a package of Debian has beside the files that are installed: its control files, and the terms of what is in it."""

from __future__ import annotations

import gzip
import os
import pathlib
import re
import shutil
from typing import NamedTuple

from contents import LIBRARY, PACKAGES, PROGRAM, File

from formula_score.host.packages import suggested

NAME = "rosetrowel"
#: Where Debian has modules of Python; the own place of each package becomes a link to it.
MODULES = "lib/python3/dist-packages"

CONTROL = """\
Package: {name}
Version: {version}
Architecture: amd64
Maintainer: {maintainer}
Installed-Size: {size}
Depends: libc6 (>= {libc}), python3:any
Suggests: {suggested}
Section: sound
Priority: optional
Description: music performance compiler whose files are proved
 The command formula reads a score text and writes a Standard MIDI File 1.0.
 At exit status 0 every byte that it hands to the file is proved to be the
 one that the score means, however many threads play.
 .
 The companion formula-score, outside the proof, keeps the old file where a
 run fails, counts bars, and shows, draws, exports and imports. The Python
 library formula_score is for programs that write scores.
"""

POSTINST = """\
#!/bin/sh
set -e
if [ "$1" = configure ] && command -v py3compile >/dev/null 2>&1; then
    py3compile -p rosetrowel
fi
exit 0
"""
PRERM = """\
#!/bin/sh
set -e
if command -v py3clean >/dev/null 2>&1; then
    py3clean -p rosetrowel
fi
exit 0
"""

OVERRIDES = """\
# The program is packaged byte for byte as it was proved and built, so that its sum can be compared.
rosetrowel: unstripped-binary-or-object [usr/lib/formula/formula]
"""

CHANGELOG = """\
rosetrowel ({version}) unstable; urgency=medium

  * Made of the commit {commit}.
    CHANGELOG.md tells what has changed.

 -- {maintainer}  {date}
"""

COPYRIGHT = """\
Rosetrowel: the command formula, its companion formula-score, the library formula_score, and their pages.

{own}

The program /usr/lib/formula/formula holds code of crates of its toolchain, which come under terms of their own, as
their folders in the toolchain tell it. On Debian the Apache License, version 2.0, is in
/usr/share/common-licenses/Apache-2.0.
"""


class Terms(NamedTuple):
    """Who made a crate that is linked, and under which terms."""

    crate: str
    text: str


def terms(manual: str) -> list[Terms]:
    """The rows on the linked crates in the man page of the command, which `scripts/claims` compares with crates.txt."""
    rows = re.search(r"^\.nf\n(arrayvec .*?)^\.fi$", manual, re.M | re.S)
    if rows is None:
        raise ValueError("the man page has no list of linked crates")
    found: dict[str, str] = {}
    for line in re.sub(r"\n {2,}", " ", rows.group(1)).splitlines():
        crate, text = line.split(None, 1)
        found[crate] = found.get(text.removeprefix("as "), text)
    return [Terms(crate, text) for crate, text in found.items()]


def _licence_of(crate: str) -> str:
    """The text of a crate's terms in the kit, without those that Debian has itself."""
    kit = os.path.dirname(os.path.dirname(os.path.realpath(shutil.which("rt") or "/")))
    folder = pathlib.Path(kit, "rattle", crate)
    texts = [path.read_text(encoding="utf-8") for path in sorted(folder.glob("LICENSE*")) if path.name != "LICENSE-APACHE"]
    return "\n".join(texts)


def copyright_of(top: pathlib.Path) -> bytes:
    """The file copyright: what is said of this repository, and the terms of the crates that are linked."""
    parts = [COPYRIGHT.format(own=(top / "COPYING").read_text(encoding="utf-8").strip())]
    for row in terms((top / "docs" / "formula.1").read_text(encoding="utf-8")):
        parts.append(f"---- {row.crate}: {row.text}\n")
        text = _licence_of(row.crate)
        if text:
            parts.append(text.strip() + "\n")
    return "\n".join(parts).encode()


def least_libc(program: bytes) -> str:
    """The version of the C library whose symbols the program asks for."""
    versions = [tuple(map(int, found.split(b"."))) for found in re.findall(rb"GLIBC_([0-9]+\.[0-9]+)\0", program)]
    return ".".join(map(str, max(versions, default=(2, 36))))


class Facts(NamedTuple):
    """What a package says of itself: version, commit, the commit's time as in mails, and whoever made it."""

    version: str
    commit: str
    date: str
    maintainer: str


def _zipped(content: bytes) -> bytes:
    return gzip.compress(content, 9, mtime=0)


def files_of(top: pathlib.Path, files: dict[str, File], facts: Facts) -> dict[str, File]:
    """What the package puts below /usr."""
    placed: dict[str, File] = {}
    for name, file in files.items():
        content = file.content
        if name.startswith(f"{LIBRARY}/"):
            name = f"{MODULES}/{name[len(LIBRARY) + 1:]}"
        elif name.startswith("share/man/"):
            name, content = f"{name}.gz", _zipped(content)
        elif name == "bin/formula-score":
            content = content.replace(b"exec python3 ", b"exec /usr/bin/python3 ", 1)
        placed[name] = File(content, file.mode)
    folder = f"share/doc/{NAME}"
    placed[f"{folder}/copyright"] = File(copyright_of(top), 0o644)
    placed[f"{folder}/changelog.gz"] = File(_zipped(CHANGELOG.format(**facts._asdict()).encode()), 0o644)
    placed[f"share/lintian/overrides/{NAME}"] = File(OVERRIDES.encode(), 0o644)
    return placed


def links_of() -> dict[str, str]:
    """The links below /usr, and where they lead."""
    return {f"{LIBRARY}/{package}": os.path.relpath(f"{MODULES}/{package}", LIBRARY) for package in PACKAGES}


def control_of(files: dict[str, File], facts: Facts) -> str:
    """The file control."""
    size = sum(-(-len(file.content) // 1024) for file in files.values())
    return CONTROL.format(name=NAME, version=facts.version, maintainer=facts.maintainer, size=size,
                          libc=least_libc(files[PROGRAM].content), suggested=", ".join(suggested()))
