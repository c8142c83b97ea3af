"""The page that says from which sources a program was proved, with their sums."""

from __future__ import annotations

import hashlib
import os
import pathlib
import subprocess
from typing import Iterator, Optional, Sequence

#: The parts of a crate that the kit proves and builds.
PARTS = "src", "specs", "proofs"

STRANGE = """\
The program `formula` was named by FORMULA when it was installed: from what it was built, and whether it was proved,
is not known.

commit   not known
kit      not known
"""

HEAD = """\
From what the program `formula` was proved and built. Each sum is SHA-256: of a file its own; of a folder that of the
lines that `sha256sum` prints of its files, sorted by their names as bytes, each name from the top of the checkout:

    find FOLDER -type f | LC_ALL=C sort | xargs sha256sum | sha256sum

`scripts/package --verify` with a package, in a checkout of this commit, proves the sources again with this kit, builds
the program and the package, and compares both byte for byte.
"""


def said(top: pathlib.Path, *words: str) -> str:
    """What a command says in the checkout; nothing where it is not there or fails."""
    try:
        done = subprocess.run(words, cwd=top, stdout=subprocess.PIPE, stderr=subprocess.DEVNULL, text=True, check=False)
    except OSError:
        return ""
    return done.stdout.strip() if done.returncode == 0 else ""


def changes(top: pathlib.Path) -> str:
    """The files of the checkout that are not as its commit has them; what git ignores does not count."""
    return said(top, "git", "status", "--porcelain")


def sum_of(content: bytes) -> str:
    """The sum of a file."""
    return hashlib.sha256(content).hexdigest()


def files_below(folder: pathlib.Path) -> Iterator[pathlib.Path]:
    """The files below a folder."""
    for at, _, names in os.walk(folder):
        yield from (pathlib.Path(at, name) for name in names)


def sum_of_folder(top: pathlib.Path, folder: pathlib.Path) -> str:
    """The sum of a folder, as the head of the page says."""
    names = sorted(os.fsencode(path.relative_to(top).as_posix()) for path in files_below(folder))
    lines = (b"%s  %s\n" % (sum_of((top / os.fsdecode(name)).read_bytes()).encode(), name) for name in names)
    return sum_of(b"".join(lines))


def sums(top: pathlib.Path) -> Iterator[tuple[str, str]]:
    """What the program is made of, each with its sum."""
    for name in ("HANDLES", "crates.txt"):
        yield name, sum_of((top / name).read_bytes())
    for folder in sorted(top.glob("crates/*/*")):
        if folder.name in PARTS and folder.is_dir():
            yield folder.relative_to(top).as_posix(), sum_of_folder(top, folder)


def page(top: pathlib.Path, program: bytes, gate: Optional[Sequence[str]] = None) -> str:
    """The page for a program that was built in this checkout; `gate` has what the gate's run there told at its end."""
    commit = said(top, "git", "rev-parse", "HEAD") or "not known"
    rows = [
        ("commit", commit + (", and changes that are not committed" if changes(top) else "")),
        ("date", said(top, "git", "show", "-s", "--format=%cI", "HEAD") or "not known"),
        ("kit", said(top, "rt", "version") or "not known"),
        ("licence", " ".join((top / "COPYING").read_text(encoding="utf-8").split("\n\n")[0].split())),
        *(("gate", line) for line in gate or ["its numbers were not given when this page was made"]),
        ("program", sum_of(program)),
    ]
    facts = "".join(f"{name:<8} {fact}\n" for name, fact in rows)
    return f"{HEAD}\n{facts}\n" + "".join(f"{value}  {name}\n" for name, value in sums(top))
