"""What stands below a prefix when the command is installed: each file with its bytes and its mode."""

from __future__ import annotations

import pathlib
import re
from typing import Iterator, NamedTuple, Optional, Sequence

from proved import STRANGE, files_below, page

#: Folders below the prefix that hold nothing else.
OWN = "lib/formula", "share/doc/rosetrowel", "share/formula"
PROGRAM, PAGE, LIBRARY = "lib/formula/formula", "lib/formula/proved.txt", "lib/formula/python"
#: What a user runs: the same files as in a checkout.
COMMANDS = "bin/formula", "bin/formula-score"
#: The packages of Python in the library.
PACKAGES = "formula_score", "formula_companion"
PAGES = "README.md", "CHANGELOG.md", "COPYING"
#: Names of folders that are not installed: `releases` is for the tests alone.
LEFT_OUT = {"__pycache__", ".mypy_cache", "releases"}
#: What a package of Python has for those who build it, and what its build leaves.
FOR_BUILDING = re.compile(r"pyproject\.toml|README\.md|build|dist|.*\.egg-info")


class File(NamedTuple):
    """A file below the prefix."""

    content: bytes
    mode: int


def contents(top: pathlib.Path, program: bytes, gate: Optional[Sequence[str]] = None,
             is_strange: bool = False) -> dict[str, File]:
    """Each file that is installed, by its name below the prefix; a strange program is not one of this checkout."""
    files = {
        PROGRAM: File(program, 0o755),
        PAGE: File((STRANGE if is_strange else page(top, program, gate)).encode(), 0o644),
        **{name: File((top / name).read_bytes(), 0o755) for name in COMMANDS},
    }
    files.update((name, File(path.read_bytes(), 0o644)) for name, path in _pages_and_code(top))
    return dict(sorted(files.items()))


def _pages_and_code(top: pathlib.Path) -> Iterator[tuple[str, pathlib.Path]]:
    for package in PACKAGES:
        home = top / "python" / package
        for name, path in _below(home, f"{LIBRARY}/{package}"):
            if not FOR_BUILDING.fullmatch(path.relative_to(home).parts[0]):
                yield name, path
        yield f"share/doc/rosetrowel/python/{package}/README.md", home / "README.md"
    for name in ("formula.1", "formula-score.1"):
        yield f"share/man/man1/{name}", top / "docs" / name
    for name in ("formula", "formula-score"):
        yield f"share/bash-completion/completions/{name}", top / "editors/bash" / name
    yield from _below(top / "editors/vim", "share/vim/vimfiles")
    yield from _below(top / "editors/vscode", "share/formula/editors/vscode")
    yield "share/doc/rosetrowel/editors/README.md", top / "editors/README.md"
    for name in PAGES:
        yield f"share/doc/rosetrowel/{name}", top / name
    for name, path in _below(top / "docs", "share/doc/rosetrowel/docs"):
        if path.suffix != ".1":
            yield name, path
    for name in ("README.md", "COOKBOOK.md"):
        yield f"share/doc/rosetrowel/python/{name}", top / "python" / name
    yield from _below(top / "examples", "share/doc/rosetrowel/examples")


def _below(folder: pathlib.Path, target: str) -> Iterator[tuple[str, pathlib.Path]]:
    for path in files_below(folder):
        inside = path.relative_to(folder)
        if not LEFT_OUT & {*inside.parts} and path.suffix != ".mid":
            yield f"{target}/{inside.as_posix()}", path
