"""The steps of the tutorial and the examples, which the studio opens as copies."""

from __future__ import annotations

import os
import pathlib
import sys
from typing import NamedTuple, Optional

#: The folders of the examples, as they are shown.
FOLDERS = {"tutorial": "Tutorial", "scores": "Examples"}
_PLACES = (pathlib.Path(__file__).resolve().parents[3] / "examples",
           pathlib.Path(sys.prefix) / "share" / "formula" / "examples",
           pathlib.Path("/usr/share/formula/examples"), pathlib.Path("/usr/share/doc/formula/examples"))


class Example(NamedTuple):
    """A score with the folder that it is from, and its first comment."""

    folder: str
    name: str
    about: str


def place() -> Optional[pathlib.Path]:
    """The folder with the examples: of the repository, or where a package has put them."""
    return next((place for place in _PLACES if (place / "scores").is_dir()), None)


def listed() -> list[Example]:
    """All of them in their order."""
    home = place()
    found = []
    for folder in FOLDERS if home else ():
        assert home is not None
        for path in sorted((home / folder).glob("*.score")):
            found.append(Example(folder, path.name, _about(path.read_bytes())))
    return found


def _about(data: bytes) -> str:
    first = data.split(b"\n", 1)[0].decode("utf-8", "replace")
    return first.lstrip("# ").strip() if first.startswith("#") else ""


def read(folder: str, name: str) -> Optional[bytes]:
    """The bytes of one of them; None for any other name."""
    home = place()
    if home is None or not any((example.folder, example.name) == (folder, name) for example in listed()):
        return None
    return (home / folder / os.path.basename(name)).read_bytes()
