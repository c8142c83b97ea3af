"""Libraries that a verb needs beside Python's own, and where they are found."""

from __future__ import annotations

import os
import pathlib
import sys
from typing import Sequence

from formula_score.host.packages import DEBIAN, FEATURES, Package, debian_has, has, install_line, is_other_python

_PACKAGE = str(pathlib.Path(__file__).resolve().parents[2])


def of_verb(verb: str) -> list[Package]:
    """The libraries that a verb needs."""
    return [package for feature in FEATURES.values() if verb in feature.verbs
            for package in feature.packages if package.library]


def restart(words: Sequence[str]) -> None:
    """Goes on where this Python has the libraries of the verb. Else Debian's Python does the whole, where it has them.
    `words` are those of the companion."""
    needing = [word.partition("=")[0] for word in words if word[:6] == "--dask"] if words[:1] == ["batch"] else []
    libraries = [package.library for package in of_verb(" ".join([*words[:1], *needing[:1]]))]
    if all(map(has, libraries)) or not is_other_python() or not debian_has(libraries):
        return
    path = os.pathsep.join(filter(None, [_PACKAGE, os.environ.get("PYTHONPATH")]))
    for stream in (sys.stdout, sys.stderr):
        stream.flush()
    os.execve(DEBIAN, [DEBIAN, "-B", "-m", "formula_companion", *words],
              {**os.environ, "PYTHONPATH": path})


def needs(verb: str) -> None:
    """Goes on where all libraries of a verb are there, else names the package."""
    from formula_score.reading.playing import Failed  # not at the head: a restart would load it for nothing
    for package in of_verb(verb):
        if not has(package.library):
            raise Failed(1, f"the library {package.library} is missing: {install_line([package.name])}, or python3 -m pip "
                            f"install {package.pip or package.library}")
