"""Debian's packages by what they are for: the list for `formula-score needs`, for what the package suggests, and for the gate.

A library of Python is there where the Python at hand has it, or Debian's own.
"""

from __future__ import annotations

import importlib.util
import os
import shutil
import subprocess
import sys
from typing import Iterable, NamedTuple, Sequence

#: Debian's Python, and where packages have libraries for it. Another Python may come first in PATH.
DEBIAN, DEBIANS = "/usr/bin/python3", "/usr/lib/python3/dist-packages"


class Package(NamedTuple):
    """A package of Debian, and the one thing by which it is seen: a `command`, a `library` of Python, or a `file`.

    `pip` is what Python's own installer calls a library.
    """

    name: str
    command: str = ""
    library: str = ""
    file: str = ""
    pip: str = ""


class Feature(NamedTuple):
    """What needs packages: what it is, the packages, the verbs that end without their libraries of Python, the feature in
    whose place it is, and whether it is for users, and not for tests alone."""

    about: str
    packages: tuple[Package, ...]
    verbs: tuple[str, ...] = ()
    instead: str = ""
    is_for_users: bool = True


FEATURES: dict[str, Feature] = {
    "sound": Feature("`listen`, and the sound of the studio", (
        Package("fluidsynth", command="fluidsynth"),
        Package("fluid-soundfont-gm", file="/usr/share/sounds/sf2/FluidR3_GM.sf2"))),
    "timidity": Feature("`listen`, in place of fluidsynth", (
        Package("timidity", command="timidity"), Package("freepats", file="/etc/timidity/freepats.cfg")), instead="sound"),
    "studio": Feature("`studio`, the page in the browser", (
        Package("python3-aiohttp", library="aiohttp"),
        Package("libjs-codemirror", file="/usr/share/javascript/codemirror/lib/codemirror.js")), verbs=("studio",)),
    "pieces": Feature("Python files as scores: what one runs can write nothing", (
        Package("bubblewrap", command="bwrap"),)),
    "lsp": Feature("`lsp`, for editors", (
        Package("python3-pylsp-jsonrpc", library="pylsp_jsonrpc", pip="python-lsp-jsonrpc"),), verbs=("lsp",)),
    "notation": Feature("`print`, and `import --by musescore`", (Package("musescore3", command="musescore3"),)),
    "abc": Feature("`import` of ABC, and `print` in place of MuseScore", (
        Package("abcmidi", command="abc2midi"), Package("abcm2ps", command="abcm2ps"),
        Package("ghostscript", command="ps2pdf"))),
    "dask": Feature("`batch --dask`, scores that other machines play too", (
        Package("python3-distributed", library="distributed"),), verbs=("batch --dask",)),
    "vim": Feature("colours, and the place of a refusal, in an editor", (Package("vim", command="vim"),)),
    "tests": Feature("what the tests of a checkout try besides", (
        Package("mypy", command="mypy"), Package("shellcheck", command="shellcheck"),
        Package("python3-numpy", library="numpy"), Package("python3-setuptools", library="setuptools"),
        Package("python3-wheel", library="wheel"), Package("neovim", command="nvim"),
        Package("python3-mpi4py", library="mpi4py")), is_for_users=False),
    "browser": Feature("the tests of the studio in a real browser", (
        Package("chromium", command="chromium"), Package("chromium-driver", command="chromedriver"),
        Package("python3-selenium", library="selenium"), Package("node-typescript", command="tsc")), is_for_users=False),
}


def names(*features: str) -> tuple[str, ...]:
    """The packages of some features."""
    return tuple(package.name for feature in features for package in FEATURES[feature].packages)


def suggested() -> tuple[str, ...]:
    """The packages of all that is for users."""
    return names(*(name for name, feature in FEATURES.items() if feature.is_for_users))


def install_line(packages: Iterable[str]) -> str:
    """What to write in a shell, as root, so that they are there."""
    return f"apt-get install {' '.join(packages)}"


def has(library: str) -> bool:
    """Whether this Python has a library."""
    return importlib.util.find_spec(library) is not None


def debian_has(libraries: Sequence[str]) -> bool:
    """Whether Debian's Python has all these libraries, from packages or, as it says itself, from elsewhere."""
    if os.path.exists(DEBIAN) and all(os.path.isdir(os.path.join(DEBIANS, library)) for library in libraries):
        return True
    find = "import importlib.util, sys; sys.exit(not all(map(importlib.util.find_spec, sys.argv[1:])))"
    return os.path.exists(DEBIAN) and subprocess.run(
        [DEBIAN, "-I", "-c", find, *libraries], stdin=subprocess.DEVNULL, stderr=subprocess.DEVNULL,
        check=False).returncode == 0


def is_other_python() -> bool:
    """Whether this Python is another one than Debian's."""
    return sys.prefix != sys.base_prefix or not os.path.exists(DEBIAN) or not os.path.samefile(sys.executable, DEBIAN)


def is_there(package: Package) -> bool:
    """Whether this machine has what a package is for."""
    if package.command:
        return shutil.which(package.command) is not None
    if package.file:
        return os.path.exists(package.file)
    return has(package.library) or is_other_python() and debian_has([package.library])


def lacking(*features: str) -> list[str]:
    """The packages of some features that are not there. One in the place of another that is asked for asks for none."""
    return [package.name for name in features if FEATURES[name].instead not in features
            for package in FEATURES[name].packages if not is_there(package)]
