"""What is packaged, and what `help()` and `repr` say."""

from __future__ import annotations

import dataclasses
import email
import inspect
import itertools
import os
import pathlib
import re
import shutil
import subprocess
import sys
import tempfile
import unittest
import zipfile
from typing import Optional

import formula_score
from formula_score import (
    BarError, CommandError, Event, FileRefused, Meter, Music, Pitch, RecordRefused, Refused, Scale, Score, channel,
    control, drum, flat, melody, note, par, phrase, repeat, rest, seq, tempo, ticks,
)

from .program import TOP

#: The scripts and tools whose types are judged, by the folders of tools/ that have their modules.
TYPED = {
    "bench gate jobs package pages releases stress tries": (
        "bin/formula-score", "scripts/bench", "scripts/examples", "scripts/install", "scripts/package", "scripts/pages",
        "scripts/stress", "tools/gate/build.py", "tools/gate/watch.py", "tools/releases/keep.py",
        "tools/tries/limits.py"),
    "definitions gate jobs names stress": (
        "scripts/claims", "scripts/definitions", "tools/definitions/alone.py", "tools/definitions/rows.py",
        "tools/definitions/trial.py", "tools/names/measures.py", "tools/names/names.py"),
    "definitions": ("scripts/statement",),
}

#: The head of a file of shell: how it is run, or what shellcheck is told.
SHELL = re.compile(rb"\A(#!(/bin/sh|/usr/bin/env bash)|(#.*\n)*# shellcheck shell=)")


def builder() -> Optional[str]:
    """A Python that has setuptools and wheel: this one, or Debian's."""
    for python in (sys.executable, "/usr/bin/python3"):
        if os.path.exists(python) and subprocess.run(
                [python, "-c", "import setuptools, wheel"], stderr=subprocess.DEVNULL, check=False).returncode == 0:
            return python
    return None


class Package(unittest.TestCase):
    def test_a_wheel_is_built_without_a_network(self) -> None:
        python = builder()
        if python is None:
            self.skipTest("NOT TRIED: no Python here has setuptools and wheel (python3-setuptools, python3-wheel)")
        with tempfile.TemporaryDirectory() as folder:
            for package in ("formula_score", "formula_companion"):
                self.is_built(python, package, folder)
            say = "import formula_score, formula_companion.verbs.program as program; program.main(['--version'])"
            said = subprocess.run([sys.executable, "-c", say], cwd=folder, env={"PYTHONPATH": f"{folder}/installed"},
                                  stdout=subprocess.PIPE, text=True, check=True).stdout
        self.assertEqual(said, f"formula-score {formula_score.__version__}\n")

    def is_built(self, python: str, package: str, folder: str) -> None:
        """Builds a wheel as `pip install --no-build-isolation` does, judges what it has, and unpacks it."""
        home = shutil.copytree(TOP / "python" / package, pathlib.Path(folder, package),
                               ignore=shutil.ignore_patterns("__pycache__", "build", "dist", "*.egg-info"))
        build = "from setuptools.build_meta import build_wheel; print(build_wheel('..'))"
        done = subprocess.run([python, "-c", build], cwd=home, stdout=subprocess.PIPE, stderr=subprocess.STDOUT,
                              text=True, check=False)
        self.assertEqual(done.returncode, 0, done.stdout)
        with zipfile.ZipFile(pathlib.Path(folder, done.stdout.splitlines()[-1])) as wheel:
            names = wheel.namelist()
            about = email.message_from_bytes(wheel.read(next(name for name in names if name.endswith("METADATA"))))
            wheel.extractall(pathlib.Path(folder, "installed"))
        self.assertEqual((about["Version"], about["License"]), (formula_score.__version__, "No licence has been granted yet"))
        self.assertIn("Topic :: Multimedia :: Sound/Audio :: MIDI", about.get_all("Classifier", []))
        left = [path.relative_to(home.parent).as_posix() for path in home.rglob("*.py")
                if path.relative_to(home).parts[0] != "build"]
        pages = ["studio/page/index.html", "studio/page/main.js", "studio/page/formula.tmLanguage.json"]
        wanted = [f"{package}/{name}" for name in ("py.typed", *(pages if package == "formula_companion" else []))]
        self.assertEqual({*left, *wanted} - {*names}, set())
        self.assertTrue(str(about.get_payload()).lstrip().startswith(f"# {package}"))

    def test_what_a_build_leaves_is_no_part_of_the_repository(self) -> None:
        for name in ("python/formula_score/build/lib/a.py", "python/formula_companion/formula_companion.egg-info/PKG-INFO",
                     "python/formula_score/dist/a.whl"):
            done = subprocess.run(["git", "check-ignore", "-q", name], cwd=TOP, check=False)
            self.assertEqual(done.returncode, 0, name)

    def test_types_are_strict(self) -> None:
        mypy = shutil.which("mypy")
        if mypy is None:
            self.skipTest("NOT TRIED: there is no mypy")
        cache = tempfile.TemporaryDirectory()
        self.addCleanup(cache.cleanup)
        # modules of two folders may have one name, so each list is judged with its own folders
        for folders, names in (("", ()), *TYPED.items()):
            path = ":".join(str(TOP / "tools" / folder) for folder in ("", *folders.split()))
            words = [mypy, f"--cache-dir={cache.name}", *(("--scripts-are-modules",) if len(names) > 1 else ()),
                     *(str(TOP / name) for name in names)]
            done = subprocess.run(words, cwd=TOP / "python", stdout=subprocess.PIPE, stderr=subprocess.STDOUT,
                                  env={**os.environ, "MYPYPATH": path}, text=True, check=False)
            self.assertEqual(done.returncode, 0, f"{names}\n{done.stdout}")

    def test_shell_is_clean(self) -> None:
        shellcheck = shutil.which("shellcheck")
        if shellcheck is None:
            self.skipTest("NOT TRIED: there is no shellcheck")
        names = subprocess.run(["git", "ls-files", "-z"], cwd=TOP, stdout=subprocess.PIPE, text=True, check=True).stdout
        # a script of Python that a shell begins is none
        shell = [name for name in names.split("\0")[:-1] if (TOP / name).is_file()
                 and SHELL.search(text := (TOP / name).read_bytes()) and b"exec python3 \"$0\"" not in text]
        self.assertIn("bin/formula", shell)
        done = subprocess.run([shellcheck, "-x", "--", *shell], cwd=TOP, stdout=subprocess.PIPE, stderr=subprocess.STDOUT,
                              text=True, check=False)
        self.assertEqual(done.returncode, 0, done.stdout)

    def test_each_name_is_there(self) -> None:
        for name in [*formula_score.__all__, "LengthLike", "PitchLike", "Part", "Seq"]:
            self.assertTrue(hasattr(formula_score, name) and name in formula_score.__all__, name)


class Help(unittest.TestCase):
    def test_each_class_tells_its_attributes(self) -> None:
        samples = (
            Meter("3/4"), Scale("c4"), Score(note("c4", "1/4")), note("c4", "1/4"), rest("1/4"), control(7, 100), seq(),
            2 * note("c4", "1/4"), par(rest("1/4")), channel(1), tempo(90), phrase("verse"), flat("1/4", 2000),
            Event(0, 0, 0, b""), BarError(1, ""), Refused("", "", 1, 1, 3), FileRefused("", "", 1, 21),
            RecordRefused("", "", 1, 41), CommandError(2, "", ""), formula_score.Located(0, 0, 0, (), None),
            formula_score.Listing(0, 1, 480, []), formula_score.FileEvent(0, 0, b""), formula_score.Large(1, 1, 1, 1),
        )
        for sample in samples:
            text = " ".join(inspect.getdoc(base) or "" for base in type(sample).__mro__[:-1])
            names = ([field.name for field in dataclasses.fields(sample)] if dataclasses.is_dataclass(sample)
                     else getattr(sample, "_fields", None) or [name for name in vars(sample) if name[0] != "_"])
            for name in names:
                self.assertIn(f"`{name}`", text, type(sample).__name__)
        self.assertIn("`ticks` is the length, of which a quarter note has 480", inspect.getdoc(Music) or "")

    def test_a_value_is_shown_as_it_is_written(self) -> None:
        tune = melody("c4 d4 e4 f4 g4 a4", "1/8")
        self.assertEqual(repr(tune), "seq(note('c4', '1/8'), note('d4', '1/8'), note('e4', '1/8'), note('f4', '1/8'), "
                                     ".. 2 more)")
        self.assertEqual(repr(seq(note(["c4", "e4"], "1/4", tied=True), rest(ticks(7)), repeat(2, tune))),
                         "seq(note(['c4', 'e4'], '1/4', tied=True), rest(ticks(7)), repeat(..))")
        self.assertEqual(repr(Score(note("c4", "1/4"))),
                         "<Score of 480 ticks, 2 events in 1 process, with a text of 24 bytes>")
        self.assertEqual((repr(Pitch("c4")), repr(Pitch(3)), repr(Meter("3/4"))),
                         ("Pitch('c4')", "Pitch(3)", "Meter('3/4')"))

    def test_a_scale_ends(self) -> None:
        self.assertEqual(list(map(str, itertools.islice(Scale("d4", "dorian"), 100))), "d4 e4 f4 g4 a4 b4 c5".split())
        self.assertEqual((len(Scale("c4", "blues")), list(Scale("c4", "blues"))[-1]), (6, Pitch("as4")))

    def test_near_names_are_told(self) -> None:
        for call, name, near in ((formula_score.instrument, "saxofone", "baritone sax"), (drum, "snair", "snare"),
                                 (formula_score.instrument, "Violin", "violin"), (drum, "hihat", "closed hi-hat")):
            self.assertRaisesRegex(formula_score.ScoreError, f"is it .*{near}", call, name)


if __name__ == "__main__":
    unittest.main()
