"""What the verb `needs` says, and that a verb goes on by Debian's Python where that has its library."""

from __future__ import annotations

import importlib
import os
import re
import sys
import unittest
from typing import Any, Iterable
from unittest import mock

from formula_companion.verbs import libraries
from formula_score.host import packages
from formula_score.reading.playing import Failed

from .companion import score
from .program import TOP

sys.path.insert(0, str(TOP / "tools" / "package"))
debian: Any = importlib.import_module("debian")

USERS = "fluidsynth fluid-soundfont-gm python3-aiohttp libjs-codemirror bubblewrap python3-pylsp-jsonrpc musescore3 " \
    "abcmidi abcm2ps ghostscript python3-distributed vim"


class Needs(unittest.TestCase):
    def test_one_line_installs_what_is_missing(self) -> None:
        with mock.patch.object(packages, "is_there", lambda _: False), \
                mock.patch("formula_companion.verbs.needs.is_there", lambda _: False):
            answer = score("needs")
            self.assertEqual((answer.status, answer.said.splitlines()[-1]), (1, f"apt-get install {USERS}"))
            self.assertIn("  timidity               not there, nor needed\n", answer.said)
            self.assertEqual(score("needs", "timidity").said.splitlines()[-1], "apt-get install timidity freepats")
        with mock.patch.object(packages, "is_there", lambda _: True):
            answer = score("needs", "tests", "lsp")
            self.assertEqual((answer.status, answer.said.splitlines()[-1]), (0, "nothing is missing"))

    def test_scripts_get_the_names_alone(self) -> None:
        with mock.patch.object(packages, "is_there", lambda package: package.name != "neovim"):
            self.assertEqual(score("needs", "lsp", "tests", "--names")[:2], (1, "neovim\n"))

    def test_a_feature_that_is_none_is_a_bad_use(self) -> None:
        self.assertEqual(score("needs", "song").status, 2)

    def test_each_package_that_is_told_is_suggested(self) -> None:
        told: set[str] = set()
        for path in (TOP / "python").glob("formula_*/**/*.py"):
            told.update(re.findall(r"\b(?:libjs|python3)-[a-z0-9-]+\b", path.read_text(encoding="utf-8")))
        self.assertEqual(told - {package for name in packages.FEATURES for package in packages.names(name)}, set())
        control = debian.control_of({debian.PROGRAM: debian.File(b"", 0)}, debian.Facts("1", "", "", ""))
        suggests = re.findall(r"^Suggests: (.*)$", control, re.M)
        self.assertEqual([{*line.split(", ")} for line in suggests], [{*USERS.split(), "timidity", "freepats"}])


class Libraries(unittest.TestCase):
    def restarted(self, words: list[str], here: Iterable[str], debians: Iterable[str]) -> list[Any]:
        """How often and with which words Debian's Python is begun."""
        with mock.patch.object(libraries, "has", lambda name: name in here), \
                mock.patch.object(libraries, "debian_has", lambda names: {*names} <= {*debians}), \
                mock.patch.object(libraries, "is_other_python", lambda: True), \
                mock.patch.object(os, "execve") as begun:
            libraries.restart(words)
        return [call.args[1][4:] for call in begun.call_args_list]

    def test_debians_python_goes_on_where_it_has_more(self) -> None:
        self.assertEqual(self.restarted(["studio", "a b", "--port", "0"], (), ("aiohttp",)), [["studio", "a b", "--port", "0"]])
        self.assertEqual(self.restarted(["lsp"], (), ("pylsp_jsonrpc",)), [["lsp"]])
        batch = ["batch", "--dask", "127.0.0.1:8786", "a", "b"]
        self.assertEqual(self.restarted(batch, (), ("distributed",)), [batch])

    def test_else_this_python_goes_on(self) -> None:
        self.assertEqual(self.restarted(["studio"], ("aiohttp",), ("aiohttp",)), [])
        self.assertEqual(self.restarted(["studio"], (), ()), [])
        self.assertEqual(self.restarted([], (), ("aiohttp",)), [])
        for words in (["bars", "x"], ["batch", "a", "b"]):
            self.assertEqual(self.restarted(words, (), ("aiohttp", "distributed")), [])

    def test_the_package_is_named_where_neither_has_it(self) -> None:
        with mock.patch.object(libraries, "has", lambda _: False):
            self.assertRaisesRegex(Failed, "apt-get install python3-aiohttp, or .* aiohttp", libraries.needs, "studio")


if __name__ == "__main__":
    unittest.main()
