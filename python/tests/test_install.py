"""What `scripts/install` puts below a folder, takes away again, and what a package says of it."""

from __future__ import annotations

import importlib
import os
import pathlib
import re
import subprocess
import sys
import tempfile
import unittest
from typing import Any

from formula_score import __version__

from .program import PROGRAM, TOP, needs_program

sys.path.insert(0, str(TOP / "tools" / "package"))
#: Modules of tools/package, which are no part of the library.
proved: Any = importlib.import_module("proved")
debian: Any = importlib.import_module("debian")

WANTED = (
    "bin/formula", "bin/formula-score", "lib/formula/formula", "lib/formula/proved.txt",
    "lib/formula/python/formula_score/__init__.py", "lib/formula/python/formula_companion/verbs/program.py",
    "share/doc/rosetrowel/python/formula_score/README.md", "share/man/man1/formula.1", "share/man/man1/formula-score.1",
    "share/bash-completion/completions/formula", "share/bash-completion/completions/formula-score",
    "share/vim/vimfiles/syntax/formula.vim",
    "share/vim/vimfiles/compiler/formula.vim", "share/formula/editors/vscode/package.json",
    "share/formula/editors/vscode/tasks.json", "share/doc/rosetrowel/README.md", "share/doc/rosetrowel/COPYING",
    "share/doc/rosetrowel/docs/LANGUAGE.md", "share/doc/rosetrowel/examples/scores/canon.score",
)
LINKED = "arrayvec", "atomic_table", "circular_buffer", "clap", "itoa", "strsim", "thiserror"


def install(*words: str) -> "subprocess.CompletedProcess[bytes]":
    """A run of the script."""
    return subprocess.run([sys.executable, TOP / "scripts" / "install", *words], capture_output=True, check=False,
                          env={**os.environ, "FORMULA": str(PROGRAM)})


class Install(unittest.TestCase):
    @needs_program
    def test_all_is_there_and_goes_again(self) -> None:
        with tempfile.TemporaryDirectory() as folder:
            prefix = pathlib.Path(folder, "prefix")
            (prefix / "bin").mkdir(parents=True)
            (prefix / "bin" / "other").touch()
            self.assertEqual(install(str(prefix)).returncode, 0)
            self.assertEqual([name for name in WANTED if not (prefix / name).is_file()], [])
            for name in ("bin/formula", "bin/formula-score"):
                self.assertEqual((prefix / name).read_bytes(), (TOP / name).read_bytes(), name)
            program = subprocess.run([sys.executable, "-I", "-B", "-c", "import sys; sys.path.insert(0, sys.argv[1])\n"
                                      "import formula_score; print(formula_score.find_program())",
                                      prefix / "lib" / "formula" / "python"], env={"PATH": "/none"}, check=True,
                                     stdout=subprocess.PIPE, text=True).stdout
            self.assertEqual(program, f"{prefix}/lib/formula/formula\n")
            # the commit is known where the program is the one that this checkout built
            self.assertRegex((prefix / "lib/formula/proved.txt").read_text(), r"(?m)^commit   (not known|[0-9a-f]{40})")
            self.assertEqual(install("--remove", str(prefix)).returncode, 0)
            self.assertEqual([path for path in prefix.rglob("*") if path.is_file()], [prefix / "bin" / "other"])

    def test_a_bad_use(self) -> None:
        for words in ((), ("",), ("--help",), ("a", "b"), ("--remove",)):
            done = install(*words)
            self.assertEqual((done.returncode, done.stdout), (1, b""), words)

    def test_sums_are_those_of_the_page(self) -> None:
        with tempfile.TemporaryDirectory() as folder:
            top = pathlib.Path(folder)
            (top / "src" / "a").mkdir(parents=True)
            (top / "src" / "b.rt").write_text("one\n")
            (top / "src" / "a" / "c.rt").write_text("two\n")
            shell = "find src -type f | LC_ALL=C sort | xargs sha256sum | sha256sum"
            said = subprocess.run(["sh", "-c", shell], cwd=top, stdout=subprocess.PIPE, text=True, check=True).stdout
            self.assertEqual(proved.sum_of_folder(top, top / "src"), said.split()[0])

    def test_the_copyright_names_each_crate(self) -> None:
        rows = debian.terms((TOP / "docs" / "formula.1").read_text())
        self.assertEqual(tuple(sorted(row.crate for row in rows)), LINKED)
        texts = {row.crate: row.text for row in rows}
        self.assertEqual(texts["thiserror"], texts["itoa"])
        said = debian.copyright_of(TOP).decode()
        self.assertIn((TOP / "COPYING").read_text().strip(), said)
        for row in rows:
            self.assertIn(f"---- {row.crate}: {row.text}\n", said)


class Packaged(unittest.TestCase):
    def test_each_time_zone_makes_one_version(self) -> None:
        shown = "import importlib.machinery as m; print(m.SourceFileLoader('package', 'scripts/package').load_module().facts_of_commit())"
        said = {subprocess.run([sys.executable, "-B", "-W", "ignore", "-c", shown], cwd=TOP, stdout=subprocess.PIPE, check=True,
                               env={**os.environ, "TZ": zone}).stdout for zone in ("UTC", "Asia/Tokyo", "America/Lima")}
        self.assertEqual(len(said), 1, said)

    def test_only_the_commit_that_makes_a_release_has_its_number(self) -> None:
        with tempfile.TemporaryDirectory() as folder:
            env = {**os.environ, **{f"GIT_{who}_{what}": "a@b" for who in ("AUTHOR", "COMMITTER") for what in ("NAME", "EMAIL")}}
            shown = ("import importlib.machinery as m, pathlib; package = m.SourceFileLoader('package', 'scripts/package').load_module();"
                     f"package.TOP = pathlib.Path({folder!r}); print(package.facts_of_commit().version)")
            versions: list[bool] = []
            subprocess.run(["git", "init", "--quiet", folder], check=True)
            for sections in (["Unreleased"], [__version__], [__version__], ["Unreleased", __version__]):
                page = "".join(f"## {section}\n\nText.\n\n" for section in sections)
                pathlib.Path(folder, "CHANGELOG.md").write_text(f"# Changes\n\n{page}")
                pathlib.Path(folder, "other").write_text(str(len(versions)))
                subprocess.run(["git", "add", "."], cwd=folder, check=True)
                subprocess.run(["git", "commit", "--quiet", "--message", "a"], cwd=folder, env=env, check=True)
                said = subprocess.run([sys.executable, "-B", "-W", "ignore", "-c", shown], cwd=TOP, stdout=subprocess.PIPE,
                                      text=True, check=True).stdout.strip()
                versions.append(said == __version__)
                self.assertTrue(said == __version__ or said.startswith(f"{__version__}+"), said)
        self.assertEqual(versions, [False, True, False, False])


if __name__ == "__main__":
    unittest.main()
