"""The built program for the tests that play: FORMULA names it, else the one that bin/formula built. No test builds it."""

from __future__ import annotations

import importlib
import os
import pathlib
import subprocess
import sys
import tempfile
import unittest
from typing import Any, Optional

from formula_score import Score

TOP = pathlib.Path(__file__).resolve().parents[2]
sys.path.insert(0, str(TOP / "tools" / "score_model"))

#: The player in tools/ that reads texts, and is no part of the library.
score_model: Any = importlib.import_module("score_model")

_BUILT = TOP / "crates" / "fm_main" / "out" / "fm_main"
PROGRAM: Optional[str] = os.environ.get("FORMULA") or (str(_BUILT) if _BUILT.exists() else None)
if PROGRAM is None:
    # what a test runs then finds no program, in place of beginning a build
    os.environ["FORMULA"] = str(_BUILT)

needs_program = unittest.skipIf(
    PROGRAM is None, f"NOT TRIED: no program: FORMULA names none, and {_BUILT} is not there")


def foretold(score: Score) -> bytes:
    """The file of a score, of the library's events as tools/score_model writes them."""
    file: bytes = score_model.file_of(score.events(), score.end, score.version == 2, score.division)
    return file


def run(text: str) -> tuple[int, str, bytes]:
    """Status, line and file of a run on a text."""
    assert PROGRAM is not None
    with tempfile.TemporaryDirectory() as folder:
        source, target = pathlib.Path(folder, "in.score"), pathlib.Path(folder, "out.mid")
        source.write_bytes(text.encode())
        done = subprocess.run([PROGRAM, "--workers", "0", source, target], stdout=subprocess.PIPE, check=False)
        return done.returncode, done.stdout.decode(), target.read_bytes() if target.exists() else b""
