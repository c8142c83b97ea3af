"""Runs of the companion for the tests, in this process: its status, and what it says on each side."""

from __future__ import annotations

import contextlib
import io
import os
from typing import Iterator, NamedTuple
from unittest import mock

from .program import PROGRAM

from formula_companion.verbs.program import main


class Answer(NamedTuple):
    """How a run of the companion ended."""

    status: int
    said: str
    complaint: str


@contextlib.contextmanager
def _program() -> Iterator[None]:
    # a verb that went on by another Python would take the place of the tests
    with mock.patch.dict(os.environ, {"FORMULA": PROGRAM} if PROGRAM else {}), \
            mock.patch("os.execve", side_effect=AssertionError("another Python would go on")):
        yield


def score(*words: object) -> Answer:
    """What the companion answers on these words."""
    said, complaint = io.StringIO(), io.StringIO()
    with contextlib.redirect_stdout(said), contextlib.redirect_stderr(complaint), _program():
        status = main(list(map(str, words)), "score")
    return Answer(status, said.getvalue(), complaint.getvalue())
