"""Sees which runs make a thread or wait for one, by strace: those that one thread does make none.

Each of these runs is traced: without workers, of a score of one process with workers and in rounds, and each task but to
play and to record, with workers. None may call clone or wait on a futex. Runs with workers, in rounds and on record are
traced too, and have to make threads, so that the trace is seen to see them. A crew has to wake all that rest where it
ends. On Debian: apt-get install strace."""

from __future__ import annotations

import argparse
import re
import shutil
import subprocess
import tempfile
from pathlib import Path
from typing import NamedTuple

import harness

#: The call that makes a thread, one that waits, and one that wakes all who wait.
THREADS = re.compile(r"\bclone3?\(")
WAITS = re.compile(r"\bfutex\([^,]*, FUTEX_WAIT")
WAKES = re.compile(r"\bfutex\([^,]*, FUTEX_WAKE[A-Z_]*, 2147483647")

ONE, MANY = harness.SCORES / "one_note.score", harness.SCORES / "canon.score"
#: Runs of one thread: the input, and the words.
ALONE: tuple[tuple[Path, str], ...] = (
    (MANY, "--workers 0"), (MANY, "--workers 0 --rounds"), (ONE, "--workers 4"), (ONE, "--workers 4 --rounds"),
    (MANY, "--parts"), (MANY, "--parts --rounds"), (MANY, "--from 480"), (MANY, "--to 960"), (MANY, "--locate 480"))
#: Runs of several threads: how many they make at least, and how often they wake all.
TOGETHER: tuple[tuple[str, int, int], ...] = (
    ("--workers 2", 2, 1), ("--workers 2 --rounds", 1, 0), ("--workers 2 --record", 2, 1))


class Calls(NamedTuple):
    """How many threads a run makes, how often one waits on a futex, and how often all who wait are woken."""

    threads: int
    waits: int
    wakes: int


def arguments(parser: argparse.ArgumentParser) -> None:
    """The verb takes nothing but the program."""
    del parser


def traced(program: str, source: Path, target: Path, words: str) -> Calls:
    """What a run calls."""
    log = target.with_suffix(".trace")
    subprocess.run(["strace", "-f", "-e", "trace=clone,clone3,futex", "-o", log, program, source, target, *words.split()],
                   stdout=subprocess.DEVNULL, stderr=subprocess.DEVNULL, check=True)
    lines = log.read_text(errors="replace")
    return Calls(*(len(call.findall(lines)) for call in (THREADS, WAITS, WAKES)))


def run(program: str, asked: argparse.Namespace) -> harness.Count:
    """Traces each run."""
    del asked
    count = harness.Count()
    if shutil.which("strace") is None:
        count.not_tried("which runs make threads", "strace is not installed (apt-get install strace)")
        return count
    with tempfile.TemporaryDirectory() as folder:
        target = Path(folder, "out.mid")
        traced(program, MANY, Path(folder, "in.mid"), "--workers 0")
        traced(program, MANY, Path(folder, "in.run"), "--workers 2 --record")
        files = ((Path(folder, "in.mid"), "--list"), (Path(folder, "in.run"), "--audit"))
        for source, words in (*ALONE, *files):
            calls = traced(program, source, target, words)
            count.judge(f"{source.name} {words}", str(calls) if any(calls) else None)
        for words, threads, wakes in TOGETHER:
            calls = traced(program, MANY, target, words)
            is_well = calls.threads >= threads and calls.wakes >= wakes
            count.judge(f"{MANY.name} {words}", None if is_well else str(calls))
    return count
