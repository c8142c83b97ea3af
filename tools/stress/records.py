"""Records scores over and over, audits the records, and compares what they count with the rules of a record.

A run has a number of workers, a room and a lead at random. The program audits the record, and OUT has to be the score's
file. Then tools/core_model takes the steps: no kept pace and no kept look may leave its state as it was, but for a look that
finds a process drained which a give had visited. And the conductor paces once for each publish that moves the floor."""

from __future__ import annotations

import argparse
import importlib
import os
import random
import sys
import tempfile
from collections import Counter
from concurrent.futures import ProcessPoolExecutor
from typing import Any

import harness

sys.path[:0] = [str(harness.TOP / "tools" / name) for name in ("core_model", "score_model")]
# the models are plain programs, without types
audit: Any = importlib.import_module("audit")
core: Any = importlib.import_module("core")
score_model: Any = importlib.import_module("score_model")

WORKERS, ROOMS, LEADS = ("0", "1", "2", "4", "16"), ("1", "2", "8", "32", "64"), ("0", "1", "480", "7680")
#: The model walks all processes at each step, so it takes no longer records.
MOST = 30_000


def arguments(parser: argparse.ArgumentParser) -> None:
    """What the verb takes."""
    parser.add_argument("--runs", type=int, default=10_000, help="how many runs in all, else 10,000")
    parser.add_argument("--seed", type=int, default=1, help="the seed of the words of the runs, else 1")
    parser.add_argument("scores", nargs="*", metavar="SCORE", help="the scores, else those of examples/scores")


def counted(record: bytes) -> tuple[Counter[str], str]:
    """How many steps of each kind a record has, and what the model has against them."""
    seats, room, lead, text, steps = audit.parts(record)
    setting, state = audit.opened(score_model.lines(text), seats, room, lead)
    kinds: Counter[str] = Counter()
    at = moved = paced = 0
    while at < len(steps):
        step, at = audit.step_at(steps, at)
        kind, *values = step
        if core.reason(setting, state, step) is not None:
            return kinds, f"step {sum(kinds.values())} is refused"
        before = (list(state.sweep[0]), set(state.visited), list(state.paced), state.floor)
        core.EFFECTS[kind](setting, state, *values)
        kinds[kind] += 1
        moved += kind == "Publish" and state.floor != before[3]
        paced += kind == "Pace" and values[0] == 0
        same = (list(state.sweep[0]), set(state.visited), list(state.paced)) == before[:3]
        if kind in ("Look", "Pace") and same and not (kind == "Look" and state.tag[values[1]] == core.DRAINED):
            return kinds, f"{kind} {values} changes nothing"
    return kinds, "" if moved == paced else f"{moved} publishes move the floor, and the conductor paces {paced} times"


def tried(program: str, score: str, words: list[str], wanted: bytes) -> tuple[str, Counter[str]]:
    """What is wrong with a run, and how many steps of each kind the model took of its record."""
    with tempfile.TemporaryDirectory() as folder:
        runs = harness.Runs(program, folder)
        ran = runs.anew([score, runs.out, *words, "--record"])
        if ran.status != 0 or ran.out is None:
            return f"the record has status {ran.status}", Counter()
        audited = runs.anew([runs.put("record", ran.out), runs.out, "--audit"])
        if (audited.status, audited.out) != (0, wanted):
            return f"the audit has status {audited.status}, or another file", Counter()
        kinds, wrong = (Counter[str](), "") if len(ran.out) > MOST else counted(ran.out)
        return wrong, kinds


def files_of(program: str, scores: list[str]) -> dict[str, bytes]:
    """The file of each score that is accepted."""
    files = {}
    with tempfile.TemporaryDirectory() as folder:
        runs = harness.Runs(program, folder)
        for score in scores:
            played = runs.anew([score, runs.out, "--workers", "0"])
            if played.status == 0 and played.out is not None:
                files[score] = played.out
    return files


def run(program: str, asked: argparse.Namespace) -> harness.Count:
    """Compares so many runs."""
    count, draw, total = harness.Count(), random.Random(asked.seed), Counter[str]()
    files = files_of(program, asked.scores or harness.scores_in(harness.SCORES))
    drawn = []
    for _ in range(asked.runs):
        words = ["--workers", draw.choice(WORKERS), "--room", draw.choice(ROOMS), "--lead", draw.choice(LEADS)]
        drawn.append((draw.choice(sorted(files)), words))
    with ProcessPoolExecutor() as pool:
        tries = [pool.submit(tried, program, score, words, files[score]) for score, words in drawn]
        for (score, words), done in zip(drawn, tries):
            wrong, kinds = done.result()
            count.judge(f"{os.path.basename(score)} {' '.join(words)}", wrong)
            total += kinds
    print(f"{len(files)} scores; the model took " + ", ".join(f"{total[kind]} {kind}" for kind in sorted(total)))
    return count
