"""Plays scores over and over with the least room, no lead and 16 workers on busy processors.

Each file is compared with that of a run on one thread. Runs are so many in all (else 10,000), shared out among the scores,
or so many of each. As many programs that only take processor time run beside them as there are processors."""

from __future__ import annotations

import argparse
import os
import subprocess
import sys
import tempfile

import harness

HARD = ["--room", "1", "--lead", "0", "--workers", "16"]
#: Takes processor time until the process that started it is gone.
BUSY = [sys.executable, "-c", "import os\nparent = os.getppid()\nwhile os.getppid() == parent: pass"]


def arguments(parser: argparse.ArgumentParser) -> None:
    """What the verb takes."""
    parser.add_argument("--runs", type=int, default=10_000, help="how many runs in all, else 10,000")
    parser.add_argument("--each", type=int, help="how many runs of each score")
    parser.add_argument("scores", nargs="*", metavar="SCORE", help="the scores, else those of examples/scores")


def run(program: str, asked: argparse.Namespace) -> harness.Count:
    """Compares so many runs."""
    count = harness.Count()
    scores = asked.scores or harness.scores_in(harness.SCORES)
    times = asked.each or max(1, asked.runs // len(scores))
    busy = [subprocess.Popen(BUSY) for _ in range(os.cpu_count() or 1)]
    try:
        with tempfile.TemporaryDirectory() as folder:
            runs = harness.Runs(program, folder)
            for score in scores:
                wanted = runs.anew([score, runs.out, "--workers", "0"])
                for number in range(times):
                    found = runs.anew([score, runs.out, *HARD])
                    is_same = (found.status, found.out) == (wanted.status, wanted.out)
                    count.judge(f"{score}, run {number}", "" if is_same else f"it differs, status {found.status}")
    finally:
        for process in busy:
            process.kill()
    print(f"{len(scores)} scores, {times} runs of each")
    return count
