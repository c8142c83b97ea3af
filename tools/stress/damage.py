"""Records each example with several numbers of threads, rooms and leads, audits the records, and damages them.

In each record one byte is changed, cut or doubled, at so many places. An audit of a record has to make the example's file.
An audit of a damaged one has to refuse it, and to leave OUT alone; or to make the file of the text that is in it, as
playing that text does. Never another file."""

from __future__ import annotations

import argparse
import itertools
import os
import random
import tempfile
from concurrent.futures import ThreadPoolExecutor
from typing import Optional, Sequence

import harness

RUNS = [["--workers", workers, "--room", room, "--lead", lead]
        for workers, room, lead in itertools.product(("1", "2", "4", "16"), ("1", "64"), ("0", "7680"))]
HEAD = 14


def damaged(record: bytes, draw: random.Random) -> bytes:
    """A record of which one byte is changed, cut or doubled."""
    at, way = draw.randrange(len(record)), draw.randrange(3)
    if way == 0:
        return record[:at] + bytes([(record[at] + draw.randrange(1, 256)) % 256]) + record[at + 1:]
    return record[:at] + record[at + 1:] if way == 1 else record[:at + 1] + record[at:]


def run_on(program: str, folder: str, data: bytes, words: Sequence[str]) -> tuple[int, Optional[bytes]]:
    """The status and OUT of a run on this input."""
    runs = harness.Runs(program, folder)
    ran = runs.anew([runs.put("in", data), runs.out, *words])
    return ran.status, ran.out


def tried(program: str, score: str, words: Sequence[str], places: int) -> list[tuple[str, str]]:
    """Each comparison of a score that is recorded with these words: its name, and what is wrong with it."""
    label, found = f"{os.path.basename(score)} {' '.join(words)}", []
    with tempfile.TemporaryDirectory() as folder:
        text = harness.content(score)
        played = run_on(program, folder, text, ["--workers", "0"])
        status, record = run_on(program, folder, text, [*words, "--record"])
        if status != 0 or record is None or run_on(program, folder, record, ["--audit"]) != played:
            return [(label, "the record is not accepted as the score's")]
        found.append((label, ""))
        draw = random.Random(label)
        for _ in range(places):
            bent = damaged(record, draw)
            status, file = run_on(program, folder, bent, ["--audit"])
            well = status == 3 and file is None or (status, file) == played
            if not well and status == 0:
                # the text was bent, and the steps are a run over it too
                length = int.from_bytes(bent[10:HEAD], "big")
                well = run_on(program, folder, bent[HEAD:HEAD + length], ["--workers", "0"]) == (0, file)
            found.append((label, "" if well else f"status {status} after {bent.hex()}"[:2000]))
    return found


def arguments(parser: argparse.ArgumentParser) -> None:
    """What the verb takes."""
    parser.add_argument("--places", type=int, default=1000, help="at how many places each record is damaged, else 1,000")
    parser.add_argument("--jobs", type=int, default=os.cpu_count(), help="how many at a time")
    parser.add_argument("scores", nargs="*", metavar="SCORE", help="the scores, else those of examples/scores")


def run(program: str, asked: argparse.Namespace) -> harness.Count:
    """Tries the scores in each way to record them."""
    count = harness.Count()
    scores = asked.scores or harness.scores_in(harness.SCORES)
    with ThreadPoolExecutor(asked.jobs) as pool:
        tries = [pool.submit(tried, program, score, words, asked.places) for score, words in itertools.product(scores, RUNS)]
        for attempt in tries:
            for name, problem in attempt.result():
                count.judge(name, problem)
    return count
