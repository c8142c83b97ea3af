"""Schedules: free threads beside one thread and beside rounds, with each room and lead, on all and on two processors."""

from __future__ import annotations

import contextlib
import os
import re
import shutil
import subprocess
import time
from typing import Iterator, Optional, Sequence

import harness
import texts
from formula_score.explaining import records as recording
from measuring import Bench, head, row, wrong
from performing import MOST_OF_ALONE

#: The aims.
MOST_WHERE_COMPUTING = 0.7
MOST_WRITES_WHERE_COMPUTING = 0.5
MOST_OF_A_SCHEDULE = 2
MOST_OF_THE_LEAST = 4
MOST_ON_TWO = 1.3
MOST_OF_SIXTEEN = 1.5
MOST_PROCESSOR_TIME = 1.25
MOST_PROCESSOR_TIME_WHERE_COMPUTING = 1.5
MOST_INSTRUCTIONS = 1.25

#: Schedules, and the most of the wall time of 0 workers with the same room and lead.
SCHEDULES: tuple[tuple[str, list[str], Optional[float]], ...] = (
    ("by default", [], MOST_OF_ALONE),
    ("--workers 1", ["--workers", "1"], MOST_OF_A_SCHEDULE),
    ("--workers 2", ["--workers", "2"], MOST_OF_A_SCHEDULE),
    ("--workers 16", ["--workers", "16"], MOST_OF_SIXTEEN),
    ("--rounds", ["--rounds"], None),
    ("--lead 0", ["--lead", "0"], MOST_OF_A_SCHEDULE),
    ("--room 1", ["--room", "1"], MOST_OF_A_SCHEDULE),
    ("--room 1 --lead 0", ["--room", "1", "--lead", "0"], MOST_OF_THE_LEAST),
    ("--room 64 --lead 1000000", ["--room", "64", "--lead", "1000000"], MOST_OF_A_SCHEDULE),
)


def schedules(bench: Bench) -> None:
    """The crew beside one thread and beside rounds, with each room and lead, on all and on two processors."""
    for name, text, short, computes in (
        ("992,000 EVENTS OF 16 VOICES", texts.generated(30), texts.generated(3), False),
        ("16 VOICES IN 8 LEVELS", texts.deep_branches(16, 8_000), texts.deep_branches(16, 2_000), False),
        ("COMPUTING: 16 SPARSE VOICES", texts.sparse_branches(16, 32_000), texts.sparse_branches(16, 8_000), True),
        ("ONE VOICE", texts.notes(400_000), texts.notes(100_000), False),
    ):
        head(name, "wall ms", "cpu ms", "wall to 0", "cpu to 0", "of 0 ms")
        of_writes = share_of_writes(bench, text)
        row("  computing, % of one thread", 100 * (1 - of_writes))
        row("  one thread on each processor", *one_on_each(bench, text))
        if computes:
            bench.aim(f"{name}, writes to 0 workers, processor time", [of_writes], MOST_WRITES_WHERE_COMPUTING)
        words = [bench.path("in.score"), bench.out]
        for way, options, most in SCHEDULES:
            kept = options if "--room" in options or "--lead" in options else []
            figures, alone, ratio, busy = bench.by_turns(words + options, words + ["--workers", "0"] + kept)
            row("  " + way, figures.wall, figures.cpu, ratio, busy, alone.wall)
            if most is not None:
                if way == "by default" and computes:
                    most = MOST_WHERE_COMPUTING
                bench.aim(f"{name}, {way}, wall time to 0 workers", [ratio], most)
            if way == "by default":
                most = MOST_PROCESSOR_TIME_WHERE_COMPUTING if computes else MOST_PROCESSOR_TIME
                bench.aim(f"{name}, {way}, processor time to 0 workers", [busy], most)
        with two_processors():
            figures, alone, ratio, busy = bench.by_turns(words, words + ["--workers", "0"])
        row("  by default, two processors", figures.wall, figures.cpu, ratio, busy, alone.wall)
        bench.aim(f"{name}, two processors, wall time to 0 workers", [ratio], MOST_ON_TWO)
        processor_time_of_workers(bench, text)
        instructions_by_default(bench, name, short)
        quanta(bench, short)


def share_of_writes(bench: Bench, text: bytes) -> float:
    """How much of one thread's processor time the writes of the file take alone."""
    alone = bench.play(text, ["--workers", "0"])
    return bench.floor().cpu / alone.cpu


def one_on_each(bench: Bench, text: bytes) -> tuple[float, float, float, float, float]:
    """As many runs of one thread at once as there are processors, and how much more processor time one of them takes
    than alone: so much more any work takes here that keeps all of them busy."""
    alone = bench.play(text, ["--workers", "0"])
    score, count = bench.path("in.score"), len(os.sched_getaffinity(0))
    means: list[tuple[float, float]] = []
    for _ in range(bench.runs):
        words = [[bench.path("timed"), bench.program, score, bench.path(f"{number}.mid"), "--workers", "0"]
                 for number in range(count)]
        runs = [subprocess.Popen(command, stdout=subprocess.PIPE) for command in words]
        said = [[float(word) / 1000 for word in run.communicate()[0].split()[:2]] for run in runs]
        means.append((sum(times[0] for times in said) / count, sum(times[1] for times in said) / count))
    wall, cpu = min(mean[0] for mean in means), min(mean[1] for mean in means)
    return wall, cpu, wall / alone.wall, cpu / alone.cpu, alone.wall


@contextlib.contextmanager
def two_processors() -> Iterator[None]:
    """Lets this program, and what it starts, run on two processors alone."""
    every = os.sched_getaffinity(0)
    os.sched_setaffinity(0, set(sorted(every)[:2]))
    try:
        yield
    finally:
        os.sched_setaffinity(0, every)


def processor_time_of_workers(bench: Bench, text: bytes) -> None:
    """How much of the processor time is the workers', and not the conductor's, in one run by default."""
    score = bench.put("in.score", text)
    run = subprocess.Popen([bench.program, score, bench.out], stdout=subprocess.DEVNULL)
    last: dict[int, int] = {}
    while run.poll() is None:
        try:
            for thread in os.listdir(f"/proc/{run.pid}/task"):
                with open(f"/proc/{run.pid}/task/{thread}/stat", encoding="ascii") as file:
                    fields = file.read().rsplit(")", 1)[1].split()
                last[int(thread)] = int(fields[11]) + int(fields[12])
        except OSError:
            pass
        time.sleep(0.005)
    whole = sum(last.values())
    own = last.get(run.pid, 0)
    if whole:
        row("  processor time of workers, %", 100 * (whole - own) / whole)


def instructions_by_default(bench: Bench, name: str, text: bytes) -> None:
    """How many instructions the program takes by default, and how many on one thread. Unlike processor time they do not
    depend on what else keeps the processors and their memory busy. Without valgrind they are not counted."""
    if shutil.which("valgrind") is None:
        return
    words = [bench.put("in.score", text), os.devnull]
    by_default, alone = counted(bench, words), counted(bench, [*words, "--workers", "0"])
    row("  instructions, millions", by_default / 1e6, alone / 1e6, by_default / alone)
    bench.aim(f"{name}, by default, instructions to 0 workers", [by_default / alone], MOST_INSTRUCTIONS)


def counted(bench: Bench, words: Sequence[str]) -> float:
    """How many instructions a run of the program takes, in all of its threads."""
    command = ["valgrind", "--tool=callgrind", "--fair-sched=yes", f"--callgrind-out-file={os.devnull}", bench.program, *words]
    said = subprocess.run(command, stdout=subprocess.DEVNULL, stderr=subprocess.PIPE, check=True).stderr
    found = re.search(rb"refs: +([0-9,]+)", said)
    if found is None:
        wrong("valgrind counts no instructions")
    return float(found[1].replace(b",", b""))


def quanta(bench: Bench, text: bytes) -> None:
    """How many quanta with an event the workers and the conductor made, and how much of the events the workers
    computed, in one run on record: its lock makes it slower, and workers get less of it."""
    bench.play(text, ["--record"])
    record = recording.parts(harness.content(bench.out))
    if record is None:
        wrong("what was recorded is no record")
    counts, computed = [0, 0], [0, 0]
    for step in recording.steps(record.steps):
        if step.kind == "Give":
            fields = dict(step.fields)
            is_worker = fields["seat"] > 0
            counts[is_worker] += fields["computed"] > 0
            computed[is_worker] += fields["computed"]
    row("  on record: quanta of workers", counts[1])
    row("  on record: of the conductor", counts[0])
    row("  on record: events by workers, %", 100 * computed[1] / max(1, sum(computed)))
