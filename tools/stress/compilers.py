"""Runs the program as both compilers build it, on the same words and inputs, and compares every byte, line and status.

The proof is of the source; each compiler makes a program of it that no proof covers. Compared are all examples and all runs
of scripts/examples --part options, N texts of scripts/stress fuzz, each in one of its four ways and with words at random,
N recorded runs with their audits, and large scores. A record says which thread came first, so no two are the same: each
program audits both records. A run that does not end in 600 seconds differs from any. Every half minute it prints on
standard error how far it is, and at the end the processor time of both. The other program is what `rt ci` leaves beside
the proved one, with `.by-rattle` behind its name."""

from __future__ import annotations

import argparse
import glob
import hashlib
import os
import random
import resource
import subprocess
import sys
import tempfile
import time
from collections import Counter
from collections.abc import Callable, Sequence
from typing import Any, Optional

import harness
from bent import Texts
from fuzz import WAYS
from harness import TOP, held
from jobs import Jobs, Lost, Told

RECORDED = (("--rounds",), ("--workers", "1"), ("--workers", "3", "--room", "1", "--lead", "0"), ("--workers", "16"))
# After so many seconds a run counts as one that does not end.
LONGEST = 600
# The status of such a run.
NO_END = -1000
# Status and outputs of a run, and what it left in OUT.
End = tuple[int, bytes, bytes, Optional[bytes]]
Task = tuple[Any, ...]


def put(path: str, data: Optional[bytes]) -> None:
    """Writes a file, or removes it if there is to be none."""
    if data is not None:
        with open(path, "wb") as file:
            file.write(data)
    elif os.path.isfile(path):
        os.remove(path)


class Both:
    """The two programs, and how they differ."""

    def __init__(self, programs: Sequence[str], folder: str):
        self.programs, self.given, self.out = programs, os.path.join(folder, "in"), os.path.join(folder, "out")
        self.begin()

    def begin(self) -> None:
        """Nothing was run yet."""
        self.counts: Counter[str] = Counter()
        self.differ: list[str] = []
        self.seconds = [0.0, 0.0]

    def ends(self, side: int, words: Sequence[str]) -> End:
        """Status and outputs of a run, and what it left in OUT, which held nothing before."""
        put(self.out, None)
        before = resource.getrusage(resource.RUSAGE_CHILDREN)
        try:
            done = subprocess.run([self.programs[side], *words], stdin=subprocess.DEVNULL, stdout=subprocess.PIPE,
                                  stderr=subprocess.PIPE, timeout=LONGEST, check=False)
            end = done.returncode, done.stdout, done.stderr, held(self.out)
        except subprocess.TimeoutExpired:
            self.differ.append(f"no end after {LONGEST} seconds: {self.programs[side]} {' '.join(words)}")
            end = NO_END, b"", b"", None
        after = resource.getrusage(resource.RUSAGE_CHILDREN)
        self.seconds[side] += after.ru_utime + after.ru_stime - before.ru_utime - before.ru_stime
        return end

    def compare(self, what: str, name: str, words: Sequence[str], data: Optional[bytes] = None) -> End:
        """Both end in the same way on these words; IN holds the data."""
        if data is not None:
            put(self.given, data)
        ends = [self.ends(side, words) for side in (0, 1)]
        self.counts[what] += 1
        if ends[0] != ends[1]:
            self.differ.append(f"{what}: {name} {' '.join(words[2:])}: {described(ends[0])} in place of {described(ends[1])}")
        return ends[0]

    def text(self, number: int, text: bytes, draw: random.Random) -> None:
        """Both play a text, as it is and with words at random."""
        self.compare("texts", f"text {number}", [self.given, self.out, *draw.choice(WAYS)], text)
        words = [self.given, self.out]
        for _ in range(draw.randrange(1, 4)):
            option = draw.choice(OPTIONS)
            value = str(draw.choice((0, 1, 2, 7, 16, 17, 64, 65, 480, 1_000_000, 1_000_001, "+5", "x", "")))
            words += [f"{option}={value}"] if draw.randrange(3) == 0 else [option]
            if option not in ("--rounds", "--list", "--parts", "--audit") and draw.randrange(3):
                words.append(value)
        self.compare("texts with words at random", f"text {number}", words, text)

    def recorded(self, score: str, way: int) -> None:
        """Both record a run, and each audits both records."""
        words = [score, self.out, "--record", *RECORDED[way]]
        ends = [self.ends(side, words) for side in (0, 1)]
        name = f"{os.path.relpath(score, TOP)} {' '.join(RECORDED[way])}"
        self.counts["records"] += 1
        # which thread comes first decides what is recorded
        if ends[0][:3] != ends[1][:3]:
            self.differ.append(f"records: {name}: {described(ends[0])} in place of {described(ends[1])}")
        for _, _, _, record in ends:
            audit = self.compare("audits", name, [self.given, self.out, "--audit"], record or b"")
            if audit[0] != 0:
                self.differ.append(f"audits: {name}: status {audit[0]}")


OPTIONS = ("--workers", "--lead", "--room", "--rounds", "--list", "--parts", "--audit", "--locate", "--process", "--from",
           "--to", "--rooms", "--", "-", "")


def described(end: End) -> str:
    """How a run ended, in words."""
    status, said, complaint, out = end
    file = "no OUT" if out is None else f"OUT of {len(out)} bytes, {hashlib.sha256(out).hexdigest()[:8]}"
    return f"status {status}, {said[:80]!r}, {complaint[:80]!r}, {file}"


# ---- what each process does

Answer = tuple[Counter[str], list[str], list[float]]


def begin(programs: Sequence[str], folder: str) -> Callable[[Task], Answer]:
    """Makes what a process does with each of its tasks."""
    both, texts = Both(programs, tempfile.mkdtemp(dir=folder)), Texts(0)

    def answer(task: Task) -> Answer:
        kind, *words = task
        both.begin()
        if kind == "text":
            text, draw = texts.text(words[0])
            both.text(words[0], text, draw)
        elif kind == "score":
            for way in WAYS:
                both.compare("examples", os.path.relpath(words[0], TOP), [words[0], both.out, *way])
        elif kind == "record":
            both.recorded(*words)
        else:
            end = both.compare("large scores", f"number {words[0]}", ["none", both.out, "--generate", str(words[0])])
            if end[0] != 0:
                both.differ.append(f"large scores: number {words[0]}: status {end[0]}")
        return both.counts, both.differ, both.seconds

    return answer


# ---- scripts/examples --part options, which is given one program that is both

SHIM = """#!{python} -IS
import os, subprocess, sys
PROGRAMS, LOG = {programs!r}, {log!r}
words = sys.argv[1:]
given = sys.stdin.buffer.read() if "/dev/stdin" in words else None
files = [word for word in words if os.path.isabs(word) and not word.startswith("/dev/")]
before = {{name: open(name, "rb").read() if os.path.isfile(name) else None for name in files if not os.path.isdir(name)}}
def put(name, data):
    # what did not change is not written again: inputs are files of the checkout, which others may read
    if data == (open(name, "rb").read() if os.path.isfile(name) else None):
        return
    if data is not None:
        open(name, "wb").write(data)
    else:
        os.remove(name)
ends = []
for program in reversed(PROGRAMS):
    for name, data in before.items():
        put(name, data)
    done = subprocess.run([program, *words], input=given or b"", capture_output=True, timeout={longest})
    after = {{name: open(name, "rb").read() if os.path.isfile(name) else None for name in before}}
    ends.append((done.returncode, done.stdout, done.stderr, after))
# no two records are the same
told = 1 if "/dev/stdout" in words else 3
same = ends[0] == ends[1] or "--record" in words and ends[0][:told] == ends[1][:told]
with open(LOG, "a") as log:
    log.write(("same" if same else "differs: " + " ".join(words)) + "\\n")
sys.stdout.buffer.write(ends[1][1])
sys.stderr.buffer.write(ends[1][2])
sys.exit(ends[1][0])
"""


def options(programs: Sequence[str], folder: str, counts: Counter[str]) -> list[str]:
    """Each run of scripts/examples --part options is made by both programs."""
    shim, log = os.path.join(folder, "both"), os.path.join(folder, "log")
    with open(shim, "w", encoding="utf-8") as file:
        file.write(SHIM.format(python=sys.executable, programs=programs, log=log, longest=LONGEST))
    os.chmod(shim, 0o755)
    words = [os.path.join(TOP, "scripts", "examples"), "--program", shim, "--part", "options"]
    done = subprocess.run(words, stdin=subprocess.DEVNULL, stdout=subprocess.PIPE, text=True, check=False)
    with open(log, encoding="utf-8") as file:
        lines = file.read().splitlines()
    counts["runs of options"] += len(lines)
    differ = [f"options: {line}" for line in lines if line != "same"]
    return differ if done.returncode == 0 else [*differ, f"options: {done.stdout.splitlines()[-1:]}"]


def tasks_of(asked: argparse.Namespace) -> list[Task]:
    """All that is run but the options."""
    scores = sorted(glob.glob(os.path.join(TOP, "examples", "**", "*.score"), recursive=True))
    played = [path for path in scores if "/refused/" not in path and "/long/" not in path]
    tasks: list[Task] = [("large", number) for number in asked.large]
    tasks += [("score", path) for path in scores]
    tasks += [("record", played[number % len(played)], number // len(played) % len(RECORDED))
              for number in range(asked.records)]
    tasks += [("text", number) for number in range(asked.first, asked.first + asked.texts)]
    return tasks


def arguments(parser: argparse.ArgumentParser) -> None:
    """What the verb takes."""
    parser.add_argument("--other", metavar="FILE", help="the program as the toolchain's own compiler builds it")
    parser.add_argument("--texts", type=int, default=20_000, help="how many texts, else 20,000")
    parser.add_argument("--first", type=int, default=0, help="the number of the first one")
    parser.add_argument("--records", type=int, default=300, help="how many recorded runs, else 300")
    parser.add_argument("--large", type=int, nargs="*", default=[124], help="the numbers of the large scores, else 124")
    parser.add_argument("--no-options", action="store_true", help="leaves the runs of options out")
    parser.add_argument("--jobs", type=int, default=os.cpu_count() or 1, help="how many at a time")


def run(program: str, asked: argparse.Namespace) -> harness.Count:
    """Compares both programs."""
    programs = [program, harness.find(asked.other or f"{program}.by-rattle")]
    tasks, start = tasks_of(asked), time.time()
    counts: Counter[str] = Counter()
    count, seconds, large = harness.Count(), [0.0, 0.0], [0.0, 0.0]
    progress = Told("compilers", len(tasks))
    with tempfile.TemporaryDirectory() as folder:
        # a task has at most ten runs
        jobs: Jobs[Task, Answer] = Jobs(asked.jobs, 11.0 * LONGEST, begin, programs, folder)
        for task, answer in jobs.done(tasks):
            if isinstance(answer, Lost):
                answer = Counter(), [f"{task}: {answer.reason}"], [0.0, 0.0]
            found, wrong, spent = answer
            counts.update(found)
            for side in (0, 1):
                (large if task[0] == "large" else seconds)[side] += spent[side]
            for line in wrong:
                count.judge(*line.split(": ", 1))
            progress.count_one(count.failed)
        if not asked.no_options and not jobs.interrupted:
            print("compilers: the runs of options", file=sys.stderr, flush=True)
            for line in options(programs, folder, counts):
                count.judge(*line.split(": ", 1))
    for what in sorted(counts):
        print(f"{what}: {counts[what]}")
    print(f"processor seconds: {seconds[0]:.1f} and {seconds[1]:.1f}, of the large scores {large[0]:.1f} and {large[1]:.1f}")
    print(f"{sum(counts.values())} runs by both in {time.time() - start:.0f} seconds")
    count.passed = sum(counts.values()) - count.failed
    return count
