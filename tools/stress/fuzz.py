"""Bends the examples and throws tokens together, plays each text in four ways and once amid trouble.

The four ways are one thread, rounds, free threads by default, and 16 free threads with room 1 and no lead: all have to end
in the same way. Trouble is one of: words at random, no IN, OUT a folder, OUT that may not grow, a closed standard output,
little memory; each has to end as formula(1) says. A text is the same for the same seed and number, whatever else is
tried. Texts that fail are kept in FOLDER (else in fuzz_failed). At the end it prints how often each status came."""

from __future__ import annotations

import argparse
import collections
import multiprocessing
import os
import pathlib
import random
import re
import resource
import signal
import subprocess
import tempfile
from typing import Callable, ClassVar, NamedTuple, Optional, Sequence

import harness
from bent import Texts
from formula_score.explaining import words as command_line

WAYS: tuple[list[str], ...] = (
    ["--workers", "0"],
    ["--rounds"],
    [],
    ["--room", "1", "--lead", "0", "--workers", "16"],
)
#: After so many seconds a run counts as one that does not end.
LONGEST = 600
EARLIER = b"what stood in OUT before"
REFUSED = re.compile(rb"formula: score refused: ([0-9]+):([0-9]+) fault ([0-9]+)\n")
LINES = {
    1: b"formula: words refused\n",
    2: b"formula: read fault\n",
    4: b"formula: write fault\n",
    6: b"formula: out of memory\n",
}


class Ended(NamedTuple):
    """How a run ended: its status, what it printed on both outputs, and OUT."""

    status: int
    said: bytes
    out: bytes


# ---- runs

class Runs:
    """Runs of the program in a folder of their own."""

    def __init__(self, program: str, folder: str):
        self.runs = harness.Runs(program, folder)
        self.score, self.out = self.runs.path("in.score"), self.runs.out
        self.absent, self.folder = self.runs.path("absent"), self.runs.path("folder")
        os.mkdir(self.folder)

    def run(self, words: Sequence[str], limits: Sequence[tuple[int, int]] = (), closed: bool = False) -> Ended:
        """The command with these words, and what stands in OUT then; before, an older file does."""
        self.runs.put("out", EARLIER)

        def prepare() -> None:
            for what, most in limits:
                resource.setrlimit(what, (most, most))
            if limits:
                signal.signal(signal.SIGXFSZ, signal.SIG_IGN)
            if closed:
                os.close(1)

        ran = self.runs.run(words, before=prepare if limits or closed else None, timeout=LONGEST)
        return Ended(ran.status, ran.said + ran.complained, ran.out or b"")


def is_file(out: bytes) -> bool:
    """Whether these bytes are a file whose track has its length."""
    track = len(out) - 22
    return track >= 0 and out[:8] == b"MThd\0\0\0\6" and out[14:22] == b"MTrk" + track.to_bytes(4, "big") \
        and out[-3:] == b"\xff\x2f\0"


def has_place(text: bytes, line: int, column: int) -> bool:
    """Whether a place is one of a text, or directly behind it."""
    lines = text.split(b"\n")
    return 1 <= line <= len(lines) and 1 <= column <= len(lines[line - 1]) + 1


def wrong_alone(text: bytes, ended: Ended) -> Optional[str]:
    """What is wrong with a run of which nothing stands in the way."""
    if ended.status == 0:
        if ended.said or not is_file(ended.out):
            return "status 0, but a line, or no whole file"
    elif ended.status == 3:
        found = REFUSED.fullmatch(ended.said)
        if not found or ended.out != EARLIER:
            return "status 3, but another line, or OUT was touched"
        line, column, fault = (int(word) for word in found.groups())
        if not 1 <= fault <= 18 or not has_place(text, line, column):
            return "status 3, but no fault of this text"
    else:
        return "neither played nor refused"
    return None


# ---- trouble: each gives what is wrong, and the status

Verdict = tuple[Optional[str], Optional[int]]


def words_at_random(runs: Runs, draw: random.Random, alone: Ended) -> Verdict:
    """Words that may be refused."""
    words = [runs.score, runs.out]
    for _ in range(draw.randrange(4)):
        option = draw.choice(("--workers", "--lead", "--room", "--rounds", "--rooms", "--", "-", ""))
        number = str(draw.choice((0, 1, 2, 16, 17, 64, 65, 1_000_000, 1_000_001, "007", "+5", "5_0", "x", "")))
        words.append(option + "=" + number if draw.randrange(3) == 0 else option)
        if option != "--rounds" and draw.randrange(3):
            words.append(number)
    draw.shuffle(words)
    read = command_line.read(words)
    if not read.wrong and read.files != (runs.score, runs.out):
        return None, None
    ended = runs.run(words)
    wanted = Ended(1, LINES[1], EARLIER) if read.wrong else alone
    return (None if ended == wanted else f"words {words[2:]}"), ended.status


def no_in(runs: Runs, draw: random.Random, alone: Ended) -> Verdict:
    """IN is not there."""
    ended = runs.run([runs.absent, runs.out] + draw.choice(WAYS))
    return (None if ended == Ended(2, LINES[2], EARLIER) else "no IN"), ended.status


def out_a_folder(runs: Runs, draw: random.Random, alone: Ended) -> Verdict:
    """OUT cannot be opened."""
    ended = runs.run([runs.score, runs.folder] + draw.choice(WAYS))
    wanted = Ended(4, LINES[4], EARLIER) if alone.status == 0 else alone
    return (None if ended == wanted else "OUT is a folder"), ended.status


def out_that_may_not_grow(runs: Runs, draw: random.Random, alone: Ended) -> Verdict:
    """OUT may have so many bytes and no more."""
    most = draw.randrange(len(alone.out) + 20)
    ended = runs.run([runs.score, runs.out] + draw.choice(WAYS), [(resource.RLIMIT_FSIZE, most)])
    wanted = alone
    if alone.status == 0 and most < len(alone.out):
        blank = alone.out[:18] + bytes(4) + alone.out[22:]
        wanted = Ended(4, LINES[4], blank[:most])
    return (None if ended == wanted else f"OUT may have {most} bytes"), ended.status


def closed_output(runs: Runs, draw: random.Random, alone: Ended) -> Verdict:
    """Standard output is closed."""
    ended = runs.run([runs.score, runs.out] + draw.choice(WAYS), closed=True)
    wanted = alone if alone.status == 0 else Ended(5, b"", EARLIER)
    return (None if ended == wanted else "standard output is closed"), ended.status


def little_memory(runs: Runs, draw: random.Random, alone: Ended) -> Verdict:
    """The program may have so much memory and no more."""
    most = 1024 * draw.randrange(*draw.choice(((2_900, 4_000), (4_000, 20_000), (20_000, 80_000))))
    ended = runs.run([runs.score, runs.out] + draw.choice(WAYS), [(resource.RLIMIT_AS, most)])
    # The loader found no memory for the program, its libraries or its first thread.
    if ended.status == 127 and (b"shared libraries" in ended.said or b"TLS" in ended.said):
        return None, None
    # Where not even the words find memory, no line is printed.
    ways = (alone, Ended(6, LINES[6], EARLIER), Ended(6, b"", EARLIER))
    return (None if ended in ways else f"{most} bytes of memory"), ended.status


TROUBLES: tuple[Callable[[Runs, random.Random, Ended], Verdict], ...] = (
    words_at_random, no_in, out_a_folder, out_that_may_not_grow, closed_output, little_memory)


# ---- all of them

def tried(runs: Runs, text: bytes, draw: random.Random) -> tuple[list[str], list[int]]:
    """What went wrong with a text, and the statuses that came."""
    runs.runs.put("in.score", text)
    wrongs: list[str] = []
    statuses: list[int] = []
    try:
        alone = runs.run([runs.score, runs.out] + WAYS[0])
        statuses.append(alone.status)
        wrong = wrong_alone(text, alone)
        if wrong:
            wrongs.append(wrong)
        for way in WAYS[1:]:
            ended = runs.run([runs.score, runs.out] + way)
            statuses.append(ended.status)
            if ended != alone:
                wrongs.append(f"{' '.join(way) or 'free threads'} differs")
        wrong, status = draw.choice(TROUBLES)(runs, draw, alone)
        if status is not None:
            statuses.append(status)
        if wrong:
            wrongs.append(f"{wrong}: status {status}")
    except subprocess.TimeoutExpired as expired:
        wrongs.append(f"no end after {LONGEST} seconds: {expired.cmd[3:]}")
    return wrongs, statuses


class Tries:
    """Each process that tries texts has one of these."""

    current: ClassVar[Tries]

    def __init__(self, program: str, seed: int, folder: str):
        self.texts = Texts(seed)
        self.runs = Runs(program, tempfile.mkdtemp(dir=folder))

    @staticmethod
    def begin(program: str, seed: int, folder: str) -> None:
        """Makes that of this process."""
        Tries.current = Tries(program, seed, folder)

    @staticmethod
    def try_text(number: int) -> tuple[int, bytes, tuple[list[str], list[int]]]:
        """Tries the text of a number."""
        text, draw = Tries.current.texts.text(number)
        return number, text, tried(Tries.current.runs, text, draw)


def arguments(parser: argparse.ArgumentParser) -> None:
    """What the verb takes."""
    parser.add_argument("--texts", type=int, default=20_000, help="how many texts, else 20,000")
    parser.add_argument("--first", type=int, default=0, help="the number of the first one")
    parser.add_argument("--seed", type=int, default=0, help="what the texts are drawn from")
    parser.add_argument("--jobs", type=int, default=os.cpu_count() or 1, help="how many at a time")
    parser.add_argument("--keep", metavar="FOLDER", default="fuzz_failed", help="where texts that fail are kept")


def run(program: str, asked: argparse.Namespace) -> harness.Count:
    """Tries so many texts."""
    statuses, count = collections.Counter[int](), harness.Count()
    numbers = range(asked.first, asked.first + asked.texts)
    with tempfile.TemporaryDirectory() as folder:
        with multiprocessing.Pool(asked.jobs, Tries.begin, (program, asked.seed, folder)) as pool:
            for number, text, (wrongs, found) in pool.imap(Tries.try_text, numbers, 8):
                statuses.update(found)
                kept = pathlib.Path(asked.keep, f"{asked.seed}_{number}.score")
                if not count.judge(str(kept), wrongs):
                    kept.parent.mkdir(parents=True, exist_ok=True)
                    kept.write_bytes(text)
    for status in sorted(statuses):
        print(f"status {status}: {statuses[status]} runs")
    return count
