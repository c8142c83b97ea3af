"""Runs that are measured, the rows that show them, and the aims: for scripts/bench."""

from __future__ import annotations

import os
import pathlib
import statistics
import subprocess
import sys
from typing import Callable, NamedTuple, NoReturn, Optional, Sequence, Union

import texts

HERE = pathlib.Path(__file__).resolve().parent

#: After so many seconds of runs, the best so far counts.
LONG = 12
#: So many turns of two commands for each run that is asked for.
TURNS = 5

COLUMNS = "{:<34}{:>10}" + 6 * "{:>10}"

Cell = Union[float, str]


class Figures(NamedTuple):
    """Times in milliseconds, memory in KiB, and the status of a run."""

    wall: float
    cpu: float
    peak: float
    status: int


class Turns(NamedTuple):
    """The best figures of two commands that run by turns, and the medians of their ratios."""

    first: Figures
    second: Figures
    wall: float
    cpu: float


class Growth(NamedTuple):
    """The best figures of a large and of a small text, and the median of their ratios of processor time."""

    large: Figures
    small: Figures
    ratio: float


def wrong(problem: str) -> NoReturn:
    """Ends the script, whose figures would say nothing."""
    sys.exit(f"bench: {problem}")


def least(runs: Sequence[Figures]) -> Figures:
    """The least of each figure over runs of one status."""
    return Figures(min(run.wall for run in runs), min(run.cpu for run in runs), min(run.peak for run in runs),
                   max(run.status for run in runs))


def compiled(source: str, target: str, *options: str) -> str:
    """Compiles a program of this folder, and returns its name."""
    subprocess.run(["cc", "-O2", *options, "-o", target, str(HERE / source)], check=True)
    return target


class Bench:
    """Runs of the program in a folder, and how the figures meet the aims."""

    def __init__(self, program: str, runs: int, folder: str, before: Optional[str] = None):
        self.program, self.runs, self.folder, self.before = program, runs, folder, before
        self.aims: list[str] = []
        self.out = self.path("out.mid")
        self.nowhere = self.path("folder")
        os.mkdir(self.nowhere)
        for name in ("floor", "timed", "list"):
            compiled(f"{name}.c", self.path(name))
        self.generates = self.run(["none", self.out, "--generate", "0"]).status == 0

    def path(self, name: str) -> str:
        """A name in the folder."""
        return os.path.join(self.folder, name)

    def put(self, name: str, data: bytes) -> str:
        """Writes a file in the folder, and returns its name."""
        pathlib.Path(self.path(name)).write_bytes(data)
        return self.path(name)

    def measured(self, words: Sequence[str]) -> list[float]:
        """The last line of a measuring program as numbers."""
        done = subprocess.run(words, stdout=subprocess.PIPE, check=True)
        return [float(word) for word in done.stdout.split()]

    def figures(self, words: Sequence[str]) -> Figures:
        """The figures of a run that `timed` measures."""
        wall, cpu, peak, status = self.measured(words)
        return Figures(wall / 1000, cpu / 1000, peak, int(status))

    def run(self, words: Sequence[str], program: Optional[str] = None) -> Figures:
        """The figures of a run of the program, or of another one."""
        return self.figures([self.path("timed"), program or self.program, *words])

    def best(self, once: Callable[[], Figures]) -> Figures:
        """The least of each figure over the runs."""
        kept: list[Figures] = []
        spent = 0.0
        while len(kept) < self.runs and spent < 1000 * LONG:
            kept.append(once())
            spent += kept[-1].wall
        return least(kept)

    def by_turns(self, first: Sequence[str], second: Sequence[str], wanted: int = 0) -> Turns:
        """Runs the program with one list of words and with another by turns."""
        return self.turns(lambda: self.run(first), lambda: self.run(second), f"{first}, {second}", wanted)

    def and_before(self, text: bytes, options: Sequence[str], out: Optional[str] = None, wanted: int = 0) -> Turns:
        """Plays a text with the program and with the one before it by turns."""
        words = [self.put("in.score", text), out or self.out, *options]
        return self.turns(lambda: self.run(words), lambda: self.run(words, self.before), str(words), wanted)

    def turns(self, first: Callable[[], Figures], second: Callable[[], Figures], what: str, wanted: int) -> Turns:
        """Makes two runs by turns. Those of a turn meet the same speed of the host, so the ratios are those of turns."""
        turns: list[tuple[Figures, Figures]] = []
        spent = 0.0
        while len(turns) < TURNS * self.runs and spent < 1000 * LONG:
            turns.append((first(), second()))
            spent += sum(figures.wall for figures in turns[-1])
        if any(figures.status != wanted for turn in turns for figures in turn):
            wrong(f"not the status {wanted}: {what}")
        return Turns(least([turn[0] for turn in turns]), least([turn[1] for turn in turns]),
                     statistics.median(ours.wall / theirs.wall for ours, theirs in turns),
                     statistics.median(ours.cpu / theirs.cpu for ours, theirs in turns))

    def growth(self, large: bytes, small: bytes, options: Sequence[str], out: Optional[str] = None, wanted: int = 0) -> Growth:
        """Plays a large and a small text by turns."""
        words = [[self.put(name, text), out or self.out, *options]
                 for name, text in (("large.score", large), ("small.score", small))]
        turns = self.by_turns(words[0], words[1], wanted)
        return Growth(turns.first, turns.second, turns.cpu)

    def play(self, text: bytes, options: Sequence[str], out: Optional[str] = None, wanted: int = 0) -> Figures:
        """Plays a text; the answer has to be the wanted status."""
        return self.wanted([self.put("in.score", text), out or self.out, *options], wanted)

    def wanted(self, words: Sequence[str], wanted: int) -> Figures:
        """The best figures on these words; the answer has to be the wanted status."""
        figures = self.best(lambda: self.run(words))
        if figures.status != wanted:
            wrong(f"status {figures.status} in place of {wanted}: {words}")
        return figures

    def generate(self, number: int, options: Sequence[str], out: Optional[str] = None) -> Figures:
        """Plays the large score of this number."""
        if not self.generates:
            return self.play(texts.generated(number), options, out)
        return self.wanted(["none", out or self.out, "--generate", str(number), *options], 0)

    def floor(self) -> Figures:
        """The writes of the file that was just played."""
        again = self.path("again.mid")

        def once() -> Figures:
            wall, cpu, _ = self.measured([self.path("floor"), self.out, again])
            return Figures(wall / 1000, cpu / 1000, 0, 0)

        figures = self.best(once)
        if subprocess.run(["cmp", "-s", self.out, again], check=False).returncode != 0:
            wrong("the floor wrote another file")
        return figures

    def list_in_c(self, file: str) -> Figures:
        """The same listing by a plain program."""
        again = self.path("again.listing")
        words = [self.path("timed"), self.path("list"), file, again]
        figures = self.best(lambda: self.figures(words))
        if subprocess.run(["cmp", "-s", self.out, again], check=False).returncode != 0:
            wrong("the listing in C is another one")
        return figures

    def aim(self, what: str, values: Sequence[float], most: float, form: str = "{:.2f}") -> None:
        """Keeps whether the values are within the aim."""
        met = "met" if max(values) <= most else "MISSED"
        shown = " ".join(form.format(value) for value in values)
        self.aims.append(f"{what}, aim {most}: {shown}: {met}")


def row(name: str, *cells: Cell) -> None:
    """Prints a row of the table."""
    shown = [f"{cell:.2f}" if isinstance(cell, float) else f"{cell}" for cell in cells]
    print(COLUMNS.format(name, *(shown + [""] * (7 - len(shown)))).rstrip(), flush=True)


def head(name: str, *cells: str) -> None:
    """Prints the head of a part of the table."""
    print()
    row(name, *cells)
