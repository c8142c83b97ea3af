"""The time left that a build tells, tried on the times of a build that was measured."""

from __future__ import annotations

import pathlib
import random
import sys
import unittest
from typing import Mapping, NamedTuple

from .program import TOP

sys.path.insert(0, str(TOP / "tools" / "gate"))
import left  # noqa: E402
from crates import all_below, read_uses  # noqa: E402

PROGRAM = "fm_main"
#: From this crate on the time left is told within this part of the truth.
STEADY, WITHIN = 5, 0.25


class Row(NamedTuple):
    """A crate of the build: when it began and ended, its seconds on another machine, what it uses."""

    begun: float
    ended: float
    elsewhere: float
    below: list[str]


def read_rows() -> dict[str, Row]:
    """The crates of the build that was measured, in the order in which they are proved where processors are free."""
    rows: dict[str, Row] = {}
    for line in (pathlib.Path(__file__).parent / "build_times.txt").read_text(encoding="utf-8").splitlines():
        if not line.startswith("#"):
            name, begun, ended, _, elsewhere, *below = line.split()
            rows[name] = Row(float(begun), float(ended), float(elsewhere), below)
    return rows


ROWS = read_rows()
USES = {name: row.below for name, row in ROWS.items()}
ORDER = [*ROWS]
#: What each crate takes on this machine and on the other one.
HERE = {name: row.ended - row.begun for name, row in ROWS.items()}
ELSEWHERE = {name: row.elsewhere for name, row in ROWS.items()}


def another_build(seconds: Mapping[str, float], lanes: int) -> dict[str, float]:
    """When each crate is done on so many processors, where it takes so many seconds."""
    return {name: now for now, name in left.ends(USES, ORDER, lanes, lambda name: seconds[name])}


class Left(unittest.TestCase):
    def is_steady(self, ends: Mapping[str, float], table: Mapping[str, float], lanes: int, why: str) -> None:
        """From the fifth crate on the time that is told is near the one that is left."""
        forecast = left.Forecast(USES, ORDER, lanes, table, 0)
        last = max(ends.values())
        for name in sorted(set(ORDER) - {PROGRAM}, key=lambda crate: ends[crate]):
            now = ends[name]
            forecast.end(name, now)
            foretold = forecast.left(now)
            if len(forecast.done) >= STEADY:
                self.assertLessEqual(abs(foretold - (last - now)), WITHIN * (last - now),
                                     f"{why}: {foretold:.0f} s behind {name}, and {last - now:.0f} s were left")

    def test_a_build_is_foretold(self) -> None:
        ends = {name: row.ended for name, row in ROWS.items()}
        self.is_steady(ends, HERE, 4, "by its own seconds")
        self.is_steady(ends, ELSEWHERE, 4, "by those of another machine")

    def test_so_are_builds_on_other_machines(self) -> None:
        for lanes in 1, 2, 4, 8:
            for speed in 0.4, 3.0:
                for seed in range(3):
                    slips = random.Random(seed)
                    seconds = {name: HERE[name] * speed * slips.uniform(0.85, 1.2) for name in ROWS}
                    self.is_steady(another_build(seconds, lanes), HERE, lanes, f"{lanes} processors, {speed} times, seed {seed}")

    def test_what_was_kept_takes_no_time(self) -> None:
        forecast = left.Forecast(USES, ORDER, 4, HERE, 0)
        for name in ORDER:
            if name not in ("fm_top", PROGRAM):
                forecast.end(name, 1, is_proved=False)
        self.assertAlmostEqual(forecast.left(1), HERE["fm_top"] + HERE[PROGRAM])
        self.assertEqual(forecast.took, {})

    def test_the_table_has_each_crate_of_the_program(self) -> None:
        table = left.read_seconds(str(TOP / "tools" / "gate" / "seconds.txt"))
        self.assertEqual(set(table), {PROGRAM, *all_below(read_uses(str(TOP / "crates.txt")), PROGRAM)})


if __name__ == "__main__":
    unittest.main()
