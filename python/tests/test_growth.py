"""Foretelling events takes time in step with how many there are."""

from __future__ import annotations

import pickle
import time
import unittest
from typing import Callable

from formula_score import Music, Score, ScoreError, breath, flat, gate, note, repeat, seq, slope, warp
from formula_score.making.nodes import Seq


def seconds(score: Score) -> float:
    """The least processor time of three."""
    times = []
    for _ in range(3):
        begin = time.process_time()
        score.events()
        times.append(time.process_time() - begin)
    return min(times)


class Growth(unittest.TestCase):
    def test_sixteen_times_the_notes_take_sixteen_times_the_time(self) -> None:
        quarter = note("c4", "1/4")
        shape = [flat("1/4", 900), slope("1/4", 1000, 900), breath("1/8")] * 80
        rows: tuple[tuple[str, Callable[[int], Music]], ...] = (
            ("plain", lambda count: repeat(count, quarter)),
            ("overlapping", lambda count: gate(400, repeat(count, quarter))),
            ("deformed", lambda count: repeat(count // 160, warp(shape, repeat(160, quarter)))),
        )
        for name, music in rows:
            few, long = (seconds(Score(music(count))) for count in (1_600, 25_600))
            self.assertLess(long, 40 * few + 0.1, name)

    def test_a_seq_that_grows_in_a_loop_is_linear_and_has_a_limit(self) -> None:
        quarter = note("c4", "1/4")

        def grown(rounds: int) -> float:
            begin, tune = time.process_time(), seq()
            for _ in range(rounds):
                tune = seq(tune, quarter)
            self.assertEqual(len(tune.body), rounds)
            return time.process_time() - begin

        few = min(grown(1_000) for _ in range(3))
        self.assertLess(grown(32_000), 64 * few + 0.1)
        doubled = quarter + quarter
        for _ in range(17):
            doubled = seq(doubled, doubled)
        self.assertEqual((len(doubled.body), doubled), (262_144, pickle.loads(pickle.dumps(doubled))))
        self.assertRaisesRegex(ScoreError, "at most 262,144 operations", seq, doubled, quarter)
        self.assertRaisesRegex(ScoreError, "more than 262,144", Seq, [quarter] * 262_145)


if __name__ == "__main__":
    unittest.main()
