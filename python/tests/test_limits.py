"""The library judges a score as the command does: what is just within a limit plays, and what is just past it is
refused by both."""

from __future__ import annotations

import re
import unittest
from typing import Callable

from formula_score import (
    Music, Score, ScoreError, accents, channel, dynamics, note, par, pause, phrase, repeat, rest, seq, tempo, ticks,
    warp,
)
from formula_score.making.music import body_of
from formula_score.running.score import text_of

from .program import needs_program, run

QUARTER = note("c4", "1/4")


def nested(depth: int, block: Callable[[Music], Music], inner: Music = QUARTER) -> Music:
    for _ in range(depth):
        inner = block(inner)
    return inner


def lists(depth: int) -> Music:
    """Loops and lists in turn."""
    inner: Music = QUARTER
    for at in range(depth):
        inner = accents([64], inner) if at % 2 else repeat(1, inner)
    return inner


def phrases(depth: int) -> Music:
    inner: Music = QUARTER
    for at in range(depth):
        inner = phrase(f"phrase_{at}", inner)
    return inner


def operations(count: int) -> Music:
    """So many in all, with that of the end, by phrases that are played again and again; the text stays short."""
    thousand = phrase("thousand", *[rest(ticks(1))] * 999)  # with its do it is 1,000
    return seq(*[thousand] * ((count - 1) // 1000), *[rest(ticks(1))] * ((count - 1) % 1000))


# What is nested, the fault's number, music by its depth, the greatest depth that is within, how the text of its body
# begins, and what makes it one deeper.
NESTED: tuple[tuple[str, int, Callable[[int], Music], int, str, str], ...] = (
    ("warps", 12, lambda count: nested(count, lambda inner: tempo(90, inner)), 8, "warp", "warp shape_1"),
    ("loops and lists", 12, lists, 16, "loud", "repeat 1"),
    ("blocks, as phrases", 12, phrases, 64, "do", "channel 1"),
    ("braces", 4, lambda count: nested(count, lambda inner: dynamics("p", inner)), 64, "volume", "volume 49"),
    ("braces of a par", 4, lambda count: nested(count, lambda inner: channel(1, inner), par(QUARTER)), 62, "channel",
     "channel 1"),
)
# What is counted, the fault's number, music by its size, and the greatest size that is within.
ROWS: tuple[tuple[str, int, Callable[[int], Music], int], ...] = (
    ("processes", 13, lambda count: repeat(count, par(QUARTER)), 2047),
    ("operations", 14, operations, 262_144),
    ("ticks", 15, lambda count: seq(repeat(1_000_000, repeat(1, rest(ticks(1_000_000)))),
                                repeat(99_511, rest(ticks(1_000_000))), rest(ticks(count))), 627_776),
    ("ticks in a warp", 15, lambda count: warp([pause(0)], repeat(1_000_000, rest(ticks(1_000_000))),
                                           repeat(99_511, rest(ticks(1_000_000))), rest(ticks(count))), 627_776),
    # a loop of 1,000,000 rounds of two notes has 4,000,000 events; one more is too many
    ("events", 16, lambda count: seq(repeat(1_000_000, note(["c4", "e4"], ticks(1))), *[QUARTER] * count), 0),
    # 2 for the loop and 17 a round, and 1 for the end: with 15 more they are 16,777,216
    ("steps", 17, lambda count: seq(repeat(986_894, *[rest(ticks(1))] * 16), *[rest(ticks(1))] * count), 15),
)
# Within these limits a score plays for long.
NOT_PLAYED = ("events", "steps")


class Limits(unittest.TestCase):
    @needs_program
    def test_both_judge_alike(self) -> None:
        for what, number, music, most in ROWS:
            within, past = music(most), music(most + 1)
            text = Score(within).text
            if what not in NOT_PLAYED:
                self.assertEqual(run(text)[:2], (0, ""), what)
            with self.assertRaises(ScoreError, msg=what):
                Score(past)
            status, said, _ = run(text_of(body_of([past])))
            self.assertEqual((status, said.split()[-1]), (3, str(number)), f"{what}: {said}")

    @needs_program
    def test_both_judge_depths_alike(self) -> None:
        for what, number, music, most, begin, head in NESTED:
            text = Score(music(most)).text
            self.assertEqual(run(text)[:2], (0, ""), what)
            self.assertRaisesRegex(ScoreError, "^at most (8|16|64) ", music, most + 1)
            definitions, body = re.split(rf"(?<=\n)(?={begin})", text, maxsplit=1)
            status, said, _ = run(f"{definitions}{head} {{ {body} }}")
            self.assertEqual((status, said.split()[-1]), (3, str(number)), f"{what}: {said}")


if __name__ == "__main__":
    unittest.main()
