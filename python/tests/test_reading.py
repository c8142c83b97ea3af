"""The reading that the companion's verbs share, against the program: each event and its tick, and what is located.

100 random scores; SCORES names another number. Where it is named the long examples are read, too.
"""

from __future__ import annotations

import os
import pathlib
import unittest
from fractions import Fraction
from typing import Optional

from .program import TOP, needs_program
from .random_texts import Texts

from formula_score.reading.playing import Failed, listing_of, located
from formula_score.reading.reader import read
from formula_score.reading.ticks import Spot, ticks_of
from formula_score.reading.walk import Happening, Level, Place, Played, Walk, parts_of, tick_of
from formula_score.making.expected import outside

SCORES = int(os.environ.get("SCORES", "100"))
LAST = 2 ** 40


def examples() -> list[pathlib.Path]:
    """The scores of all folders of examples."""
    left_out = ("refused",) if "SCORES" in os.environ else ("refused", "long")
    return [path for path in sorted(pathlib.Path(TOP, "examples").glob("*/*.score"))
            if path.parent.name not in left_out]


def positions(levels: tuple[Level, ...], tick: int) -> Optional[tuple[int, ...]]:
    """By the reading: the least position of each level that lies at what was found in the level above, or later."""
    found = []
    for level in parts_of(levels):
        if outside([level], LAST, True) < tick:
            return None
        low, high = 0, LAST
        while low < high:
            middle = (low + high) // 2
            low, high = (low, middle) if outside([level], middle, True) >= tick else (middle + 1, high)
        found.append(low)
        tick = low
    return tuple(found)


@needs_program
class Agreement(unittest.TestCase):
    def agrees(self, text: bytes, name: object, wholly: bool = True) -> None:
        """The events of a text; wholly, also what is located, and ticks that are asked for."""
        walk = Played(read(text))
        walk.run()
        listing = listing_of(text)
        self.assertEqual([(event.tick, event.message) for event in walk.events()],
                         [(event.tick, event.message) for event in listing.events if event.message[0] < 0xF0], name)
        last = len(walk.begun) - 1
        self.assertEqual(walk.tick_of_end(last), listing.end, name)
        known = walk.reading.length(walk.reading.statements)
        if known is not None:
            self.assertEqual(known, walk.ended[last].written, name)
        if not wholly:
            return
        process = max(range(len(walk.begun)), key=lambda number: len(walk.begun[number].levels))
        begun = walk.begun[process]
        tick = (tick_of(begun.levels, begun.position) + listing.end) // 2
        self.assertEqual(located(text, tick, process), positions(begun.levels, tick), (name, tick, process))
        chosen = walk.happenings[::1 + len(walk.happenings) // 40]
        spots = [Spot(happening.process, happening.levels, happening.position) for happening in chosen]
        self.assertEqual(ticks_of(walk.reading, spots),
                         [tick_of(happening.levels, happening.position) for happening in chosen], name)

    def test_every_example(self) -> None:
        for path in examples():
            self.agrees(path.read_bytes(), path.name)

    def test_random_scores(self) -> None:
        tried = seed = 0
        while tried < SCORES:
            text = Texts(seed).score()
            seed += 1
            try:
                self.agrees(text.encode(), f"{seed}: {text}", "SCORES" in os.environ or tried % 4 == 0)
                tried += 1
            except Failed as refused:
                self.assertEqual(refused.status, 3, refused.why)
        self.assertLess(seed, 2 * SCORES)


class Apart(unittest.TestCase):
    def test_the_reading_shares_no_line_with_the_model(self) -> None:
        def lines(path: pathlib.Path) -> set[str]:
            return {line.strip() for line in path.read_text().splitlines() if len(line.strip()) > 12} - {
                'if __name__ == "__main__":'}

        model = set[str]().union(*map(lines, (TOP / "tools" / "score_model").glob("*.py")))
        for path in sorted((TOP / "python" / "formula_score" / "reading").glob("*.py")):
            self.assertEqual(lines(path) & model, set(), path.name)


class Trees(unittest.TestCase):
    TEXT = b"""formula 2; division 96; seed 7;  # begin
# alone
shape rit = flat 1/1 by 1000, pause ticks 5, slope 1/2 by 1000 to 2000;
phrase tune { note c4, key (60 + r1 * 2) 1/4; rest ticks (pick(9)) max 8; }
repeat 2 {
  rhythm [1/4, 1/8] { play es4; skip; skip; }
} warp rit { do tune; }
"""

    def test_places_and_comments(self) -> None:
        reading = read(self.TEXT)
        self.assertEqual((reading.version, reading.division, reading.seed, reading.whole), (2, 96, 7, 384))
        self.assertEqual([(statement.word, statement.first.line, statement.first.column, statement.last.line, statement.last.column)
                          for statement in reading.every_statement()],
                         [("note", 4, 15, 4, 45), ("rest", 4, 47, 4, 73), ("repeat", 5, 1, 7, 1),
                          ("rhythm", 6, 3, 6, 45), ("play", 6, 23, 6, 31), ("skip", 6, 33, 6, 37),
                          ("skip", 6, 39, 6, 43), ("warp", 7, 3, 7, 23), ("do", 7, 14, 7, 21)])
        self.assertEqual([(comment.text, comment.line, comment.column, comment.alone) for comment in reading.comments],
                         [("begin", 1, 34, False), ("alone", 2, 1, True)])

    def test_lengths_that_are_known_without_playing(self) -> None:
        reading = read(self.TEXT)
        repeat, warp = reading.statements
        self.assertEqual(reading.length((repeat,)), 2 * (96 + 48 + 96))
        self.assertIsNone(reading.length((warp,)))
        self.assertEqual(reading.fraction(reading.shapes["rit"].length), Fraction(3, 2))
        self.assertEqual(reading.length(reading.phrases["tune"].block.statements[:1]), 96)

    def test_a_list_that_goes_round_in_a_loop_is_counted_by_its_rounds(self) -> None:
        reading = read(b"formula 1; phrase unused { rhythm [1/4, 1/8, 1/16] {"
                       b"repeat 1000000 { repeat 1000000 { play c4; skip; } } } }")
        # 2,000,000,000,000 entries: 666,666,666,666 times the three, and then two more
        self.assertEqual(reading.length(reading.phrases["unused"].block.statements),
                         666_666_666_666 * (480 + 240 + 120) + 480 + 240)

    def test_operators_group_as_the_language_says(self) -> None:
        class Values(Walk):
            def statement(self, happening: Happening) -> None:
                if happening.statement.word == "control":
                    seen.append(happening.values[0])

        seen: list[int] = []
        Values(read(b"formula 1; control 1 (8 - 2 - 1); control 1 (2 + 3 * 4 % 5); control 1 (-7 / 2 + 10);"
                    b"control 1 (-7 % 4); control 1 (1 / 0); control 1 (less(1, 2) + same(3, 3) + min(4, 5));"
                    b"control 1 (-(2 + 3) + 6);")).run()
        self.assertEqual(seen, [5, 4, 6, 1, 0, 6, 1])

    def test_places_of_what_is_played(self) -> None:
        class Blocks(Walk):
            def closed(self, place: Place, end: int) -> None:
                seen.append((place.kind, place.number, place.process, place.begin, end))

        seen: list[tuple[str, int, int, int, int]] = []
        walk = Blocks(read(b"formula 1; shape half = flat 1/1 by 500; phrase p { rest 1/4; } do p;"
                           b"par { branch { warp half { do p; } } branch { repeat 2 { rest 1/2; } } } rest 1/1;"))
        walk.run()
        self.assertEqual(seen, [("phrase", 0, 0, 0, 480), ("phrase", 0, 1, 480, 960), ("block", 0, 1, 480, 960),
                                ("branch", 0, 1, 480, 960), ("round", 0, 2, 480, 1440), ("round", 1, 2, 1440, 2400),
                                ("branch", 1, 2, 480, 2400), ("score", 0, 0, 0, 4320)])
        self.assertEqual([(spot.written, spot.position) for spot in walk.begun],
                         [(0, 0), (480, 480), (480, 480), (2400, 2400)])
        self.assertEqual([walk.ended[number].written for number in range(4)], [480, 960, 2400, 4320])


if __name__ == "__main__":
    unittest.main()
