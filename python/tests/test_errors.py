"""Exceptions go from process to process as they are."""

from __future__ import annotations

import concurrent.futures
import copy
import multiprocessing
import os
import pickle
import unittest
from typing import Callable, Union

from formula_score import BarError, CommandError, Meter, Refused, ScoreError, melody, play, rest

from .program import PROGRAM, needs_program

REFUSED = 37
PLACE = "score:2:11: `1/7` is 274.29 ticks, and no whole number of them (fault 8)"
LONGEST = 120


def played(number: int) -> int:
    """The number of a text that plays; that of REFUSED has a fault on its second line."""
    length = "1/7" if number == REFUSED else f"ticks {number}"
    play(f"formula 1;\n  note c4 {length};\n", os.devnull, PROGRAM, parts=True, workers=0)
    return number


def outcome(wait: Callable[[float], int]) -> Union[int, Refused]:
    """What a run gives, or its exception."""
    try:
        return wait(LONGEST)
    except Refused as refused:
        return refused


class Errors(unittest.TestCase):
    def test_they_can_be_pickled_and_copied(self) -> None:
        with self.assertRaises(BarError) as caught:
            Meter("3/4").bars(melody("c4 d4 e4", "1/4"), rest("1/2"))
        errors = (caught.exception, ScoreError("a reason"), CommandError(4, "formula: write fault", "no room"),
                  CommandError(9, "", ""), Refused("formula: score refused: 2:6 fault 3", PLACE, 2, 6, 3))
        for error in errors:
            for other in (pickle.loads(pickle.dumps(error)), copy.copy(error), copy.deepcopy(error)):
                self.assertIs(type(other), type(error))
                self.assertEqual((str(other), vars(other)), (str(error), vars(error)))
        self.assertEqual(str(errors[0]), "bar 2 is 1/4 too short: it has 1/2 in place of 3/4")
        self.assertEqual(str(errors[3]), "the command ended with status 9")

    @needs_program
    def test_a_pool_gives_one_refusal_and_the_rest(self) -> None:
        with multiprocessing.Pool(2) as pool:
            tasks = [pool.apply_async(played, (number,)) for number in range(100)]
            both = [[outcome(task.get) for task in tasks]]
        with concurrent.futures.ProcessPoolExecutor(2) as executor:
            futures = [executor.submit(played, number) for number in range(100)]
            both.append([outcome(future.result) for future in futures])
        for outcomes in both:
            refused = outcomes[REFUSED]
            assert isinstance(refused, Refused), refused
            self.assertEqual((refused.line, refused.column, refused.number), (2, 11, 8))
            self.assertEqual(str(refused).split("\n")[0], PLACE)
            self.assertEqual(outcomes[:REFUSED] + outcomes[REFUSED + 1:], [*range(REFUSED), *range(REFUSED + 1, 100)])


if __name__ == "__main__":
    unittest.main()
