"""Texts that an executor plays: what it answers, where it breaks, and in what handfuls they go."""

from __future__ import annotations

import itertools
import os
import unittest
from concurrent.futures import Executor, Future, ProcessPoolExecutor, ThreadPoolExecutor
from typing import Any, Callable, Optional
from unittest import mock

from formula_score import CommandError, Refused, render, render_all
from formula_score.running import many, task
from formula_score.running.many import NoEngine, Unplayed, play_all
from formula_score.running.task import play_some

from .program import PROGRAM, needs_program

TEXTS = [f"formula 1; note c4 1/{length};".encode() for length in (1, 2, 4, 8, 0, 16)]
PLAIN = ("--workers", "0")
BROKEN = "broken", "no memory", ("there", 1)


class Answering(Executor):
    """An executor that answers at once what a function makes of the number of a task, and of the task."""

    def __init__(self, answer: Callable[..., Any]):
        self.answer, self.asked = answer, 0

    def submit(self, fn: Callable[..., Any], /, *words: Any, **_: Any) -> "Future[Any]":
        self.asked += 1
        future: "Future[Any]" = Future()
        try:
            future.set_result(self.answer(self.asked, fn, *words))
        except Exception as error:
            future.set_exception(error)
        return future


class Holding(Answering):
    """One whose first task that has the program along is not through until it is given an answer."""

    held: "Optional[Future[Any]]" = None

    def submit(self, fn: Callable[..., Any], /, *words: Any, **named: Any) -> "Future[Any]":
        if self.held is None and words[1] is not None:
            self.held = Future()
            return self.held
        return super().submit(fn, *words, **named)


def bytes_of_program() -> bytes:
    assert PROGRAM is not None
    with open(PROGRAM, "rb") as file:
        return file.read()


class Nothing(unittest.TestCase):
    def setUp(self) -> None:
        pause = mock.patch.object(task, "PAUSE", 0.0)
        pause.start()
        self.addCleanup(pause.stop)

    def test_where_nothing_can_be_played_it_ends(self) -> None:
        executor = Answering(lambda *_: BROKEN)
        with self.assertRaisesRegex(NoEngine, "there: no memory"):
            dict(play_all(enumerate(100 * TEXTS), b"", PLAIN, executor))
        self.assertLess(executor.asked, 50)

    def test_a_place_that_fails_ends_nothing_where_another_played(self) -> None:
        def answer(asked: int, _: object, digest: str, program: object, options: object, texts: list[bytes],
                   *__: object) -> Any:
            return ("done", [(0, "", text) for text in texts], 0.1, ("here", 2)) if asked % 7 == 1 else BROKEN

        found: dict[int, Any] = dict(play_all(enumerate(TEXTS), b"", PLAIN, Answering(answer)))
        self.assertEqual([found[at].data for at in range(6)], TEXTS)

    def test_a_place_that_fails_uses_up_no_tries(self) -> None:
        def answer(asked: int, _: object, digest: str, program: object, options: object, texts: list[bytes],
                   *__: object) -> Any:
            is_played = asked == 1 or asked > 1000
            return ("done", [(0, "", text) for text in texts], 0.1, ("here", 2)) if is_played else BROKEN

        found: dict[int, Any] = dict(play_all(enumerate(TEXTS), b"", PLAIN, Answering(answer)))
        self.assertEqual([found[at].data for at in range(6)], TEXTS)

    def test_what_a_place_that_fails_gets_again_and_again_goes_to_others_too(self) -> None:
        last: list[bytes] = []

        def answer(asked: int, _: object, digest: str, program: object, options: object, texts: list[bytes],
                   *__: object) -> Any:
            nonlocal last
            last, before = texts, last
            is_played = asked == 1 or texts == before
            return ("done", [(0, "", text) for text in texts], 0.1, ("here", 2)) if is_played else BROKEN

        executor = Answering(answer)
        found: dict[int, Any] = dict(play_all(enumerate(TEXTS), b"", PLAIN, executor))
        self.assertEqual([found[at].data for at in range(6)], TEXTS)
        self.assertLess(executor.asked, 20)

    def test_a_text_that_no_place_can_play_is_given_up(self) -> None:
        def answer(asked: int, _: object, digest: str, program: object, options: object, texts: list[bytes],
                   *__: object) -> Any:
            place = "here", asked % 5
            is_played = TEXTS[3] not in texts
            return ("done", [(0, "", b"") for _ in texts], 0.1, place) if is_played else ("broken", "no memory", place)

        found: dict[int, Any] = dict(play_all(enumerate(100 * TEXTS[:3] + TEXTS), b"", PLAIN, Answering(answer)))
        self.assertEqual([at for at in found if isinstance(found[at], Unplayed)], [303])

    def test_where_nothing_is_played_for_long_it_ends(self) -> None:
        with mock.patch.object(many, "PATIENCE", 0.0), self.assertRaisesRegex(NoEngine, "there: no memory"):
            dict(play_all(enumerate(TEXTS), b"", PLAIN, Answering(lambda *_: BROKEN), 0.01, size=lambda: 5))

    def test_texts_are_taken_as_they_are_sent(self) -> None:
        taken = 0

        def texts() -> Any:
            nonlocal taken
            for taken in range(1, 100_001):
                yield taken, b"x"

        player = play_all(texts(), b"", PLAIN, Answering(
            lambda _, play, digest, program, options, some, *more: ("done", [(0, "", b"y")] * len(some), 0.01, ("here", 1))))
        self.assertEqual(next(player)[1], many.Played(0, "", b"y", "here"))
        self.assertLess(taken, 100)
        self.assertEqual(sum(1 for _ in player), 99_999)

    def test_the_program_is_sent_once_to_each_place_that_lacks_it(self) -> None:
        has = {1: False, 2: False, 3: False}
        sent = []

        def answer(asked: int, _: object, digest: str, program: Any, options: object, texts: list[bytes], *__: object) -> Any:
            place = asked % 3 + 1 if asked < 400 else 1
            if program is not None:
                sent.append(place)
                has[place] = True
            if not has[place]:
                return "missing", ("here", place)
            return "done", [(0, "", b"y") for text in texts], 0.1, ("here", place)

        self.assertEqual(len(dict(play_all(enumerate(1000 * TEXTS), b"p", PLAIN, Answering(answer)))), 6000)
        self.assertEqual((sorted({*sent}), len(sent) <= 6), ([1, 2, 3], True), sent)

    def test_a_place_gets_the_program_while_another_plays_long(self) -> None:
        has_program = False

        def answer(asked: int, _: object, digest: str, program: object, options: object, texts: list[bytes],
                   *__: object) -> Any:
            nonlocal has_program
            has_program = has_program or program is not None
            self.assertLess(asked, 100_000)
            return ("done", [(0, "", text) for text in texts], 0.1, ("here", 2)) if has_program else ("missing", ("here", 2))

        executor = Holding(answer)
        with mock.patch.object(many, "CARRYING", 0.01):
            player: Any = play_all(enumerate(TEXTS), b"p", PLAIN, executor)
            self.assertEqual([answer.status for _, answer in itertools.islice(player, 5)], 5 * [0])
            assert executor.held is not None
            executor.held.set_result(("done", [(0, "", b"long")], 300.0, ("here", 1)))
            self.assertEqual([answer.data for _, answer in player], [b"long"])

    def test_a_program_that_is_not_that_of_the_hash_is_not_run(self) -> None:
        self.assertEqual(play_some("00", b"\x7fELF", PLAIN, TEXTS)[0], "broken")

    def test_a_program_that_leaves_no_file_is_told(self) -> None:
        (found,) = render_all(TEXTS[:1], program="/bin/true")
        self.assertIsInstance(found, CommandError)
        self.assertIn("left no file", str(found))


@needs_program
class Many(unittest.TestCase):
    def played(self, answer: Callable[..., Any]) -> dict[int, Any]:
        return dict(play_all(enumerate(TEXTS), bytes_of_program(), PLAIN, Answering(answer)))

    def right(self, found: dict[int, Any]) -> None:
        self.assertEqual([found[at].status for at in range(6)], [0, 0, 0, 0, 3, 0])
        self.assertEqual(found[2].data, render(TEXTS[2], PROGRAM, workers=0))

    def test_each_kind_of_executor_gives_the_same_files(self) -> None:
        with ThreadPoolExecutor(2) as threads, ProcessPoolExecutor(2) as processes:
            for executor in (None, threads, processes):
                files = render_all(TEXTS, program=PROGRAM, executor=executor)
                self.assertIsInstance(files[4], Refused)
                self.assertEqual(files[:4], [render(text, PROGRAM, workers=0) for text in TEXTS[:4]])

    def test_what_breaks_sometimes_is_tried_again(self) -> None:
        def answer(asked: int, play: Callable[..., Any], *words: Any) -> Any:
            if asked % 3 == 1:
                return BROKEN
            if asked == 2:
                raise MemoryError("a process died")
            return play(*words)

        self.right(self.played(answer))

    def test_a_text_with_which_processes_die_is_told_alone(self) -> None:
        def answer(_: int, play: Callable[..., Any], digest: str, program: Any, options: Any, texts: list[bytes],
                   *more: Any) -> Any:
            if TEXTS[3] in texts:
                raise MemoryError("a process died")
            return play(digest, program, options, texts, *more)

        found = self.played(answer)
        self.assertIsInstance(found.pop(3), Unplayed)
        self.assertEqual([found[at].status for at in (0, 1, 2, 4, 5)], [0, 0, 0, 3, 0])

    def test_a_run_that_takes_too_long_is_ended(self) -> None:
        text = b"formula 1; repeat 900000 { note c4 1/16; }"
        with ThreadPoolExecutor(1) as pool:
            answers = dict(play_all([(0, text)], bytes_of_program(), PLAIN, pool, 0.01))
        self.assertEqual(answers[0][:2], (124, "it took more than 0.01 seconds"))

    def test_nothing_stays_open(self) -> None:
        with ThreadPoolExecutor(1) as pool:
            dict(play_all(enumerate(TEXTS), bytes_of_program(), PLAIN, pool))
            before = len(os.listdir("/proc/self/fd"))
            dict(play_all(enumerate(20 * TEXTS), bytes_of_program(), PLAIN, pool))
            self.assertEqual(len(os.listdir("/proc/self/fd")), before)


if __name__ == "__main__":
    unittest.main()
