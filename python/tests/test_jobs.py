"""Tasks in processes of their own: each is answered, or told as lost with its reason."""

from __future__ import annotations

import contextlib
import importlib
import io
import os
import pathlib
import signal
import sys
import threading
import time
import unittest
from typing import Any, Callable

sys.path.insert(0, str(pathlib.Path(__file__).resolve().parents[2] / "tools" / "jobs"))

jobs: Any = importlib.import_module("jobs")

#: What the test's tasks do beside answering.
DIES, ENDS, SLEEPS = "dies", "ends", "sleeps"


def begin(added: int) -> Callable[[Any], Any]:
    def work(task: Any) -> Any:
        if task == DIES:
            os.kill(os.getpid(), signal.SIGKILL)
        if task == ENDS:
            os._exit(3)
        if task == SLEEPS:
            time.sleep(60)
        return task + added
    return work


def begins_with_death(added: int) -> Callable[[Any], Any]:
    os._exit(added)


class Jobs(unittest.TestCase):
    def test_each_task_is_answered_once(self) -> None:
        for count in (1, 3, 50):
            found = list(jobs.Jobs(count, 60.0, begin, 100).done(range(20)))
            self.assertEqual(sorted(found), [(number, number + 100) for number in range(20)], count)
        self.assertEqual(list(jobs.Jobs(3, 60.0, begin, 100).done([])), [])

    def test_a_process_that_is_gone_loses_its_task_alone(self) -> None:
        tasks = [1, DIES, 2, ENDS, 3, 4]
        for count in (1, 2, 6):
            found = dict(jobs.Jobs(count, 60.0, begin, 0).done(tasks))
            self.assertEqual({number: found[number] for number in (1, 2, 3, 4)}, {1: 1, 2: 2, 3: 3, 4: 4}, count)
            self.assertEqual(found[DIES].reason, "its process ended with status -9")
            self.assertEqual(found[ENDS].reason, "its process ended with status 3")

    def test_a_task_that_takes_too_long_is_lost(self) -> None:
        found = dict(jobs.Jobs(2, 1.0, begin, 0).done([SLEEPS, 1, 2]))
        self.assertEqual(found, {SLEEPS: jobs.Lost("no end after 1 seconds"), 1: 1, 2: 2})

    def test_an_interrupt_ends_it_with_what_was_done(self) -> None:
        work = jobs.Jobs(2, 60.0, begin, 0)
        timer = threading.Timer(1.0, os.kill, (os.getpid(), signal.SIGTERM))
        timer.start()
        with contextlib.redirect_stdout(io.StringIO()) as printed:
            self.assertEqual(sorted(work.done([1, 2, SLEEPS, SLEEPS, 3])), [(1, 1), (2, 2)])
        self.assertEqual(printed.getvalue(), "interrupted: what follows is of the tasks that were done\n")
        self.assertEqual((work.interrupted, signal.getsignal(signal.SIGTERM)), (True, signal.SIG_DFL))

    def test_it_ends_where_no_process_can_begin(self) -> None:
        with self.assertRaisesRegex(RuntimeError, "20 tasks are lost: its process ended with status 7"):
            list(jobs.Jobs(2, 60.0, begins_with_death, 7).done(range(1000)))


if __name__ == "__main__":
    unittest.main()
