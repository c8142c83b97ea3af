"""Tasks that are done by processes of their own, as many at a time as asked. None is waited for in vain: a process that
dies or takes too long is told with the task that it was at, and another one takes its place."""
from __future__ import annotations

import multiprocessing
import signal
import sys
import time
from collections.abc import Callable, Iterator, Sequence
from dataclasses import dataclass
from multiprocessing.connection import Connection, wait
from multiprocessing.process import BaseProcess
from types import FrameType
from typing import Any, Generic, TypeVar

Task = TypeVar("Task")
Answer = TypeVar("Answer")
# So many tasks may be lost before the rest is given up.
MOST_LOST = 20
# Seconds between two lines on standard error that tell how far it is.
BETWEEN = 30.0


@dataclass(frozen=True)
class Lost:
    """A task without an answer, and why it has none."""

    reason: str


def serve(pipe: Connection, others: list[Connection], begin: Callable[..., Callable[[Any], Any]],
          words: tuple[Any, ...]) -> None:
    """What a process does: a task is read, and its answer is sent, until nobody sends a task."""
    signal.signal(signal.SIGTERM, signal.SIG_DFL)
    # only the parent may hold these, so that their processes see when it is gone
    for other in others:
        other.close()
    work = begin(*words)
    while True:
        try:
            task = pipe.recv()
        except EOFError:
            return
        pipe.send(work(task))


def give(pipe: Connection, task: Any) -> None:
    """Sends a task; a process that is gone is noticed where its answer is read."""
    try:
        pipe.send(task)
    except (BrokenPipeError, ConnectionResetError):
        pass


def interrupt(number: int, frame: FrameType | None) -> None:
    raise KeyboardInterrupt


@dataclass
class Seat(Generic[Task]):
    """A process, the pipe to it, and the task that it is at since when."""

    process: BaseProcess
    pipe: Connection
    task: Task
    since: float

    def end(self) -> None:
        self.process.kill()
        self.process.join()
        self.pipe.close()


class Jobs(Generic[Task, Answer]):
    """Processes, each of which begins with `begin(*words)` and does tasks with what that gives."""

    def __init__(self, count: int, seconds: float, begin: Callable[..., Callable[[Task], Answer]], *words: Any):
        self.count, self.seconds, self.begin, self.words = count, seconds, begin, words
        self.seats: list[Seat[Task]] = []
        self.interrupted = False
        self.context = multiprocessing.get_context("fork")

    def done(self, tasks: Sequence[Task]) -> Iterator[tuple[Task, Answer | Lost]]:
        """Each task with its answer, in the order in which they end. SIGINT and SIGTERM end it early."""
        left = iter(tasks)
        lost = 0
        before = signal.signal(signal.SIGTERM, interrupt)
        try:
            for task in left:
                self.start(task)
                if len(self.seats) == self.count:
                    break
            while self.seats:
                for seat in self.ready():
                    answer = self.answer(seat)
                    yield seat.task, answer
                    if isinstance(answer, Lost):
                        lost += 1
                        self.seats.remove(seat)
                        seat.end()
                        if lost == MOST_LOST:
                            raise RuntimeError(f"{lost} tasks are lost: {answer.reason}")
                    self.next(seat, left)
        except KeyboardInterrupt:
            self.interrupted = True
            print("interrupted: what follows is of the tasks that were done", flush=True)
        finally:
            signal.signal(signal.SIGTERM, before)
            for seat in self.seats:
                seat.end()

    def start(self, task: Task) -> None:
        mine, other = self.context.Pipe()
        held = [seat.pipe for seat in self.seats] + [mine]
        process = self.context.Process(target=serve, args=(other, held, self.begin, self.words), daemon=True)
        process.start()
        other.close()
        give(mine, task)
        self.seats.append(Seat(process, mine, task, time.monotonic()))

    def next(self, seat: Seat[Task], left: Iterator[Task]) -> None:
        """The next task goes to this process, or to a new one where it is gone."""
        for task in left:
            if seat not in self.seats:
                self.start(task)
            else:
                seat.task, seat.since = task, time.monotonic()
                give(seat.pipe, task)
            return
        if seat in self.seats:
            self.seats.remove(seat)
            seat.end()

    def ready(self) -> list[Seat[Task]]:
        """Those that have an answer, or died, or take too long."""
        ends = min(seat.since for seat in self.seats) + self.seconds
        found = wait([seat.pipe for seat in self.seats], max(0.0, ends - time.monotonic()))
        now = time.monotonic()
        return [seat for seat in self.seats if seat.pipe in found or now - seat.since >= self.seconds]

    def answer(self, seat: Seat[Task]) -> Answer | Lost:
        if not seat.pipe.poll():
            return Lost(f"no end after {self.seconds:.0f} seconds")
        try:
            answer: Answer = seat.pipe.recv()
            return answer
        except (EOFError, ConnectionResetError):
            seat.process.join()
            return Lost(f"its process ended with status {seat.process.exitcode}")


class Told:
    """How far it is: a line on standard error now and then."""

    def __init__(self, name: str, total: int, between: float = BETWEEN):
        self.name, self.total, self.between = name, total, between
        self.count, self.last = 0, time.monotonic()

    def count_one(self, differ: int) -> None:
        self.count += 1
        now = time.monotonic()
        if now - self.last >= self.between:
            self.last = now
            print(f"{self.name}: {self.count:,} of {self.total:,} done, {differ} differ", file=sys.stderr, flush=True)
