"""Many texts, played by any executor of `concurrent.futures`: threads, processes, or a cluster."""

from __future__ import annotations

import collections
import itertools
import queue
import time
from concurrent.futures import BrokenExecutor, CancelledError, Executor, Future
from typing import Any, Callable, Generic, Iterable, Iterator, NamedTuple, Optional, Sequence, TypeVar, Union

from .task import BROKEN, DONE, MISSING, SECONDS, Answer, Run, digest_of, play_some

#: So many texts are sent at a time, and fewer where they have this many bytes together.
MOST_SENT, MOST_TEXT = 50, 1 << 20
#: A handful is to take so many seconds: the first ones are a text each, and they grow while they take less.
GOOD_SECONDS = 0.2
#: So many handfuls are under way, or so many for each that plays, and no more once their texts have so many bytes.
AHEAD, AHEAD_EACH, MOST_AHEAD = 64, 3, 256 << 20
#: So many are, where nobody has played yet. So many carry the program, and so often for a place that lacks it. One that
#: was sent so many seconds ago does not count: it may be at play, and others wait for the program.
AT_FIRST, MOST_CARRYING, MOST_SENDS, CARRYING = 8, 8, 3, 0.5
#: A handful is given up, or tried text by text, once so many places that play others could not play it: what is said by
#: a place that plays nothing says nothing of a handful. One with which a process died counts twice.
TRIES, DEATH = 4, 2
#: Nothing more is tried once each place has said so often in a row that it cannot play.
MOST_BROKEN = 6
#: Nor is it where nothing was played for so many seconds, beyond those that a run may take.
PATIENCE = 300.0
#: How many play is asked again after so many seconds.
LOOK = 2.0

_Key = TypeVar("_Key")


class NoEngine(Exception):
    """The executor plays nothing any more."""


class Played(NamedTuple):
    """How a run ended: its status, its line, the bytes of the file where the status is 0, and on which machine.

    Where it was ended by a signal the status is that of a shell, and 124 where it took too long.
    """

    status: int
    said: str
    data: Optional[bytes]
    host: str


class Unplayed(NamedTuple):
    """What could not be tried, and why."""

    why: str


class _Handful(NamedTuple):
    keys: Sequence[Any]
    texts: Sequence[bytes]
    size: int
    #: how often it could not be played, and how much of that counts
    tries: int = 0
    failed: int = 0

    def parts(self) -> "Iterator[_Handful]":
        """Each text alone."""
        for key, text in zip(self.keys, self.texts):
            yield _Handful([key], [text], len(text))

    def without(self, count: int) -> "_Handful":
        """What is left behind the first texts."""
        texts = self.texts[count:]
        return self._replace(keys=self.keys[count:], texts=texts, size=sum(map(len, texts)))


class _Round:
    """A handful that some places have at once: how many still do, how much counts against it, and whether none has
    played it."""

    def __init__(self, handful: _Handful, places: int):
        self.handful, self.left, self.failed, self.is_open = handful, places, handful.failed, True


class _Sent(NamedTuple):
    """What one of the places was sent, and when."""

    round: _Round
    has_program: bool
    time: float


class _Asked(Generic[_Key]):
    """What an executor was asked, and what it said."""

    def __init__(self, texts: Iterable[tuple[_Key, bytes]], ask: Callable[[_Handful, bool], "Future[Any]"],
                 size: Callable[[], int], patience: float):
        self.fresh, self.ask, self.size, self.patience = iter(texts), ask, size, patience
        self.again: collections.deque[_Handful] = collections.deque()
        #: what is under way, and how many handfuls of it are not played
        self.under_way: dict["Future[Any]", _Sent] = {}
        self.open = 0
        self.done: "queue.SimpleQueue[Future[Any]]" = queue.SimpleQueue()
        #: how many texts the next handful has, and how many bytes are under way
        self.most, self.bytes = 1, 0
        #: how many play, and when that was asked
        self.players, self.looked = 0, -LOOK
        #: for each place that lacks the program how often it is still sent
        self.lacking: dict[tuple[str, int], int] = {}
        #: how often in a row each place has said that it cannot play, and when one played last
        self.broken: dict[tuple[str, int], int] = {}
        self.played_last = time.monotonic()

    def next_handful(self) -> Optional[_Handful]:
        """The next texts; None where there is none."""
        if self.again:
            return self.again.popleft()
        keys: list[_Key] = []
        texts: list[bytes] = []
        size = 0
        for key, text in itertools.islice(self.fresh, self.most):
            keys.append(key)
            texts.append(text)
            size += len(text)
            if size > MOST_TEXT:
                break
        return _Handful(keys, texts, size) if texts else None

    def fill(self) -> bool:
        """Sends what may be under way. Returns whether anything is."""
        if time.monotonic() > self.looked + LOOK:
            self.players, self.looked = self.size(), time.monotonic()
        ahead = max(AHEAD if 0 in self.broken.values() else AT_FIRST, AHEAD_EACH * self.players)
        while self.open < ahead and (self.bytes < MOST_AHEAD or not self.open):
            handful = self.next_handful()
            if handful is None:
                break
            self.send(handful)
        return bool(self.open)

    def send(self, handful: _Handful) -> None:
        """Sends a handful. One that could not be played goes to twice as many places each time: else the place that
        cannot play gets it again, which has nothing else to do."""
        sent = _Round(handful, min(2 ** handful.tries, max(1, self.players, len(self.broken))))
        self.open += 1
        for _ in range(sent.left):
            has_program = self.has_to_carry()
            future = self.ask(handful, has_program)
            self.under_way[future] = _Sent(sent, has_program, time.monotonic())
            self.bytes += handful.size
            future.add_done_callback(self.done.put)

    def has_to_carry(self) -> bool:
        """Whether the next handful takes the program along, which no process has at first. It may come to another one
        than that which lacks it, and is then sent again."""
        since = time.monotonic() - CARRYING
        most = min(MOST_CARRYING, len(self.lacking))
        if not most or sum(other.has_program and other.time > since for other in self.under_way.values()) >= most:
            return False
        place = next(iter(self.lacking))
        times = self.lacking.pop(place) - 1
        if times:
            self.lacking[place] = times
        return True

    def take(self) -> "Iterator[tuple[_Key, Union[Played, Unplayed]]]":
        """Waits for an answer, and yields what became of its texts. What is left of them is sent again."""
        try:
            future = self.done.get(timeout=self.patience)
            sent = self.under_way.pop(future).round
            self.bytes -= sent.handful.size
            kind, *answer = future.result()
        except queue.Empty:
            raise NoEngine(f"nothing was answered for {self.patience:g} seconds") from None
        except (BrokenExecutor, CancelledError) as error:
            raise NoEngine(f"what was under way was given up ({type(error).__name__})") from error
        except Exception as error:  # a process died with it, again and again
            yield from self.failed(sent, f"{type(error).__name__}: {error}", DEATH)
            return
        if kind == MISSING:
            host, thread = answer[0]
            self.lacking[host, thread] = MOST_SENDS
            if self.is_over(sent):
                self.again.append(sent.handful._replace(failed=sent.failed))
        elif kind == BROKEN:
            why, (host, thread) = answer
            before = self.broken.get((host, thread))
            self.broken[host, thread] = (before or 0) + 1
            if self.is_hopeless():
                raise NoEngine(f"{host}: {why}")
            yield from self.failed(sent, f"{host}: {why}", 1 if before == 0 else 0)
        else:
            assert kind == DONE
            yield from self.played(sent, *answer)

    def played(self, sent: _Round, runs: Sequence[Run], seconds: float,
               where: Sequence[Any]) -> Iterator[tuple[_Key, Played]]:
        """What a task played."""
        host, thread = where
        self.broken[host, thread], self.played_last = 0, time.monotonic()
        self.lacking.pop((host, thread), None)
        if not sent.is_open:
            return
        sent.is_open = False
        self.open -= 1
        self.most = min(MOST_SENT, self.most + 1) if seconds < GOOD_SECONDS else max(1, self.most // 2)
        for key, (status, said, data) in zip(sent.handful.keys, runs):
            yield key, Played(status, said, data, host)
        if len(runs) < len(sent.handful.texts):
            self.again.append(sent.handful.without(len(runs)))

    def failed(self, sent: _Round, why: str, times: int) -> Iterator[tuple[_Key, Unplayed]]:
        """What becomes of a handful that was not played: it, or each of its texts, is tried again, or is given up."""
        sent.failed += times
        if not self.is_over(sent):
            return
        handful = sent.handful
        if sent.failed < TRIES:
            self.again.append(handful._replace(tries=handful.tries + 1, failed=sent.failed))
        elif len(handful.texts) > 1:
            self.again.extend(handful.parts())
        else:
            yield handful.keys[0], Unplayed(why)

    def is_over(self, sent: _Round) -> bool:
        """Whether none of the places that were sent a handful has played it, where one more has not."""
        sent.left -= 1
        if sent.left or not sent.is_open:
            return False
        self.open -= 1
        return True

    def is_hopeless(self) -> bool:
        """Whether nothing is to be expected any more. A place that played and is silent may be at work, or have no
        processor, and so may one that has not answered yet."""
        is_all = len(self.broken) >= self.players and all(times >= MOST_BROKEN for times in self.broken.values())
        return is_all or time.monotonic() > self.played_last + self.patience


def play_all(texts: Iterable[tuple[_Key, bytes]], program: bytes, options: Sequence[str], executor: Executor,
             seconds: float = SECONDS, play: Callable[..., Answer] = play_some,
             size: Callable[[], int] = lambda: 0) -> Iterator[tuple[_Key, Union[Played, Unplayed]]]:
    """What becomes of each text, as it is known, in whatever order, with the key that was given with it.

    The program goes with a handful only where a process has answered that it does not have it. Texts are taken from
    the iterable when they are to be sent, so not all of them have to be in memory. `play` is `play_some` as the
    executor has it, and `size` how many play at a time, if that is known. Closed, it cancels what is not begun.
    """
    digest = digest_of(program)

    def ask(handful: _Handful, has_program: bool) -> "Future[Any]":
        return executor.submit(play, digest, program if has_program else None, options, handful.texts, seconds)

    asked = _Asked(texts, ask, size, PATIENCE + seconds)
    try:
        while asked.fill():
            yield from asked.take()
    finally:
        for future in asked.under_way:
            future.cancel()
