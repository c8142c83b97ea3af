"""A handful of texts played by the program, wherever this module is: in a thread, in another process, on another machine.

It stands alone: an executor may send its source to a machine that has nothing but Python 3.9 on Linux. Program, texts
and files are files without a name in memory, so nothing is left of a run, also where it is killed.
"""

from __future__ import annotations

import contextlib
import fcntl
import hashlib
import os
import select
import signal
import threading
import time
from typing import Any, Iterator, NamedTuple, Optional, Sequence

#: A task gives back what it has, and leaves the rest, once it has so many bytes or has taken so many seconds.
MOST_BYTES, MOST_SECONDS = 32 << 20, 30.0
#: A run may take so many seconds, where nothing else is said.
SECONDS = 600.0
#: A thread that cannot play waits before it says so, each time twice as long, or it would take what others can play.
PAUSE, LONGEST_PAUSE = 0.1, 8.0
#: The status of a run that took too long, and the least one of a run that was ended by a signal, as shells have them.
LATE, SIGNALLED = 124, 128
#: Descriptors of ours are from this number on, and a child has them as 0 to 5: the text is 3, the file 4, the program 5.
_LEAST = 64
_WORDS = "--", "/proc/self/fd/3", "/proc/self/fd/4"
_PROGRAM = "/proc/self/fd/5"
_ENVIRONMENT: dict[str, str] = {}

#: The programs that are here, each by the hash of its bytes: its descriptor.
_programs: dict[str, int] = {}
_lock = threading.Lock()
#: How often in a row this thread could not play.
_failed = threading.local()

#: How a run ended: its status, its line, and the bytes of the file where the status is 0.
Run = tuple[int, str, Optional[bytes]]

#: What a task answers, in plain values, since the module that reads it may be another one: "done" with how the runs on
#: the first texts ended, one at least, the seconds that they took, and where; "missing" and where, if that process has no
#: program of the hash; "broken" with the reason and where, if the program cannot be run there.
DONE, MISSING, BROKEN = "done", "missing", "broken"
Answer = tuple[Any, ...]


def digest_of(program: bytes) -> str:
    """The hash by which a program is known."""
    return hashlib.sha256(program).hexdigest()


def here() -> tuple[str, int]:
    """Where a task runs: the name of the machine, and the number of the thread."""
    return os.uname().nodename, threading.get_native_id()


def _high(descriptor: int) -> int:
    """The descriptor under a number that a child does not use."""
    try:
        return fcntl.fcntl(descriptor, fcntl.F_DUPFD_CLOEXEC, _LEAST)
    finally:
        os.close(descriptor)


def keep(program: bytes) -> str:
    """Lets this process have a program, and returns its hash."""
    digest = digest_of(program)
    with _lock:
        if digest not in _programs:
            descriptor = _high(os.memfd_create("formula"))
            with open(descriptor, "wb", closefd=False) as file:
                file.write(program)
            # nothing writes to it any more, else it could not be run
            _programs[digest] = _high(os.open(f"/proc/self/fd/{descriptor}", os.O_RDONLY))
            os.close(descriptor)
    return digest


def _program(digest: str, program: Optional[bytes]) -> Optional[int]:
    """The descriptor of a program; None where it is neither known nor given."""
    if program is not None and keep(program) != digest:
        raise ValueError("the program is not that of the hash")
    return _programs.get(digest)


class _Files(NamedTuple):
    """The descriptors of what a run reads and writes. Each task has its own: a process that forks would share them."""

    nothing: int
    text: int
    file: int
    said: int

    def begin(self, text: bytes) -> None:
        """Lets them be those of a new run."""
        for descriptor in self[1:]:
            os.ftruncate(descriptor, 0)
            os.lseek(descriptor, 0, os.SEEK_SET)
        with open(self.text, "wb", closefd=False) as file:
            file.write(text)
        os.lseek(self.text, 0, os.SEEK_SET)

    def actions(self, program: int) -> list[tuple[int, int, int]]:
        """What makes them those of a child."""
        places = (self.nothing, self.said, self.nothing, self.text, self.file, program)
        return [(os.POSIX_SPAWN_DUP2, descriptor, place) for place, descriptor in enumerate(places)]


@contextlib.contextmanager
def _files() -> Iterator[_Files]:
    with contextlib.ExitStack() as opened:
        def new(descriptor: int) -> int:
            opened.callback(os.close, descriptor)
            return descriptor

        nothing = new(_high(os.open(os.devnull, os.O_RDWR)))
        yield _Files(nothing, *(new(_high(os.memfd_create(name))) for name in ("text", "file", "said")))


def _all_of(descriptor: int) -> bytes:
    return os.pread(descriptor, os.fstat(descriptor).st_size, 0)


def _run(files: _Files, program: int, options: Sequence[str], text: bytes, seconds: float) -> Run:
    """A run of the program, which has a descriptor, on a text."""
    files.begin(text)
    child = os.posix_spawn(_PROGRAM, ["formula", *options, *_WORDS], _ENVIRONMENT, file_actions=files.actions(program))
    is_late = not _ends(child, seconds)
    if is_late:
        os.kill(child, signal.SIGKILL)
    status = os.waitstatus_to_exitcode(os.waitpid(child, 0)[1])
    if is_late:
        return LATE, f"it took more than {seconds:g} seconds", None
    data = _all_of(files.file) if status == 0 else None
    if data == b"":
        raise OSError("a run ended with 0, and left no file")
    line = _all_of(files.said).decode("utf-8", "surrogateescape").partition("\n")[0]
    return status if status >= 0 else SIGNALLED - status, line, data


def _ends(child: int, seconds: float) -> bool:
    """Whether a child ends in time."""
    descriptor = os.pidfd_open(child)
    try:
        poll = select.poll()
        poll.register(descriptor, select.POLLIN)
        return bool(poll.poll(1000 * seconds))
    finally:
        os.close(descriptor)


def _runs(program: int, options: Sequence[str], texts: Sequence[bytes], seconds: float) -> list[Run]:
    """The runs on the first texts, until they are all played, or have become many bytes, or have taken long."""
    runs: list[Run] = []
    size, end = 0, time.monotonic() + MOST_SECONDS
    with _files() as files:
        for text in texts:
            runs.append(_run(files, program, options, text, seconds))
            size += len(runs[-1][2] or b"")
            if size > MOST_BYTES or time.monotonic() > end:
                break
    return runs


def play_some(digest: str, program: Optional[bytes], options: Sequence[str], texts: Sequence[bytes],
              seconds: float = SECONDS) -> Answer:
    """Plays texts, one at least, as many as one task may."""
    try:
        known = _program(digest, program)
        if known is None:
            return MISSING, here()
        begun = time.monotonic()
        runs = _runs(known, options, texts, seconds)
        _failed.times = 0
        return DONE, runs, time.monotonic() - begun, here()
    except Exception as error:  # no memory for files, too many processes, another kind of machine: never raised, only told
        _failed.times = getattr(_failed, "times", 0) + 1
        time.sleep(min(LONGEST_PAUSE, PAUSE * 2 ** (_failed.times - 1)))
        return BROKEN, f"{type(error).__name__}: {error}"[:500], here()
