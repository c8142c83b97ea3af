"""The limits of a computation that need not end: processor time, and the stack."""
from __future__ import annotations

import os
import resource
import signal
import sys
from types import FrameType

STACK = 1 << 30


class TooLong(Exception):
    """Something took far longer than it does."""


def too_long(signum: int, frame: FrameType | None) -> None:
    raise TooLong


def within(seconds: float) -> None:
    """Ends what follows after so many seconds of processor time; 0 ends nothing."""
    signal.setitimer(signal.ITIMER_VIRTUAL, seconds)


def with_stack() -> None:
    """Begins anew with a larger stack: a changed definition may call itself without an end."""
    soft, hard = resource.getrlimit(resource.RLIMIT_STACK)
    if soft != resource.RLIM_INFINITY and soft < STACK and (hard == resource.RLIM_INFINITY or hard >= STACK):
        resource.setrlimit(resource.RLIMIT_STACK, (STACK, hard))
        os.execv(sys.executable, [sys.executable, *sys.argv])


def begin() -> None:
    with_stack()
    sys.setrecursionlimit(60_000)
    signal.signal(signal.SIGVTALRM, too_long)
