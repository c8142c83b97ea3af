"""The door of the studio: connections without the token are few and short, and the log says little of them."""

from __future__ import annotations

import asyncio
import logging
import sys
import time
from typing import Optional

#: So many connections may be open that have not shown the token, and so long, in seconds.
MOST, LONGEST = 64, 10
#: A line of log is written so often, in seconds.
PAUSE = 60


class Door:
    """The connections that have not shown the token, the oldest first."""

    def __init__(self) -> None:
        self._strangers: dict[asyncio.BaseTransport, asyncio.TimerHandle] = {}

    def opened(self, transport: asyncio.BaseTransport) -> None:
        """A connection is there: where there are too many the oldest is closed."""
        if len(self._strangers) >= MOST:
            self._shut(next(iter(self._strangers)))
        self._strangers[transport] = asyncio.get_running_loop().call_later(LONGEST, self._shut, transport)

    def known(self, transport: Optional[asyncio.BaseTransport]) -> None:
        """A connection has shown the token, or is gone."""
        handle = self._strangers.pop(transport, None) if transport else None
        if handle:
            handle.cancel()

    def _shut(self, transport: asyncio.BaseTransport) -> None:
        self.known(transport)
        if isinstance(transport, asyncio.WriteTransport):
            transport.abort()


class Watched(asyncio.Protocol):
    """A connection of the server, of which the door knows."""

    def __init__(self, door: Door, inner: asyncio.Protocol):
        self.door, self.inner = door, inner
        self.transport: Optional[asyncio.BaseTransport] = None

    def connection_made(self, transport: asyncio.BaseTransport) -> None:
        self.transport = transport
        self.door.opened(transport)
        self.inner.connection_made(transport)

    def connection_lost(self, exc: Optional[Exception]) -> None:
        self.door.known(self.transport)
        self.inner.connection_lost(exc)

    def data_received(self, data: bytes) -> None:
        self.inner.data_received(data)

    def eof_received(self) -> Optional[bool]:
        return self.inner.eof_received()

    def pause_writing(self) -> None:
        self.inner.pause_writing()

    def resume_writing(self) -> None:
        self.inner.resume_writing()


class Rare(logging.Handler):
    """A log of a line a minute, without tracebacks."""

    def __init__(self) -> None:
        super().__init__(logging.WARNING)
        self.last, self.passed_over = -float("inf"), 0

    def emit(self, record: logging.LogRecord) -> None:
        if time.monotonic() - self.last < PAUSE:
            self.passed_over += 1
            return
        more = f" (and {self.passed_over:,} lines before)" if self.passed_over else ""
        self.last, self.passed_over = time.monotonic(), 0
        line = record.getMessage().split("\n")[0]
        fault = record.exc_info[1] if record.exc_info else None
        print(f"studio: {line}{f': {fault!r}' if fault else ''}{more}", file=sys.stderr, flush=True)


def quiet() -> None:
    """Lets the server and its loop use this log alone."""
    rare = Rare()
    for name in ("aiohttp.server", "aiohttp.web", "aiohttp.access", "asyncio"):
        logger = logging.getLogger(name)
        logger.handlers, logger.propagate = [rare], False
