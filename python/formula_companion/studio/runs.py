"""Runs of the proved program and of the studio's other processes, each of which is ended when nobody waits for it."""

from __future__ import annotations

import asyncio
import contextlib
import os
import pathlib
import secrets
import signal
import sys
from typing import Any, Callable, NamedTuple, Optional, Sequence

from .frames import Frame, lengths_of, packed, unpacked

_PACKAGE = str(pathlib.Path(__file__).resolve().parents[2])
#: How many idle workers are kept.
_IDLE = 2


class Ran(NamedTuple):
    """How a run of the program ended: its status, its line, and the file that it wrote."""

    status: int
    said: str
    file: str


def end(process: asyncio.subprocess.Process) -> None:
    """Ends a process with all that it started."""
    with contextlib.suppress(ProcessLookupError, PermissionError):
        os.killpg(process.pid, signal.SIGKILL)


async def ended(words: Sequence[str], environment: Optional[dict[str, str]] = None,
                limit: Optional[Callable[[], None]] = None) -> tuple[int, bytes]:
    """Runs words to the end, and gives the status and what was said; cancelled, it ends the run.

    `limit` is called in the new process before the words are run.
    """
    process = await asyncio.create_subprocess_exec(
        *words, stdin=asyncio.subprocess.DEVNULL, stdout=asyncio.subprocess.PIPE, stderr=asyncio.subprocess.DEVNULL,
        env=environment, start_new_session=True, preexec_fn=limit)
    try:
        said, _ = await process.communicate()
    except BaseException:
        end(process)
        await process.wait()
        raise
    return process.returncode or 0, said


def how(status: int) -> str:
    """How a process ended, in words."""
    return f"status {status}" if status >= 0 else f"the signal {signal.Signals(-status).name}"


class Program:
    """The proved program, with a folder for its files."""

    def __init__(self, path: str, folder: str):
        self.path, self.folder = path, folder
        self._environment = {name: value for name, value in os.environ.items() if name != "FORMULA"}

    def new_name(self, ending: str) -> str:
        """The name of a file that is not there yet."""
        return os.path.join(self.folder, secrets.token_hex(8) + ending)

    async def play(self, text: bytes, *options: str) -> Ran:
        """Plays a text. The caller removes the file."""
        source, target = self.new_name(".score"), self.new_name(".mid")
        try:
            with open(source, "wb") as file:
                file.write(text)
            status, said = await ended([self.path, "--workers", "0", *options, "--", source, target], self._environment)
        except BaseException:
            remove(target)
            raise
        finally:
            remove(source)
        return Ran(status, said.decode("utf-8", "replace").strip(), target)


def remove(path: str) -> None:
    """Removes a file, where it is there."""
    with contextlib.suppress(OSError):
        os.unlink(path)


class Workers:
    """Processes that answer what is asked of them in Python. One that is no longer waited for is ended."""

    def __init__(self, folder: str, program: str):
        self._environment = {**os.environ, "TMPDIR": folder, "FORMULA": program,
                             "PYTHONPATH": os.pathsep.join(filter(None, [_PACKAGE, os.environ.get("PYTHONPATH")])),
                             "PYTHONDONTWRITEBYTECODE": "1"}
        self._idle: list[asyncio.subprocess.Process] = []
        self._closed = False

    async def ask(self, head: dict[str, Any], body: bytes = b"") -> Frame:
        """The answer of a worker."""
        worker = self._idle.pop() if self._idle else await self._started()
        try:
            assert worker.stdin is not None and worker.stdout is not None
            worker.stdin.write(packed(head, body))
            await worker.stdin.drain()
            lengths = await worker.stdout.readexactly(8)
            answer = unpacked(lengths + await worker.stdout.readexactly(sum(lengths_of(lengths))))
        except (asyncio.IncompleteReadError, ConnectionError):
            end(worker)
            return Frame({"failed": "a process of the studio ended; the terminal says why"}, b"")
        except BaseException:
            end(worker)
            raise
        if self._closed or len(self._idle) >= _IDLE:
            end(worker)
        else:
            self._idle.append(worker)
        return answer

    async def warm(self) -> None:
        """Has a worker ready."""
        if not self._idle:
            await self.ask({"do": "outline"})

    async def _started(self) -> asyncio.subprocess.Process:
        return await asyncio.create_subprocess_exec(
            sys.executable, "-m", "formula_companion.studio.worker", stdin=asyncio.subprocess.PIPE,
            stdout=asyncio.subprocess.PIPE, env=self._environment, start_new_session=True, limit=2 ** 24)

    def close(self) -> None:
        """Ends all of them."""
        self._closed = True
        for worker in self._idle:
            end(worker)
