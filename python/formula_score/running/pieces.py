"""Python files that make a score: each is run in a process of its own, and its score goes on as a text."""

from __future__ import annotations

import contextlib
import json
import os
import pathlib
import re
import secrets
import select
import selectors
import signal
import subprocess
import sys
import time
from functools import lru_cache
from typing import IO, Any, Callable, NamedTuple, Optional, Sequence

from ..making.origins import Place

ENDING = ".py"
#: What a file runs in, where it can: all that its user reads can be read, nothing written, no other process or network
#: seen; and it ends with whoever began it.
JAIL = ("bwrap", "--ro-bind", "/", "/", "--dev", "/dev", "--remount-ro", "/dev", "--proc", "/proc", "--unshare-all",
        "--die-with-parent", "--new-session", "--cap-drop", "ALL")
#: So many seconds a process may take to have the library.
_BEGINS = 120
#: A process is known by this in its environment.
_MARK = "FORMULA_PIECE"
_PACKAGE = str(pathlib.Path(__file__).resolve().parents[2])


class Limits(NamedTuple):
    """What a file may take: seconds in all, seconds of a processor, and MB of memory and of what it prints or makes."""

    time: int = 30
    cpu: int = 20
    memory: int = 4096
    output: int = 64


class Piece(NamedTuple):
    """The text that a file made, the places in the file that made something, each with the calls that led to it, the
    innermost first, and of each statement of the text the number of its place."""

    text: bytes
    places: Sequence[Sequence[Place]] = ()
    made_by: Sequence[int] = ()


class Unmade(Exception):
    """Why a file, which has these bytes, made no score; and the calls in it that were under way, the innermost first."""

    def __init__(self, path: str, data: bytes, why: str, calls: Sequence[Place] = ()):
        super().__init__(path, data, why, calls)
        self.path, self.data, self.why, self.calls = path, data, why, calls

    @property
    def place(self) -> Place:
        """The innermost line and column, or the first ones."""
        return self.calls[0]._replace(column=max(1, self.calls[0].column)) if self.calls else Place(1, 1)

    def told(self) -> str:
        """The place, the reason, the line with a caret, and the calls."""
        return "\n".join([f"{self.path}:{self.place.line}:{self.place.column}: {self.why}",
                          *shown(self.data, self.calls)])


def shown(data: bytes, calls: Sequence[Place]) -> list[str]:
    """The innermost line of some calls, with a caret where the column is known, and the lines of the others."""
    lines = data.decode("utf-8", "replace").split("\n")
    found = [f"{line} | {lines[line - 1]}".rstrip() for line, _ in calls[:1] if line <= len(lines)]
    if found and calls[0].column:
        gutter = len(str(calls[0].line)) + 1
        before = "".join("\t" if c == "\t" else " " for c in lines[calls[0].line - 1][:calls[0].column - 1])
        found.append(f"{' ' * gutter}| {before}^")
    return [*found, *(f"called from line {line}" + (f": {lines[line - 1].strip()}" if line <= len(lines) else "")
                      for (before, _), (line, _) in zip(calls, calls[1:]) if line != before)]


def named(path: str) -> Optional[tuple[str, str]]:
    """The file, and the name of the score in it, of a word as `canon.py` or `canon.py:NAME`; None where it is none."""
    found = re.fullmatch(r"(.*\.py)(?::([^\W\d]\w*))?", path, re.DOTALL)
    return (found[1], found[2] or "") if found else None


def file_of(path: str) -> str:
    """The file that a word means."""
    found = named(path)
    return found[0] if found else path


@lru_cache(maxsize=None)
def jailed() -> bool:
    """Whether a file can be kept from writing and from the network: by Debian's bubblewrap, where the host lets it."""
    with contextlib.suppress(OSError):
        return subprocess.run([*JAIL, "true"], stdin=subprocess.DEVNULL, stderr=subprocess.DEVNULL,
                              check=False).returncode == 0
    return False


class Runner:
    """A process that has the library, and waits for one file that it is to run."""

    def __init__(self) -> None:
        self._mark = secrets.token_hex(16)
        path = os.pathsep.join(filter(None, [_PACKAGE, os.environ.get("PYTHONPATH")]))
        words = [*(JAIL if jailed() else ()), sys.executable, "-B", "-m", "formula_score.running.piece_run"]
        self._process = subprocess.Popen(words, stdin=subprocess.PIPE, stdout=subprocess.PIPE, stderr=subprocess.PIPE,
                                         env={**os.environ, "PYTHONPATH": path, _MARK: self._mark},
                                         start_new_session=True)

    def run(self, path: str, data: bytes, limits: Limits, arguments: Sequence[str] = (), name: str = "",
            say: Callable[[bytes], object] = lambda _: None) -> Piece:
        """The score of a file that has these bytes; `Unmade` where it makes none. `say` is given what the file
        prints. All that the file starts ends with it."""
        head = {"path": os.path.abspath(path), "name": name, "arguments": list(arguments), **limits._asdict()}
        try:
            frame, why = self._talk(json.dumps(head).encode() + b"\n" + data, limits, say)
        finally:
            self.end()
            for pipe in (self._process.stdout, self._process.stderr):
                assert pipe
                pipe.close()
        return _taken(path, data, frame, why or _ended(self._process.returncode, limits))

    def _talk(self, request: bytes, limits: Limits, say: Callable[[bytes], object]) -> tuple[bytes, str]:
        """What the process answers, and why it is to end where it does not end by itself."""
        process, frame, left = self._process, bytearray(), limits.output << 20
        assert process.stdin and process.stdout and process.stderr
        if not select.select([process.stdout], [], [], _BEGINS)[0] or not os.read(process.stdout.fileno(), 1):
            return b"", "Python, or the library, cannot be run" + (", or not in bubblewrap" if jailed() else "")
        with contextlib.suppress(BrokenPipeError), process.stdin:
            process.stdin.write(request)
        until = time.monotonic() + limits.time
        with selectors.DefaultSelector() as waiting:
            waiting.register(process.stdout, selectors.EVENT_READ, frame.extend)
            waiting.register(process.stderr, selectors.EVENT_READ, say)
            while process.stdout.fileno() in waiting.get_map():  # what it started may hold the other one open
                ready = waiting.select(max(0.0, until - time.monotonic()))
                if not ready:
                    return b"", f"it took longer than {limits.time} seconds, and was ended"
                for key, _ in ready:
                    piece = os.read(key.fd, 1 << 16)
                    left -= len(piece)
                    if not piece:
                        waiting.unregister(key.fileobj)
                    elif left < 0:
                        return b"", f"it printed more than {limits.output} MB, and was ended"
                    else:
                        key.data(piece)
            _rest(process.stderr, say)
        return bytes(frame), ""

    @property
    def is_over(self) -> bool:
        """Whether the process has ended, and runs nothing."""
        return self._process.poll() is not None

    def end(self) -> None:
        """Ends the process with all that it started."""
        with contextlib.suppress(ProcessLookupError, PermissionError):
            os.killpg(self._process.pid, signal.SIGKILL)
        while any([_killed(pid, self._mark.encode()) for pid in os.listdir("/proc") if pid.isdigit()]):
            pass  # what left the group begins others until none is left
        self._process.wait()


def _rest(said: IO[bytes], say: Callable[[bytes], object]) -> None:
    """What was printed and is still in the pipe."""
    os.set_blocking(said.fileno(), False)
    with contextlib.suppress(BlockingIOError):
        while piece := os.read(said.fileno(), 1 << 16):
            say(piece)


def _killed(pid: str, mark: bytes) -> bool:
    """Whether a process has the mark, and was alive."""
    with contextlib.suppress(OSError), open(f"/proc/{pid}/environ", "rb") as file:
        if mark in file.read():
            os.kill(int(pid), signal.SIGKILL)
            return True
    return False


def _ended(status: int, limits: Limits) -> str:
    """Why a process ended that sent no score."""
    if status in (-signal.SIGXCPU, 128 + signal.SIGXCPU):
        return f"it took more than {limits.cpu} seconds of a processor"
    return f"its process ended with status {status}" if 0 <= status <= 128 else (
        f"the signal {signal.Signals(-status if status < 0 else status - 128).name} ended its process")


def _taken(path: str, data: bytes, frame: bytes, why: str) -> Piece:
    """What a run on a file sent, which may be anything; `Unmade` where it is no score."""
    line, _, text = frame.partition(b"\n")
    try:
        head: dict[str, Any] = json.loads(line)
        places = [[Place(int(line), int(column)) for line, column in calls] for calls in head["places"]]
        if "refused" in head:
            why, calls = str(head["refused"]), places[0]
        else:
            made_by = [int(number) for number in head["made_by"]]
            if all(0 <= number < len(places) for number in made_by):
                return Piece(text, places, made_by)
            calls = []
    except (ValueError, LookupError, TypeError, AttributeError, RecursionError):
        calls = []
    raise Unmade(path, data, why, calls)


class Asked:
    """What the words of a verb say of pieces."""

    arguments: Sequence[str] = ()
    limits = Limits()


_made: dict[tuple[str, bytes], Piece] = {}


def made_of(path: str, data: bytes) -> Piece:
    """The score of a word as `canon.py`, whose file has these bytes. A file that draws is run once for what it has."""
    found = named(path)
    assert found is not None
    if (path, data) not in _made:
        for old in [key for key in _made if key[0] == path]:
            del _made[old]
        _made[path, data] = Runner().run(found[0], data, Asked.limits, Asked.arguments, found[1], _say)
    return _made[path, data]


def known(path: str) -> Optional[tuple[bytes, Piece]]:
    """The bytes of the file that a word means, and what it made last; None of what is no piece."""
    return next(((data, piece) for (name, data), piece in _made.items() if name == path), None)


def _say(printed: bytes) -> None:
    sys.stderr.write(printed.decode("utf-8", "replace"))
    sys.stderr.flush()
