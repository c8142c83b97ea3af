"""A folder of scores, batches that play it, and what has to be there at their end."""

from __future__ import annotations

import contextlib
import json
import pathlib
import re
import signal
import subprocess
import sys
import tempfile
from typing import Any, Iterator, NamedTuple, Optional

import harness
from cluster import GONE, LONGEST, end, of_session, until

BATCH = [sys.executable, str(harness.TOP / "bin" / "formula-score"), "batch"]
#: So many results are there before something happens.
SOME = 20
REST = "run it again for the rest"


class Said(NamedTuple):
    """How a batch ended, and what it said."""

    status: int
    out: str
    error: str

    def anew(self) -> int:
        """How many scores were played."""
        found = re.match("([0-9]+) of ", self.out)
        if not found:
            raise AssertionError(f"no table: {self}")
        return int(found[1])


class Trial:
    """A folder of scores, their files as the program alone makes them, and batches that play them."""

    def __init__(self, top: pathlib.Path, program: str, count: int):
        self.top, self.program, self.count = top, program, count
        self.folder, self.out = top / "scores", top / "out"
        self.folder.mkdir()
        self.files: dict[str, bytes] = {}
        known = [self._played(f"formula 1; repeat {number + 1} {{ note c4 1/4; }}\n".encode()) for number in range(7)]
        for number in range(count):
            text, file = known[number % len(known)]
            name = f"{number % 10}/{number:05}"
            (self.folder / name).parent.mkdir(exist_ok=True)
            (self.folder / f"{name}.score").write_bytes(text)
            self.files[name] = file

    def _played(self, text: bytes) -> tuple[bytes, bytes]:
        source, target = self.top / "one.score", self.top / "one.mid"
        source.write_bytes(text)
        subprocess.run([self.program, "--workers", "0", source, target], check=True)
        return text, target.read_bytes()

    def begin(self, *words: str, program: Optional[str] = None) -> "subprocess.Popen[bytes]":
        """Begins a batch in a session of its own."""
        with open(self.top / "said", "wb") as out, open(self.top / "error", "wb") as error:
            return subprocess.Popen([*BATCH, *words, "--program", program or self.program, str(self.folder), str(self.out)],
                                    stdin=subprocess.DEVNULL, stdout=out, stderr=error, start_new_session=True)

    def ended(self, batch: "subprocess.Popen[bytes]") -> Said:
        """How a batch ends; nobody of it is at work soon behind."""
        try:
            status = batch.wait(LONGEST)
            until(lambda: not of_session(batch.pid), GONE)
        finally:
            end(of_session(batch.pid))
        return Said(status, *((self.top / name).read_text("utf-8", "backslashreplace") for name in ("said", "error")))

    def run(self, *words: str, program: Optional[str] = None) -> Said:
        """A whole batch."""
        return self.ended(self.begin(*words, program=program))

    def results(self) -> dict[str, list[Any]]:
        """The whole lines of the results."""
        try:
            lines = (self.out / "batch.results").read_text("ascii").split("\n")[:-1]
        except FileNotFoundError:
            return {}
        return {name: rest for name, *rest in map(json.loads, filter(None, lines))}

    def until_some(self) -> None:
        """Waits for some results."""
        until(lambda: len(self.results()) >= SOME)

    @contextlib.contextmanager
    def held(self, batch: "subprocess.Popen[bytes]") -> Iterator[None]:
        """Waits for some results, and stops a batch meanwhile, which else would be done before something happens."""
        self.until_some()
        batch.send_signal(signal.SIGSTOP)
        try:
            yield
        finally:
            batch.send_signal(signal.SIGCONT)

    def wrong(self) -> list[str]:
        """The names whose files are not as they should be."""
        return [name for name, file in self.files.items() if harness.held(self.out / f"{name}.mid") != file]

    def check(self, is_so: bool, what: object) -> None:
        """Complains where it is not so."""
        if not is_so:
            raise AssertionError(f"{what}")

    def is_whole(self, said: Said, status: int = 0) -> None:
        """All files are there and right, and nothing else is."""
        self.check(said.status == status, said)
        self.check(not self.wrong(), f"wrong: {self.wrong()[:5]}")
        self.has_results_alone()

    def has_results_alone(self) -> None:
        """The folder has no file but results, and what is there is right."""
        left = {path.relative_to(self.out).as_posix() for path in self.out.rglob("*") if not path.is_dir()}
        self.check(left <= {"batch.results", *(f"{name}.mid" for name in self.files)}, f"left: {left}")
        halves = [name for name, file in self.files.items() if harness.held(self.out / f"{name}.mid") not in (None, file)]
        self.check(not halves, f"half: {halves[:5]}")

    def goes_on(self, *words: str) -> None:
        """A second run plays what has no result that stands, and nothing else; then all is there."""
        self.has_results_alone()
        rest = self.count - sum(
            result[0] == "0" and (self.out / f"{name}.mid").exists() for name, result in self.results().items())
        said = self.run(*words)
        self.check(said.anew() == rest, f"{rest} were left: {said}")
        self.is_whole(said)


@contextlib.contextmanager
def trial_of(program: str, count: int) -> Iterator[Trial]:
    """A folder of so many scores."""
    with tempfile.TemporaryDirectory() as folder:
        yield Trial(pathlib.Path(folder), program, count)
