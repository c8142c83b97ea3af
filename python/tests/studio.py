"""A studio for the tests: the real command on a folder, and requests of any kind."""

from __future__ import annotations

import http.client
import json
import os
import pathlib
import re
import shutil
import signal
import subprocess
import sys
import tempfile
import unittest
from typing import Any, NamedTuple, Optional

from .program import PROGRAM, TOP

#: How long the studio may take to be there, in seconds.
LONGEST = 60


class Answered(NamedTuple):
    """What the studio answers: its status, its headers, and what it says."""

    status: int
    headers: dict[str, str]
    body: bytes

    @property
    def json(self) -> Any:
        """The answer as a value."""
        return json.loads(self.body)


class Running:
    """A studio that runs, with a program. `words` stand behind the verb."""

    def __init__(self, *words: object, program: Optional[str] = PROGRAM, opens: bool = False):
        if program is None:  # the command would build one
            raise unittest.SkipTest("NOT TRIED: there is no program, and FORMULA names none")
        self.process = subprocess.Popen(
            [sys.executable, str(TOP / "bin" / "formula-score"), "studio", *([] if opens else ["--no-open"]),
             *map(str, words)],
            env={**os.environ, "FORMULA": program}, stdin=subprocess.DEVNULL, stdout=subprocess.PIPE,
            stderr=subprocess.PIPE, text=True, start_new_session=True)
        assert self.process.stdout is not None and self.process.stderr is not None
        first = self.process.stdout.readline()
        found = re.fullmatch(r"the studio is at (http://127\.0\.0\.1:([0-9]+)/([\w-]+)/)\n", first)
        if not found:
            said = self.process.stderr.read()
            self.close()
            raise unittest.SkipTest(f"NOT TRIED: {said.strip()}") if "apt-get" in said else AssertionError(said)
        self.address, self.port, self.token = found[1], int(found[2]), found[3]
        self.host = f"127.0.0.1:{self.port}"

    def close(self) -> None:
        """Ends it as Ctrl-C does."""
        if self.process.poll() is None:
            os.kill(self.process.pid, signal.SIGINT)
        try:
            self.process.wait(10)
        except subprocess.TimeoutExpired:
            os.killpg(self.process.pid, signal.SIGKILL)
            self.process.wait()
        for pipe in (self.process.stdout, self.process.stderr):
            if pipe is not None:
                pipe.close()

    def ask(self, method: str, path: str, body: Optional[bytes] = None, token: Optional[str] = None,
            **headers: Optional[str]) -> Answered:
        """A request as the page makes it, but for the headers and the token that are given; None leaves one out."""
        sent: dict[str, Optional[str]] = {"Host": self.host, "Origin": f"http://{self.host}"}
        sent.update({name.replace("_", "-"): value for name, value in headers.items()})
        connection = http.client.HTTPConnection("127.0.0.1", self.port, timeout=LONGEST)
        try:
            prefix = f"/{self.token if token is None else token}"
            connection.putrequest(method, prefix + path, skip_host=True, skip_accept_encoding=True)
            for name, value in sent.items():
                if value is not None:
                    connection.putheader(name, value)
            if body is not None:
                connection.putheader("Content-Length", str(len(body)))
            connection.endheaders(body)
            answer = connection.getresponse()
            data = b"" if answer.status == 101 else answer.read()
            return Answered(answer.status, dict(answer.getheaders()), data)
        finally:
            connection.close()

    def get(self, path: str) -> Answered:
        """What the page reads."""
        return self.ask("GET", path, Origin=None)

    def put(self, name: str, text: str, version: Optional[str]) -> Answered:
        """A save of the page."""
        return self.ask("PUT", f"/files/{name}", json.dumps({"text": text, "version": version}).encode())


class StudioTest(unittest.TestCase):
    """Tests with one studio on a folder with a score, `tune.score`."""

    studio: Running
    home: pathlib.Path
    folder: pathlib.Path
    words: tuple[str, ...] = ()
    TUNE = "formula 1;\nnote c4 1/4;\n"
    _running: dict[tuple[str, ...], tuple[Running, pathlib.Path]] = {}

    @classmethod
    def setUpClass(cls) -> None:
        if PROGRAM is None:
            raise unittest.SkipTest("NOT TRIED: there is no program, and FORMULA names none")
        if cls.words not in cls._running:
            temporary = tempfile.TemporaryDirectory()
            unittest.addModuleCleanup(temporary.cleanup)
            home = pathlib.Path(temporary.name)
            (home / "scores").mkdir()
            running = Running(*cls.words, home / "scores")
            unittest.addModuleCleanup(cls._running.clear)
            unittest.addModuleCleanup(running.close)
            cls._running[cls.words] = running, home
        cls.studio, cls.home = cls._running[cls.words]
        cls.folder = cls.home / "scores"

    def setUp(self) -> None:
        for path in self.folder.iterdir():  # the folder itself stays: the studio has it open
            shutil.rmtree(path) if path.is_dir() and not path.is_symlink() else path.unlink()
        (self.folder / "inner").mkdir()
        (self.folder / "tune.score").write_text(self.TUNE)
        (self.folder / "inner" / "other.score").write_text(self.TUNE)
