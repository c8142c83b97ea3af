"""Who leaves, who does not show the token, and who sends what no page sends."""

from __future__ import annotations

import os
import pathlib
import resource
import socket
import subprocess
import tempfile
import time
import unittest
from typing import Any

from .program import PROGRAM, needs_program
from .studio import Running
from .test_studio_session import SLOW, Page

#: A program that cannot be run, one that is killed, and what the page is told.
BROKEN = {"": "cannot be run", "#!/bin/sh\nkill -9 $$\n": "the signal SIGKILL ended the program"}


def waited(what: Any, seconds: float = 20) -> Any:
    until = time.monotonic() + seconds
    while not (found := what()) and time.monotonic() < until:
        time.sleep(0.05)
    return found


@needs_program
class Door(unittest.TestCase):
    def setUp(self) -> None:
        folder = tempfile.TemporaryDirectory()
        self.addCleanup(folder.cleanup)
        self.top = pathlib.Path(folder.name)

    def studio(self, program: str) -> Running:
        path = self.top / "program"
        path.write_text(program)
        path.chmod(0o755)
        studio = Running(self.top, program=str(path))
        self.addCleanup(studio.close)
        return studio

    def post(self, studio: Running, what: str, body: bytes) -> socket.socket:
        asks = socket.create_connection(("127.0.0.1", studio.port))
        asks.sendall((f"POST /{studio.token}/{what} HTTP/1.1\r\nHost: {studio.host}\r\nOrigin: http://{studio.host}\r\n"
                      f"Content-Length: {len(body)}\r\n\r\n").encode() + body)
        return asks

    def test_programs_of_clients_that_have_left_are_ended(self) -> None:
        studio = self.studio(SLOW.format(folder=self.top, program=PROGRAM))
        asks = [self.post(studio, "export/midi", b'{"text": "formula 1; # slow"}') for _ in range(8)]
        pids = waited(lambda: len(found := list(self.top.glob("*.pid"))) == 8 and found)
        for each in asks:
            each.close()
        self.assertTrue(waited(lambda: not any(os.path.exists(f"/proc/{pid.stem}") for pid in pids)))

    def test_connections_without_the_token_leave_room_for_the_owner(self) -> None:
        studio = self.studio(f'#!/bin/sh\nexec "{PROGRAM}" "$@"\n')
        resource.prlimit(studio.process.pid, resource.RLIMIT_NOFILE, (1024, 1024))
        soft, hard = resource.getrlimit(resource.RLIMIT_NOFILE)
        resource.setrlimit(resource.RLIMIT_NOFILE, (hard, hard))
        self.addCleanup(resource.setrlimit, resource.RLIMIT_NOFILE, (soft, hard))
        for number in range(1013):
            half = socket.create_connection(("127.0.0.1", studio.port))
            self.addCleanup(half.close)
            half.sendall(b"GET / HT" if number % 2 else b"\x16\x03 no request\r\n\r\n")
        begun = time.monotonic()
        self.assertEqual(studio.get("/about").status, 200)
        self.assertLess(time.monotonic() - begun, 5)  # 0.5 s where nothing else runs
        self.assertLess(len(os.listdir(f"/proc/{studio.process.pid}/fd")), 64 + 30)
        studio.process.terminate()
        self.assertLess(studio.process.communicate()[1].count("\n"), 3)

    def test_odd_bodies_are_no_fault_of_the_studio(self) -> None:
        studio = self.studio(f'#!/bin/sh\nexec "{PROGRAM}" "$@"\n')
        for body in (b"", b"[]", b"null", b"[" * 100_000, b'{"text": 1}', b'{"text": "\\ud800"}', b"\xff", b'{"text": {}}',
                     b'{"text": "", "from": 1e999, "to": 0}', b'{"text": "", "from": [], "to": 0}'):
            with self.post(studio, "export/excerpt", body) as asked:
                self.assertRegex(asked.recv(100), rb"^HTTP/1.1 400 ", body[:40])

    def test_a_run_that_fails_says_why(self) -> None:
        for program, why in BROKEN.items():
            studio = self.studio(program)
            page = Page(studio)
            self.addCleanup(page.close)
            page.send(do="text", number=1, text="formula 1;")
            told = page.next().head
            self.assertEqual((told["kind"], told["number"]), ("failed", 1))
            self.assertIn(why, told["failed"])
            page.send(do="facts", question=3, event=0)
            self.assertEqual(page.next().head, {"kind": "facts", "number": 1, "question": 3, "refused": True})


if __name__ == "__main__":
    unittest.main()
