"""What goes over the socket of a page: the program's file or its refusal, and no answer to a text that is out of date."""

from __future__ import annotations

import json
import os
import pathlib
import socket
import struct
import tempfile
import time
import unittest
from typing import Any

from formula_score.running.command import render
from formula_companion.studio.frames import Frame, unpacked

from .program import PROGRAM
from .studio import LONGEST, Running, StudioTest

#: A program that takes its time for a text with the word `slow`, and says as what process it runs.
SLOW = """#!/bin/sh
for word; do [ "$word" = -- ] && found=yes && continue; [ -n "$found" ] && break; done
if grep -q slow "$word"; then echo $$ >"{folder}/$$.pid"; sleep 100; fi
exec "{program}" "$@"
"""


class Page:
    """The socket of a page."""

    def __init__(self, studio: Running):
        self.socket = socket.create_connection(("127.0.0.1", studio.port), LONGEST)
        self.file = self.socket.makefile("rb")
        self.socket.sendall((f"GET /{studio.token}/socket HTTP/1.1\r\nHost: {studio.host}\r\nOrigin: http://{studio.host}"
                             "\r\nUpgrade: websocket\r\nConnection: Upgrade\r\nSec-WebSocket-Version: 13\r\n"
                             "Sec-WebSocket-Key: AAAAAAAAAAAAAAAAAAAAAA==\r\n\r\n").encode())
        while self.file.readline() not in (b"\r\n", b""):
            pass

    def send(self, **message: Any) -> None:
        """A message as a masked frame."""
        data = json.dumps({"meter": "4/4", "upbeat": "", **message}).encode()
        length = (bytes([0x81, 0x80 | len(data)]) if len(data) < 126
                  else bytes([0x81, 0xFE]) + struct.pack(">H", len(data)))
        self.socket.sendall(length + bytes(4) + data)

    def next(self) -> Frame:
        """The next frame from the studio."""
        first, size = self.file.read(2)
        if size == 126:
            size, = struct.unpack(">H", self.file.read(2))
        elif size == 127:
            size, = struct.unpack(">Q", self.file.read(8))
        data = self.file.read(size)
        return self.next() if first & 15 == 9 else unpacked(data)  # a busy machine is sent pings

    def close(self) -> None:
        self.file.close()
        self.socket.close()


class Sessions(StudioTest):
    def setUp(self) -> None:
        super().setUp()
        self.page = Page(self.studio)
        self.addCleanup(self.page.close)

    def test_a_text_is_played_and_then_looked_at(self) -> None:
        self.page.send(do="text", number=1, text=self.TUNE)
        frames = {frame.head["kind"]: frame for frame in (self.page.next() for _ in range(4))}
        self.assertEqual([(kind, frame.head["number"]) for kind, frame in frames.items() if kind != "problems"],
                         [("file", 1), ("picture", 1), ("bars", 1)])
        self.assertEqual(frames["file"].body, render(self.TUNE, PROGRAM))
        self.assertEqual(frames["bars"].head["bars"][:1], [[0, 1]])
        self.assertEqual(frames["problems"].head["problems"], [])
        self.page.send(do="facts", question=7, event=0)
        facts = self.page.next().head
        self.assertEqual((facts["question"], facts["facts"][0]), (7, ["Note", "c4, key 60, velocity 64, channel 0"]))

    def test_a_refusal_is_told_with_its_place(self) -> None:
        self.page.send(do="text", number=1, text="formula 1;\nnote c4 1/4\n")
        head = self.page.next().head
        problem, = head["problems"]
        self.assertEqual((head["kind"], problem["severity"], problem["rule"], problem["range"]),
                         ("problems", "error", "fault 3", [[1, 10], [1, 11]]))
        self.assertIn("write `note c4 1/4;`", problem["cure"])

    def test_what_may_be_written_is_told(self) -> None:
        self.page.send(do="text", number=1, text="formula 1;\nno")
        self.page.next()
        self.page.send(do="complete", question=1, position=[1, 2])
        self.assertEqual(self.page.next().head["items"][0]["label"], "note")


class OutOfDate(unittest.TestCase):
    def test_a_run_that_nobody_waits_for_is_ended(self) -> None:
        if PROGRAM is None:
            self.skipTest("NOT TRIED: there is no program, and FORMULA names none")
        with tempfile.TemporaryDirectory() as name:
            folder = pathlib.Path(name)
            slow = folder / "program"
            slow.write_text(SLOW.format(folder=folder, program=PROGRAM))
            slow.chmod(0o755)
            studio = Running(folder, program=str(slow))
            self.addCleanup(studio.close)
            page = Page(studio)
            self.addCleanup(page.close)
            page.send(do="text", number=1, text="formula 1; # slow")
            pids = self.waited(lambda: list(folder.glob("*.pid")))
            page.send(do="text", number=2, text="formula 1; note c4 1/4;")
            self.assertEqual([page.next().head["number"] for _ in range(4)], [2] * 4)
            self.assertTrue(self.waited(lambda: not os.path.exists(f"/proc/{pids[0].stem}")))

    def waited(self, what: Any) -> Any:
        """What comes within some seconds."""
        until = time.monotonic() + 20
        while not (found := what()) and time.monotonic() < until:
            time.sleep(0.05)
        return found


if __name__ == "__main__":
    unittest.main()
