"""One page that is open: its text comes with each change, and answers go back as they are known.

Each text has a number, and so has all that is told of it. A newer one ends what is still running for an older one. The
first answer is the program's: its file, or its refusal. The companion's follow: what lint and bars find, processes and
places of the events, and bars. A question about the file waits for that of its own text; of a refused text it is answered `refused`.
"""

from __future__ import annotations

import asyncio
import contextlib
import os
import time
from typing import Any, Awaitable, Callable, Optional

from formula_score.explaining.explain import explanation, place_of
from formula_score.reading.playing import Failed
from formula_score.running.pieces import Unmade
from .folder import Denied, Folder, version_of
from .frames import packed
from .pieces import Pieces, refused, sent
from .runs import Program, Ran, Workers, remove

#: A frame is sent to the page by this.
Send = Callable[[bytes], Awaitable[None]]
#: What the page asks beside its text, and which of it a newer one of the same kind ends.
ASKED = ("bars", "problems", "facts", "curves", "complete", "hover", "outline", "names")
#: What is looked up in the file.
OF_FILE = ("picture", "bars", "problems", "facts", "curves")


class Session:
    """What is running for a page."""

    def __init__(self, program: Program, workers: Workers, send: Send, folder: Folder, pieces: Optional[Pieces] = None):
        self.program, self.workers, self.send, self.folder, self.pieces = program, workers, send, folder, pieces
        #: the text of a score, behind which is what made it where a Python file did, and what says so to a worker
        self.text = b""
        self.made: dict[str, Any] = {}
        self.number = -1
        self.file: Optional[str] = None
        #: the file of the text of this number, None where it has none
        self._played: asyncio.Future[Optional[str]] = asyncio.get_running_loop().create_future()
        self._running: dict[str, asyncio.Task[None]] = {}

    def take(self, message: dict[str, Any]) -> None:
        """Begins what a message of the page asks for; what it does away with is ended."""
        kind = message.get("do")
        if kind == "text":
            for task in self._running.values():
                task.cancel()
            self.text, self.number = str(message["text"]).encode("utf-8", "replace"), int(message["number"])
            self.made = {}
            self._played = asyncio.get_running_loop().create_future()
            self._begin("text", self._play(self.text, self.number, message))
        elif kind == "run":
            for task in self._running.values():
                task.cancel()
            self.text, self.number = b"", int(message["number"])
            self._played = asyncio.get_running_loop().create_future()
            self._begin("text", self._run(str(message["name"]), str(message["version"]), self.number, message))
        elif kind == "check" and self.pieces:
            self._begin("check", self._check(message))
        elif kind == "end" and "text" in self._running:
            self._running["text"].cancel()
        elif kind in ASKED:
            self._begin(str(kind), self._ask(str(kind), message))

    def close(self) -> None:
        """Ends all that runs."""
        for task in self._running.values():
            task.cancel()
        if self.file:
            remove(self.file)

    def _begin(self, kind: str, work: Awaitable[None]) -> None:
        before = self._running.get(kind)
        if before is not None:
            before.cancel()
        self._running[kind] = asyncio.ensure_future(_told(work))

    async def _run(self, name: str, version: str, number: int, message: dict[str, Any]) -> None:
        """Runs a Python file as it lies in the folder, if that is what the page shows, and plays its score."""
        told: dict[str, Any] = {"kind": "failed", "number": number}
        printed = bytearray()
        try:
            if self.pieces is None:
                raise Denied(403, "no Python is run: start the studio with --python")
            data = await asyncio.get_running_loop().run_in_executor(None, self.folder.read, name)
            if version_of(data) != version:
                raise Denied(409, "the file has changed since it was read: it is not run")
            await self.send(packed({"kind": "running", "number": number}))
            piece = await self.pieces.made(os.path.join(self.folder.path, name), data, printed.extend)
        except Denied as denied:
            told["failed"] = denied.why
        except Unmade as unmade:
            told = {"kind": "problems", "number": number,
                    "problems": [refused(unmade.why, unmade.told(), unmade.place)]}
        except asyncio.CancelledError:
            if self.number == number:  # the button ended it, and no newer text
                await self.send(packed({**told, "failed": f"{name} was ended: there is no score"}))
            raise
        else:
            self.made, self.text = sent(piece)
            await self.send(packed({"kind": "made", "number": number, "printed": _last(printed)}, piece.text))
            await self._play(piece.text, number, message)
            return
        self._played.set_result(None)
        await self.send(packed({**told, "printed": _last(printed)}))

    async def _check(self, message: dict[str, Any]) -> None:
        head = {"do": "check", "name": str(message["name"])}
        answer = await self.workers.ask(head, str(message["text"]).encode("utf-8", "replace"))
        await self.send(packed({**answer.head, "kind": "check", "number": self.number, "question": message["question"]}))

    async def _play(self, text: bytes, number: int, message: dict[str, Any]) -> None:
        begun = time.monotonic()
        try:
            ran = await self.program.play(text)
        except OSError as error:
            why = f"{self.program.path} cannot be run: {error.strerror}"
            await self.send(packed({"kind": "failed", "number": number, "failed": why}))
            self._played.set_result(None)
            return
        if ran.status != 0:
            remove(ran.file)
            await self._refuse(ran, text, number, message)
            self._played.set_result(None)
            return
        old, self.file = self.file, ran.file
        if old:
            remove(old)
        with open(ran.file, "rb") as file:
            data = file.read()
        await self.send(packed({"kind": "file", "number": number, "seconds": time.monotonic() - begun}, data))
        self._played.set_result(ran.file)
        await asyncio.gather(self._answer("problems", message, text, number), self._draw(text, number, message))

    async def _draw(self, text: bytes, number: int, message: dict[str, Any]) -> None:
        await self._answer("picture", {}, text, number)
        await self._answer("bars", message, text, number)

    async def _refuse(self, ran: Ran, text: bytes, number: int, message: dict[str, Any]) -> None:
        if place_of(ran.said) is None:
            why = explanation(ran.status, ran.said, ["--", "score", ran.file])
            await self.send(packed({"kind": "failed", "number": number, "failed": why or ran.said}))
            return
        await self._answer("problems", {**message, "said": ran.said}, text, number)

    async def _ask(self, kind: str, message: dict[str, Any]) -> None:
        await self._answer(kind, message, self.text, self.number)

    async def _answer(self, kind: str, message: dict[str, Any], text: bytes, number: int) -> None:
        """Lets a worker answer, and hands it on with the number of the text and of the question."""
        head = {name: message[name] for name in ("meter", "upbeat", "event", "process", "position", "said")
                if name in message}
        told = {"kind": kind, "number": number, "question": message.get("question")}
        is_of_file = kind in OF_FILE and "said" not in head
        file = await asyncio.shield(self._played) if is_of_file else None
        if is_of_file and file is None:
            await self.send(packed({**told, "refused": True}))
            return
        body = self.text if self.made and number == self.number else text
        answer = await self.workers.ask({**head, **self.made, "do": kind, "file": file or os.devnull}, body)
        await self.send(packed({**answer.head, **told}, answer.body))


def _last(printed: bytearray) -> str:
    """The end of what a file printed."""
    return bytes(printed[-2000:]).decode("utf-8", "replace")


async def _told(work: Awaitable[None]) -> None:
    """Work that may be ended, and whose page may have gone."""
    with contextlib.suppress(asyncio.CancelledError, ConnectionError, Failed):
        await work
