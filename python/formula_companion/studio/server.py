"""The studio's server: the page, the files, the socket of each page, sound and exports.

Each request passes the guard. All addresses begin with the token.
"""

from __future__ import annotations

import asyncio
import contextlib
import json
import pathlib
import signal
import socket
import tempfile
from typing import Any, Awaitable, Callable, NamedTuple, Optional

from aiohttp import WSMsgType, web

from formula_score.explaining.explain import explanation
from formula_score.pictures.drawing import COLOURS, DARKER
from formula_score.running.pieces import Limits
from . import examples
from .door import Door, Watched, quiet
from .folder import Conflict, Denied, Folder, version_of
from .guard import Asked, Guard
from .pieces import Pieces
from .runs import Program, Workers, remove
from .session import Session
from .sound import Sound, Unheard

PAGE = pathlib.Path(__file__).parent / "page"
#: Where Debian's libjs-codemirror puts the editor.
EDITOR = pathlib.Path("/usr/share/javascript/codemirror")
#: The parts of the editor that the page takes, in the order in which they need one another.
EDITOR_PARTS = (
    "lib/codemirror", "addon/fold/foldcode", "addon/fold/foldgutter", "addon/fold/brace-fold",
    "addon/edit/matchbrackets", "addon/edit/closebrackets", "addon/hint/show-hint", "addon/dialog/dialog",
    "addon/search/searchcursor", "addon/search/search", "addon/comment/comment", "mode/python/python",
)
_KINDS = {".html": "text/html", ".js": "text/javascript", ".css": "text/css", ".json": "application/json"}
#: The longest message of a page, in bytes: a text twice as long as the longest file, as JSON writes it.
MOST_MESSAGE = 40 * 1_048_576

#: What reading a body may raise that no page has sent.
_ODD = (LookupError, TypeError, AttributeError, ValueError, ArithmeticError, RecursionError)
#: How often it is looked whether a client is still there, in seconds.
_LOOK = 0.25

Handler = Callable[[web.Request], Awaitable[web.StreamResponse]]


class Settings(NamedTuple):
    """With what the studio is started."""

    program: str
    folder: Folder
    opened: str
    listener: socket.socket
    #: what a Python file may take; None where none is run
    limits: Optional[Limits] = None


class Studio:
    """What the requests share."""

    def __init__(self, settings: Settings, home: str):
        self.settings, self.folder = settings, settings.folder
        self.program = Program(settings.program, home)
        self.workers = Workers(home, settings.program)
        self.sound = Sound(home)
        self.pieces = None if settings.limits is None else Pieces(settings.limits)
        self.door = Door()
        self.guard = Guard(settings.listener.getsockname()[1])

    # ---- the page

    async def page(self, request: web.Request) -> web.StreamResponse:
        """A file of the page."""
        name = request.match_info.get("name") or "index.html"
        path = PAGE / name
        if path.parent != PAGE or path.suffix not in _KINDS or not path.is_file():
            raise web.HTTPNotFound(text="there is no such page")
        return web.Response(body=path.read_bytes(), content_type=_KINDS[path.suffix], charset="utf-8")

    async def editor(self, request: web.Request) -> web.StreamResponse:
        """CodeMirror as one script, or one sheet of styles."""
        ending = request.match_info["ending"]
        parts = [EDITOR / f"{name}.{ending}" for name in EDITOR_PARTS]
        body = b"\n".join(path.read_bytes() for path in parts if path.is_file())
        return web.Response(body=body, content_type=_KINDS[f".{ending}"], charset="utf-8")

    async def about(self, _: web.Request) -> web.StreamResponse:
        """What the page has to know before it opens a text."""
        return web.json_response({
            "folder": self.folder.path, "opened": self.settings.opened, "readOnly": self.folder.read_only,
            "files": await _aside(self.folder.names), "only": self.folder.only is not None,
            "examples": [example._asdict() for example in examples.listed()], "folders": examples.FOLDERS,
            "colours": COLOURS, "darker": DARKER, "silent": self.sound.missing,
            "python": self.pieces is not None,
        })

    # ---- files

    async def read(self, request: web.Request) -> web.StreamResponse:
        """The text of a score, with its version."""
        return _text_of(await _aside(self.folder.read, request.match_info["name"]))

    async def save(self, request: web.Request) -> web.StreamResponse:
        """Saves a score; where it has changed meanwhile, the answer is what it has now."""
        asked = json.loads(await request.text())
        version = asked.get("version")
        try:
            version = await _aside(self.folder.save, request.match_info["name"], asked["text"].encode("utf-8"),
                                   None if version is None else str(version))
        except Conflict as conflict:
            found = conflict.found
            text = None if found is None else found.decode("utf-8", "replace")
            return web.json_response({"why": conflict.why, "text": text,
                                      "version": None if found is None else version_of(found)}, status=409)
        return web.json_response({"version": version})

    async def example(self, request: web.Request) -> web.StreamResponse:
        """The text of an example."""
        data = examples.read(request.match_info["folder"], request.match_info["name"])
        if data is None:
            raise web.HTTPNotFound(text="there is no such example")
        return _text_of(data)

    # ---- the socket

    async def live(self, request: web.Request) -> web.StreamResponse:
        """The session of a page, as long as it is open."""
        opened = web.WebSocketResponse(max_msg_size=MOST_MESSAGE, heartbeat=30)
        await opened.prepare(request)
        session = Session(self.program, self.workers, opened.send_bytes, self.folder, self.pieces)
        try:
            async for message in opened:
                if message.type == WSMsgType.TEXT:
                    session.take(json.loads(message.data))
        except _ODD:  # no message of the page
            await opened.close()
        finally:
            session.close()
        return opened

    # ---- sound and exports

    async def listen(self, request: web.Request) -> web.StreamResponse:
        """A MIDI file as sound."""
        return await self._wave(await request.read())

    async def export(self, request: web.Request) -> web.StreamResponse:
        """A text as a file of some kind."""
        asked = json.loads(await request.text())
        kind, text = request.match_info["kind"], asked["text"].encode("utf-8")
        options = ["--parts"] if kind == "parts" else []
        if kind == "excerpt":
            options = ["--from", str(int(asked["from"])), "--to", str(int(asked["to"]))]
        ran = await self.program.play(text, *options)
        try:
            if ran.status != 0:
                why = explanation(ran.status, ran.said, ["--", "score", "file"])
                raise Denied(422, why if ran.status != 3 else f"the text is refused: {ran.said}")
            if kind == "svg":
                head = {"do": "svg", "file": ran.file, "meter": asked["meter"], "upbeat": asked["upbeat"]}
                answer = await self.workers.ask(head, text)
                if "failed" in answer.head:
                    raise Denied(422, answer.head["failed"])
                return web.Response(body=answer.body, content_type="image/svg+xml")
            data = pathlib.Path(ran.file).read_bytes()
        finally:
            remove(ran.file)
        return await self._wave(data) if kind == "wav" else web.Response(body=data, content_type="audio/midi")

    async def _wave(self, data: bytes) -> web.StreamResponse:
        try:
            return web.FileResponse(await self.sound.render(data), headers={"Content-Type": "audio/wav"})
        except Unheard as unheard:
            raise Denied(422, str(unheard)) from unheard

    # ---- the whole

    def application(self) -> web.Application:
        """The server's table of addresses."""
        async def guarded(request: web.Request, handler: Handler) -> web.StreamResponse:
            return await self._guarded(request, handler)

        served = web.Application(middlewares=[web.middleware(guarded)], client_max_size=MOST_MESSAGE)
        top = f"/{self.guard.token}"
        served.add_routes([
            web.get(f"{top}/", self.page), web.get(f"{top}/about", self.about), web.get(f"{top}/socket", self.live),
            web.get(f"{top}/page/{{name}}", self.page), web.get(f"{top}/editor.{{ending:js|css}}", self.editor),
            web.get(f"{top}/files/{{name:.+}}", self.read), web.put(f"{top}/files/{{name:.+}}", self.save),
            web.get(f"{top}/examples/{{folder}}/{{name}}", self.example),
            web.post(f"{top}/sound", self.listen),
            web.post(f"{top}/export/{{kind:midi|parts|excerpt|svg|wav}}", self.export),
        ])
        served.on_response_prepare.append(self._headed)
        return served

    async def _headed(self, _: web.Request, response: web.StreamResponse) -> None:
        response.headers.update(self.guard.headers)

    async def _guarded(self, request: web.Request, handler: Handler) -> web.StreamResponse:
        """Answers what the guard lets pass."""
        headers = request.headers
        why = self.guard.refuses(Asked(
            request.method, request.path, headers.getall("Host", []), headers.getall("Origin", []),
            headers.getall("Sec-Fetch-Site", []), headers.getall("Sec-Fetch-Mode", []), "Upgrade" in headers))
        if why is not None:
            return web.Response(status=403, text=f"studio: {why}\n", headers={"Connection": "close"})
        self.door.known(request.transport)
        try:
            return await _while_waited_for(request, handler(request))
        except Denied as denied:
            return web.Response(status=denied.status, text=denied.why)
        except _ODD:
            return web.Response(status=400, text="this is no request of the page")


async def _while_waited_for(request: web.Request, work: Awaitable[web.StreamResponse]) -> web.StreamResponse:
    """The answer of a handler, which is ended with all that it runs where the client has left."""
    task = asyncio.ensure_future(work)
    try:
        while not (await asyncio.wait({task}, timeout=_LOOK))[0]:
            if request.transport is None or request.transport.is_closing():
                break
    finally:
        if not task.done():
            task.cancel()
    return await task


def _text_of(data: bytes) -> web.Response:
    """A text with its version. One that is no UTF-8 would not come back as it was, so it is shown alone."""
    try:
        text, is_whole = data.decode("utf-8"), True
    except UnicodeDecodeError:
        text, is_whole = data.decode("utf-8", "replace"), False
    return web.json_response({"text": text, "version": version_of(data), "whole": is_whole})


async def _aside(work: Callable[..., Any], *words: Any) -> Any:
    """A call that may wait for the disk, in a thread of its own."""
    return await asyncio.get_event_loop().run_in_executor(None, work, *words)


async def serve(settings: Settings, tell: Callable[[str, str], None]) -> None:
    """Serves until it is ended; `tell` is called with the address, and with a folder that nobody else may look into."""
    stop = asyncio.Event()
    quiet()
    for number in (signal.SIGTERM, signal.SIGHUP):
        asyncio.get_running_loop().add_signal_handler(number, stop.set)
    with tempfile.TemporaryDirectory(prefix="formula-studio-") as home:
        studio = Studio(settings, home)
        runner = web.AppRunner(studio.application(), access_log=None, handle_signals=False)
        await runner.setup()
        answering: Any = runner.server
        listening = await asyncio.get_running_loop().create_server(
            lambda: Watched(studio.door, answering()), sock=settings.listener)
        settings.listener.listen(4096)  # else a packet of the owner is lost while many others come
        try:
            tell(studio.guard.address, home)
            if studio.pieces:
                studio.pieces.warm()
            await studio.workers.warm()
            await stop.wait()
        finally:
            studio.workers.close()
            if studio.pieces:
                studio.pieces.close()
            listening.close()
            with contextlib.suppress(Exception):
                await asyncio.wait_for(answering.shutdown(5), 5)
                await asyncio.wait_for(runner.cleanup(), 5)
