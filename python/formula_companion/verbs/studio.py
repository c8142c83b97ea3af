"""The verb `studio`: a page in the browser that shows and plays a score while it is written."""

from __future__ import annotations

import argparse
import asyncio
import os
import shutil
import socket
import subprocess

from formula_score.host.packages import install_line, names
from formula_score.reading.playing import Failed, program
from formula_score.running.pieces import Asked, jailed
from ..studio.folder import PYTHON, Folder
from .libraries import needs


def arguments(parser: argparse.ArgumentParser) -> None:
    """What the verb takes."""
    parser.add_argument("path", metavar="SCORE | FOLDER", nargs="?", default=".", help="a score, which may be a new "
                        "one, or a folder with scores; the present folder where it is not given")
    parser.add_argument("--read-only", action="store_true", help="save nothing")
    parser.add_argument("--python", action="store_true", help="open and run Python files that make scores, too: whoever "
                        "has the address can then run programs as you. One runs when it is opened and when it is saved")
    parser.add_argument("--no-open", action="store_true", help="open no browser; the address is printed in any case")
    parser.add_argument("--port", type=_port, default=0, metavar="N", help="the port; a free one where it is not given")
    parser.description = f"""{parser.description}

The page has the text with its colours, what is refused in it and why, the piano roll, the processes, the deformations
of time, and sound by fluidsynth, or else by the browser. All ticks that it shows are the proved program's. It works
without a network, and on this computer alone: the address has a secret, and only the folder or the score that is named
is read and written. End it with Ctrl-C. It needs Debian's packages {" and ".join(names("studio"))}, and for sound
{" and ".join(names("sound"))}."""


def _port(word: str) -> int:
    number = int(word)
    if not 0 <= number < 65536:
        raise argparse.ArgumentTypeError("a port is a number from 0 to 65535")
    return number


def run(options: argparse.Namespace) -> int:
    """Serves the page until it is ended."""
    needs("studio")
    from ..studio import server  # it needs aiohttp

    if not (server.EDITOR / f"{server.EDITOR_PARTS[0]}.js").exists():
        raise Failed(1, f"the editor CodeMirror is missing: {install_line(['libjs-codemirror'])}")
    folder, opened = _folder(options)
    listener = _listener(options.port)

    def tell(address: str, home: str) -> None:
        print(f"the studio is at {address}\nend it with Ctrl-C", flush=True)
        if options.python:
            print(f"it runs Python files: whoever has the address can run programs as you. {_kept()}", flush=True)
        opener = None if options.no_open else shutil.which("xdg-open")
        if opener:
            subprocess.Popen([opener, _page_that_leads(address, home)], stdin=subprocess.DEVNULL,
                             stdout=subprocess.DEVNULL, stderr=subprocess.DEVNULL, start_new_session=True)

    try:
        asyncio.run(server.serve(server.Settings(
            program(), folder, opened, listener, Asked.limits if options.python else None), tell))
    except KeyboardInterrupt:
        print()
    finally:
        listener.close()
        folder.close()
    return 0


def _kept() -> str:
    """What a Python file may do on this computer."""
    return "They can read what you can, write nothing, and reach no network" if jailed() else (
        f"They can do all that you can: {install_line(['bubblewrap'])} keeps them from writing and from the network, "
        "where the computer lets it")


def _folder(options: argparse.Namespace) -> tuple[Folder, str]:
    """The folder that may be read and written, and the score that is opened."""
    path, read_only, with_python = options.path, options.read_only, options.python
    if os.path.isdir(path):
        return Folder(path, None, read_only, with_python), ""
    home, name = os.path.split(path)
    if name.endswith(PYTHON) and not with_python:
        raise Failed(2, f"{path!r} is a Python file, and --python is missing: it lets the studio run programs")
    if not name.endswith((".score", PYTHON)):
        raise Failed(2, f"{path!r} is neither a folder nor a score: the name of a score ends in .score")
    if not os.path.isdir(home or "."):
        raise Failed(2, f"there is no folder {home!r}")
    return Folder(home or ".", name, read_only, with_python), name


def _page_that_leads(address: str, home: str) -> str:
    """The name of a file that leads a browser on. The words of a process can be read by every user of this computer, so
    the address with its secret is none of them."""
    path = os.path.join(home, "studio.html")
    with open(os.open(path, os.O_WRONLY | os.O_CREAT | os.O_EXCL, 0o600), "w", encoding="ascii") as file:
        file.write(f'<!doctype html><title>Studio</title><meta http-equiv="refresh" content="0; url={address}">\n')
    return path


def _listener(port: int) -> socket.socket:
    """A socket that this computer alone can reach."""
    listener = socket.socket()
    listener.setsockopt(socket.SOL_SOCKET, socket.SO_REUSEADDR, 1)
    try:
        listener.bind(("127.0.0.1", port))
    except OSError as error:
        listener.close()
        raise Failed(1, f"the studio cannot listen on port {port}: {error.strerror}") from error
    return listener
