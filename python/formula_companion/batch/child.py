"""What a process of the pool of this machine does first. Each imports this module, which therefore imports no other."""

from __future__ import annotations

import contextlib
import multiprocessing
import os
import signal
import sys
import threading
from types import ModuleType


def module_of(name: str, source: bytes) -> ModuleType:
    """The module of this source, which has this name from now on."""
    if name not in sys.modules:
        module = sys.modules[name] = ModuleType(name)
        exec(compile(source, name, "exec"), module.__dict__)
    return sys.modules[name]


def begin(name: str, source: bytes, program: str) -> None:
    """Lets a process have the module of the task and the program of a file. It is ended where its parent is gone, with
    the run that it waits for."""
    os.setpgid(0, 0)
    threading.Thread(target=_watch, daemon=True).start()
    module = module_of(name, source)
    with contextlib.suppress(OSError), open(program, "rb") as file:  # a process that lacks it is sent it
        module.keep(file.read())


def _watch() -> None:
    parent = multiprocessing.parent_process()
    if parent is not None:
        parent.join()
    os.killpg(0, signal.SIGKILL)
