"""What a batch is played on: processes of this machine, or a cluster of Dask."""

from __future__ import annotations

import contextlib
import gc
import importlib
import logging
import multiprocessing
import os
import pathlib
import re
import signal
import sys
import warnings
from concurrent.futures import Executor, Future, ProcessPoolExecutor
from typing import Any, Callable, Iterator, NamedTuple

from formula_score.running import task
from . import child
from .folder import Failed

#: The scheduler is waited for so many seconds, also where it is silent in the middle.
PATIENCE = 20
#: Addresses of a scheduler at which nobody else can listen, or speak for it.
SAFE = re.compile(r"tls://[^/]+|(tcp://)?127\.0\.0\.1:[0-9]+")
#: What wants a process to end.
SIGNALS = (signal.SIGINT, signal.SIGTERM, signal.SIGHUP)


class Engine(NamedTuple):
    """An executor, how it plays a handful of texts, and how many it plays at a time."""

    executor: Executor
    play: Callable[..., task.Answer]
    size: Callable[[], int]


class _Pool(ProcessPoolExecutor):
    """Processes that begin without heeding the signals of a terminal; they are ended otherwise."""

    def submit(self, fn: Callable[..., Any], /, *words: Any, **named: Any) -> "Future[Any]":
        before = signal.pthread_sigmask(signal.SIG_BLOCK, SIGNALS)
        try:
            future = super().submit(fn, *words, **named)
        finally:
            signal.pthread_sigmask(signal.SIG_SETMASK, before)
        # the thread of the pool fails at one that is cancelled where the processes are killed
        setattr(future, "cancel", lambda: False)
        return future


def source() -> tuple[str, bytes]:
    """The name under which the task's module is known wherever it plays, and its source. A worker keeps a module that it
    has, also one of another batch; and with the library's own, a process of the pool would import the whole library."""
    text = pathlib.Path(task.__file__).read_bytes()
    return f"formula_task_{task.digest_of(text)[:16]}", text


@contextlib.contextmanager
def here(jobs: int, program: str) -> Iterator[Engine]:
    """Processes of this machine, which have the program of this file. They take no open descriptor of this one, and are
    ended with what they run where this is left before it is through."""
    name, text = source()
    module = child.module_of(name, text)
    with _Pool(jobs, multiprocessing.get_context("spawn"), child.begin, (name, text, program)) as pool:
        try:
            yield Engine(pool, module.play_some, lambda: jobs)
        except BaseException:
            for process in multiprocessing.active_children():
                for end in (os.killpg, os.kill):
                    with contextlib.suppress(ProcessLookupError):
                        end(process.pid or 0, signal.SIGKILL)
            raise


def judge(address: str) -> None:
    """Refuses an address at which others may listen, or speak for the scheduler."""
    if not SAFE.fullmatch(address):
        raise Failed(f"{address} is no address that is safe: whoever reaches a scheduler runs programs as you. Give it "
                     "certificates and a tls:// address, or reach it as 127.0.0.1:PORT, by ssh -L")


def _library(name: str) -> Any:
    """A library of many modules. It comes and goes a third sooner where nobody looks for garbage in it."""
    gc.disable()
    try:
        return importlib.import_module(name)
    finally:
        gc.freeze()
        gc.enable()


def _bringer(distributed: Any, name: str, text: bytes) -> Any:
    """What lets each worker have the module of the task, in its memory alone: it goes there by its value."""
    module_of = child.module_of
    _library("cloudpickle").register_pickle_by_value(child)
    return type("Bringer", (distributed.WorkerPlugin,), {"setup": lambda *_, **__: module_of(name, text) and None})()


@contextlib.contextmanager
def dask(address: str) -> Iterator[Engine]:
    """A cluster of Dask, by the address of its scheduler. Its certificates are those of Dask's configuration."""
    distributed = _library("distributed")
    logging.disable(logging.CRITICAL)  # what has to be said of faults is said here
    warnings.filterwarnings("ignore", "Large object")
    if address.startswith("tls:") and not distributed.Security().tls_ca_file:
        raise Failed(f"{address} needs certificates: Dask's configuration names none (distributed.comm.tls)")
    try:
        client = distributed.Client(address, timeout=PATIENCE, set_as_default=False)
    except (OSError, ValueError, TypeError) as error:
        raise Failed(f"no scheduler answers at {address}: {' '.join(str(error).split())}") from error
    with client:
        name, text = source()
        module = child.module_of(name, text)
        # newer versions have this name for it, and warn of the older one
        register = getattr(client, "register_plugin", None) or client.register_worker_plugin
        register(_bringer(distributed, name, text), name=name)
        last = 0

        def slots() -> int:
            """How many texts are played at a time; what was known last, where the scheduler is silent."""
            nonlocal last
            with contextlib.suppress(Exception):
                last = sum(client.sync(client.scheduler.ncores, callback_timeout=PATIENCE).values())
            return last

        if not slots():
            print(f"batch: {address} has no worker yet: they are waited for", file=sys.stderr)
        yield Engine(client.get_executor(pure=False), module.play_some, slots)

