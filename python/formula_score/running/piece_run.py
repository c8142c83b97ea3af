"""Runs a Python file that makes a score, in a process of its own: python3 -m formula_score.running.piece_run

It says a line when it is ready. Standard input has a line of JSON (path, name of the score, arguments, limits), and then the text of the file. A line of
JSON goes to standard output, and the score's text; or why there is none. What the file prints goes to standard error.
"""

from __future__ import annotations

import contextlib
import importlib.util
import json
import linecache
import os
import resource
import sys
import types
from typing import Any

from ..making import origins
from ..making.origins import Place
from .score import Score, origins_of

#: So many characters of a reason are told, and so many processes a file may start beside those that its user has.
_LONGEST, _PROCESSES = 500, 128


class NoScore(Exception):
    """Why a module that was run to its end is no piece."""


def score_in(names: dict[str, Any], name: str) -> Score:
    """The score of a module: of a name, else the one that is called `score`, else the only one."""
    found = {key: value for key, value in names.items() if isinstance(value, Score)}
    if not name and "score" not in names and len({id(value) for value in found.values()}) != 1:
        raise NoScore("no score is there: write `score = Score(..)` at its left edge" if not found else
                      f"{', '.join(found)} are scores: name one behind the file, as `FILE:{next(iter(found))}`")
    name = name or ("score" if "score" in names else next(iter(found)))
    if name not in names:
        raise NoScore(f"there is no {name} in it" + (f"; its scores are {', '.join(found)}" if found else ""))
    value = names[name]
    if isinstance(value, types.FunctionType):
        value = value()
    if not isinstance(value, Score):
        raise NoScore(f"{name} is no score: it is of the type {type(value).__name__}")
    return value


def calls_of(error: BaseException, path: str, text: str) -> list[Place]:
    """Where in a file an error came up, the innermost line first."""
    if isinstance(error, NoScore):
        return [Place(text.rstrip().count("\n") + 1, 1)]
    if isinstance(error, SyntaxError) and error.filename == path:
        return [Place(error.lineno or 1, max(1, error.offset or 1))]
    if isinstance(error, UnicodeDecodeError) and not text:
        return [Place(error.object.count(b"\n", 0, error.start) + 1, 0)]
    kept = [place_of(call, path) for call in origins.of(error)]
    if kept:
        return kept
    own, trace = list[Place](), error.__traceback__
    while trace is not None:
        if trace.tb_frame.f_code.co_filename == path:
            own.insert(0, place_of((trace.tb_frame.f_code, trace.tb_lasti), path))
        trace = trace.tb_next
    return own[:origins.MOST_CALLS] or [Place(1, 1)]


def place_of(call: tuple[types.CodeType, int], path: str) -> Place:
    """Where a call stands in its file, with the column in characters."""
    line, column = origins.place(*call)
    before = linecache.getline(path, line).encode()[:max(0, column - 1)]
    return Place(line, column and len(before.decode("utf-8", "replace")) + 1)


def answer(asked: dict[str, Any], data: bytes) -> bytes:
    """What is sent for a file of these bytes."""
    path, text, module = asked["path"], "", types.ModuleType("piece")
    module.__file__, sys.modules["piece"] = path, module
    try:
        text = importlib.util.decode_source(data)
        linecache.cache[path] = (len(text), None, text.splitlines(True), path)
        code = compile(text, path, "exec", dont_inherit=True)
        origins.wanted = path
        exec(code, module.__dict__)
        score = score_in(module.__dict__, asked["name"])
    except (Exception, SystemExit) as error:
        kind = "" if isinstance(error, NoScore) else f"{type(error).__name__}: "
        said = error.msg if isinstance(error, SyntaxError) else " ".join(str(error).split())
        if isinstance(error, MemoryError):
            said = f"it takes more than {asked['memory']} MB of memory"
        return _line(refused=(kind + (said or "without words"))[:_LONGEST], places=[calls_of(error, path, text)])
    places: dict[origins.Calls, int] = {}
    made_by = [places.setdefault(calls, len(places)) for calls in origins_of(score)]
    told = [[place_of(call, path) for call in calls] or [Place(1, 1)] for calls in places]
    return _line(places=told, made_by=made_by) + score.text.encode("ascii")


def _line(**head: object) -> bytes:
    return json.dumps(head).encode() + b"\n"


def _limit(asked: dict[str, Any]) -> None:
    used = resource.getrusage(resource.RUSAGE_SELF)
    cpu = int(used.ru_utime + used.ru_stime) + 1 + asked["cpu"]
    others = sum(_threads(pid) for pid in os.listdir("/proc") if pid.isdigit())
    for limit, soft, hard in ((resource.RLIMIT_CPU, cpu, cpu + 1),
                              (resource.RLIMIT_AS, asked["memory"] << 20, asked["memory"] << 20),
                              (resource.RLIMIT_FSIZE, asked["output"] << 20, asked["output"] << 20),
                              (resource.RLIMIT_NPROC, others + _PROCESSES, others + _PROCESSES),
                              (resource.RLIMIT_CORE, 0, 0)):
        most = resource.getrlimit(limit)[1]
        most = hard if most == resource.RLIM_INFINITY else min(hard, most)
        resource.setrlimit(limit, (min(soft, most), most))


def _threads(pid: str) -> int:
    with contextlib.suppress(OSError):
        return len(os.listdir(f"/proc/{pid}/task"))
    return 0


def main() -> None:
    os.write(1, b"\n")  # the library is here
    asked = json.loads(sys.stdin.buffer.readline())
    data = sys.stdin.buffer.read()
    with os.fdopen(os.dup(1), "wb") as out:
        os.dup2(2, 1)
        os.dup2(os.open(os.devnull, os.O_RDONLY), 0)
        os.chdir(os.path.dirname(asked["path"]))
        sys.path[0] = os.path.dirname(asked["path"])
        sys.argv = [asked["path"], *asked["arguments"]]
        _limit(asked)
        out.write(answer(asked, data))
        out.flush()
        sys.stdout.flush()
        os._exit(0)  # what it started, as threads, is not waited for


if __name__ == "__main__":
    main()
