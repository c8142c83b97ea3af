"""Runs the tests, each module in a process of its own, as many at a time as there are processors: `python3 -m tests`
in the folder python. What a module that fails says is printed, and what was not tried; the status is 1 where one fails."""

from __future__ import annotations

import os
import pathlib
import re
import signal
import subprocess
import sys
from concurrent.futures import ThreadPoolExecutor

HOME = pathlib.Path(__file__).resolve().parent
#: Those that take longest begin first.
LONG = ("test_cluster", "test_packaging", "test_batch")
#: How many seconds a module may take.
LONGEST = 900
NOT_TRIED = re.compile(r"""skipped ['"](NOT TRIED: .*)['"]$""", re.M)


def run(module: str) -> tuple[str, int, str]:
    """The name of a module of tests, the status of its run and what that says."""
    try:
        done = subprocess.run([sys.executable, "-B", "-m", "unittest", "-v", f"tests.{module}"], cwd=HOME.parent, timeout=LONGEST,
                              stdout=subprocess.PIPE, stderr=subprocess.STDOUT, text=True, errors="replace", check=False)
    except subprocess.TimeoutExpired:
        return module, 1, f"not done after {LONGEST} seconds"
    return module, done.returncode, done.stdout


def heed_signals() -> None:
    """Lets the tests be interrupted as in a terminal, where a shell started them in the background."""
    for number in (signal.SIGINT, signal.SIGQUIT, signal.SIGHUP):
        if signal.getsignal(number) == signal.SIG_IGN:
            signal.signal(number, signal.SIG_DFL)


def main() -> int:
    heed_signals()
    modules = sorted((path.stem for path in HOME.glob("test_*.py")), key=lambda name: (name not in LONG, name))
    with ThreadPoolExecutor(len(os.sched_getaffinity(0))) as pool:
        ended = list(pool.map(run, modules))
    failed = [(module, said) for module, status, said in ended if status]
    for module, said in failed:
        print(f"{module}:\n{said}")
    for _, _, said in ended:
        for line in NOT_TRIED.findall(said):
            print(line)
    print(f"{len(modules) - len(failed)} of {len(modules)} modules of tests pass")
    return 1 if failed else 0


if __name__ == "__main__":
    sys.exit(main())
