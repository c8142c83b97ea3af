#!/usr/bin/env python3
"""Plays FOLDER by tasks that are no work, and prints what the asker took: asking.py FOLDER OUT JOBS [ADDRESS]."""

from __future__ import annotations

import pathlib
import resource
import sys
import time

sys.path.insert(0, str(pathlib.Path(__file__).resolve().parents[2] / "python"))

#: What stands in the place of the task: each text is played at once.
NO_WORK = b"""
def keep(program):
    pass


def play_some(digest, program, options, texts, seconds):
    return "done", [(0, "", b"no work")] * len(texts), 0.01, ("here", 1)
"""


def main(folder: str, out: str, jobs: str, address: str = "") -> None:
    """Plays the folder."""
    from formula_companion.batch import engines
    from formula_companion.batch.folder import Batch
    from formula_companion.batch.results import Results
    from formula_companion.batch.running import run

    setattr(engines, "source", lambda: ("formula_no_work", NO_WORK))
    begun = time.monotonic()
    batch = Batch(folder, out, "/bin/true", False)
    batch.make_folders()
    results = Results(batch)
    ended = run(batch, results, engines.dask(address) if address else None, int(jobs), 600.0)
    results.keep()
    seconds, used = time.monotonic() - begun, resource.getrusage(resource.RUSAGE_SELF)
    print(f"{ended.done:,} of {ended.wanted:,} in {seconds:.1f} s, {ended.done / seconds:,.0f} a second; the asker took "
          f"{used.ru_utime + used.ru_stime:.1f} processor seconds and {used.ru_maxrss >> 10} MB{ended.why}")


if __name__ == "__main__":
    main(*sys.argv[1:])
