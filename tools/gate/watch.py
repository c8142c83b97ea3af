#!/usr/bin/env python3
"""Watches a run of the gate, and prints at its end how many processor seconds each crate took: its code, its tests,
the ground of its edits (the check on which they are tried) and the edits; how many processor minutes a change of it
costs, which are those of it and of all crates above; and how the run compares with the budget of the gate, as a whole
and crate by crate (shares.txt).

    tools/gate/watch.py [--edits FILE] [--shares FILE] [COMMAND ..]      (else rt ci; run it where the command is to run)

What the command prints goes to standard output as it comes, the tables behind it to standard error. With --edits a
table of the edits is written to FILE: crate, edit, seconds, these by the median of the crate, and the goal at which
the edit is refused. With --shares the shares by this run are written to FILE. It ends with the command's status. Needs Linux; what a process takes in its last half second is
not counted. Where `rt ci` keeps what it proved, crates that were kept take nothing, and a comparison needs `rt ci --anew`.
A kit without that option keeps nothing."""
from __future__ import annotations

import subprocess
import sys
import threading
import time

sys.dont_write_bytecode = True
from follow import follow  # noqa: E402
from report import budget_table, by_crate, crate_table, edit_table, share_lines, write_lines  # noqa: E402
from sampling import Sampler  # noqa: E402

# How many seconds lie between two looks.
BETWEEN = 0.5


def main() -> int:
    words, files = sys.argv[1:], dict[str, str]()
    if words[:1] in (["-h"], ["--help"]):
        print(__doc__)
        return 0
    while words[:1] in (["--edits"], ["--shares"]):
        if len(words) < 2:
            print(f"watch: {words[0]} needs a file", file=sys.stderr)
            return 2
        files[words[0]], words = words[1], words[2:]
    sampler, begun, printed = Sampler(), time.time(), list[str]()
    running = subprocess.Popen(words or ["rt", "ci"], stdout=subprocess.PIPE, text=True, errors="replace")
    reader = threading.Thread(target=lambda: printed.extend(follow(running)))
    reader.start()
    while running.poll() is None:
        sampler.look(running.pid)
        time.sleep(BETWEEN)
    reader.join()
    rows = by_crate(sampler.seconds())
    tables = [*crate_table(rows, time.time() - begun), "", *budget_table(rows)]
    print("\n".join(tables), file=sys.stderr)
    write_lines(files.get("--edits"), edit_table(sampler.seconds(), printed))
    write_lines(files.get("--shares"), share_lines(rows))
    return running.returncode if running.returncode >= 0 else 128 - running.returncode


if __name__ == "__main__":
    sys.exit(main())
