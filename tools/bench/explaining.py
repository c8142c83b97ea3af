"""How long it takes to say what is wrong with a refused text, once its place is known; and the companion's reading."""

from __future__ import annotations

import time
from typing import Callable

from formula_score.explaining.explain import position
from formula_score.language.judging import first_fault
from formula_score.reading.reader import read
from formula_score.repair import told
from measuring import Bench, head, row, wrong

#: The aims, in milliseconds.
MOST_OF_SMALL, MOST_OF_LARGE, MOST_OF_LONG, MOST_OF_READING = 20, 200, 1000, 2000
_NOTE = b"note c4, e4 1/4; "


def _texts() -> dict[str, tuple[bytes, int, int]]:
    """By its name each refused text, its place, and the most milliseconds."""
    small = b"formula 1; " + _NOTE * 58
    large = b"formula 1; " + _NOTE * ((1 << 20) // len(_NOTE) - 3)
    lines = large.replace(b"; ", b";\n") + b"repeat 2 {\n  note c4 1/4;\n"
    long = b"formula 1; set r0 = " + b"r1 * 10 + " * 3200
    return {"1 KB": (small + b"note fis4 1/4;", len(small) + 5, MOST_OF_SMALL),
            "1 MiB, the place at its end": (large + b"note fis4 1/4;", len(large) + 5, MOST_OF_LARGE),
            "1 MiB, the place at its beginning": (b"formula 1; note fis4 1/4; " + large[11:], 16, MOST_OF_LARGE),
            "1 MiB, a brace that is missing": (lines, len(lines), MOST_OF_LARGE),
            "one statement of 32 KB": (long + b"(4 x 5);", len(long) + 3, MOST_OF_LONG)}


def _best(bench: Bench, call: Callable[[], object]) -> float:
    """The best time of some calls, in milliseconds."""
    found = []
    for _ in range(bench.runs):
        begun = time.process_time()
        call()
        found.append(1000 * (time.process_time() - begun))
    return min(found)


def explanations(bench: Bench) -> None:
    """What is told of refused texts, and what the companion needs to find the place and to read a text."""
    head("EXPLANATIONS, cpu", "ms")
    for name, (text, place, most) in _texts().items():
        line, column = position(text, place)
        if told(text, line, column, 3) is None:
            wrong(f"nothing is told of {name}")
        best = _best(bench, lambda: told(text, line, column, 3))
        row("  " + name, best)
        bench.aim(f"what is wrong with {name}, ms", [best], most, "{:.0f}")
    whole = _texts()["1 MiB, the place at its end"][0]
    accepted = whole.replace(b"fis4", b"fs4")
    for name, call in (("1 MiB, its place found", lambda: first_fault(whole.decode("latin-1"))),
                       ("1 MiB, read as a tree", lambda: read(accepted))):
        best = _best(bench, call)
        row("  " + name, best)
        bench.aim(f"{name} by the companion, ms", [best], MOST_OF_READING, "{:.0f}")
