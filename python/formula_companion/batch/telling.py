"""What the verb `batch` prints: how far it is, what became of each piece, as a table, as CSV or as JSON."""

from __future__ import annotations

import collections
import csv
import itertools
import json
import sys
import time
from typing import Iterator, Mapping, Optional

from formula_score.explaining.explain import explanation, place_of, refusal
from formula_score.making.values import draw_line
from formula_score.running.outs import writing
from .folder import RAW, Batch
from .playing import NONE, PLAIN
from .results import BELIEVED, Result, Results

#: At most so many pieces that were not played are printed.
MOST_SHOWN = 20
#: So many seconds pass between two lines on a terminal, and elsewhere.
SHORT, LONG = 0.2, 60.0


class Progress:
    """How far a batch is, on standard error: in one line of a terminal, or in a line a minute."""

    def __init__(self, count: int):
        self.count, self.done, self.begun = count, 0, time.monotonic()
        self.is_terminal = sys.stderr.isatty()
        self.told = self.begun

    def add(self) -> None:
        """One more is done."""
        self.done += 1
        if time.monotonic() > self.told + (SHORT if self.is_terminal else LONG):
            self._tell()

    def _tell(self) -> None:
        self.told = time.monotonic()
        rate = self.done / max(self.told - self.begun, 0.001)
        left = int((self.count - self.done) / rate)
        line = f"{self.done} of {self.count}, {rate:,.{0 if rate >= 10 else 1}f} a second, {left // 3600}:{left // 60 % 60:02}:{left % 60:02} left"
        if self.is_terminal:
            draw_line(line)
        else:
            print(f"batch: {line}", file=sys.stderr, flush=True)

    def end(self) -> None:
        """Nothing more is done."""
        if self.is_terminal and self.told != self.begun:
            self._tell()
            print(file=sys.stderr)


def rows(results: Results) -> Iterator[tuple[int, Result]]:
    """Each piece with what became of it."""
    for number, result in results.all():
        yield number, result or Result(NONE, "", 0, 0, "")


def explained(batch: Batch, number: int, result: Result) -> str:
    """What is printed of a piece that was not played."""
    status, said = result[:2]
    name = batch.score(number)
    if batch.seeds:
        name += f" under the seed {batch.name(number).rpartition('-')[2]}"
    place = place_of(said) if status == "3" else None
    if place:
        return refusal(name, batch.text(number)[0], place)
    if status == NONE:
        return f"{name}: it has no result{': ' if said else ''}{said}; run this again"
    words = [*PLAIN, "--", batch.path(number), batch.target(batch.name(number))]
    why = explanation(int(status), said, words) if status.isdigit() else ""
    return f"{name}: {why or said or f'status {status}'}"


def plain(text: str) -> str:
    """The text without what a terminal would take for a command."""
    return "".join(sign if sign.isprintable() or sign == "\n" or "\udc80" <= sign <= "\udcff" else
                   sign.encode("unicode_escape").decode() for sign in text)


def report(batch: Batch, results: Results, anew: int, gone: list[str], refused: Mapping[str, int]) -> int:
    """Prints the table and the first pieces that were not played, and returns the status."""
    counts = collections.Counter(result.status for _, result in rows(results))
    believed = sum(result.how == BELIEVED for _, result in rows(results))
    print(f"{anew} of {len(batch)} scores were played anew")
    print("status  scores")
    for status, count in sorted(counts.items()):
        print(f"{status:<6}  {count}")
    if believed:
        print(f"{believed} of these are what other machines said: --audit checks it")
    for host, count in sorted(refused.items()):
        print(plain(f"{host} sent {count} record{'s' * (count != 1)} that the audit refused: they were played here"))
    missing = len(batch) - counts["0"]
    for number, result in itertools.islice((row for row in rows(results) if row[1].status != "0"), MOST_SHOWN):
        print(plain(explained(batch, number, result)))
    if missing > MOST_SHOWN:
        print(f"and {missing - MOST_SHOWN} more: see batch.results in OUT")
    if gone:
        print(plain(f"of scores that are gone there {'is 1 result' if len(gone) == 1 else f'are {len(gone)} results'}: "
                    f"{', '.join(gone[:5])}{', ..' if len(gone) > 5 else ''}"))
    return 1 if missing else 0


def _place(result: Result) -> Optional[tuple[int, int, int]]:
    return place_of(result.said) if result.status == "3" else None


def write_json(results: Results) -> int:
    """Prints a line of JSON for each piece, and returns the status."""
    is_all = True
    for number, result in rows(results):
        line, column, fault = _place(result) or (None, None, None)
        print(json.dumps({"name": results.batch.name(number), "score": results.batch.score(number), "status": result.status,
                          "line": line, "column": column, "fault": fault, "said": result.said, "how": result.how}))
        is_all = is_all and result.status == "0"
    return 0 if is_all else 1


def write_csv(path: str, results: Results) -> None:
    """Writes a line for each piece."""
    with writing(path) as beside, open(beside, "w", encoding="utf-8", errors=RAW, newline="") as file:
        lines = csv.writer(file, lineterminator="\n")
        lines.writerow(("score", "status", "line", "column", "fault", "said", "how"))
        for number, result in rows(results):
            lines.writerow((f"{results.batch.name(number)}.score", result.status, *(_place(result) or ("", "", "")),
                            result.said, result.how))
