"""The verb `batch`: every score of a folder is played, over all processors, or by a cluster."""

from __future__ import annotations

import argparse
import io
import os
import re
import shutil
import sys
from typing import NoReturn, Optional, Sequence

from formula_score.reading import playing
from formula_score.running.task import SECONDS
from ..batch import engines
from ..batch.folder import RAW, Batch, Failed
from ..batch.results import Results
from ..batch.running import INTERRUPTED, Ended, run
from ..batch.telling import report, write_csv, write_json
from .libraries import needs
from .options import near_option

USAGE = "[-j N | --dask ADDRESS] [--audit] [--python] [--seeds A-B] [--seconds S] [--csv FILE] [--json] [--program FILE] FOLDER OUT"

ABOUT = "Plays every score of a folder, those of its folders too, over all processors, or over a cluster of machines."

MORE = """\
FOLDER/a/b.score becomes OUT/a/b.mid; OUT/batch.results has a line for each score, with the exit status and the line of
its run. A later run plays only what is missing or changed: where the score or the program has another time of change
than it had, where the file is gone, or where the run ended neither with the file nor with a refusal. At the end stands
a table of the exit statuses, and the first scores that were not played, each with what to do.

-j N         so many are played at a time, else as many as there are processors
--python     runs the Python files of FOLDER too, each in a process of its own, and plays the score that it makes, as
             the other verbs do; else none is run
--seeds A-B  plays each score under each of these seeds, to OUT/a/b-SEED.mid; a seed in its text is replaced
--seconds S  a run may take so long, else 600 seconds; one that takes longer has the status 124
--csv FILE   writes a line for each score: its status, the place and number of its fault, the program's line, and how
             that is known: played here, audited, or believed
--json       prints the same in place of the table, a line of JSON for each score

--dask ADDRESS lets a cluster of Dask play, by the address of its scheduler: tls://HOST:PORT, or 127.0.0.1:PORT, through
ssh -L where it is elsewhere. It is sent the program and the texts, and nothing stays there. Whoever is in the cluster
can run programs as you, and so can you as they: take machines of your own. docs/BATCH.md has examples.
What other machines send is believed. With --audit they send records of their performances, and this machine checks of
each that it is one of the very score, step by step, and makes the file of it. What it refuses is played here, and the
machine is named; so is a score that they call refused. What an earlier run believed is played again.

example: formula-score batch scores midi -j 4

The status is 0 where all are played, 1 where not, 70 where this could not begin, and 130 where it was interrupted:
then nobody is at work any more, and the next run goes on from there. The program is FILE, else the one that FORMULA
names, else the proved one."""


class Parser(argparse.ArgumentParser):
    """A parser that ends as the verb does where it can't begin."""

    def error(self, message: str) -> NoReturn:
        fail(f"{message}{near_option(message, known())}\nusage: {self.usage}")


def known() -> list[str]:
    """The options."""
    return re.findall("--[a-z]+", USAGE)


def read_words(words: Sequence[str], name: str, version: str) -> argparse.Namespace:
    """What the words ask for."""
    parser = Parser(prog=name, usage=f"{name} {USAGE}", description=ABOUT, epilog=MORE, allow_abbrev=False,
                    formatter_class=argparse.RawDescriptionHelpFormatter)
    parser.add_argument("--version", action="version", version=version, help=argparse.SUPPRESS)
    parser.add_argument("--program", metavar="FILE", help=argparse.SUPPRESS)
    parser.add_argument("-j", dest="jobs", type=_in(1, 1000, "a number"), metavar="N", help=argparse.SUPPRESS)
    parser.add_argument("--dask", metavar="ADDRESS", help=argparse.SUPPRESS)
    parser.add_argument("--hosts", metavar="FILE", help=argparse.SUPPRESS)
    parser.add_argument("--audit", action="store_true", help=argparse.SUPPRESS)
    parser.add_argument("--python", action="store_true", help=argparse.SUPPRESS)
    parser.add_argument("--seeds", type=_seeds, metavar="A-B", help=argparse.SUPPRESS)
    parser.add_argument("--seconds", type=_in(1, 1_000_000, "seconds"), default=int(SECONDS), metavar="S",
                        help=argparse.SUPPRESS)
    parser.add_argument("--csv", metavar="FILE", help=argparse.SUPPRESS)
    parser.add_argument("--json", action="store_true", help=argparse.SUPPRESS)
    parser.add_argument("folder", help=argparse.SUPPRESS)
    parser.add_argument("out", help=argparse.SUPPRESS)
    options = parser.parse_args(words)
    if options.hosts is not None:
        fail("--hosts is gone: --dask ADDRESS plays on other machines, as docs/BATCH.md says")
    if not os.path.isdir(options.folder):
        fail(f"there is no folder {options.folder}")
    return options


class _in:
    """A number within a range."""

    def __init__(self, least: int, most: int, what: str):
        self.least, self.most, self.what = least, most, what

    def __call__(self, word: str) -> int:
        if not re.fullmatch("[0-9]{1,9}", word) or not self.least <= int(word) <= self.most:
            raise argparse.ArgumentTypeError(f"it takes {self.what} from {self.least} to {self.most:,}")
        return int(word)


def _seeds(word: str) -> range:
    """The seeds that a word means, as 1-20 or 7."""
    found = re.fullmatch("([0-9]{1,9})(?:-([0-9]{1,9}))?", word)
    seeds = range(int(found[1]), int(found[2] or found[1]) + 1) if found else range(0)
    if not seeds:
        raise argparse.ArgumentTypeError("it takes seeds as in 1-20, each from 0 to 999,999,999")
    return seeds


def fail(why: object) -> NoReturn:
    """Ends the verb, which can't begin."""
    print(f"batch: {why}", file=sys.stderr)
    sys.exit(70)


def program(named: Optional[str]) -> str:
    """The file of the program that plays."""
    try:
        wanted = named or playing.program()
    except playing.Failed as failed:
        fail(failed.why)
    found = shutil.which(wanted)
    if found is None:
        fail(f"there is no program {wanted}")
    return os.path.realpath(found)


def play(options: argparse.Namespace) -> int:
    """Plays the folder, and tells what became of it."""
    jobs = options.jobs or len(os.sched_getaffinity(0))
    batch = Batch(options.folder, options.out, program(options.program), options.audit, options.seeds,
                  options.python)
    batch.make_folders()
    results = Results(batch)
    ended = run(batch, results, engines.dask(options.dask) if options.dask else None, jobs, options.seconds)
    if ended.why:
        return stopped(results, ended)
    gone = results.keep()
    if options.csv:
        write_csv(options.csv, results)
    if options.json:
        return write_json(results)
    return report(batch, results, ended.wanted, gone, ended.refused)


def stopped(results: Results, ended: Ended) -> int:
    """What a batch says that ended before it was through."""
    try:
        results.keep()
    except OSError:  # the disk is full: what was added stands
        pass
    print(f"batch: {ended.why}: {ended.done} of {ended.wanted} scores are done; run it again for the rest", file=sys.stderr)
    return 130 if ended.why == INTERRUPTED else 1


def main(words: Sequence[str], name: str, version: str) -> int:
    """Does what the words ask for."""
    for stream in (sys.stdout, sys.stderr):
        if isinstance(stream, io.TextIOWrapper):
            stream.reconfigure(errors=RAW)
    options = read_words(words, name, version)
    try:
        if options.dask:
            engines.judge(options.dask)
            needs("batch --dask")
        return play(options)
    except Failed as failed:
        fail(failed)
    except playing.Failed as failed:
        fail(failed.why)
    except BrokenPipeError:
        raise
    except OSError as error:
        fail(f"{error.filename or options.out}: {error.strerror}")
