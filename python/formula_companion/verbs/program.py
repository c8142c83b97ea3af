"""The program `formula-score`: a verb, and what it is to work on."""

from __future__ import annotations

import argparse
import contextlib
import importlib
import io
import os
import signal
import sys
import threading
from types import FrameType, ModuleType
from typing import Iterator, NamedTuple, NoReturn, Optional, Sequence

from formula_score import __version__
from formula_score.making.values import escaped
from formula_score.reading.playing import Failed
from formula_score.running.outs import descriptor_of
from .options import failure, near, near_option, put
from .piece_words import ABOUT as PIECES, taken

VERSION = f"formula-score {__version__}"

OK, FOUND, MISUSED = 0, 1, 2

ABOUT = """\
A companion of formula, the music performance compiler. It is outside the proof: what it counts, cuts, filters and
draws is tested only. What it tells of ticks are answers of the proved program. FORMULA names it; else it is the one
that is installed beside this companion, else `formula` in PATH. In a checkout it is the proved one, else the one that
bin/formula --unproved --keep has built, and it says so; no verb builds one."""

STATUSES = """\
status: 0 all is well; 1 something was found, or refused; 2 the words are no use of the verb, or a file cannot be
read; where a verb plays (play, excerpt, listen, roll), the status of formula.
OUT is the old file until the whole new one takes its place, with the old one's mode and owner. Another hard link to the
old file keeps the old one. `-` is standard output for play, excerpt and roll: what is said then goes to standard error.
At a write fault the status is 4."""


class Verb(NamedTuple):
    """A module of this package that has `arguments(parser)` and `run(options) -> int`, what it is for, and a use of it.

    One that takes words in its own way has `main(words, name, version) -> int`, and `known()`, its options. None
    imports at its head what Python has not by itself: the libraries of a verb stand in `FEATURES` of
    `formula_score.host.packages`.
    """

    module: str
    about: str
    example: str
    takes_words: bool = False


#: The verbs, in the order in which they are told.
VERBS: dict[str, Verb] = {
    "play": Verb("play", "run formula so that OUT is the old file or the whole new one, or standard output",
                 "tune.score tune.mid", True),
    "listen": Verb("listen", "play a score, or some bars of it, through fluidsynth or timidity",
                   "tune.score --bars 9-12"),
    "bars": Verb("bars", "count the bars of a score, check the comments that count them, tell the tick of a bar",
                 "tune.score --meter 3/4"),
    "lint": Verb("lint", "say what is accepted in a score, and hardly meant", "tune.score"),
    "notes": Verb("notes", "write the statements of notes that are given in a short line",
                  '"c4 d e r | f4~ f g/8. a/16 c5+e/4" --phrase tune >> my.score'),
    "transpose": Verb("transpose", "move the written pitches of a score, or of one phrase, and leave all else as it is",
                      "tune.score 2 --phrase opening"),
    "format": Verb("format", "set the text of a score in one layout, with every comment and event kept",
                   "tune.score --check"),
    "diff": Verb("diff", "say in what two scores or MIDI files differ, bar by bar", "old.score new.score --meter 3/4"),
    "show": Verb("show", "print the events of a MIDI file, with names, bars and beats, or the steps of a record",
                 "tune.mid --meter 4/4"),
    "roll": Verb("roll", "draw a score or a MIDI file as a piano roll, once or whenever the score is saved",
                 "tune.score tune.html --follow"),
    "excerpt": Verb("excerpt", "write some bars of a score as a MIDI file, its channels in tracks, or one channel",
                    "tune.score third.mid --bars 9-12"),
    "export": Verb("exporting", "write a score as MusicXML, ABC, or a MIDI file with a tempo map, a meter and names",
                   "tune.score tune.musicxml --meter 4/4"),
    "print": Verb("printing", "draw a score as notes on paper, by MuseScore or abcm2ps", "tune.score tune.pdf"),
    "import": Verb("importing", "write a score from a MIDI file, MusicXML or ABC, and compare what it plays",
                   "tune.mid tune.score"),
    "studio": Verb("studio", "show and play a score in the browser while it is written", "tune.score"),
    "lsp": Verb("lsp", "serve an editor that speaks LSP: what is refused, completion, names, an outline", ""),
    "batch": Verb("batch", "play every score of a folder, over all processors, or by a cluster of machines",
                  "scores midi -j 4", True),
    "needs": Verb("needs", "say which of Debian's packages are missing, for sound, the studio, editors and tests",
                  "sound"),
}


class Parser(argparse.ArgumentParser):
    """A parser whose complaint names what helps: the nearest of its options, too."""

    def error(self, message: str) -> NoReturn:
        cure = near_option(message, [word for action in self._actions for word in action.option_strings])
        self.exit(MISUSED, f"{self.prog}: {message}{cure}\ntry: {self.prog} --help\n")


def _usage(name: str) -> str:
    width = max(map(len, VERBS), default=0)
    verbs = "\n".join(f"  {verb:<{width}}  {VERBS[verb].about}" for verb in VERBS)
    return (f"usage: {name} VERB ..\n       {name} VERB --help\n       {name} --version\n\n{ABOUT}\n\n"
            f"verbs:\n{verbs}\n\n{PIECES}\n\n{STATUSES}\n")


def _options(module: ModuleType, verb: Verb, name: str, words: Sequence[str]) -> argparse.Namespace:
    """The options of a verb that its words give."""
    return _parser(module, verb, name).parse_args(words)


def _parser(module: ModuleType, verb: Verb, name: str) -> Parser:
    parser = Parser(prog=name, description=f"{verb.about[0].upper()}{verb.about[1:]}.",
                    epilog=f"example: {name} {verb.example}".rstrip() + f"\n\n{STATUSES}",
                    formatter_class=argparse.RawDescriptionHelpFormatter)
    parser.add_argument("--version", action="version", version=VERSION)
    module.arguments(parser)
    return parser


def completions(verbs: Sequence[str]) -> list[str]:
    """What may stand behind the program's name: the verbs, and behind one of them its options."""
    if not verbs or verbs[0] not in VERBS:
        return [*VERBS, "--help", "--version"]
    verb = VERBS[verbs[0]]
    module = importlib.import_module(f".{verb.module}", __package__)
    if verb.takes_words:
        return [*module.known(), "--help", "--version"]
    return [word for action in _parser(module, verb, "")._actions for word in action.option_strings if word[:2] == "--"]


def _without_verb(given: Sequence[str], name: str) -> Optional[int]:
    """What words ask for that begin with no verb, and the status; None where they do."""
    first = given[0] if given else ""
    if first in VERBS:
        return None
    if first in ("--help", "-h"):
        print(_usage(name), end="")
    elif first == "--version":
        print(VERSION)
    elif first == "--words":
        print("\n".join(completions(given[1:])))
    else:
        cure = near(first, VERBS)
        said = f"there is no verb {first!r}{cure}" if given else "a verb is missing"
        print(f"{name}: {said}{'' if cure else '; there are ' + ', '.join(VERBS)}\ntry: {name} --help", file=sys.stderr)
        return MISUSED
    return OK


def _failed(failed: Failed, options: Optional[argparse.Namespace]) -> int:
    """Says why a verb ended, and gives the status."""
    if options and getattr(options, "json", False):
        paths = [getattr(options, name, "") for name in ("score", "file")] + getattr(options, "scores", [])[:1]
        put(failure(failed, next(filter(None, paths), "")))
        return failed.status
    if failed.said:
        print(failed.said)
    if failed.why:
        print(failed.why, file=sys.stderr)
    return failed.status


def _escape(stream: io.TextIOWrapper) -> None:
    """Lets a stream escape what a terminal would obey, in names and texts from elsewhere."""
    write = stream.write
    setattr(stream, "write", lambda text: write(escaped(text)))


def _said_beside(options: Optional[argparse.Namespace]) -> "contextlib.AbstractContextManager[object]":
    """Where OUT is standard output, what the verb says goes to standard error."""
    out = getattr(options, "out", None)
    return contextlib.redirect_stdout(sys.stderr) if out and descriptor_of(out) == 1 else contextlib.nullcontext()


class _Ended(BaseException):
    """A signal that ends the companion."""

    def __init__(self, number: int):
        super().__init__(number)
        self.number = number


def _raise(number: int, _: Optional[FrameType]) -> None:
    raise _Ended(number)


@contextlib.contextmanager
def _ends_in_order() -> Iterator[None]:
    """At a signal what was begun is taken away, and then the signal ends this process."""
    numbers = [number for number in (signal.SIGTERM, signal.SIGHUP) if signal.getsignal(number) == signal.SIG_DFL
               and threading.current_thread() is threading.main_thread()]
    for number in numbers:
        signal.signal(number, _raise)
    try:
        yield
    except _Ended as ended:
        signal.signal(ended.number, signal.SIG_DFL)
        os.kill(os.getpid(), ended.number)
    finally:
        for number in numbers:
            signal.signal(number, signal.SIG_DFL)


def main(words: Optional[Sequence[str]] = None, name: str = "formula-score") -> int:
    """Runs a verb on the words behind the program's name, and gives its status."""
    given = list(sys.argv[1:] if words is None else words)
    for stream in (sys.stdout, sys.stderr):
        if isinstance(stream, io.TextIOWrapper):
            stream.reconfigure(errors="backslashreplace")
            _escape(stream)
    status = _without_verb(given, name)
    if status is not None:
        return status
    verb = VERBS[given[0]]
    module = importlib.import_module(f".{verb.module}", __package__)
    options: Optional[argparse.Namespace] = None
    try:
        own = taken(given[1:])
        options = None if verb.takes_words else _options(module, verb, f"{name} {given[0]}", own)
        with _ends_in_order(), _said_beside(options):
            ended: int = module.run(options) if options else module.main(own, f"{name} {given[0]}", VERSION)
        if sys.stdout:
            sys.stdout.flush()
    except SystemExit as left:
        return int(left.code or 0)
    except Failed as failed:
        return _failed(failed, options)
    except BrokenPipeError:  # who reads wants no more; what is left is for nobody
        os.dup2(os.open(os.devnull, os.O_WRONLY), sys.stdout.fileno())
        return FOUND
    except KeyboardInterrupt:
        return 130
    return ended
