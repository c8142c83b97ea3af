"""The verb `play`: runs the program on its own words, and keeps what OUT was until the new file is whole."""

from __future__ import annotations

import contextlib
import json
import os
import signal
import stat
import subprocess
import sys
from fractions import Fraction
from types import FrameType
from typing import Iterator, NamedTuple, Optional, Sequence

from formula_score.checks.summary import of_score
from formula_score.explaining.explain import by_signal, explanation
from formula_score.explaining.words import FLAGS, RANGES, USAGE, Words, read
from formula_score.making.values import escaped
from formula_score.reading.made import placed
from formula_score.reading.meter import Meter, groups_of
from formula_score.reading.playing import NO_PROGRAM, Failed, program, text_of
from formula_score.reading.sending import sent_of
from formula_score.reading.ticks import agreed
from formula_score.running.command import ends_with_this, environment
from formula_score.running.outs import (
    SIGNALS, WRITE, WRITE_LINE, Descriptor, Out, Straight, descriptor_of, out_of, settled,
)
from formula_score.running.pieces import file_of
from .ins import Source, source_of
from .options import failure, near_option
from .origin import origin
from .show import events

#: The statuses of the program that this verb gives by itself, and the program's lines.
WORDS, READ, UNSAID = 1, 2, 5
LINES = {WORDS: "formula: words refused", READ: "formula: read fault", WRITE: WRITE_LINE}

#: The options of this verb alone.
OWN = ("--summary", "--json", "--events")

ABOUT = """\
Runs formula on the same words, and is safe in the hand:

- IN and OUT that are one file are refused, before anything is read; not with --locate, which writes nothing.
- OUT is the old file or the whole new one. The new one is written beside it, synced, closed and renamed at status 0,
  and each answer of the host is looked at. Mode, owner and attributes stay; where OUT is a link, its target is
  replaced. Another hard link to the old file keeps the old one. A FIFO or a device is written straight.
- `-`, /dev/stdout and other open descriptors may be OUT, with `>`, `>>` and pipes, whatever is asked for: the file is
  made first, and then copied there. What the program says then goes to standard error.
- `-`, /dev/stdin, other open descriptors and FIFOs may be IN, whoever owns them: they are read once, from where they
  are to their end, before anything is played. A file whose name is `-` is `./-`.

The options are those of formula(1), and three more. --summary prints what was played: events, length in bars of 4/4
and in seconds, processes, keys by channel. --json prints one line of JSON: `status`, `said`, `why`, of a refused text
`refused` with its place and the cure, with --summary the `summary`, and with --events the `events` as `show` has them.
Where OUT is standard output all go to standard error. --help prints this, --version from what the program was proved.

example: formula-score play tune.score tune.mid

status: that of the program, as formula(1) tells it. 1 also where IN and OUT are one file; 4 also where OUT
could not be synced, closed or renamed, or its owner would change; 70 where there is no program; 128 + N where the
signal N ended the run. OUT is what it was, but at 0, and at 5 where only the line of a file that is there failed."""


def main(words: Sequence[str], name: str, version: str) -> int:
    """Plays, or helps, and gives the status."""
    options = words[:words.index("--")] if "--" in words else words
    if "--help" in options or "-h" in options:
        print(f"{USAGE.replace('formula', name, 1)}\n\n{ABOUT}")
        return 0
    if "--version" in options:
        print(f"{version}\n{origin()}")
        return 0
    _open_what_is_closed()
    own = {option for option in options if option in OWN}
    asked = read([word for at, word in enumerate(words) if at >= len(options) or word not in own])
    if "--events" in own:
        own.add("--json")
    if own and (asked.wrong or asked.task in ("--audit", "--list", "--record", "--locate") or asked.files[0] == "-"):
        asked = asked._replace(wrong=asked.wrong
                               or f"{' and '.join(sorted(own))} need a score in a file, and its MIDI file as OUT")
    if asked.wrong:
        cure = near_option(asked.wrong, known())
        return _end(End(WORDS, LINES[WORDS], f"{asked.wrong}{cure}\n{USAGE.replace('formula', name, 1)}"))
    source, target = asked.files
    if asked.task != "--locate" and _is_in(target, source):
        end = End(WORDS, LINES[WORDS], f"IN and OUT are one file, {target!r}: give OUT another name")
        return _end(end, _means_output(descriptor_of(target)))
    try:
        read_from = source_of(asked)
    except OSError as error:
        what = "standard input" if source == "-" else repr(source)
        end = End(READ, LINES[READ], f"{what} cannot be read: {error.strerror}")
        return _end(end, _means_output(descriptor_of(target)))
    except Failed as failed:
        return _refused(failed, source, own, _means_output(descriptor_of(target)))
    try:
        return _play(asked, read_from, own)
    except Failed as failed:
        return _end(End(NO_PROGRAM, "", failed.why))


def _refused(failed: Failed, source: str, own: set[str], is_output: bool) -> int:
    """Says why a Python file makes no score, and gives the status."""
    if "--json" in own:
        words = json.dumps(failure(failed, source), ensure_ascii=False)
        return failed.status if _put(2 if is_output else 1, words) else UNSAID
    said = failed.said or (LINES[READ] if failed.status == READ else "")
    return _end(End(failed.status, said, failed.why), is_output)


def known() -> list[str]:
    """The options."""
    return [*RANGES, *FLAGS, *OWN]


class End(NamedTuple):
    """How a run ended: its status, its line, and the same in more words."""

    status: int
    said: str
    why: str


def _play(asked: Words, source: Source, own: set[str]) -> int:
    target = asked.files[1]
    options = [f"{option}={asked.numbers[option]}" if option in asked.numbers else option for option in asked.options]
    # with --locate OUT is not opened
    out: Out = Straight(target) if asked.task == "--locate" else out_of(target)
    for number in (*out.files, *([source.copy.fileno()] if source.copy else [])):
        os.set_inheritable(number, True)
    try:
        with _signals() as run:
            end = run.answer([program(), *options, "--", source.name, out.name])
            why = "" if run.number else settled(out, end.status)
            if why:
                end = End(WRITE, LINES[WRITE], _unwritten(target, why))
    finally:
        out.drop()
    if run.number:
        signal.signal(run.number, signal.SIG_DFL)
        os.kill(os.getpid(), run.number)
    if end.status and not end.why:
        end = end._replace(why=explanation(end.status, end.said, [*options, "--", asked.files[0], target], source.name))
    is_output = isinstance(out, Descriptor) and _means_output(out.number)
    if own and end.status != UNSAID:
        return _summed(end, source.name, asked.files[0], own, 2 if is_output else 1)
    return _end(end, is_output)


def _summed(end: End, source: str, path: str, own: set[str], number: int) -> int:
    """Says how the run ended, and what was played, on a descriptor, and gives the status."""
    value = failure(Failed(end.status, end.why, end.said), source)
    lines = []
    if own - {"--json"} and end.status == 0:
        walk = agreed(text_of(source))
        meter = Meter(groups_of("4/4"), Fraction(0), walk.reading.whole)
        if "--summary" in own:
            found = of_score(walk, meter)
            value, lines = {**value, "summary": found.value()}, list(found.lines())
        if "--events" in own:
            value = {**value, "events": [placed(path, event) for event in events(sent_of(walk), meter)]}
    if "--json" in own:
        return end.status if _put(number, json.dumps(value, ensure_ascii=False)) else UNSAID
    if end.status:
        return _end(end, number == 2)
    return 0 if _put(number, "\n".join(lines)) else UNSAID


def _unwritten(target: str, why: str) -> str:
    what = "standard output" if target == "-" else repr(target)
    return f"{what} cannot be written: {why}"


class _Run:
    """The program at work, and the signal that is to end it."""

    def __init__(self) -> None:
        self.number = 0
        self.process: Optional["subprocess.Popen[bytes]"] = None

    def signalled(self, number: int, _: Optional[FrameType] = None) -> None:
        """Hands a signal on, and notes it."""
        self.number = number
        if self.process:
            self.process.send_signal(number)

    def answer(self, words: Sequence[str]) -> End:
        """Runs the program with the descriptors that are open here, and gives its status and its line."""
        try:
            self.process = subprocess.Popen(
                ends_with_this(words), stdout=subprocess.PIPE, stderr=subprocess.DEVNULL, close_fds=False,
                restore_signals=False, env=environment())
        except (OSError, ValueError) as error:
            raise Failed(NO_PROGRAM, f"{words[0]} cannot be run: {error}") from error
        with self.process as process:
            if self.number:
                process.send_signal(self.number)
            said = process.communicate()[0].decode("utf-8", "replace").strip()
        status = process.returncode
        return End(status, said, "") if status >= 0 else End(128 - status, said, by_signal(-status))


@contextlib.contextmanager
def _signals() -> Iterator[_Run]:
    """A run to which signals are handed on, but those that are ignored here."""
    run = _Run()
    before = {number: signal.getsignal(number) for number in SIGNALS}
    for number, handler in before.items():
        if handler != signal.SIG_IGN:
            signal.signal(number, run.signalled)
    try:
        yield run
    finally:
        for number, handler in before.items():
            signal.signal(number, handler)


def _open_what_is_closed() -> None:
    """Lets a closed standard descriptor be /dev/null, as in the program: no file that is opened takes its place."""
    for number in range(3):
        try:
            os.fstat(number)
        except OSError:
            os.set_inheritable(os.open(os.devnull, os.O_RDONLY), True)


def _is_in(target: str, source: str) -> bool:
    """Whether OUT is the file that is read: devices may be both."""
    number = descriptor_of(target)
    try:
        source_facts = os.fstat(0) if source == "-" else os.stat(file_of(source))
        target_facts = os.stat(target) if number is None else os.fstat(number)
    except (OSError, ValueError):
        return False
    mode = source_facts.st_mode
    return os.path.samestat(source_facts, target_facts) and not stat.S_ISCHR(mode) and not stat.S_ISDIR(mode)


def _means_output(number: Optional[int]) -> bool:
    """Whether a descriptor is standard output, where a line would stand in OUT."""
    try:
        return number is not None and os.path.samestat(os.fstat(number), os.fstat(1))
    except OSError:
        return False


def _put(number: int, text: str) -> bool:
    """Writes a line to a descriptor, and tells whether all of it was taken."""
    stream = sys.stdout if number == 1 else sys.stderr
    line = memoryview(f"{escaped(text)}\n".encode(getattr(stream, "encoding", None) or "utf-8", "replace"))
    try:
        while line:
            line = line[os.write(number, line):]
    except OSError:
        return False
    return True


def _end(end: End, is_output: bool = False) -> int:
    """Says the line, and why, and gives the status; where OUT is standard output both go to standard error."""
    status, said, why = end
    if said and not _put(2 if is_output else 1, said) and not is_output:
        status, why = UNSAID, explanation(UNSAID, said, [])
    if why:
        _put(2, why)
    return status
