"""The verb `listen`: plays a score, some bars or a phrase of it, through a synthesizer, or writes the sound to a
file."""

from __future__ import annotations

import argparse
import contextlib
import os
import subprocess
import tempfile
import time
from typing import Iterator, NamedTuple, Optional

from formula_score.making.values import plain
from formula_score.reading.meter import Meter
from formula_score.reading.midi_file import save
from formula_score.reading.playing import Failed, judge, listing_of_file, needs, run as play
from formula_score.reading.ticks import agreed
from formula_score.running.pieces import file_of
from formula_score.sound.hearing import bar_ticks, beats, phrase, tune_of
from formula_score.sound.player import fault_of, must_be_sound, needed_player, sound_of
from .excerpt import Bars, bars_of, window_of
from .options import meter_arguments, process_argument

#: How often a phrase is played, and how many seconds lie between two looks at a text that is followed.
_ROUNDS, _LOOK = 100, 0.2


def arguments(parser: argparse.ArgumentParser) -> None:
    """What the verb takes."""
    parser.add_argument("score", metavar="SCORE", help="the text of a score")
    parser.add_argument("--bars", type=bars_of, metavar="9-12", help="these bars alone, as `excerpt` cuts them")
    meter_arguments(parser)
    process_argument(parser)
    parser.add_argument("--phrase", metavar="NAME",
                        help="this phrase alone, as it is played first, in a loop; with --to once")
    parser.add_argument("--channel", type=int, choices=range(16), metavar="N", help="one channel alone, 0 to 15")
    parser.add_argument("--speed", type=int, metavar="80", default=100, help="so many percent of the speed, 10 to 1000")
    parser.add_argument("--click", action="store_true",
                        help="a click on each beat of --meter, through all deformations")
    parser.add_argument("--follow", action="store_true",
                        help="play again whenever SCORE is saved, from the bar that is heard; a "
                        "text that is refused is told, and the old one plays on")
    parser.add_argument("--to", metavar="OUT", help="write the sound to a file: .wav, .flac or .ogg")
    parser.add_argument("--font", metavar="FILE.sf2", help="the sound font for fluidsynth")
    parser.description = f"""{parser.description}

It takes fluidsynth where there is a sound font, else timidity; where neither is there it says which package has it,
and the status is 1. The file that they play is the program's; with --phrase, --channel, --speed and --click the
companion makes one of it, outside the proof. What the synthesizer says that is wrong is told, and OUT is written
whole or not at all."""


class Made(NamedTuple):
    """A file that is to be heard: its bytes, the tick of the piece at which it begins, its seconds, and the bars of
    the piece with their ticks, for a text that is followed."""

    data: bytes
    begin: int
    seconds: float
    bars: list[tuple[int, int]]
    division: int


def run(options: argparse.Namespace) -> int:
    """Plays it, or writes it."""
    if not 10 <= options.speed <= 1000:
        raise Failed(2, f"--speed goes from 10 to 1000 percent, and {options.speed} does not")
    if options.phrase is not None and options.bars is not None or options.follow and options.to is not None:
        raise Failed(2, "--phrase and --bars, and --follow and --to, do not go together")
    if options.to is not None:
        must_be_sound(options.to)
        made = _made(options, 1)
        save(options.to, sound_of(made.data, options.to, made.seconds, options.font))
        print(f"{options.to}: {made.seconds:.1f} seconds")
        return 0
    if options.follow:
        needed_player(options.font)
        with contextlib.suppress(KeyboardInterrupt):
            _follow(options)
        return 0
    made = _made(options, _ROUNDS)
    words = needed_player(options.font)
    with _file(options, made) as path:
        print(f"{words[0]} plays {plain(options.score)}; end it with Ctrl-C", flush=True)
        try:
            done = subprocess.run([*words, path], stderr=subprocess.PIPE, check=False)
        except OSError as error:
            raise Failed(1, f"{words[0]} cannot be run: {error.strerror}") from error
        except KeyboardInterrupt:
            return 0
    _must_be_well(words, done.returncode, done.stderr)
    return 0


def _must_be_well(words: list[str], status: int, said: bytes) -> None:
    wrong = fault_of(words, status, said)
    if wrong is not None:
        raise Failed(1, wrong)


def _made(options: argparse.Namespace, rounds: int) -> Made:
    """The file that is to be heard."""
    text = judge(options.score, None)
    window = window_of(options, text) if options.phrase is None else []
    begin = int(window[1]) if window else 0
    with tempfile.TemporaryDirectory() as folder:
        target = os.path.join(folder, "out.mid")
        needs(play(options.score, target, *window, text=text))
        with open(target, "rb") as file:
            data = file.read()
        tune = tune_of(listing_of_file(target))
    is_own = options.phrase is None and options.channel is None and options.speed == 100 and not options.click
    bars = list[tuple[int, int]]()
    if not is_own or options.follow:
        walk = agreed(text)
        meter = Meter(options.meter, options.upbeat, walk.reading.whole)
        if options.phrase is not None:
            tune, begin = phrase(walk, options.phrase)
        if options.channel is not None:
            tune = tune.only(options.channel)
        if options.click:
            tune = tune.clicked(beats(walk, meter, begin))
        if options.phrase is not None:
            tune = tune.again(rounds)
        bars = bar_ticks(walk, meter) if options.follow else []
    seconds = tune.seconds * 100 / options.speed
    return Made(data if is_own else tune.file(options.speed), begin, seconds, bars, tune.division)


@contextlib.contextmanager
def _file(options: argparse.Namespace, made: Made) -> Iterator[str]:
    """A file that a synthesizer reads."""
    with tempfile.TemporaryDirectory() as folder:
        path = os.path.join(folder, f"{os.path.basename(options.score)}.mid")
        save(path, made.data)
        yield path


# ---- a text that is followed

def _follow(options: argparse.Namespace) -> None:
    """Plays the score, and again whenever it is saved, from the bar that is heard."""
    given, made = options.bars, _made(options, _ROUNDS)
    while True:
        heard = _until_saved(options, made)
        froms = [given]
        if heard and options.phrase is None:
            froms.insert(0, Bars(heard, given.last if given else None))
        for options.bars in froms:
            try:
                made = _made(options, _ROUNDS)
                break
            except Failed as failed:  # the new text may be shorter
                print(failed.why, flush=True)


def _until_saved(options: argparse.Namespace, made: Made) -> int:
    """Plays a file until the score is saved with a text that is accepted: the bar that was heard then, 0 behind the
    end."""
    words, stamp = needed_player(options.font), _stamp(options.score)
    begins = f" from bar {options.bars.first}" if options.bars else ""
    with _file(options, made) as path, tempfile.TemporaryFile() as said, \
            subprocess.Popen([*words, path], stderr=said) as process:
        print(f"{words[0]} plays {options.score}{begins}; end it with Ctrl-C", flush=True)
        begun = time.monotonic()
        try:
            while True:
                time.sleep(_LOOK)
                over, now = process.poll() is not None, _stamp(options.score)
                if over:
                    said.seek(0)
                    _must_be_well(words, process.returncode, said.read())
                if now is None or now == stamp:
                    continue
                stamp = now
                tick = made.begin + (time.monotonic() - begun) * 2 * made.division * options.speed / 100
                try:
                    judge(options.score)
                    return 0 if over else max((bar for bar, at in made.bars if at <= tick), default=0)
                except Failed as failed:
                    print(failed.why, flush=True)
        finally:
            process.kill()


def _stamp(path: str) -> Optional[tuple[int, int, int]]:
    """By what a file is seen to be saved."""
    try:
        facts = os.stat(file_of(path))
    except OSError:  # it is being replaced
        return None
    return facts.st_mtime_ns, facts.st_size, facts.st_ino
