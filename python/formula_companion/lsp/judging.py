"""What is found in the texts of an editor: each is judged aside, and a newer one ends the run for the one before."""

from __future__ import annotations

import argparse
import os
import subprocess
import threading
from typing import Callable, Optional, Union

from formula_score.checks.margin import Problem, problems
from formula_score.explaining.explain import explanation, place_of
from formula_score.reading.meter import Meter, groups_of, part_of
from formula_score.reading.playing import Failed, listing_of, program
from formula_score.reading.tree import Reading
from formula_score.running.command import ends_with_this, environment
from formula_score.running.outs import name_of, nameless

#: What is told of a text: all that is found in it.
Told = Callable[[list[Problem]], None]
#: The meter of a text.
Metered = Callable[[Reading], Meter]


def metered(word: str, upbeat: str) -> Optional[Metered]:
    """What two words say of the meter, as 3/4 and 1/4; None where they are none."""
    try:
        groups, part = groups_of(word), part_of(upbeat or "0/1")
    except argparse.ArgumentTypeError:
        return None
    return lambda reading: Meter(groups, part, reading.whole)


class Judge:
    """Judges the texts of one document, one after another. What goes wrong with the program is told by `fails`."""

    def __init__(self, program: str, fails: Callable[[str], None], meter: Optional[Metered] = None):
        self.program, self.fails, self.meter = program, fails, meter
        self._lock, self._playing = threading.Lock(), threading.Lock()
        self._number = 0
        self._run: Optional["subprocess.Popen[bytes]"] = None

    def judge(self, text: bytes, answer: Told) -> None:
        """Begins to judge a text, and ends what runs for an older one, which then is not told."""
        with self._lock:
            self._number += 1
            number = self._number
            if self._run is not None:
                self._run.kill()
        threading.Thread(target=self._judge, args=(text, number, answer), daemon=True).start()

    def stop(self) -> None:
        """Ends what runs; nothing more is told."""
        with self._lock:
            self._number += 1
            if self._run is not None:
                self._run.kill()

    def _judge(self, text: bytes, number: int, answer: Told) -> None:
        with nameless(text) as source:
            with self._lock:
                if number != self._number:
                    return
                try:
                    # nothing is played: where a tick lies is asked, which needs the text to be accepted
                    run = self._run = subprocess.Popen(
                        ends_with_this([self.program, "--locate", "0", "--", name_of(source), os.devnull]),
                        stdin=subprocess.DEVNULL, stdout=subprocess.PIPE, stderr=subprocess.DEVNULL, env=environment(),
                        pass_fds=[source.fileno()])
                except (OSError, ValueError) as error:
                    self.fails(f"{self.program} cannot be run, so nothing is judged: {error}")
                    answer([])
                    return
            said = run.communicate()[0].decode("utf-8", "replace").strip()
        fails = run.returncode != 0 and place_of(said) is None
        found = [] if fails else self._found(text, number, said if run.returncode != 0 else "")
        with self._lock:
            if number != self._number:
                return
            if fails:
                why = explanation(run.returncode, said, ["--", "score", os.devnull]) or said
                self.fails(f"the program has not judged the text: {why or f'status {run.returncode}'}")
            answer(found)

    def _found(self, text: bytes, number: int, said: str) -> list[Problem]:
        """All that is found in a text; one text after another, and none where a newer one is there."""
        with self._playing:
            if number != self._number:
                return []
            try:
                return problems(text, said, lambda: listing_of(text), self.meter)
            except Failed as failed:
                self.fails(failed.why)
                return []


def program_for_judging() -> Union[str, Failed]:
    """The program, or why there is none."""
    try:
        return program()
    except Failed as failed:
        return failed
