"""The score of the library, which writes itself as notation, too."""

from __future__ import annotations

import argparse
import os

from ..making.errors import CommandError, ScoreError
from ..running import score
from ..running.command import Path


class Score(score.Score):
    """A score that is played, located, and written as notation: `Score(note("c4", "1/4")).notation("out.musicxml")`."""

    __doc__ = score.Score.__doc__

    def notation(self, path: Path, *, meter: str = "4/4", upbeat: str = "0/1", title: str = "",
                 composer: str = "") -> str:
        """Writes notes as they are written, as `.musicxml` or `.abc`, or draws them as `.pdf` or `.svg` by a program
        that is installed. Gives a line that says what notation does not say. The command plays the score first.

        `meter` is as `3/4`, or as `4/4,9:3/4` for 3/4 from bar 9 on, and `upbeat` the length of bar 0.
        """
        from ..reading.meter import Meter, groups_of, part_of
        from ..reading.playing import Failed
        from ..reading.ticks import agreed
        from ..reading.branches import Titles
        from .files import written
        try:
            walk = agreed(self.text.encode())
            bars = Meter(groups_of(meter), part_of(upbeat), walk.reading.whole)
            return written(walk, bars, Titles(title, composer), os.fspath(path))
        except argparse.ArgumentTypeError as error:
            raise ScoreError(str(error)) from error
        except Failed as failed:
            raise CommandError(failed.status, failed.said, failed.why) from failed
