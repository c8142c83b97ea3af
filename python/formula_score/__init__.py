"""Scores for `formula`, made in Python: always within the grammar and the ranges, with their ticks foretold.

    from formula_score import Meter, Score, channel, melody, par, tempo

    tune = Meter("4/4").bars(melody("c4 d4 e4 c4", "1/4"), melody("e4 f4 g4", "1/4 1/4 1/2"))
    score = Score(tempo(96, par(channel(0, tune), channel(1, tune.transpose(-12)))))
    print(score.text)
    score.play("canon.mid")

Lengths are parts of a whole note, and `ticks` counts 480 a quarter note, unless a score says otherwise. The page to
read first is `python/README.md`, which a package has as its description; `python/COOKBOOK.md` has generators.
"""

from typing import TYPE_CHECKING

__version__ = "0.1.0"

if TYPE_CHECKING:
    from .names import *
    from .names import __all__ as __all__
else:
    def __getattr__(name):
        """All names come with the first that is asked for: a verb of the companion needs few of their modules."""
        import importlib
        names = importlib.import_module(".names", __name__)
        if name not in names.__all__ and name != "__all__":
            raise AttributeError(f"module {__name__!r} has no attribute {name!r}")
        globals().update({each: getattr(names, each) for each in ("__all__", *names.__all__)})
        return globals()[name]

    def __dir__():
        return {*globals(), *__getattr__("__all__")}
