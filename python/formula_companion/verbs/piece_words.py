"""What the words of a verb say of a Python file that makes a score: its arguments, and what it may take."""

from __future__ import annotations

from typing import Sequence

from formula_score.reading.playing import Failed
from formula_score.running.pieces import Asked, Limits, named

OPTION = "--limits"

ABOUT = f"""\
A Python file that makes a score is taken for a score: tune.py, or tune.py:NAME where it has several. It is `score`, else
its only `Score`; a function without arguments is called. What is behind `--` is the file's sys.argv. It is run in a
process of its own, in its own folder, and where bubblewrap is there it can write nothing and reaches no network.
{OPTION} {','.join(f'{name}={number}' for name, number in Limits()._asdict().items())} are its seconds, its seconds of a
processor, and its MB of memory and of what it prints."""


def taken(words: Sequence[str]) -> list[str]:
    """The words without those that are for a Python file, which are kept for its run."""
    left = list(words)
    at = next((at for at, word in enumerate(left) if named(word)), len(left))
    behind = left.index("--", at) if "--" in left[at:] else len(left)
    left, arguments = left[:behind], left[behind + 1:]
    end = left.index("--") if "--" in left else len(left)
    while OPTION in left[:end]:
        given = left.index(OPTION)
        if given + 1 == len(left):
            raise Failed(2, f"{OPTION} needs words as time=5,memory=512")
        Asked.limits = limits_of(left[given + 1], Asked.limits)
        del left[given:given + 2]
        end -= 2
    Asked.arguments = arguments
    return left


def limits_of(word: str, before: Limits = Limits()) -> Limits:
    """The limits that a word as `time=5,memory=512` gives."""
    limits = before._asdict()
    for part in word.split(","):
        name, _, number = part.partition("=")
        if name not in limits or not number.isascii() or not number.isdigit() or not 0 < int(number) <= 1_000_000:
            raise Failed(2, f"{part!r} is no limit: write {', '.join(f'{name}=N' for name in limits)}")
        limits[name] = int(number)
    return Limits(**limits)
