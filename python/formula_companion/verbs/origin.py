"""From what the program was proved: the commit, the kit, and the licence."""

from __future__ import annotations

import os
import pathlib
import subprocess

from formula_score.reading import playing
from formula_score.running import command

#: The page beside the installed program that tells it, in lines of a word and what it is.
PAGE = "proved.txt"
_TOP = pathlib.Path(__file__).resolve().parents[3]
_TELLS = ("commit", "kit", "licence")


def origin() -> str:
    """Some lines on the program that would be run."""
    program = command.find_program()
    page = pathlib.Path(os.path.dirname(os.path.realpath(program)), PAGE) if program else None
    if page and page.is_file():
        lines = page.read_text(encoding="utf-8").splitlines()
        return "\n".join(line for name in _TELLS for line in lines if line.startswith(f"{name} "))
    if program is None and (_TOP / "crates.txt").is_file():
        try:
            if playing.program().endswith(".unproved"):
                return f"the program is {playing.program()}, of which nothing is proved"
        except playing.Failed as failed:
            return failed.why
        return "\n".join((f"commit   {_said('git', 'rev-parse', 'HEAD')}, of this checkout",
                          f"kit      {_said('rt', 'version')}",
                          f"licence  {(_TOP / 'COPYING').read_text(encoding='utf-8').strip()}"))
    return f"the program is {program or 'not there'}, and no page beside it tells from what it was proved"


def _said(*words: str) -> str:
    try:
        done = subprocess.run(words, cwd=_TOP, stdout=subprocess.PIPE, stderr=subprocess.DEVNULL, text=True, check=False)
    except OSError:
        return "not known"
    return done.stdout.strip() or "not known"
