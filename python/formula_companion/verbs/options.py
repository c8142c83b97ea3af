"""Options that several verbs take."""

from __future__ import annotations

import argparse
import difflib
import json
import os
import re
from fractions import Fraction
from typing import TYPE_CHECKING, Any, Iterable, Optional

from formula_score.checks.margin import refused as refusal
from formula_score.explaining.explain import file_place_of, place_of
from formula_score.language.tokens import tokens
from formula_score.reading.meter import groups_of, part_of
from formula_score.reading.playing import Failed, NoScore, text_of

if TYPE_CHECKING:
    from formula_score.checks.summary import Summary


def meter_arguments(parser: argparse.ArgumentParser, otherwise: Optional[str] = "4/4") -> None:
    """The options --meter and --upbeat."""
    said = f", {otherwise} where it is not given" if otherwise else ""
    parser.add_argument("--meter", type=groups_of, metavar="3/4[,..]",
                        default=groups_of(otherwise) if otherwise else None,
                        help="the length of a bar" + said + "; 3/4,2/4 for bars that take turns, 4/4,9:3/4 for 3/4 "
                             "from bar 9 on")
    parser.add_argument("--upbeat", type=part_of, metavar="1/4", default=Fraction(0),
                        help="what stands before bar 1; it is bar 0")


def title_arguments(parser: argparse.ArgumentParser) -> None:
    """The options --title and --composer."""
    parser.add_argument("--title", metavar="TEXT", help="the title; else that of a comment `# title: ..`")
    parser.add_argument("--composer", metavar="TEXT", help="the composer; else that of a comment `# composer: ..`")


def process_argument(parser: argparse.ArgumentParser) -> None:
    """The option --process."""
    parser.add_argument("--process", type=int, metavar="P", help="the bars of this process, as the program numbers "
                        "them, where branches have warps of their own; else those of all")


def near(word: str, words: Iterable[str]) -> str:
    """The one of some words that was probably meant, as a question; nothing where none is near."""
    found = difflib.get_close_matches(word, list(words), 1, 0.6)
    return f"; is `{found[0]}` meant?" if found else ""


def near_option(complaint: str, words: Iterable[str]) -> str:
    """The option that was probably meant by one that a complaint says is unknown."""
    found = re.match(r"(?:unrecognized arguments: |there is no option ')(--[^ =']+)", complaint)
    return near(found[1], words) if found else ""


def json_argument(parser: argparse.ArgumentParser, what: str) -> None:
    """The option --json."""
    parser.add_argument("--json", action="store_true",
                        help=f"JSON in place of lines: {what}. A refusal is an object, too. "
                        "formula-score(1) has the schema")


def put(value: object) -> None:
    """Prints a value as a line of JSON."""
    print(json.dumps(value, ensure_ascii=False))


def failure(failed: Failed, path: str) -> dict[str, Any]:
    """Why a verb ended, for a program: of a refused text its place, the fault and the cure."""
    refused: Optional[dict[str, Any]] = None
    place, byte = place_of(failed.said), file_place_of(failed.said)
    if place is not None:
        found = refusal(text_of(path), place)
        refused = {"line": place.line, "column": place.column, "fault": place.number, "heading": found.what,
                   "cure": found.cure}
    elif isinstance(failed, NoScore):
        refused = {"line": failed.line, "column": failed.column, "fault": None, "heading": failed.heading, "cure": ""}
    elif byte is not None:
        refused = {"byte": byte[0], "fault": byte[1], "heading": failed.why}
    return {"status": failed.status, "said": failed.said, "why": failed.why, "refused": refused}


def is_score(path: str) -> bool:
    """Whether a file begins as the text of a score: with its first word, behind blanks and comments. What cannot be read
    twice is taken for a MIDI file."""
    if os.path.exists(path) and not os.path.isfile(path):
        return False
    found = next(tokens(text_of(path)[:100_000].decode("latin-1")))
    return found.text == "formula"


def summary_argument(parser: argparse.ArgumentParser) -> None:
    """The option --summary."""
    parser.add_argument("--summary", action="store_true",
                        help="a few lines alone: events, bars, seconds, processes, keys by "
                        "channel")


def show_summary(summary: Summary, as_json: bool) -> int:
    """Prints a summary, and gives the status."""
    if as_json:
        put({"summary": summary.value()})
    for line in () if as_json else summary.lines():
        print(line)
    return 0
