"""The verb `lint`: what scores say that is accepted, and hardly meant."""

from __future__ import annotations

import argparse
import functools
from typing import Any, NoReturn

from formula_score.checks.bars import RULES_OF_BARS
from formula_score.checks.finding import WARNING
from formula_score.checks.lint import findings
from formula_score.checks.margin import problems
from formula_score.checks.rules import RULES
from formula_score.reading.meter import Meter
from formula_score.reading.playing import listing_of
from formula_score.reading.reader import read
from .options import json_argument, meter_arguments
from .several import Several, found_of, several_arguments


class _Rules(argparse.Action):
    """Prints the table of rules, and ends."""

    def __init__(self, **given: Any):
        super().__init__(nargs=0, **given)

    def __call__(self, parser: argparse.ArgumentParser, *_: object) -> NoReturn:
        for rule in RULES:
            print(f"{rule.name}{'' if rule.severity == WARNING else ' (remark)'}: {rule.says}")
        parser.exit()


def arguments(parser: argparse.ArgumentParser) -> None:
    """What the verb takes."""
    several_arguments(parser)
    parser.add_argument("--all", action="store_true", help="all that an editor shows: what is refused as a line of the "
                        "same form, and what `bars` finds")
    meter_arguments(parser, None)
    json_argument(parser, "the `findings` of all scores, and those `refused`")
    parser.add_argument("--rules", action=_Rules, help="print the rules, and end")
    parser.description = f"""{parser.description}

It ends with 1 where a score is refused, or it warns, else with 0: remarks alone are 0. `# lint: ignore NAME` behind a
line, or on a line of its own before it, says that a thing is meant there; above the first word, in all of the text.
With --all this holds of {", ".join(RULES_OF_BARS)}, too; where no --meter is given, it is 4/4 or 3/4.

--rules prints what it looks for."""


def run(options: argparse.Namespace) -> int:
    """Prints what it finds."""
    several = Several(options.scores, options.json, options.all, options.text_places)
    meter = options.meter and (lambda reading: Meter(options.meter, options.upbeat, reading.whole))
    for path, text in several.texts():
        heard = functools.partial(listing_of, text)
        found = ([found_of(text, problem) for problem in problems(text, "", heard, meter, None)] if options.all
                 else findings(read(text), heard))
        for each in found:
            several.tell(path, each)
    return several.end()
