"""The verb `needs`: which of Debian's packages are there that verbs and tests need beside the command."""

from __future__ import annotations

import argparse

from formula_score.host.packages import FEATURES, install_line, is_there, lacking


def arguments(parser: argparse.ArgumentParser) -> None:
    """What the verb takes."""
    parser.add_argument("features", metavar="FEATURE", nargs="*", type=_feature, help=f"one of {', '.join(FEATURES)}; all "
                        "that are for users where none is given")
    parser.add_argument("--names", action="store_true", help="print the packages that are missing, and no more")
    parser.description = f"""{parser.description}

The last line is what to write in a shell, as root, for the rest. A library of Python counts as there where Debian's
Python has it: a verb that needs it then goes on by that one. The status is 1 where something is missing."""


def _feature(word: str) -> str:
    if word not in FEATURES:
        raise argparse.ArgumentTypeError(f"there is no feature {word!r}; there are {', '.join(FEATURES)}")
    return word


def run(options: argparse.Namespace) -> int:
    """Prints what is there."""
    asked = options.features or [name for name, feature in FEATURES.items() if feature.is_for_users]
    wanted = lacking(*asked)
    if options.names:
        print(" ".join(wanted))
        return int(bool(wanted))
    for name in asked:
        print(f"{name}: {FEATURES[name].about}")
        for package in FEATURES[name].packages:
            state = "there" if is_there(package) else "missing" if package.name in wanted else "not there, nor needed"
            print(f"  {package.name:<22} {state}")
    print(install_line(wanted) if wanted else "nothing is missing")
    return int(bool(wanted))
