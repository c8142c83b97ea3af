"""The verb `lsp`: a language server for editors, on standard input and output."""

from __future__ import annotations

import argparse
import gc
import os
import sys

from formula_score.host.packages import names
from .libraries import needs


def arguments(parser: argparse.ArgumentParser) -> None:
    """What the verb takes."""
    parser.description = f"""{parser.description}

An editor starts it, and speaks LSP with it on standard input and output. It tells at each change what is refused, or
what lint and bars find, with the place and what to do, and has the changes as quick fixes; what may be written at a
place; what a word means; where a phrase or shape is defined and used; the outline; and it renames phrases and shapes.
editors/README.md says how Neovim starts it. It needs Debian's package {names("lsp")[0]}."""


def run(_: argparse.Namespace) -> int:
    """Serves until the editor ends it."""
    needs("lsp")
    from ..lsp.judging import program_for_judging
    from ..lsp.server import Server  # it needs the library

    gc.set_threshold(100_000)  # a long text is a million objects, which the usual 700 has looked through too often
    answers = os.fdopen(os.dup(1), "wb")
    os.dup2(2, 1)  # what is printed is no answer
    return Server(sys.stdin.buffer, answers, program_for_judging()).serve()
