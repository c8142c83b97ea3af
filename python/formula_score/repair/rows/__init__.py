"""The rows of slips, and the facts of the language."""

from __future__ import annotations

from . import facts, lengths, numbers, pitches, statements, values, words
from ..row import Row

ROWS: tuple[Row, ...] = (*pitches.ROWS, *lengths.ROWS, *numbers.ROWS, *values.ROWS, *statements.ROWS, *words.ROWS)
FACTS: tuple[Row, ...] = facts.FACTS
