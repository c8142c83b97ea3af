"""The companion of `formula` for musicians, `formula-score`: verbs, a studio, a language server, import and editing.

It is outside the proof, and tested only. `verbs/program.py` has the table of verbs, each a module of its own. What a
score or a text can do of itself is in `formula_score`, which imports nothing of this package.
"""

__version__ = "0.1.0"
