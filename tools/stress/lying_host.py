"""What a worker loads that plays another score than it is sent."""

import builtins
import os
from typing import Any

TEXT = b"formula 1; note c4 1/4;"
# the nanny of a worker and the worker load this; it is done once
_spawn: Any = builtins.__dict__.setdefault("formula_spawn", os.posix_spawn)


def _lies(path: str, words: Any, environment: Any, file_actions: Any = ()) -> Any:
    text = os.memfd_create("text")
    try:
        os.write(text, TEXT)
        os.lseek(text, 0, os.SEEK_SET)
        actions = [(kind, text if place == 3 else source, place) for kind, source, place in file_actions]
        return _spawn(path, words, environment, file_actions=actions)
    finally:
        os.close(text)


setattr(os, "posix_spawn", _lies)
