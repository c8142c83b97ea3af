"""What a worker loads that can run no program."""

import os


def _fails(*_: object, **__: object) -> None:
    raise OSError(28, "No space left on device")


setattr(os, "posix_spawn", _fails)
