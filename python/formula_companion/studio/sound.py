"""Files as sound, by fluidsynth and a sound font that is installed; each file is rendered once."""

from __future__ import annotations

import asyncio
import glob
import hashlib
import os
import resource
import shutil
import signal
from typing import Optional

from formula_score.host.packages import install_line, names
from formula_score.sound.player import FONTS
from .runs import ended, how, remove

RATE = 44_100
#: The greatest file of sound, in bytes: 30 minutes.
MOST_BYTES = 30 * 60 * RATE * 4
#: How many bytes of sound are kept.
KEPT = 2 * MOST_BYTES

PACKAGES = install_line(names("sound"))


class Unheard(Exception):
    """Why there is no sound."""


class Sound:
    """What renders files, and what it has rendered, in a folder."""

    def __init__(self, folder: str, font: Optional[str] = None):
        self.folder = folder
        found = [font] if font else [path for pattern in FONTS for path in sorted(glob.glob(pattern))]
        self.font = found[0] if found else None
        self.program = shutil.which("fluidsynth")
        self._made: dict[str, int] = {}
        self._one_at_a_time = asyncio.Lock()

    @property
    def missing(self) -> str:
        """What is not there, with the packages that have it; '' where all is."""
        if self.program and self.font:
            return ""
        what = "there is no sound font" if self.program else "there is no fluidsynth"
        return f"{what}: {PACKAGES}"

    async def render(self, data: bytes) -> str:
        """The name of a WAV file of a MIDI file, which is kept for the next time."""
        if not self.program or not self.font:
            raise Unheard(self.missing)
        name = hashlib.sha256(data).hexdigest()
        wave = os.path.join(self.folder, name + ".wav")
        async with self._one_at_a_time:
            if name in self._made:
                self._made[name] = self._made.pop(name)  # it was asked for last
                return wave
            source, target = wave + ".mid", wave + ".new"
            try:
                with open(source, "wb") as file:
                    file.write(data)
                status, _ = await ended(
                    [self.program, "-n", "-i", "-q", "-F", target, "-T", "wav", "-O", "s16", "-r", str(RATE), self.font,
                     source], limit=lambda: resource.setrlimit(resource.RLIMIT_FSIZE, (MOST_BYTES, MOST_BYTES)))
                if status != 0 or not os.path.exists(target):
                    raise Unheard("it is longer than 30 minutes" if status == -signal.SIGXFSZ
                                  else f"fluidsynth ended with {how(status)}")
                os.rename(target, wave)
            finally:
                remove(source)
                remove(target)
            self._made[name] = os.path.getsize(wave)
            self._forget()
        return wave

    def _forget(self) -> None:
        """Removes what was not asked for longest, where there is too much."""
        while sum(self._made.values()) > KEPT and len(self._made) > 1:
            oldest = next(iter(self._made))
            del self._made[oldest]
            remove(os.path.join(self.folder, oldest + ".wav"))
