"""A synthesizer that is installed, and its sound font; files of sound that fluidsynth makes."""

from __future__ import annotations

import glob
import os
import pathlib
import re
import shutil
import subprocess
import tempfile
import wave
from typing import Optional

from ..host.packages import install_line, names
from ..reading.playing import Failed

#: Where Debian's packages put sound fonts, the better ones first.
FONTS = ("/usr/share/sounds/sf2/FluidR3_GM.sf2", "/usr/share/sounds/sf3/*.sf3", "/usr/share/sounds/sf2/*.sf2",
         "/usr/share/soundfonts/*.sf[23]")
PACKAGES = f"""no synthesizer is there. On Debian:
  {install_line(names("sound"))}
  {install_line(names("timidity"))}"""
#: The kinds of files of sound by their suffix, as fluidsynth calls them.
KINDS = {".wav": "wav", ".flac": "flac", ".ogg": "oga"}


def player(font: Optional[str]) -> Optional[list[str]]:
    """The words of a synthesizer to which a MIDI file is added; None where there is none."""
    found = [font] if font else [path for pattern in FONTS for path in sorted(glob.glob(pattern))]
    if shutil.which("fluidsynth") and found:
        return ["fluidsynth", "-n", "-i", "-q", found[0]]
    if shutil.which("timidity"):
        return ["timidity", "-id"]
    return None


def needed_player(font: Optional[str]) -> list[str]:
    """The words of a synthesizer; a `Failed` names the packages where there is none."""
    if font is not None and not os.path.isfile(font):
        raise Failed(2, f"there is no sound font {font!r}")
    words = player(font)
    if words is None:
        only_font = "" if shutil.which("fluidsynth") is None else "fluidsynth is there, and no sound font for it.\n"
        raise Failed(1, only_font + PACKAGES)
    return words


def fault_of(words: list[str], status: int, said: bytes) -> Optional[str]:
    """What a synthesizer says that is wrong, also where its status is 0; libraries below it complain of what is
    well."""
    lines = said.decode("utf-8", "replace").splitlines()
    wrong = next((line for line in lines if re.match(r"fluidsynth: (error|panic): ", line)), None)
    if wrong is None and status:
        return f"{words[0]} ended with status {status}" + (f": {lines[-1]}" if lines else "")
    return wrong and re.sub(r"^fluidsynth: (error|panic): ", "fluidsynth: ", wrong.strip())


def must_be_sound(path: str) -> None:
    """Refuses a file of sound that can't be made."""
    suffix = pathlib.PurePath(path).suffix.lower()
    if suffix not in KINDS:
        raise Failed(2,
                     f"{path!r}: sound is written to {', '.join(KINDS)}, and {suffix or 'no suffix'!r} is none of them")
    folder = os.path.dirname(path) or os.curdir
    if not os.path.isdir(folder):
        raise Failed(2, f"there is no folder {folder!r}")


def sound_of(data: bytes, path: str, seconds: float, font: Optional[str]) -> bytes:
    """The file of sound of a MIDI file, of the kind that the suffix of a path says; it lasts so many seconds at
    least."""
    words = needed_player(font)
    if words[0] != "fluidsynth":
        raise Failed(1, f"files of sound are made by fluidsynth. On Debian:\n  {install_line(names('sound'))}")
    kind = KINDS[pathlib.PurePath(path).suffix.lower()]
    with tempfile.TemporaryDirectory() as folder:
        source, target = pathlib.Path(folder, "in.mid"), pathlib.Path(folder, "out")
        source.write_bytes(data)
        # without -T it writes WAV under every name
        command = [*words[:-1], "-F", str(target), "-T", kind, words[-1], str(source)]
        try:
            done = subprocess.run(command, stdin=subprocess.DEVNULL, stdout=subprocess.DEVNULL, stderr=subprocess.PIPE,
                                  check=False)
        except OSError as error:
            raise Failed(1, f"{words[0]} cannot be run: {error.strerror}") from error
        wrong = fault_of(words, done.returncode, done.stderr)
        if wrong is None and not (target.exists() and target.stat().st_size):
            wrong = f"{words[0]} made no file"
        if wrong is None and kind == "wav":
            with wave.open(str(target), "rb") as file:
                if file.getnframes() < 0.98 * seconds * file.getframerate():
                    wrong = f"{words[0]} made {file.getnframes() / file.getframerate():.1f} seconds of {seconds:.1f}"
        if wrong is not None:
            raise Failed(1, wrong)
        return target.read_bytes()
