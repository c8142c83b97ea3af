"""How long it takes from a keystroke to the picture and to the margin: a tune of 16 bars, 1,000 lines, 100,000 notes,
and a text of a mebibyte.

    python/browser/run --figures

Each is changed some times, and the times from the change to the drawn picture, and to what is found in the text, are
told in milliseconds, the median and the longest; and how long the page did not draw at a time.
"""

from __future__ import annotations

import os
import pathlib
import statistics
import tempfile
import time
from typing import Any

from tests.studio import Running

from .page import example, started

#: How many times each text is changed.
CHANGES = 9
#: How long a picture is waited for, in seconds.
LONGEST = 120
#: 100,000 notes in four voices.
MANY = "formula 1; par { " + " ".join(
    f"branch {{ channel {voice} {{ repeat 25000 {{ note key ({48 + 7 * voice} + n0 % 12) 1/16; }} }} }}"
    for voice in range(4)) + " }\n"

#: Notes when the page draws, and how long it did not do so.
WATCH = """
    window.longest = 0;
    let last = performance.now();
    const look = (now) => { window.longest = Math.max(window.longest, now - last); last = now; requestAnimationFrame(look); };
    requestAnimationFrame((now) => { last = now; look(now); });
"""


def mebibyte() -> str:
    """A text that is as long as a score may be, of notes in phrases."""
    line = "note c4 1/16; note e4 1/16; note g4 1/16; note c5 1/16; # a bar in sixteenths of four notes\n"
    head = "formula 1;\n"
    return head + line * ((1_048_576 - len(head)) // len(line))


def thousand() -> str:
    """A score of a thousand lines: phrases of four bars, each played once by one of two voices under a tempo."""
    bar = "  note c4 1/8; note e4 1/8; note g4, c5 1/4; volume 90 { note a4 1/8; note f4 1/8; note d4 1/4; }\n"
    phrases = [f"phrase p{number} {{\n{bar * 4}}}\n" for number in range(160)]
    one, other = (" ".join(f"do p{number};" for number in range(first, 160, 2)) for first in (0, 1))
    return "".join(["formula 1;\nshape tempo = flat 500/1 by 1250, flat 500/1 by 1250;\n", *phrases,
                    f"warp tempo {{ par {{\n  branch {{ {one} }}\n  branch {{ channel 1 {{ {other} }} }}\n}} }}\n",
                    "# the end\n" * 34])


def timed(browser: Any, text: str) -> list[tuple[float, float]]:
    """The milliseconds from a change to the picture and to the margin, for some changes."""
    before = counts(browser)
    browser.execute_script("studio.writing.editor.setValue(arguments[0])", text)
    settled(browser, before)
    found = []
    for _ in range(CHANGES):
        before = counts(browser)
        browser.execute_script("""const editor = studio.writing.editor, end = { line: editor.lineCount(), ch: 0 };
            editor.replaceRange(" ", end);""")
        settled(browser, before)
        picture, margin = browser.execute_script("return [studio.times.at(-1), studio.margins.at(-1)]")
        found.append((float(picture), float(margin)))
        time.sleep(0.5)
    return found


def counts(browser: Any) -> list[int]:
    """How many pictures and margins there were."""
    found: list[int] = browser.execute_script("return [studio.times.length, studio.margins.length]")
    return found


def settled(browser: Any, before: list[int]) -> None:
    """Waits for one more of both."""
    until = time.monotonic() + LONGEST
    while any(now <= then for now, then in zip(counts(browser), before)) and time.monotonic() < until:
        time.sleep(0.02)


def main() -> None:
    """Prints the figures."""
    with tempfile.TemporaryDirectory() as home:
        pathlib.Path(home, "tune.score").write_text(example("tutorial/8_end.score"), encoding="utf-8")
        studio, browser = Running(home), started(home)
        try:
            browser.get(studio.address)
            settled_page(browser)
            print(f"{os.cpu_count()} processors, load {os.getloadavg()[0]:.1f}, program {os.environ['FORMULA']}")
            for name, text in (("16 bars, two voices", example("tutorial/8_end.score")), ("1,000 lines", thousand()),
                               ("100,000 notes", MANY), ("a text of 1 MiB", mebibyte())):
                browser.execute_script(WATCH)
                found = timed(browser, text)
                frozen = browser.execute_script("return window.longest")
                notes = browser.execute_script("return studio.roll.piece.notes.length")
                took = [f"{what} {statistics.median(times):.0f} ms, at most {max(times):.0f} ms"
                        for what, times in zip(("picture", "margin"), zip(*found))]
                print(f"{name}: {notes:,} notes; {'; '.join(took)}; the page did not draw for {frozen:.0f} ms at most")
        finally:
            browser.quit()
            studio.close()


def settled_page(browser: Any) -> None:
    """Waits for the page and its first picture."""
    until = time.monotonic() + LONGEST
    while not browser.execute_script("return Boolean(window.studio && studio.times.length)") and time.monotonic() < until:
        time.sleep(0.05)


if __name__ == "__main__":
    main()
