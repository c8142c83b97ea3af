"""How the page looks and is used: dark and light, wide and narrow, by keyboard alone, with names for a screen reader."""

from __future__ import annotations

import re
import unittest
from typing import Any

from .page import NARROW, WIDE, PageTest, example

#: The least contrast of words that WCAG asks for.
LEAST = 4.5
FULL = "tutorial/8_end.score"


def light(colour: str) -> float:
    """The relative luminance of a colour as the browser writes it."""
    parts = [int(number) / 255 for number in re.findall(r"\d+", colour)[:3]]
    linear: list[float] = [part / 12.92 if part <= 0.04045 else ((part + 0.055) / 1.055) ** 2.4 for part in parts]
    return 0.2126 * linear[0] + 0.7152 * linear[1] + 0.0722 * linear[2]


def contrast(ink: str, ground: str) -> float:
    """How far two colours are apart."""
    low, high = sorted((light(ink), light(ground)))
    return (high + 0.05) / (low + 0.05)


class Looked(PageTest):
    def full(self) -> None:
        """The page with the last step of the tutorial, a note chosen, a process shown."""
        self.put(example(FULL))
        self.waited(lambda: self.value("studio.places && studio.roll.piece.notes.length === 100"))
        self.waited(lambda: "tempo" in self.value("studio.tempo.words"))
        self.browser.execute_script("studio.roll.choose(87); document.activeElement.blur()")
        self.waited(lambda: "as written" in self.text("facts"))

    def contrasts(self) -> None:
        found: dict[str, str] = self.value("""Object.fromEntries([...document.querySelectorAll(
            '.CodeMirror-line span[class^=cm-], header *, #facts *, #mixer *')].filter((each) => each.textContent.trim()
            && !each.disabled).map((each) => [each.className || each.tagName, getComputedStyle(each).color]))""")
        ground = self.value("getComputedStyle(document.body).backgroundColor")
        self.assertGreater(len(found), 8)
        for name, colour in found.items():
            self.assertGreaterEqual(contrast(colour, ground), LEAST, f"{name} {colour} on {ground}")

    def test_words_are_readable_in_light_and_dark(self) -> None:
        self.full()
        self.contrasts()
        self.picture("studio.png")
        ground = self.value("getComputedStyle(document.body).backgroundColor")
        self.look(dark=True)
        self.waited(lambda: self.value("getComputedStyle(document.body).backgroundColor") != ground)
        self.contrasts()
        self.picture("studio_dark.png")
        self.look()

    def test_a_narrow_window_shows_all_below_one_another(self) -> None:
        self.look(NARROW)
        self.waited(lambda: self.value("innerWidth") == NARROW[0])
        self.full()
        self.assertLessEqual(self.value("document.documentElement.scrollWidth"), NARROW[0])
        boxes = self.value("""["editor", "roll", "lanes", "tempo", "below"].map((name) => {
            const box = document.getElementById(name).getBoundingClientRect();
            return [box.left, box.right, box.top, box.bottom]; })""")
        for (left, right, top, bottom), below in zip(boxes, [*boxes[1:], None]):
            self.assertGreaterEqual(left, 0)
            self.assertLessEqual(right, NARROW[0] + 1)
            self.assertGreater(bottom - top, 40)
            if below:
                self.assertLessEqual(bottom, below[2] + 1)
        self.look(WIDE)

    def test_whatever_takes_the_focus_has_a_name(self) -> None:
        self.full()
        nodes: list[Any] = self.browser.execute_cdp_cmd("Accessibility.getFullAXTree", {})["nodes"]
        found = []
        for node in nodes:
            properties = {entry["name"]: entry["value"].get("value") for entry in node.get("properties", [])}
            role = node.get("role", {}).get("value")
            if properties.get("focusable") and role not in ("RootWebArea", "generic", "option", "MenuListPopup"):
                found.append((role, node.get("name", {}).get("value", "")))
        self.assertGreater(len(found), 20)
        self.assertEqual([row for row in found if not row[1].strip()], [])
        names = " ".join(name for _, name in found)
        for name in ("Score text", "Piano roll: 100 notes from g2 to g4, channels 0, 1", "Processes: 4", "Loop", "Meter",
                     "Mute channel 0", "Zoom in"):
            self.assertIn(name, names)


class Keyboard(PageTest):
    def focused(self) -> str:
        return str(self.value("document.activeElement.id || document.activeElement.getAttribute('aria-label') || "
                              "document.activeElement.className || document.activeElement.tagName"))

    def test_all_is_reached_by_the_keyboard(self) -> None:
        # from the beginning of the page on, and not from where the focus was
        self.browser.execute_script("document.body.tabIndex = -1; document.body.focus()")
        seen: list[str] = []
        for _ in range(40):
            self.press("tab")
            seen.append(self.focused())
        for name in ("open", "save", "save-as", "export", "play", "start", "from-bar", "to-bar", "loop", "meter", "upbeat",
                     "colours", "closer", "wider", "whole", "Score text", "roll", "lanes", "Mute channel 0"):
            self.assertIn(name, seen)
        self.assertGreater(seen.index("roll"), seen.index("Score text"))

    def test_a_tune_is_written_seen_and_left_by_keys_alone(self) -> None:
        self.write("formula 1; note d4 1/4; note a4 9/1;")
        self.shown([62, 69])
        self.press("tab")
        self.waited(lambda: self.focused() == "roll", "the roll")
        self.press("home")
        self.waited(lambda: "d4" in self.text("facts"))
        self.press("right")
        self.waited(lambda: "a4" in self.text("facts"))
        before = self.value("studio.axis.scale")
        self.press("+")
        self.assertGreater(self.value("studio.axis.scale"), before)
        self.press(" ")
        self.waited(lambda: self.value("studio.sound.isPlaying"))
        self.press(" ")
        self.waited(lambda: not self.value("studio.sound.isPlaying"))
        self.press("enter")
        self.assertEqual((self.focused(), self.value("studio.writing.editor.getCursor().ch")), ("Score text", 24))
        self.press("control+s")
        self.waited(lambda: self.text("saved") == "saved")

    def test_a_dialog_is_used_and_closed_by_keys(self) -> None:
        self.browser.execute_script("document.getElementById('open').focus()")
        self.press("enter")
        self.waited(lambda: self.value("document.getElementById('opening').open"))
        self.press("escape")
        self.waited(lambda: not self.value("document.getElementById('opening').open"))
        self.assertEqual(self.focused(), "open")


if __name__ == "__main__":
    unittest.main()
