"""What is heard: play, pause, seek and loop, mute and solo; and that the line is where the sound is."""

from __future__ import annotations

import unittest
from typing import Any

from .page import PageTest

#: How far the line may be from the sound, in seconds.
NEAR = 0.030
#: Sixteen short notes, a quarter note apart, that begin a quarter note late.
CLICKS = "formula 1; rest 1/4; program 115; repeat 8 { volume 127 { gate 50 { note c5 1/8; rest 1/8; } } }"

#: Listens to all that goes to the output: when each note begins, by the audio clock; and where the line is meanwhile.
LISTEN = """
    const context = studio.sound.context = studio.sound.context || new AudioContext();
    window.heard = []; window.lines = [];
    const ear = context.createScriptProcessor(256, 2, 1);
    let quiet = 0;
    ear.onaudioprocess = (event) => {
        const samples = event.inputBuffer.getChannelData(0);
        for (let at = 0; at < samples.length; at++) {
            if (Math.abs(samples[at]) < 0.002) quiet++;
            else { if (quiet > 2000) window.heard.push(event.playbackTime + at / context.sampleRate); quiet = 0; }
        }
    };
    ear.connect(context.destination);
    const connect = AudioNode.prototype.connect;
    AudioNode.prototype.connect = function (target, ...more) {
        if (target === context.destination && this !== ear) connect.call(this, ear);
        return connect.call(this, target, ...more);
    };
    const look = () => {
        if (studio.sound.isPlaying && !studio.sound.isWaiting) {
            window.lines.push([studio.sound.heard(), studio.roll.line / (2 * studio.roll.piece.division)]);
        }
        requestAnimationFrame(look);
    };
    look();
"""


#: A minute, so that a slow machine has time to look.
MINUTE = "formula 1; repeat 30 { note c4 1/1; }"


class Heard(PageTest):
    def play(self) -> None:
        self.click("play")
        self.waited(lambda: self.value("studio.sound.isPlaying && !studio.sound.isWaiting"), "the sound")

    def at(self) -> float:
        return float(self.value("studio.sound.now"))

    def test_it_plays_pauses_and_goes_on_from_where_it_is(self) -> None:
        self.put(MINUTE)
        self.shown([60] * 30)
        self.assertEqual(self.text("play"), "Play")
        self.play()
        self.assertEqual(self.text("play"), "Pause")
        self.waited(lambda: self.at() > 0.3)
        self.click("play")
        place = self.at()
        self.assertEqual(self.at(), place)
        self.browser.execute_script("studio.sound.seek(59.5)")
        self.assertEqual(self.at(), 59.5)
        self.click("play")
        self.waited(lambda: self.at() == 60 and self.text("play") == "Play", "the end")

    def test_it_loops_over_the_bars_that_are_selected(self) -> None:
        self.browser.execute_script("""document.getElementById("meter").value = "1/4";
            document.getElementById("meter").dispatchEvent(new Event("change"))""")
        self.waited(lambda: self.value("studio.roll.bars.last") == 4)
        self.browser.execute_script("""studio.roll.told.selected(2, 3);
            document.getElementById("loop").click()""")
        self.assertEqual(self.value("[studio.sound.loop.from, studio.sound.loop.to]"), [0.5, 1.5])
        self.browser.execute_script("""window.found = [];
            setInterval(() => { if (studio.sound.isPlaying && !studio.sound.isWaiting) found.push(studio.sound.now); }, 20)""")
        self.play()
        begun = self.value("studio.sound.begun")
        self.waited(lambda: self.value("studio.sound.context.currentTime") > begun + 2.5)
        found: list[float] = self.value("window.found")
        self.assertTrue(all(0.49 <= ratio <= 1.51 for ratio in found), found)
        self.assertTrue(any(later < earlier for earlier, later in zip(found, found[1:])), found)
        self.click("play")

    def test_what_is_muted_is_left_out(self) -> None:
        self.put("formula 1; par { branch { note c4 1/4; } branch { channel 1 { note e4 1/4; } } }")
        self.shown([60, 64])
        heard = """[...studio.roll.piece.notes].filter((event) => studio.sound.isHeard(event)).map((event) =>
            studio.roll.piece.messages[3 * event + 1])"""
        for name, keys in (("Mute channel 0", [64]), ("Mute channel 0", [60, 64]), ("Solo channel 0", [60]),
                           ("Solo channel 0", [60, 64])):
            self.browser.find_element("css selector", f'button[aria-label="{name}"]').click()
            self.assertEqual(self.value(heard), keys, name)
        self.browser.execute_script("studio.lanes.choose(2)")
        self.browser.find_element("css selector", 'button[aria-label="Solo process 2"]').click()
        self.assertEqual(self.value(heard), [64])
        self.assertEqual(self.browser.find_element("css selector", 'button[aria-label="Solo process 2"]')
                         .get_attribute("aria-pressed"), "true")
        self.browser.find_element("css selector", 'button[aria-label="Solo process 2"]').click()

    def near(self) -> None:
        """Plays the clicks, and compares each with where the line was."""
        self.put(CLICKS)
        self.shown([72] * 8)
        self.browser.execute_script(LISTEN)
        self.browser.execute_script("studio.sound.seek(0)")
        self.play()
        self.waited(lambda: self.value("window.heard.length") >= 6, "six notes")
        self.click("play")
        heard: list[float] = self.value("window.heard")[:6]
        lines: list[Any] = self.value("window.lines")
        # the n-th note begins half a second and n half seconds after the beginning
        begun = [at - 0.5 * (number + 1) for number, at in enumerate(heard)]
        off: list[float] = [line - (at - begun[0]) for at, line in lines if heard[0] <= at <= heard[-1]]
        self.assertGreater(len(off), 3)
        most = max(abs(each) for each in off)
        print(f"the line is at most {1000 * most:.1f} ms from the sound ({len(off)} pictures)")
        self.assertLess(most, NEAR)
        self.assertLess(max(begun) - min(begun), NEAR)

    def test_the_line_is_where_fluidsynth_sounds(self) -> None:
        if self.value("studio.sound.missing"):
            self.skipTest(f"NOT TRIED: {self.value('studio.sound.missing')}")
        self.near()
        self.assertIn("fluidsynth", self.text("told"))
        self.open()  # the ear is gone with the page

    def test_without_fluidsynth_the_browser_sounds_and_says_so(self) -> None:
        self.browser.execute_script("studio.sound.missing = 'there is no fluidsynth'")
        self.near()
        self.assertIn("a small synthesizer of the browser plays: there is no fluidsynth", self.text("told"))
        self.open()


if __name__ == "__main__":
    unittest.main()
