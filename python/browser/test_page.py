"""A tune is typed, seen, refused, cured, chosen, saved and exported."""

from __future__ import annotations

import pathlib
import unittest
from typing import Any

from formula_score.running.command import listing, render
from tests.program import PROGRAM, TOP
from tests.studio import Running

from .page import TUNE, PageTest, example


class Typed(PageTest):
    def test_what_is_typed_is_seen(self) -> None:
        self.write("formula 1;\nnote d4 1/4; note a4 1/4;")
        self.shown([62, 69])
        self.assertEqual(self.value("[studio.roll.piece.end, ...studio.roll.piece.ticks]"), [960, 0, 432, 480, 912])
        self.assertEqual(self.text("saved"), "changed")

    def test_words_have_the_colours_of_their_kinds(self) -> None:
        found = self.value("[...document.querySelectorAll('.CodeMirror-line span[class]')].map((each) => "
                           "[each.className, each.textContent])")
        self.assertEqual([row for row in found if row[0].startswith("cm-")][:6], [
            ["cm-word", "formula"], ["cm-number", "1"], ["cm-says", "note"], ["cm-pitch", "c4"], ["cm-number", "1"],
            ["cm-number", "4"]])

    def test_a_fault_is_underlined_told_and_cured(self) -> None:
        self.write("formula 1;\nnote c4 1/4\nnote e4 1/4;")
        self.waited(lambda: self.value("document.querySelector('.refused')?.textContent") == "4", "the underline")
        self.assertIn("line 2 here a `;` is expected", self.text("refusal"))
        self.assertIn("write `note c4 1/4;`", self.text("refusal"))
        self.assertIn("2 | note c4 1/4", self.text("refusal"))
        self.assertTrue(self.value("document.getElementById('seeing').classList.contains('stale')"))
        self.press("up", "end", ";")
        self.shown([60, 64])
        self.assertEqual((self.text("refusal"), self.value("document.querySelector('.refused')")), ("", None))

    def test_a_cure_is_a_button(self) -> None:
        self.write("formula 1;\nnote c4 1/4\nnote e4 1/4;")
        self.waited(lambda: self.value("document.querySelectorAll('#refusal button').length") > 1, "the button")
        self.browser.execute_script("[...document.querySelectorAll('#refusal button')].pop().click()")
        self.shown([60, 64])
        self.assertEqual((self.text("refusal"), self.value("studio.writing.text")),
                         ("", "formula 1;\nnote c4 1/4;\nnote e4 1/4;"))

    def test_what_lint_and_bars_find_is_underlined_told_and_changed(self) -> None:
        self.write("formula 1;\nnote es4 1/1;\nnote c4 1/1; # bar 3\n")
        rows = "[...document.querySelectorAll('#problems li')].map((each) => each.innerText.replace(/\\s+/g, ' '))"
        self.waited(lambda: len(self.value(rows)) == 2, "both findings")
        self.assertEqual(self.value("[...document.querySelectorAll('.warned')].map((each) => each.textContent)"),
                         ["es4", "#"])
        first, second = self.value(rows)
        self.assertTrue(first.startswith("line 2 warning: `es4` is E sharp"), first)
        self.assertTrue(second.startswith("line 3 warning: `bar 3` begins 1/1 too early"), second)
        self.assertEqual(self.value("document.querySelectorAll('.warned-sign').length"), 2)
        self.browser.execute_script("[...document.querySelectorAll('#problems li button')][1].click()")
        self.waited(lambda: len(self.value(rows)) == 1, "one finding")
        self.assertEqual(self.value("studio.writing.text"), "formula 1;\nnote eb4 1/1;\nnote c4 1/1; # bar 3\n")
        self.shown([63, 60])

    def test_a_run_that_is_killed_fades_the_picture_and_says_why(self) -> None:
        folder, killed = self.downloads / "killed", self.downloads / "is_killed"
        program = self.downloads / "program"
        folder.mkdir()
        (folder / "tune.score").write_text(TUNE)
        program.write_text(f'#!/bin/sh\nif [ -e {killed} ]; then kill -KILL $$; fi\nexec {PROGRAM} "$@"\n')
        program.chmod(0o755)
        studio = Running(folder, program=str(program))
        self.addCleanup(self.open)
        self.addCleanup(studio.close)
        self.browser.get(studio.address)
        self.waited(lambda: self.value("Boolean(window.studio)") and self.keys() == [60, 64, 67], "the tune")
        killed.touch()
        self.write("formula 1; note d4 1/4;")
        self.waited(lambda: self.value("document.getElementById('seeing').classList.contains('stale')"), "the faded picture")
        self.waited(lambda: "SIGKILL" in self.value("document.body.innerText"), "the signal")
        killed.unlink()
        self.write("formula 1; note e4 1/4;")
        self.waited(lambda: self.keys() == [64], "the new picture")
        self.assertNotIn("SIGKILL", self.value("document.body.innerText"))

    def test_the_words_that_may_stand_there_are_offered(self) -> None:
        self.write("formula 1;\nphrase tune { note c4 1/4; }\ndo t")
        self.press("control+space")
        self.waited(lambda: self.value("document.querySelector('.CodeMirror-hint')?.firstChild.textContent") == "tune")
        self.press("enter", ";")
        self.shown([60])
        self.assertTrue(self.value("studio.writing.text").endswith("do tune;"))

    def test_the_notes_of_a_comment_are_written_below_it(self) -> None:
        self.write("formula 1;\n# notes: c4 e/2")
        self.press("control+space")
        self.waited(lambda: self.value("document.querySelector('.CodeMirror-hint')?.textContent.startsWith('write the notes')"))
        self.press("enter")
        self.shown([60, 64])
        self.assertEqual(self.value("studio.writing.text"), "formula 1;\n# notes: c4 e/2\nnote c4 1/4; note e4 1/2;")

    def test_a_block_is_folded(self) -> None:
        self.put("formula 1;\nphrase tune {\n  note c4 1/4;\n}\ndo tune;\n")
        self.browser.execute_script("studio.writing.go(1, 3)")
        self.press("alt+f")
        self.assertTrue(self.value("studio.writing.editor.isFolded({line: 2, ch: 1})"))

    def test_every_example_is_read_as_the_program_lists_it(self) -> None:
        folders = [TOP / "examples" / name for name in ("tutorial", "scores", "positions")]
        for path in sorted(path for folder in folders for path in folder.glob("*.score")):
            file = render(path.read_bytes(), PROGRAM)
            events = [[event.tick, *event.message] for event in listing(file, PROGRAM).events if event.message[0] < 0xF0]
            found = self.browser.execute_async_script("""
                const [file, done] = arguments;
                import(new URL("page/midi.js", location.href)).then(({ read, written }) => {
                    const told = (piece) => [...piece.ticks].map((tick, at) => [tick, ...piece.messages.subarray(3 * at,
                        3 * at + (piece.messages[3 * at] >> 4 === 0xc ? 2 : 3))]);
                    const piece = read(Uint8Array.from(file));
                    done([told(piece), piece.end, told(read(written(piece, () => true)))]);
                });""", list(file))
            self.assertEqual(found[0], events, path)
            self.assertEqual(found[1], max(event.tick for event in listing(file, PROGRAM).events), path)
            self.assertEqual(found[2], events, path)


class Chosen(PageTest):
    def test_a_note_that_is_pointed_at_is_told(self) -> None:
        self.put(example("tutorial/8_end.score"))
        self.waited(lambda: self.value("studio.places && studio.roll.piece.notes.length === 100"))
        self.browser.execute_script("studio.roll.choose(40)")
        self.waited(lambda: "as written" in self.text("facts"))
        said = self.text("facts")
        for part in ("key", "velocity", "process 1 (branch 1, line 27)", "its note", "tick", "bar", " s", "line",
                     "of phrase"):
            self.assertIn(part, said)

    def test_processes_and_what_they_wait_for_are_told(self) -> None:
        self.put(example("tutorial/8_end.score"))
        self.waited(lambda: self.value("studio.lanes.processes.length") == 4)
        self.browser.execute_script("studio.lanes.choose(3)")
        self.assertEqual(self.value("studio.lanes.words"),
                         "process 3 (behind a `par`), tick 42120 to 42120, waits for 1, 2")
        self.browser.execute_script("studio.lanes.choose(2)")
        self.waited(lambda: "tempo (line 3)" in self.value("studio.tempo.words"))
        self.assertEqual(self.value("studio.tempo.curves[0].points[0]"), [0, 0])

    def test_the_meter_moves_the_bar_lines(self) -> None:
        before = self.value("studio.roll.bars.bars.map(([tick]) => tick)")
        self.browser.execute_script("""const meter = document.getElementById("meter"); meter.value = "1/4";
            meter.dispatchEvent(new Event("change"))""")
        self.waited(lambda: self.value("studio.roll.bars.bars.map(([tick]) => tick)") == [0, 480, 960, 1440, 1920])
        self.assertEqual(before, [0, 1920])


class Saved(PageTest):
    def test_control_s_saves(self) -> None:
        self.write("formula 1;\nnote d4 1/4;")
        self.press("control+s")
        self.waited(lambda: self.text("saved") == "saved")
        self.assertEqual((self.folder / "tune.score").read_text(), "formula 1;\nnote d4 1/4;")

    def test_what_changed_meanwhile_is_shown_beside(self) -> None:
        self.write("formula 1; note d4 1/4;")
        (self.folder / "tune.score").write_text("formula 1; note f4 1/4;")
        self.press("control+s")
        self.waited(lambda: self.value("document.getElementById('conflict').open"))
        self.assertEqual((self.text("theirs").strip(), self.text("ours").strip()),
                         ("formula 1; note f4 1/4;", "formula 1; note d4 1/4;"))
        self.browser.find_element("css selector", "#conflict button[value=theirs]").click()
        self.shown([65])
        self.assertEqual((self.folder / "tune.score").read_text(), "formula 1; note f4 1/4;")

    def test_of_two_tabs_the_second_one_is_asked(self) -> None:
        first = self.browser.current_window_handle
        self.browser.switch_to.new_window("tab")
        self.browser.get(self.studio.address)
        self.waited(lambda: self.value("Boolean(window.studio)"))
        self.shown([60, 64, 67])
        self.write("formula 1; note d4 1/4;")
        self.press("control+s")
        self.waited(lambda: self.text("saved") == "saved")
        self.browser.close()
        self.browser.switch_to.window(first)
        self.write("formula 1; note g4 1/4;")
        self.press("control+s")
        self.waited(lambda: self.value("document.getElementById('conflict').open"))
        self.browser.find_element("css selector", "#conflict button[value=ours]").click()
        self.waited(lambda: self.text("saved") == "saved")
        self.assertEqual((self.folder / "tune.score").read_text(), "formula 1; note g4 1/4;")

    def test_an_example_is_opened_as_a_copy(self) -> None:
        self.click("open")
        names = self.value("[...document.querySelectorAll('#files button')].map((each) => each.textContent)")
        self.assertIn("8_end.score", names)
        self.assertIn("canon.score", names)
        self.browser.execute_script("[...document.querySelectorAll('#files button')].find((each) => "
                                    "each.textContent === 'one_note.score').click()")
        self.shown([60])
        self.assertEqual((self.text("name"), self.text("saved")), ("one_note.score", "not saved yet"))
        self.press("control+s")
        self.waited(lambda: self.text("saved") == "saved")
        self.assertEqual((self.folder / "one_note.score").read_text(), example("scores/one_note.score"))


class Exported(PageTest):
    def exported(self, kind: str, name: str) -> bytes:
        path = self.downloads / name
        path.unlink(missing_ok=True)
        self.browser.execute_script("""const choice = document.getElementById("export"); choice.value = arguments[0];
            choice.dispatchEvent(new Event("change"))""", kind)
        self.waited(path.exists, name)
        return path.read_bytes()

    def test_files_are_the_programs(self) -> None:
        text = TUNE.encode()
        self.assertEqual(self.exported("midi", "tune.mid"), render(text, PROGRAM))
        self.assertEqual(self.exported("parts", "tune_parts.mid"), render(text, PROGRAM, parts=True))
        self.assertIn(b"<svg", self.exported("svg", "tune.svg"))
        self.browser.execute_script("""document.getElementById("meter").value = "1/4";
            document.getElementById("meter").dispatchEvent(new Event("change"))""")
        self.waited(lambda: self.value("studio.roll.bars.last") == 4)
        self.browser.execute_script("studio.roll.told.selected(2, 3)")
        self.assertEqual(self.exported("excerpt", "tune_bars.mid"), render(text, PROGRAM, from_=480, to=1440))

    def test_sound_is_a_file(self) -> None:
        if self.value("studio.sound.missing"):
            self.skipTest(f"NOT TRIED: {self.value('studio.sound.missing')}")
        self.assertEqual(self.exported("wav", "tune.wav")[:4], b"RIFF")


class Alone(PageTest):
    def test_nothing_comes_from_elsewhere(self) -> None:
        found: list[str] = self.value("performance.getEntriesByType('resource').map((each) => each.name)")
        self.assertEqual([address for address in found if not address.startswith(self.studio.address)], [])

    def test_a_page_of_another_origin_reaches_nothing(self) -> None:
        other = pathlib.Path(self.folder, "evil.html")
        other.write_text("<title>evil</title>")
        self.browser.get(f"file://{other}")
        said: Any = self.browser.execute_async_script("""
            const [address, done] = arguments;
            const tried = [fetch(address + "about"), fetch(address + "files/tune.score", { method: "PUT", body: "{}" }),
                new Promise((good, bad) => { const socket = new WebSocket(address.replace("http", "ws") + "socket");
                    socket.onopen = good; socket.onerror = bad; })];
            Promise.allSettled(tried).then((found) => done(found.map((each) => each.status)));""", self.studio.address)
        self.assertEqual(said, ["rejected"] * 3)
        self.assertEqual((self.folder / "tune.score").read_text(), TUNE)
        self.browser.get_log("browser")  # the browser tells of each refusal


if __name__ == "__main__":
    unittest.main()
