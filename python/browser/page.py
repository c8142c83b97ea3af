"""A browser with the studio's page, for the tests: what is typed, pressed and seen."""

from __future__ import annotations

import base64
import os
import pathlib
import tempfile
import time
import unittest
from typing import Any, Callable, Optional

from selenium import webdriver
from selenium.webdriver.chrome.options import Options
from selenium.webdriver.chrome.service import Service
from selenium.webdriver.common.action_chains import ActionChains
from selenium.webdriver.common.keys import Keys

from tests.program import TOP
from tests.studio import Running

#: How long something may take that a test waits for, in seconds.
LONGEST = 90
WIDE, NARROW = (1400, 900), (420, 860)
TUNE = "formula 1;\nnote c4 1/4; note e4 1/4;\nnote g4 1/2;\n"


def started(downloads: str) -> webdriver.Chrome:
    """A browser without a window, that saves what it is handed into a folder."""
    options = Options()
    for word in ("--headless=new", "--disable-gpu", "--autoplay-policy=no-user-gesture-required",
                 "--window-size={},{}".format(*WIDE), "--no-first-run", "--disable-extensions", "--disable-sync",
                 "--disable-background-networking", "--disable-component-update", "--in-process-gpu",
                 "--renderer-process-limit=1", "--disable-features=Translate,OptimizationHints,MediaRouter", "--force-device-scale-factor=1",
                 *(["--no-sandbox"] if os.geteuid() == 0 else [])):
        options.add_argument(word)
    options.set_capability("goog:loggingPrefs", {"browser": "ALL"})
    browser = webdriver.Chrome(service=Service("/usr/bin/chromedriver"), options=options)
    browser.execute_cdp_cmd("Browser.setDownloadBehavior", {"behavior": "allow", "downloadPath": downloads})
    return browser


class PageTest(unittest.TestCase):
    """Tests on one studio and one browser; each begins with the page anew, and with the tune."""

    browser: webdriver.Chrome
    studio: Running
    folder: pathlib.Path
    downloads: pathlib.Path
    _there: "Optional[tuple[webdriver.Chrome, Running, pathlib.Path, pathlib.Path]]" = None

    @classmethod
    def setUpClass(cls) -> None:
        if PageTest._there is None:
            home = tempfile.TemporaryDirectory()
            folder, downloads = pathlib.Path(home.name, "scores"), pathlib.Path(home.name, "downloads")
            folder.mkdir()
            downloads.mkdir()
            (folder / "tune.score").write_text(TUNE)
            studio, browser = Running(folder), started(str(downloads))
            PageTest._there = browser, studio, folder, downloads
            unittest.addModuleCleanup(setattr, PageTest, "_there", None)
            unittest.addModuleCleanup(home.cleanup)
            unittest.addModuleCleanup(studio.close)
            unittest.addModuleCleanup(browser.quit)
        cls.browser, cls.studio, cls.folder, cls.downloads = PageTest._there

    def setUp(self) -> None:
        for path in self.folder.iterdir():
            path.unlink()
        (self.folder / "tune.score").write_text(TUNE)
        if self.value("Boolean(window.studio)") and self.browser.current_url == self.studio.address:
            self.again()
        else:
            self.look()
            self.open()

    def tearDown(self) -> None:
        wrong = [entry["message"] for entry in self.browser.get_log("browser")
                 if entry["level"] == "SEVERE" and "status of 4" not in entry["message"]]
        self.assertEqual(wrong, [])

    # ---- what is seen

    def value(self, words: str, *given: Any) -> Any:
        """What an expression of the page is."""
        return self.browser.execute_script(f"return {words}", *given)

    def waited(self, what: Callable[[], Any], said: str = "") -> Any:
        """What comes within some time."""
        until = time.monotonic() + LONGEST
        while time.monotonic() < until:
            found = what()
            if found:
                return found
            time.sleep(0.02)
        return self.fail(f"{said or 'what was waited for'} did not come")

    def keys(self) -> list[int]:
        """The keys of the notes in the picture, in their order."""
        found: list[int] = self.value("studio.roll.piece ? [...studio.roll.piece.notes].map("
                                      "(event) => studio.roll.piece.messages[3 * event + 1]) : []")
        return found

    def shown(self, keys: list[int]) -> None:
        """Waits until these keys, and what the companion knows of them, are in the picture."""
        self.waited(lambda: self.keys() == keys and self.value("Boolean(studio.places && studio.roll.bars)"), f"{keys}")

    def text(self, name: str) -> str:
        """The words of an element."""
        return str(self.value("document.getElementById(arguments[0]).textContent", name))

    # ---- what is done

    def look(self, size: tuple[int, int] = WIDE, dark: bool = False) -> None:
        """Gives the page a size, and a ground."""
        width, height = size
        self.browser.execute_cdp_cmd("Emulation.setDeviceMetricsOverride", {
            "width": width, "height": height, "deviceScaleFactor": 1, "mobile": False})
        self.browser.execute_cdp_cmd("Emulation.setEmulatedMedia", {
            "features": [{"name": "prefers-color-scheme", "value": "dark" if dark else "light"}]})

    def open(self) -> None:
        """The page anew."""
        self.browser.execute_script("window.onbeforeunload = null")
        self.browser.get("about:blank")
        self.browser.get(self.studio.address)
        self.waited(lambda: self.value("Boolean(window.studio)"), "the page")
        self.shown([60, 64, 67])

    def again(self) -> None:
        """The tune anew, on the page that is open."""
        self.browser.execute_async_script("""
            const done = arguments[0];
            document.querySelectorAll("dialog[open]").forEach((each) => each.close());
            for (const name of ["from-bar", "to-bar", "upbeat"]) document.getElementById(name).value = "";
            document.getElementById("meter").value = "4/4";
            document.getElementById("loop").checked = false;
            document.getElementById("loop").dispatchEvent(new Event("change"));
            studio.files.about.files = ["tune.score"];
            studio.roll.bars = null;
            if (studio.sound.isPlaying) studio.sound.pause();
            studio.files.open("tune.score").then(done);""")
        self.shown([60, 64, 67])

    def press(self, *keys: str) -> None:
        """Keys, one after another, to what has the focus; those of one word at once, as Control and s."""
        for key in keys:
            chain = ActionChains(self.browser)
            *held, last = key.split("+") if len(key) > 1 and "+" in key else [key]
            for name in held:
                chain.key_down(getattr(Keys, name.upper()))
            chain.send_keys(getattr(Keys, last.upper(), last))
            for name in held:
                chain.key_up(getattr(Keys, name.upper()))
            chain.perform()

    def write(self, text: str) -> None:
        """Types a text in place of all that is there."""
        self.browser.execute_script("studio.writing.editor.focus()")
        self.press("control+a", "delete")
        # the editor would close brackets by itself
        self.browser.execute_script("studio.writing.editor.setOption('autoCloseBrackets', false)")
        ActionChains(self.browser).send_keys(text).perform()

    def put(self, text: str) -> None:
        """Has a text at one go, as pasting does."""
        self.browser.execute_script("studio.writing.editor.setValue(arguments[0])", text)

    def click(self, name: str) -> None:
        """Clicks an element."""
        self.browser.find_element("id", name).click()

    def picture(self, name: str) -> pathlib.Path:
        """A picture of the page: where PICTURES names a folder it stays there."""
        folder = pathlib.Path(os.environ.get("PICTURES") or self.downloads)
        path = folder / name
        taken = self.browser.execute_cdp_cmd("Page.captureScreenshot", {"format": "png"})
        path.write_bytes(base64.b64decode(taken["data"]))
        return path


def example(name: str) -> str:
    """The text of an example."""
    return (TOP / "examples" / name).read_text(encoding="utf-8")
