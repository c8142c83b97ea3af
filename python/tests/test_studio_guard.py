"""Who is kept out of the studio: other pages, other hosts, those without the token, and names that lead out."""

from __future__ import annotations

import json
import os
import socket
import stat
import time
import unittest
from typing import Any
from unittest import mock

from .studio import Running, StudioTest


class Guarded(StudioTest):
    def refused(self, why: str, status: int = 403, method: str = "GET", path: str = "/about", **others: Any) -> None:
        answer = self.studio.ask(method, path, **others)
        self.assertEqual(answer.status, status, answer.body)
        self.assertIn(why, answer.body.decode())

    def test_the_page_itself_is_served(self) -> None:
        self.assertEqual(self.studio.get("/").status, 200)
        self.assertEqual(self.studio.get("/about").json["files"], ["inner/other.score", "tune.score"])
        self.assertEqual(self.studio.ask("GET", "/about", Sec_Fetch_Site="same-origin").status, 200)
        self.assertEqual(self.studio.ask("GET", "/", Origin=None, Sec_Fetch_Site="none").status, 200)

    def test_without_the_token_nothing_is_told(self) -> None:
        for token in ("", "x", self.studio.token[:-1], self.studio.token + "x", self.studio.token.swapcase()):
            for path in ("/", "/about", "/files/tune.score", "/socket", "/page/main.js", "/nothing"):
                self.refused("the token is missing", path=path, token=token)

    def test_the_token_is_new_each_time_and_long(self) -> None:
        other = Running(self.folder)
        other.close()
        self.assertNotEqual(other.token, self.studio.token)
        self.assertGreaterEqual(len(self.studio.token), 40)

    def test_another_host_name_is_refused(self) -> None:
        port = self.studio.port
        for host in (f"evil.example:{port}", "127.0.0.1", f"127.0.0.1:{port + 1}", f"127.0.0.1.evil.example:{port}",
                     f"[::1]:{port}", f"0.0.0.0:{port}", "", None):
            answer = self.studio.ask("GET", "/about", Host=host, Origin=None)
            self.assertIn(answer.status, (400, 403), host)
            self.assertNotIn(b"tune", answer.body)
        self.refused("another page asks", Host=f"localhost:{port}")
        self.assertEqual(self.studio.ask("GET", "/about", Host=f"localhost:{port}", Origin=None).status, 200)

    def test_another_origin_is_refused(self) -> None:
        port = self.studio.port
        for origin in ("http://evil.example", f"http://127.0.0.1:{port + 1}", f"https://127.0.0.1:{port}", "null",
                       f"http://localhost:{port}", f"http://127.0.0.1:{port}.evil.example", ""):
            self.refused("another page asks", Origin=origin)
            self.refused("another page asks", method="PUT", path="/files/tune.score", body=b"{}", Origin=origin)
        for site in ("cross-site", "same-site"):
            self.refused("another site asks", Origin=None, Sec_Fetch_Site=site)

    def test_the_page_alone_is_gone_to_from_elsewhere(self) -> None:
        gone: dict[str, Any] = {"Origin": None, "Sec_Fetch_Site": "cross-site", "Sec_Fetch_Mode": "navigate"}
        self.assertEqual(self.studio.ask("GET", "/", **gone).status, 200)
        self.refused("another site asks", path="/about", **gone)
        self.refused("the token is missing", path="/", token="x", Origin=None, Sec_Fetch_Site="none")
        gone["Sec_Fetch_Mode"] = "no-cors"
        self.refused("another site asks", path="/", **gone)

    def test_what_changes_something_has_to_tell_its_page(self) -> None:
        for method, path in (("PUT", "/files/tune.score"), ("POST", "/export/midi"), ("POST", "/sound"),
                             ("DELETE", "/files/tune.score")):
            self.refused("the page that asks is not told", method=method, path=path, body=b"{}", Origin=None)
        self.assertEqual((self.folder / "tune.score").read_text(), self.TUNE)

    def test_a_socket_is_opened_for_the_own_page_alone(self) -> None:
        upgrade: dict[str, Any] = {"Upgrade": "websocket", "Connection": "Upgrade", "Sec_WebSocket_Version": "13",
                                   "Sec_WebSocket_Key": "AAAAAAAAAAAAAAAAAAAAAA=="}
        self.assertEqual(self.studio.ask("GET", "/socket", **upgrade).status, 101)
        self.refused("another page asks", path="/socket", Origin="http://evil.example", **upgrade)
        self.refused("is not told", path="/socket", Origin=None, **upgrade)
        self.refused("the token is missing", path="/socket", token="x", **upgrade)

    def test_only_this_computer_reaches_it(self) -> None:
        names = {host[4][0] for host in socket.getaddrinfo(socket.gethostname(), None, socket.AF_INET)}
        for name in names - {"127.0.0.1"}:
            with socket.socket() as caller:
                caller.settimeout(2)
                self.assertNotEqual(caller.connect_ex((str(name), self.studio.port)), 0, name)

    def test_the_page_takes_nothing_from_elsewhere(self) -> None:
        headers = self.studio.get("/").headers
        policy = dict(rule.strip().split(" ", 1) for rule in headers["Content-Security-Policy"].split(";"))
        self.assertEqual(policy["default-src"], "'none'")
        for name, sources in policy.items():
            for source in sources.split():
                self.assertIn(source, ("'none'", "'self'", "data:", "blob:", f"ws://127.0.0.1:{self.studio.port}",
                                       f"ws://localhost:{self.studio.port}"), name)
        self.assertEqual((headers["Referrer-Policy"], headers["X-Frame-Options"]), ("no-referrer", "DENY"))

    def test_no_request_breaks_it(self) -> None:
        for body in (b"", b"[]", b"null", b"{", b'{"text": 1}', b"\xff", b'{"text": "\\ud800", "version": null}'):
            self.assertIn(self.studio.ask("PUT", "/files/tune.score", body).status, (400, 409), body)
            self.assertEqual(self.studio.ask("POST", "/export/midi", body).status, 400, body)
        self.assertEqual(self.studio.get("/about").status, 200)


class Paths(StudioTest):
    def setUp(self) -> None:
        super().setUp()
        (self.home / "secret.score").write_text("secret")
        (self.folder / ".hidden.score").write_text("secret")
        (self.folder / "secret.txt").write_text("secret")

    def test_names_that_lead_out_are_refused(self) -> None:
        for name in ("../secret.score", "%2e%2e/secret.score", "..%2fsecret.score", "inner/../../secret.score",
                     "inner%2f..%2f..%2fsecret.score", f"{self.home}/secret.score", f"%2f{self.home}/secret.score",
                     ".hidden.score", "secret.txt", "tune.score/../../secret.score", "inner//other.score", "./tune.score",
                     "..%5csecret.score", "tune.score%00.txt"):
            for answer in (self.studio.get(f"/files/{name}"), self.studio.put(name, "x", None)):
                self.assertIn(answer.status, (400, 403, 404), name)
                self.assertNotIn(b'"secret"', answer.body)
        self.assertEqual((self.home / "secret.score").read_text(), "secret")
        self.assertEqual((self.folder / "secret.txt").read_text(), "secret")

    def test_links_are_not_followed(self) -> None:
        outside = self.home / "outside"
        outside.mkdir(exist_ok=True)
        (outside / "far.score").write_text("secret")
        links = {"link.score": self.home / "secret.score", "folder": outside, "dangling.score": self.home / "new.score",
                 "near.score": self.folder / "tune.score"}
        for name, target in links.items():
            os.symlink(target, self.folder / name)
        for name in ("link.score", "folder/far.score", "dangling.score", "near.score", "folder/new.score"):
            self.assertIn(self.studio.get(f"/files/{name}").status, (403, 404), name)
            self.assertIn(self.studio.put(name, "x", None).status, (403, 404, 409), name)
        self.assertEqual(self.studio.get("/about").json["files"], ["inner/other.score", "tune.score"])
        self.assertEqual([(self.home / "secret.score").read_text(), (outside / "far.score").read_text()], ["secret"] * 2)
        self.assertFalse((self.home / "new.score").exists() or (outside / "new.score").exists())

    def test_a_pipe_or_a_folder_is_no_score(self) -> None:
        os.mkfifo(self.folder / "pipe.score")
        (self.folder / "box.score").mkdir()
        for name in ("pipe.score", "box.score"):
            self.assertIn(self.studio.get(f"/files/{name}").status, (403, 404))
            self.assertEqual(self.studio.put(name, "x", "0" * 64).status, 403)

    def test_parts_of_the_editor_and_the_page_are_named_in_a_list(self) -> None:
        for path in ("/editor/../../../etc/passwd", "/editor/%2e%2e/%2e%2e/package.json", "/editor.py", "/editor.js/x",
                     "/page/..%2fserver.py", "/page/server.py", "/page/..", "/examples/scores/..%2f..%2fREADME.md",
                     "/examples/..%2f../passwd"):
            self.assertIn(self.studio.get(path).status, (403, 404), path)


class Saves(StudioTest):
    def opened(self, name: str = "tune.score") -> str:
        """The version that a tab has read."""
        return str(self.studio.get(f"/files/{name}").json["version"])

    def test_a_score_is_saved_and_keeps_its_mode(self) -> None:
        path = self.folder / "tune.score"
        path.chmod(0o640)
        first = self.opened()
        second = self.studio.put("tune.score", "formula 1;\r\n# ä\n", first).json["version"]
        self.assertEqual(path.read_bytes(), "formula 1;\r\n# ä\n".encode())
        self.assertEqual(stat.S_IMODE(path.stat().st_mode), 0o640)
        self.assertEqual(self.opened(), second)
        self.assertEqual(sorted(os.listdir(self.folder)), ["inner", "tune.score"])

    def test_of_two_tabs_that_save_the_second_sees_what_the_first_wrote(self) -> None:
        first, second = self.opened(), self.opened()
        self.assertEqual(self.studio.put("tune.score", "one", first).status, 200)
        refused = self.studio.put("tune.score", "two", second)
        self.assertEqual((refused.status, refused.json["text"]), (409, "one"))
        self.assertEqual((self.folder / "tune.score").read_text(), "one")
        self.assertEqual(self.studio.put("tune.score", "two", refused.json["version"]).status, 200)

    def test_what_another_program_wrote_is_not_overwritten(self) -> None:
        version = self.opened()
        (self.folder / "tune.score").write_text("by another editor")
        self.assertEqual(self.studio.put("tune.score", "x", version).json["text"], "by another editor")
        (self.folder / "tune.score").unlink()
        gone = self.studio.put("tune.score", "x", version)
        self.assertEqual((gone.status, gone.json["text"]), (409, None))

    def test_a_new_score_takes_no_others_place(self) -> None:
        self.assertEqual(self.studio.put("new.score", "one", None).status, 200)
        self.assertEqual(self.studio.put("new.score", "two", None).json["text"], "one")
        self.assertEqual((self.folder / "new.score").read_text(), "one")

    def test_a_text_that_is_no_utf_8_is_told(self) -> None:
        (self.folder / "tune.score").write_bytes(b"formula 1; # \xff\n")
        self.assertFalse(self.studio.get("/files/tune.score").json["whole"])


class ReadOnly(StudioTest):
    words = ("--read-only",)

    def test_nothing_is_saved(self) -> None:
        version = self.studio.get("/files/tune.score").json["version"]
        for name, known in (("tune.score", version), ("new.score", None)):
            answer = self.studio.put(name, "x", known)
            self.assertEqual((answer.status, answer.body), (403, b"the studio was started with --read-only"))
        self.assertEqual(sorted(os.listdir(self.folder)), ["inner", "tune.score"])
        self.assertEqual((self.folder / "tune.score").read_text(), self.TUNE)


class OneScore(StudioTest):
    def test_of_a_folder_one_score_alone_is_read_and_written(self) -> None:
        alone = Running(self.folder / "tune.score")
        self.addCleanup(alone.close)
        about = alone.get("/about").json
        self.assertEqual((about["files"], about["opened"]), (["tune.score"], "tune.score"))
        for name in ("other.score", "inner/other.score"):
            self.assertIn(b"alone", alone.get(f"/files/{name}").body)
            self.assertEqual(alone.put(name, "x", None).status, 403)
        self.assertEqual(alone.put("tune.score", "x", alone.get("/files/tune.score").json["version"]).status, 200)


class Opened(StudioTest):
    def test_the_address_is_no_word_of_the_browsers_command(self) -> None:
        opener, said = self.home / "bin" / "xdg-open", self.home / "said"
        opener.parent.mkdir()
        opener.write_text(f'#!/bin/sh\n{{ echo "$*"; stat -c %a "$1"; cat "$1"; }} >"{said}.new"; mv "{said}.new" "{said}"\n')
        opener.chmod(0o755)
        with mock.patch.dict(os.environ, {"PATH": f"{opener.parent}:{os.environ['PATH']}"}):
            other = Running(self.folder, opens=True)
        self.addCleanup(other.close)
        until = time.monotonic() + 20
        while not said.exists() and time.monotonic() < until:
            time.sleep(0.05)
        words, mode, page = said.read_text().split("\n", 2)
        self.assertNotIn(other.token, words)
        self.assertEqual(mode, "600")
        self.assertIn(f"url={other.address}", page)


class Exports(StudioTest):
    def test_a_text_is_exported_as_the_program_plays_it(self) -> None:
        asked = {"text": self.TUNE, "meter": "4/4", "upbeat": "", "from": 0, "to": 100}
        answers = {kind: self.studio.ask("POST", f"/export/{kind}", json.dumps(asked).encode())
                for kind in ("midi", "parts", "excerpt", "svg")}
        self.assertEqual([answer.status for answer in answers.values()], [200] * 4)
        self.assertTrue(answers["midi"].body.endswith(bytes.fromhex("00903C40 8330803C40 30FF2F00")))
        self.assertEqual(answers["parts"].body[8:12], bytes([0, 1, 0, 2]))
        self.assertTrue(answers["excerpt"].body.endswith(bytes.fromhex("00903C40 64803C40 00FF2F00")))
        self.assertIn(b"<title>c4 channel 0 tick 0 to 432</title>", answers["svg"].body)
        refused = self.studio.ask("POST", "/export/midi", json.dumps({**asked, "text": "formula 1"}).encode())
        self.assertEqual(refused.status, 422)


if __name__ == "__main__":
    unittest.main()
