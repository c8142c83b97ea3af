"""The language server: messages in, answers and diagnostics out."""

from __future__ import annotations

import json
import logging
import sys
from typing import Any, BinaryIO, Callable, Iterator, Optional, Union

from pylsp_jsonrpc.endpoint import Endpoint
from pylsp_jsonrpc.exceptions import JsonRpcInvalidParams
from pylsp_jsonrpc.streams import JsonRpcStreamWriter

from formula_score import __version__
from formula_score.checks.margin import Problem
from formula_score.reading.playing import Failed
from .answers import Text, Value
from .judging import Judge, Metered, metered

#: Whole texts are sent with each change.
_FULL = 1
_WARNING = 2
#: The longest message that is read, in bytes, and the longest head of one.
MOST_BYTES, MOST_HEAD = 64 * 1_048_576, 4096


def messages(incoming: BinaryIO) -> Iterator[Any]:
    """The messages of an editor, to the end; a `ValueError` for what is none: then nobody knows where the next begins."""
    while line := incoming.readline(MOST_HEAD):
        length = -1
        while line.strip():
            name, _, value = line.partition(b":")
            if name.strip().lower() == b"content-length":
                length = int(value)
            if len(line) == MOST_HEAD:
                raise ValueError("a head is too long")
            line = incoming.readline(MOST_HEAD)
        if not 0 <= length <= MOST_BYTES:
            raise ValueError(f"a message has 0 to {MOST_BYTES:,} bytes, and here are {length:,}")
        data = incoming.read(length)
        if len(data) < length:
            return
        try:
            yield json.loads(data.decode("utf-8", "replace"))
        except (ValueError, RecursionError):
            yield None


class Server:
    """The documents that are open, and what is answered about them."""

    def __init__(self, incoming: BinaryIO, outgoing: BinaryIO, program: Union[str, Failed]):
        self.program = program if isinstance(program, str) else None
        self.why = "" if isinstance(program, str) else f"nothing is judged: {program.why}"
        self.told: set[str] = set()
        self.texts: dict[str, Text] = {}
        self.judges: dict[str, Judge] = {}
        self.problems: dict[str, list[Problem]] = {}    # what was published last of each text
        self.meter: Optional[Metered] = None
        self.is_shut_down = False
        self.incoming, self.write = incoming, JsonRpcStreamWriter(outgoing).write
        self.is_over = False
        handlers: dict[str, Callable[[Value], Any]] = {
            "initialize": self.initialize, "initialized": self.initialized, "shutdown": self.shut_down,
            "exit": self.exit, "textDocument/didOpen": self.did_open, "textDocument/didChange": self.did_change,
            "textDocument/didClose": self.did_close, "textDocument/didSave": lambda _: None,
            "textDocument/hover": lambda asked: self._text(asked).hover(asked["position"]),
            "textDocument/completion": lambda asked: self._text(asked).completion(asked["position"]),
            "textDocument/definition": lambda asked: self._text(asked).definition(asked["position"]),
            "textDocument/references": lambda asked: self._text(asked).references(
                asked["position"], bool(asked.get("context", {}).get("includeDeclaration", True))),
            "textDocument/documentSymbol": lambda asked: self._text(asked).symbols(),
            "textDocument/prepareRename": lambda asked: self._text(asked).may_rename(asked["position"]),
            "textDocument/formatting": lambda asked: self._text(asked).formatting(),
            "textDocument/rename": self.rename, "textDocument/codeAction": self.actions,
        }
        self.endpoint = Endpoint(handlers, self.write)

    def serve(self) -> int:
        """Answers until the editor ends it, and gives the status."""
        logging.getLogger("pylsp_jsonrpc").setLevel(logging.CRITICAL + 1)  # the editor is answered, and that is all
        try:
            for message in messages(self.incoming):
                if not isinstance(message, dict):
                    self.write({"jsonrpc": "2.0", "id": None, "error": {"code": -32700, "message": "this is no message"}})
                else:
                    self.endpoint.consume(message)
                if self.is_over:
                    break
        except ValueError as error:
            print(f"formula-score lsp: {error}", file=sys.stderr)
        finally:
            for judge in self.judges.values():
                judge.stop()
        return 0 if self.is_shut_down else 1

    # ---- the beginning and the end

    def initialize(self, asked: Value) -> Value:
        """What the server can do. The options may name the meter of all texts, and an upbeat."""
        options = asked.get("initializationOptions")
        if isinstance(options, dict) and "meter" in options:
            self.meter = metered(str(options["meter"]), str(options.get("upbeat", "")))
        return {"serverInfo": {"name": "formula-score", "version": __version__}, "capabilities": {
            "positionEncoding": "utf-16", "textDocumentSync": {"openClose": True, "change": _FULL},
            "hoverProvider": True, "completionProvider": {"triggerCharacters": [" "]}, "definitionProvider": True,
            "referencesProvider": True, "documentSymbolProvider": True,
            "codeActionProvider": {"codeActionKinds": ["quickfix", "refactor.rewrite"]},
            "documentFormattingProvider": True,
            "renameProvider": {"prepareProvider": True}}}

    def initialized(self, _: Value) -> None:
        """Says where there is no program."""
        if self.why:
            self._warn(self.why)

    def _warn(self, why: str) -> None:
        """Says something once."""
        if why not in self.told:
            self.told.add(why)
            self.endpoint.notify("window/showMessage", {"type": _WARNING, "message": why})

    def shut_down(self, _: Optional[Value]) -> None:
        """The editor will end it."""
        self.is_shut_down = True

    def exit(self, _: Optional[Value]) -> None:
        """Ends."""
        self.endpoint.shutdown()
        self.is_over = True

    # ---- documents

    def did_open(self, notice: Value) -> None:
        """A document is open."""
        document = notice["textDocument"]
        self._take(Text(document["uri"], document.get("version"), document["text"]))

    def did_change(self, notice: Value) -> None:
        """A document has another text."""
        document, text = notice["textDocument"], self._text(notice)
        for change in notice["contentChanges"]:
            words = change["text"]
            if change.get("range"):
                data, (begin, end) = text.data, (text.byte(change["range"][name]) for name in ("start", "end"))
                words = (data[:begin] + words.encode("utf-8", "replace") + data[end:]).decode("utf-8", "replace")
            text = Text(document["uri"], document.get("version"), words)
        self._take(text)

    def did_close(self, notice: Value) -> None:
        """A document is closed; nothing is said of it any more."""
        uri = notice["textDocument"]["uri"]
        self.texts.pop(uri, None)
        judge = self.judges.pop(uri, None)
        if judge:
            judge.stop()
        self.endpoint.notify("textDocument/publishDiagnostics", {"uri": uri, "diagnostics": []})

    def _take(self, text: Text) -> None:
        self.texts[text.uri] = text
        self.problems.pop(text.uri, None)
        if self.program is not None:
            judge = self.judges.setdefault(text.uri, Judge(self.program, self._warn, self.meter))
            judge.judge(text.data, lambda problems: self._publish(text, problems))

    def _publish(self, text: Text, problems: list[Problem]) -> None:
        self.problems[text.uri] = problems
        self.endpoint.notify("textDocument/publishDiagnostics", text.diagnostics(problems))

    def _text(self, asked: Value) -> Text:
        text = self.texts.get(asked["textDocument"]["uri"])
        if text is None:
            raise JsonRpcInvalidParams(message="this document is not open")
        return text

    def actions(self, asked: Value) -> list[Value]:
        """The changes of what is found at a place, or that write the notes of a comment."""
        text = self._text(asked)
        return text.actions(asked["range"]["start"]["line"], self.problems.get(text.uri, []))

    def rename(self, asked: Value) -> Value:
        """The changes for a new name, or why it may not be one."""
        try:
            return self._text(asked).rename(asked["position"], asked["newName"])
        except ValueError as error:
            raise JsonRpcInvalidParams(message=str(error)) from error
