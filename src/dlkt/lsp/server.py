"""The server: messages in, answers and diagnostics out, by the library `pylsp_jsonrpc` (Debian's python3-pylsp-jsonrpc).

Requests are answered in threads of their own, so that none keeps typing waiting. A text is judged a quarter of a second behind its last change,
by one thread (`Judge`); what was found of an older version is dropped. Nothing is written to a file, and standard output has messages alone.
"""

import logging
import os
import sys
import threading
import time
from typing import Any, BinaryIO, Callable

from pylsp_jsonrpc.dispatchers import MethodDispatcher
from pylsp_jsonrpc.endpoint import Endpoint
from pylsp_jsonrpc.streams import JsonRpcStreamReader, JsonRpcStreamWriter

from dlkt import __version__
from dlkt.lsp.answers import Answers
from dlkt.lsp.documents import MOST_LETTERS, Document, Documents, Kind
from dlkt.lsp.judging import Found, Judgement
from dlkt.lsp.texts import Json

PAUSE = 0.25  # seconds without a key before a text is judged
MOST_BODY = 16_000_000  # bytes of a message
SEVERITY = {"error": 1, "warning": 2, "information": 3, "hint": 4}
CAPABILITIES: Json = {
    "positionEncoding": "utf-16",
    "textDocumentSync": {"openClose": True, "change": 2, "save": True},
    "hoverProvider": True,
    "completionProvider": {"triggerCharacters": ["(", ",", '"', "'"]},
    "codeActionProvider": {"codeActionKinds": ["quickfix", "refactor"]},
    "documentFormattingProvider": True,
    "codeLensProvider": {"resolveProvider": False},
}


class Messages(JsonRpcStreamReader):  # type: ignore[misc]
    """The messages of a stream. One that is no message is passed over: a wrong length, a half message, no JSON, no object."""

    def _read_message(self) -> bytes | None:
        """The body of the next message that has one; none at the end of the stream."""
        while True:
            length = self._next_length()
            if length is None:
                return None
            if 0 < length <= MOST_BODY:
                body: bytes = self._rfile.read(length)
                return body if len(body) == length else None

    def _next_length(self) -> int | None:
        """The length that the headers of the next message tell, 0 where they tell none; none at the end of the stream."""
        length, is_first = 0, True
        while True:
            line: bytes = self._rfile.readline(4096)
            if not line:
                return None
            if not line.strip():
                if is_first:
                    continue
                return length
            is_first = False
            name, _, value = line.partition(b":")
            if name.strip().lower() == b"content-length" and value.strip().isdigit():
                length = int(value)


class Judge:
    """Judges texts one after another, each some time behind its last change, and hands on what is found while it is the newest version."""

    def __init__(self, documents: Documents, told: Callable[[Document, int, Found], None], judgement: Judgement) -> None:
        self.documents, self.told, self.judgement = documents, told, judgement
        self.due: dict[str, float] = {}
        self.changed = threading.Condition()
        self.is_over = False
        self.thread = threading.Thread(target=self._work, daemon=True)
        self.thread.start()

    def wants(self, uri: str, pause: float = PAUSE) -> None:
        """Has a text judged when no change came for so long."""
        with self.changed:
            self.due[uri] = time.monotonic() + pause
            self.changed.notify()

    def end(self) -> None:
        """Ends the thread when it comes to it; nothing more is handed on."""
        with self.changed:
            self.is_over = True
            self.changed.notify()

    def _next(self) -> str | None:
        """The text that is due; none at the end."""
        with self.changed:
            while not self.is_over:
                uri = min(self.due, key=lambda it: self.due[it], default=None)
                left = self.due[uri] - time.monotonic() if uri is not None else None
                if uri is not None and left is not None and left <= 0:
                    del self.due[uri]
                    return uri
                self.changed.wait(left)
            return None

    def _work(self) -> None:
        """Judges until the end."""
        while (uri := self._next()) is not None:
            document = self.documents.get(uri)
            if document is None or len(document.text) > MOST_LETTERS:
                continue
            version, before = document.version, None
            try:
                for found in self.judgement.of(document, self.documents):
                    if self._is_old(uri, version):
                        break
                    if found is not before:
                        self.told(document, version, found)
                    before = found
            except Exception:  # a fault of the server is told in its log, and the editor goes on
                logging.exception("judging %s", uri)

    def _is_old(self, uri: str, version: int) -> bool:
        """Whether a text has changed or is closed since."""
        now = self.documents.get(uri)
        return self.is_over or now is None or now.version != version


class Server(MethodDispatcher):  # type: ignore[misc]
    """The methods of the protocol, by their names."""

    def __init__(self, given: BinaryIO, taken: BinaryIO, program: str | None = None, seconds: float = 10.0) -> None:
        self.documents, self.judgement = Documents(), Judgement(program, seconds)
        self.answers = Answers(self.documents, self.judgement)
        self.lenses: dict[str, str] = {}
        self.reader, self.writer = Messages(given), JsonRpcStreamWriter(taken)
        self.endpoint = Endpoint(self, self.writer.write, max_workers=3)
        self.judge = Judge(self.documents, self._tell, self.judgement)
        self.is_down = False
        self.status = 1

    def serve(self) -> int:
        """Answers until the editor ends it or the stream ends, and gives the exit status: 0 where the editor said that it ends."""
        try:
            self.reader.listen(self._consume)
        finally:
            self.judge.end()
            self.judgement.close()
            self.endpoint.shutdown()
        return self.status

    def _consume(self, message: Any) -> None:
        """Hands a message on. What is no message of the protocol is passed over."""
        if isinstance(message, dict) and isinstance(message.get("method", ""), str):
            self.endpoint.consume(message)

    def _tell(self, document: Document, version: int, found: Found) -> None:
        """Publishes what was found of a text."""
        marks = [
            {"range": it.place, "severity": SEVERITY[it.severity], "source": "dlk", "message": it.text}
            for it in found.marks if it.uri == document.uri
        ]
        self.lenses[document.uri] = found.line
        self.endpoint.notify("textDocument/publishDiagnostics", {"uri": document.uri, "version": version, "diagnostics": marks})

    # The life of the server

    def m_initialize(self, **_: Any) -> Json:
        """Says what the server can do."""
        return {"capabilities": CAPABILITIES, "serverInfo": {"name": "dlkt", "version": __version__}}

    def m_initialized(self, **_: Any) -> None:
        """The editor is ready."""

    def m_shutdown(self, **_: Any) -> None:
        """The editor is about to end the server."""
        self.is_down = True
        self.judge.end()

    def m_exit(self, **_: Any) -> None:
        """Ends the server."""
        self.status = 0 if self.is_down else 1
        self.reader.close()

    # Texts

    def m_text_document__did_open(self, textDocument: Json, **_: Any) -> None:
        """Takes a text."""
        document = self.documents.opened(textDocument)
        if document is not None:
            self._look_again(document, 0.0)

    def m_text_document__did_change(self, textDocument: Json, contentChanges: list[Json], **_: Any) -> None:
        """Takes changes of a text."""
        document = self.documents.changed(textDocument, contentChanges)
        if document is not None:
            self._look_again(document, PAUSE)

    def m_text_document__did_save(self, textDocument: Json, **_: Any) -> None:
        """Looks again at a text and at those that are for it."""
        document = self.documents.get(str(textDocument["uri"]))
        if document is not None:
            self._look_again(document, 0.0)

    def m_text_document__did_close(self, textDocument: Json, **_: Any) -> None:
        """Forgets a text, and takes its marks away."""
        uri = str(textDocument["uri"])
        self.documents.closed(uri)
        self.lenses.pop(uri, None)
        self.endpoint.notify("textDocument/publishDiagnostics", {"uri": uri, "diagnostics": []})

    def _look_again(self, document: Document, pause: float) -> None:
        """Has a text judged, and where it is a model, the strategies for it."""
        self.judge.wants(document.uri, pause)
        if document.kind == Kind.MODEL:
            for other in self.documents.of_model(document.path):
                self.judge.wants(other.uri, pause)

    # Questions

    def m_text_document__hover(self, textDocument: Json, position: Json, **_: Any) -> Callable[[], Json | None]:
        """What there is to say of the word at a place."""
        return lambda: self.answers.hover(str(textDocument["uri"]), position)

    def m_text_document__completion(self, textDocument: Json, position: Json, **_: Any) -> Callable[[], list[Json]]:
        """What may stand at a place."""
        return lambda: self.answers.completion(str(textDocument["uri"]), position)

    def m_text_document__code_action(self, textDocument: Json, range: Json, **_: Any) -> Callable[[], list[Json]]:
        """What can be done at a place."""
        return lambda: self.answers.actions(str(textDocument["uri"]), range)

    def m_text_document__formatting(self, textDocument: Json, **_: Any) -> Callable[[], list[Json]]:
        """The text laid out."""
        return lambda: self.answers.formatting(str(textDocument["uri"]))

    def m_text_document__code_lens(self, textDocument: Json, **_: Any) -> list[Json]:
        """The verdict, at the first line."""
        line = self.lenses.get(str(textDocument["uri"]))
        start = {"line": 0, "character": 0}
        return [{"range": {"start": start, "end": start}, "command": {"title": line, "command": ""}}] if line else []


def serve(program: str | None, seconds: float) -> int:
    """Speaks on standard input and output until the editor ends it."""
    logging.basicConfig(stream=sys.stderr, level=logging.ERROR)
    taken = os.fdopen(os.dup(sys.stdout.fileno()), "wb")
    os.dup2(sys.stderr.fileno(), sys.stdout.fileno())  # whatever prints, prints beside the messages
    return Server(sys.stdin.buffer, taken, program, seconds).serve()
