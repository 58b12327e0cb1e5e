"""The texts that an editor has open, and the files beside them: which kind each is, and which model a strategy is for.

A strategy's model is the one that a comment in it names (`/* model: PATH */`), else the file of its own name that ends in `.dlkmodel`, else the
file `model` beside it. Where the editor has that file open, its text counts, and else the file on the disk. Nothing is written.
"""

import re
import threading
from dataclasses import dataclass
from enum import StrEnum
from pathlib import Path
from urllib.parse import unquote, urlparse

from dlkt.lsp.texts import Json, changed

MOST_LETTERS = 2_000_000  # a longer text isn't looked at
NAMED_MODEL = re.compile(r"/\*\s*model:\s*(\S+?)\s*\*/")


class Kind(StrEnum):
    """What a text is."""

    MODEL = "model"
    STRATEGY = "strategy"
    SCRIPT = "script"
    ARCHIVE = "archive"


SUFFIXES = {".dlkmodel": Kind.MODEL, ".dlkstrategy": Kind.STRATEGY, ".dlkscript": Kind.SCRIPT, ".kyx": Kind.ARCHIVE}
NAMES = {"model": Kind.MODEL, "strategy": Kind.STRATEGY, "sketch": Kind.STRATEGY, "script": Kind.SCRIPT, "archive": Kind.ARCHIVE}


@dataclass
class Document:
    """An open text: where it is, what it is, its version, and itself."""

    uri: str
    path: Path
    kind: Kind
    version: int
    text: str


def path_of(uri: str) -> Path:
    """The file of an address; of one that names no file a place that isn't there."""
    parts = urlparse(uri)
    return Path(unquote(parts.path)) if parts.scheme in ("file", "") else Path("/nowhere") / Path(unquote(parts.path)).name


def uri_of(path: Path) -> str:
    """The address of a file."""
    return path.absolute().as_uri()


def kind_of(path: Path, language: str = "") -> Kind | None:
    """What a file is, by its ending, its name, or the editor's word for its language; none where it is nothing of dlk."""
    by_language = language.removeprefix("dlk-").removeprefix("dlk")
    found = SUFFIXES.get(path.suffix) or NAMES.get(path.name)
    return found or (NAMES.get(by_language) if language.startswith("dlk") else None)


class Documents:
    """The open texts, by their addresses. It may be asked from several threads."""

    def __init__(self) -> None:
        self.open: dict[str, Document] = {}
        self.lock = threading.Lock()

    def opened(self, told: Json) -> Document | None:
        """Takes a text that the editor opens; none where it is nothing of dlk."""
        uri = str(told["uri"])
        path = path_of(uri)
        kind = kind_of(path, str(told.get("languageId", "")))
        if kind is None:
            return None
        document = Document(uri, path, kind, int(told.get("version") or 0), str(told["text"]))
        with self.lock:
            self.open[uri] = document
        return document

    def changed(self, told: Json, changes: list[Json]) -> Document | None:
        """Takes changes of an open text, in their order."""
        with self.lock:
            document = self.open.get(str(told["uri"]))
            if document is None:
                return None
            for change in changes:
                document.text = changed(document.text, change)
            document.version = int(told.get("version") or document.version + 1)
            return document

    def closed(self, uri: str) -> None:
        """Forgets a text."""
        with self.lock:
            self.open.pop(uri, None)

    def get(self, uri: str) -> Document | None:
        """The open text of an address."""
        with self.lock:
            return self.open.get(uri)

    def text_of(self, path: Path) -> str | None:
        """The text of a file: the editor's where it is open, else that of the disk; none where there is none."""
        with self.lock:
            for document in self.open.values():
                if document.path == path or _same(document.path, path):
                    return document.text
        try:
            return path.read_text(encoding="utf-8", errors="replace") if path.is_file() else None
        except OSError:
            return None

    def model_of(self, document: Document) -> Path | None:
        """The file of the model that a strategy or a script is for."""
        if document.kind == Kind.MODEL:
            return document.path
        named = NAMED_MODEL.search(document.text)
        candidates = [document.path.parent / named[1]] if named else []
        candidates += [document.path.with_suffix(".dlkmodel"), document.path.parent / "model"]
        return next((path for path in candidates if self.text_of(path) is not None), None)

    def of_model(self, path: Path) -> list[Document]:
        """The open strategies and scripts that are for a model."""
        with self.lock:
            others = [it for it in self.open.values() if it.kind in (Kind.STRATEGY, Kind.SCRIPT)]
        return [it for it in others if (found := self.model_of(it)) is not None and _same(found, path)]


def _same(one: Path, other: Path) -> bool:
    """Whether two names are those of one file."""
    try:
        return one.absolute() == other.absolute() or one.exists() and other.exists() and one.samefile(other)
    except OSError:
        return False
