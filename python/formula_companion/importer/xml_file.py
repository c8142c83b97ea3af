"""The root element of a MusicXML file, plain or in a container, of whoever's hand."""

from __future__ import annotations

import io
import zipfile
import zlib
from typing import Optional
from xml.etree.ElementTree import Element, TreeBuilder
from xml.parsers import expat

from formula_score.reading.playing import Failed

_MOST_BYTES = 30_000_000
_CONTAINER = "META-INF/container.xml"


def root_of(data: bytes) -> Element:
    """The root of a file, as it is or as `.mxl`."""
    if len(data) > _MOST_BYTES:
        raise Failed(1, f"it has {len(data):,} bytes, and at most {_MOST_BYTES:,} are read")
    root = parsed(_unpacked(data) if data[:2] == b"PK" else data)
    if root.tag != "score-partwise":
        raise Failed(1, f"it is <{root.tag}>, and what is read is <score-partwise> of MusicXML")
    return root


def _unpacked(data: bytes) -> bytes:
    """The score in a container."""
    try:
        with zipfile.ZipFile(io.BytesIO(data)) as box:
            names = box.namelist()
            found = parsed(_read(box, _CONTAINER)).find(".//{*}rootfile") if _CONTAINER in names else None
            name = found.get("full-path", "") if found is not None else next(
                (name for name in names if name.endswith(("xml",)) and not name.startswith("META-INF")), "")
            if name not in names:
                raise Failed(1, "the container has no score")
            return _read(box, name)
    except (zipfile.BadZipFile, zlib.error, NotImplementedError, RuntimeError, EOFError, OSError) as error:
        raise Failed(1, f"the container cannot be read: {error}") from error


def _read(box: zipfile.ZipFile, name: str) -> bytes:
    with box.open(name) as file:
        data = file.read(_MOST_BYTES + 1)
    if len(data) > _MOST_BYTES:
        raise Failed(1, f"{name} in the container has more than {_MOST_BYTES:,} bytes")
    return data


def parsed(data: bytes) -> Element:
    """The root element. A file that declares entities is refused, before one is used."""
    builder, parser = TreeBuilder(), expat.ParserCreate()
    parser.buffer_text = True
    parser.StartElementHandler = builder.start
    parser.EndElementHandler = builder.end
    parser.CharacterDataHandler = builder.data

    def refuse(name: str, *_: Optional[str]) -> None:
        raise Failed(1, f"line {parser.CurrentLineNumber}: it declares the entity {name!r}, and none is read")

    parser.EntityDeclHandler = refuse  # type: ignore[assignment]
    try:
        parser.Parse(data, True)
    except expat.ExpatError as error:
        why = expat.ErrorString(error.code)
        if error.code == expat.errors.codes[expat.errors.XML_ERROR_NO_ELEMENTS]:
            why = "it ends before all is closed"
        where = f"line {error.lineno}, column {error.offset + 1}"
        raise Failed(1, f"{where}: this is no XML, or it is cut off: {why}") from error
    return builder.close()
