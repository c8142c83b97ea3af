"""A message in bytes: a head as JSON behind its length, and then bytes of any kind."""

from __future__ import annotations

import json
import struct
from typing import Any, BinaryIO, NamedTuple, Optional

_LENGTHS = struct.Struct("<II")


class Frame(NamedTuple):
    """A head and what comes with it."""

    head: dict[str, Any]
    body: bytes


def packed(head: dict[str, Any], body: bytes = b"") -> bytes:
    """The bytes of a message: the lengths of head and body, 32 bits each with the lowest byte first, and both.

    The head ends with blanks, so that the body begins at a multiple of eight bytes.
    """
    words = json.dumps(head, separators=(",", ":")).encode()
    words += b" " * (-(len(words) + _LENGTHS.size) % 8)
    return _LENGTHS.pack(len(words), len(body)) + words + body


def unpacked(data: bytes) -> Frame:
    """The head and the body of a message."""
    head, body = _LENGTHS.unpack_from(data)
    begin = _LENGTHS.size + head
    return Frame(json.loads(data[_LENGTHS.size:begin]), data[begin:begin + body])


def lengths_of(data: bytes) -> tuple[int, int]:
    """How long head and body are, from the first eight bytes."""
    head, body = _LENGTHS.unpack(data)
    return head, body


def read(file: BinaryIO) -> Optional[Frame]:
    """The next message of a pipe; None at its end."""
    lengths = file.read(_LENGTHS.size)
    if len(lengths) < _LENGTHS.size:
        return None
    head, body = lengths_of(lengths)
    return Frame(json.loads(file.read(head)), file.read(body))
