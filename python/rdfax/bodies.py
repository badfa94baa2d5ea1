"""What the body of a response of HTTP holds: without its chunks, and without its compression."""

from __future__ import annotations

import re
import zlib
from collections.abc import Callable, Mapping

__all__ = ["GZIP", "Damaged", "body_of"]

GZIP = b"\x1f\x8b\x08"
_CHUNK = re.compile(rb"\s*([0-9A-Fa-f]{1,8})[ \t]*(?:;[^\r\n]*)?\r?\n")
_ZSTANDARD = b"\x28\xb5\x2f\xfd"
# The most memory that a body's frame may ask for, as browsers have it.
_WINDOW = 8 << 20
# So many bytes make some hundred mebibytes at most, whatever they are.
_BROTLI_PIECE, _ZSTANDARD_PIECE = 64, 1 << 10


class Damaged(Exception):
    """What is read is damaged; the name of the fault."""


def body_of(headers: Mapping[str, str], body: bytes, longest: int) -> bytes:
    """The body without its chunks and its compression, of which the headers tell by their names in small letters."""
    if "chunked" in headers.get("transfer-encoding", "").lower():
        body = _joined(body)
    codings = [coding.strip().lower() for coding in headers.get("content-encoding", "").split(",")]
    for coding in reversed(codings):
        body = _unpacked(coding, body, longest)
    if len(body) > longest:
        raise Damaged("TooLong")
    return body


def _joined(body: bytes) -> bytes:
    """The chunks of a body. Where it doesn't begin with one, it was joined by who wrote the archive."""
    chunk = _CHUNK.match(body)
    if chunk is None:
        return body
    parts, at = [], 0
    while chunk and (size := int(chunk[1], 16)):
        at = chunk.end() + size
        parts.append(body[chunk.end() : at])
        chunk = _CHUNK.match(body, at)
    if chunk is None:
        raise Damaged("BadChunks")
    return b"".join(parts)


def _unpacked(coding: str, body: bytes, longest: int) -> bytes:
    """The body without a coding. Where it isn't in that coding, it was unpacked by who wrote the archive."""
    if coding in ("", "identity"):
        return body
    if coding in ("gzip", "x-gzip"):
        return _inflated(body, 31, longest) if body.startswith(GZIP) else body
    if coding == "deflate":
        zlibbed = len(body) > 1 and body[0] & 15 == 8 and (body[0] << 8 | body[1]) % 31 == 0
        return _inflated(body, 15 if zlibbed else -15, longest)
    if coding == "br":
        return _unbrotlied(body, longest)
    if coding == "zstd":
        return _unzstandarded(body, longest) if body.startswith(_ZSTANDARD) else body
    raise Damaged("UnknownEncoding")


def _unbrotlied(body: bytes, longest: int) -> bytes:
    try:
        import brotli
    except ImportError:
        raise Damaged("NoBrotli") from None
    unpacker = brotli.Decompressor()
    try:
        made = _by_pieces(body, _BROTLI_PIECE, unpacker.process, longest)
    except brotli.error:
        # (what begins as a page does was unpacked by who wrote the archive: Brotli has no magic number)
        if body.lstrip()[:1] == b"<":
            return body
        raise Damaged("BadEncoding") from None
    if not unpacker.is_finished():
        raise Damaged("BadEncoding")
    return made


def _unzstandarded(body: bytes, longest: int) -> bytes:
    """The frames of the body, put together."""
    frames, size, at = [], 0, 0
    while at < len(body):
        frame, at = _frame(body, at, longest - size)
        size += len(frame)
        frames.append(frame)
    return b"".join(frames)


def _frame(body: bytes, at: int, longest: int) -> tuple[bytes, int]:
    """What the frame holds that begins there, and where it ends."""
    try:
        import zstandard
    except ImportError:
        raise Damaged("NoZstandard") from None
    unpacker = zstandard.ZstdDecompressor(max_window_size=_WINDOW).decompressobj()
    made, size = [], 0
    while not unpacker.eof:
        piece = body[at : at + _ZSTANDARD_PIECE]
        try:
            made.append(unpacker.decompress(piece))
        except zstandard.ZstdError:
            raise Damaged("BadEncoding") from None
        at, size = at + len(piece), size + len(made[-1])
        if size > longest:
            raise Damaged("TooLong")
        if not piece:
            raise Damaged("BadEncoding")
    return b"".join(made), at - len(unpacker.unused_data)


def _by_pieces(body: bytes, piece: int, unpack: Callable[[bytes], bytes], longest: int) -> bytes:
    """What is unpacked of the body, which is handed over in pieces so small that none makes too much."""
    made, size = [], 0
    for start in range(0, len(body), piece):
        made.append(unpack(body[start : start + piece]))
        size += len(made[-1])
        if size > longest:
            raise Damaged("TooLong")
    return b"".join(made)


def _inflated(body: bytes, wbits: int, longest: int) -> bytes:
    made, size = [], 0
    while body:
        inflater = zlib.decompressobj(wbits)
        try:
            made.append(inflater.decompress(body, longest + 1 - size))
        except zlib.error:
            raise Damaged("BadEncoding") from None
        size += len(made[-1])
        if size > longest:
            raise Damaged("TooLong")
        if not inflater.eof:
            raise Damaged("BadEncoding")
        body = inflater.unused_data if inflater.unused_data.startswith(GZIP) else b""
    return b"".join(made)
