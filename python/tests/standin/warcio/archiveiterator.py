"""The records of an archive, one after another, as warcio's iterator gives them.

A record's stream is read before the next one is asked for, or passed over then. In a file that is compressed each record has
a member of its own; several in one are `ArchiveLoadFailed`.
"""

from __future__ import annotations

import io
import zlib
from collections.abc import Iterator
from typing import BinaryIO

from warcio.exceptions import ArchiveLoadFailed

_PIECE = 1 << 14


class StatusAndHeaders:
    """A first line, and headers in their order."""

    def __init__(self, statusline: str, headers: list[tuple[str, str]]) -> None:
        self.statusline, self.headers = statusline, headers

    def get_header(self, name: str, default: str | None = None) -> str | None:
        """The first value of a header."""
        return next((value for known, value in self.headers if known.lower() == name.lower()), default)


class _Bytes:
    """The bytes of a file, or of its members one after another."""

    def __init__(self, file: BinaryIO) -> None:
        self._file, self._held, self._inflater = file, b"", None
        first = file.read(2)
        file.seek(-len(first), io.SEEK_CUR)
        if first == b"\x1f\x8b":
            self._inflater, self._packed = zlib.decompressobj(wbits=31), b""

    @property
    def is_packed(self) -> bool:
        return self._inflater is not None

    def _more(self) -> bool:
        piece = self._file.read(_PIECE) if self._inflater is None or not (self._packed or self._inflater.eof) else b""
        if self._inflater is None:
            self._held += piece
            return bool(piece)
        self._packed += piece
        if self._inflater.eof or not self._packed:
            return False
        self._held += self._inflater.decompress(self._packed, _PIECE)
        self._packed = self._inflater.unused_data if self._inflater.eof else self._inflater.unconsumed_tail
        return True

    def begin_member(self) -> bool:
        assert self._inflater is not None
        self._packed = self._packed or self._file.read(_PIECE)
        self._inflater = zlib.decompressobj(wbits=31)
        return bool(self._packed)

    def read(self, count: int) -> bytes:
        while not self._held and self._more():
            pass
        made, self._held = self._held[:count], self._held[count:]
        return made

    def readline(self) -> bytes:
        while b"\n" not in self._held and self._more():
            pass
        return self.read(self._held.find(b"\n") + 1 or len(self._held))

    def unread(self, line: bytes) -> None:
        self._held = line + self._held

    def tell(self) -> int:
        return self._file.tell() - len(self._held if self._inflater is None else self._packed)


class _Limited:
    """A record's block."""

    def __init__(self, stream: _Bytes, length: int) -> None:
        self._stream, self.limit = stream, length

    def read(self, count: int) -> bytes:
        made = self._stream.read(min(count, self.limit))
        self.limit -= len(made)
        return made


class ArcWarcRecord:
    """A record, whose block is still to be read."""

    def __init__(self, headers: StatusAndHeaders, stream: _Limited, *, parsed: bool) -> None:
        self.format, self.rec_type, self.rec_headers = "warc", headers.get_header("WARC-Type"), headers
        self.raw_stream, self.length = stream, stream.limit
        self.http_headers = None
        if parsed:
            raise NotImplementedError("the stand-in reads no headers of HTTP")

    def content_stream(self) -> _Limited:
        """The block, since no headers of HTTP were read."""
        return self.raw_stream


class ArchiveIterator:
    """The records of an archive from where the file stands."""

    def __init__(self, fileobj: BinaryIO, no_record_parse: bool = False) -> None:
        self._stream, self._parsed = _Bytes(fileobj), not no_record_parse
        self._place: tuple[int, int] | None = None
        self._record: ArcWarcRecord | None = None
        self._offset = fileobj.tell()
        self._iterator = self._records()

    def __iter__(self) -> Iterator[ArcWarcRecord]:
        return self._iterator

    def _records(self) -> Iterator[ArcWarcRecord]:
        while True:
            record = self._next()
            if record is None:
                return
            yield record
            self.read_to_end()
            if self._stream.is_packed:
                if line := self._stream.readline():
                    raise ArchiveLoadFailed(f"a member goes on behind its record: {line!r}")
                if not self._stream.begin_member():
                    return

    def _next(self) -> ArcWarcRecord | None:
        first = self._stream.readline()
        if not first:
            return None
        if not first.startswith(b"WARC/"):
            raise ArchiveLoadFailed(f"Unknown archive format, first line: {first!r}")
        lines: list[tuple[str, str]] = []
        while (line := self._stream.readline().decode("utf-8", "replace").rstrip("\r\n")) != "":
            if line[0] in " \t" and lines:
                lines[-1] = lines[-1][0], f"{lines[-1][1]} {line.strip()}"
                continue
            name, _, value = line.partition(":")
            lines.append((name, value.strip()))
        headers = StatusAndHeaders(first.decode("utf-8", "replace").strip(), lines)
        self._place = None
        self._record = ArcWarcRecord(headers, _Limited(self._stream, int(headers.get_header("Content-Length") or 0)), parsed=self._parsed)
        return self._record

    def read_to_end(self) -> None:
        """Passes over what is left of a record, and the blank lines behind it."""
        if self._record is None or self._place is not None:
            return
        while self._record.raw_stream.read(_PIECE):
            pass
        end = self._stream.tell()
        while (line := self._stream.readline()) and not line.strip():
            pass
        self._stream.unread(line)
        begin, self._offset = self._offset, self._stream.tell()
        self._place = begin, (self._offset if self._stream.is_packed else end) - begin

    def get_record_offset(self) -> int:
        """Where the record begins in the file."""
        self.read_to_end()
        assert self._place is not None
        return self._place[0]

    def get_record_length(self) -> int:
        """How many bytes of the file it has: of one that isn't compressed, without the blank lines behind it."""
        self.read_to_end()
        assert self._place is not None
        return self._place[1]
