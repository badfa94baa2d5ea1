"""Web archives: the records of WARC files, as crawlers and `wget --warc-file` write them, and the pages in them.

`records` reads a file record by record, in memory that one record bounds. What is damaged is a record with a `fault`, and
the reading goes on behind it: nothing is lost without a word. `fetched` makes of a record what a browser would have got:
the status, the media type, the charset of the header, and the body without chunks and compression.

Where warcio is installed it cuts a file into records, else a reader of this module does. Both give the same; `reader` names
one of the two.
"""

from __future__ import annotations

import functools
import hashlib
import http.client
import importlib.util
import io
import itertools
import re
import typing
import zlib
from collections.abc import Generator, Iterator, Mapping
from email.message import Message
from pathlib import Path
from typing import Any, BinaryIO, NamedTuple

from rdfax.bodies import GZIP, Damaged, body_of

__all__ = ["FAULTS", "LONGEST", "PAGE_TYPES", "READERS", "Fetched", "Reader", "Record", "fetched", "records"]

Reader = typing.Literal["installed", "own", "warcio"]
READERS: tuple[Reader, ...] = typing.get_args(Reader)

FAULTS = {
    "BadGzip": "the compressed bytes are damaged",
    "BadHeader": "no record begins here",
    "ArcFile": "it is an ARC file, which came before WARC and isn't read",
    "Cut": "the archive ends within the record",
    "BadDigest": "the record hasn't the digest that it tells",
    "TooLong": "the record or what it holds is longer than is read",
    "BadHttp": "what was fetched is no response of HTTP",
    "BadChunks": "the chunks of the body are damaged",
    "BadEncoding": "the compressed body is damaged",
    "NoBrotli": "the body is compressed by Brotli, and Python's module brotli isn't installed",
    "NoZstandard": "the body is compressed by Zstandard, and Python's module zstandard isn't installed",
    "UnknownEncoding": "the body is compressed in a way that isn't known here",
}
# The media types of pages, and the syntax of each.
PAGE_TYPES: Mapping[str, typing.Literal["html", "xhtml"]] = {"text/html": "html", "application/xhtml+xml": "xhtml"}
# As many bytes of a block are read where nothing is said.
LONGEST = 64 << 20

_PIECE = 1 << 16
# So much is read of a compressed file at once: most records have less.
_PACKED = 1 << 14
# As much is kept of a block that is too long: its type is told there.
_HEAD = 1 << 16
_BEGIN = b"WARC/"
_ARC_BEGIN = b"filedesc:"
_BASE32, _DIGITS = re.compile("[A-Z2-7]+"), str.maketrans("ABCDEFGHIJKLMNOPQRSTUVWXYZ234567", "0123456789ABCDEFGHIJKLMNOPQRSTUV")
# Headers that take a line each, and the empty line behind them. (Of HTTP, http.client takes no more than 100.)
_HEADERS = re.compile(rb"(?:[!-9;-~]+[ \t]*:[^\r\n]*\r?\n){0,100}\r?\n")
_PLAIN_BEGIN = re.compile(rb"\n(?=WARC/[0-9.]+\r?\n)")


class Record(NamedTuple):
    """A record: where it begins in the file and where it ends, its headers by their names in small letters, and its block.

    Where it has a `fault`, which is a name of `FAULTS`, the headers and the block are as far as they could be read.
    """

    offset: int
    end: int
    headers: Mapping[str, str]
    block: bytes
    fault: str = ""

    @property
    def kind(self) -> str:
        """What the record is of: `response`, `resource`, `request` and so on."""
        return self.headers.get("warc-type", "").lower()

    @property
    def address(self) -> str:
        """The address of what was fetched; some writers put it in angle brackets."""
        return self.headers.get("warc-target-uri", "").removeprefix("<").removesuffix(">")

    @property
    def name(self) -> str:
        """The record's own name."""
        return self.headers.get("warc-record-id", "")


class Fetched(NamedTuple):
    """What a record's address gave: the status of HTTP, the media type, the charset of the header, and the body.

    A `resource` has the status 200. `fault` is a name of `FAULTS`, and then there is no body.
    """

    status: int
    media_type: str
    charset: str | None
    body: bytes
    fault: str = ""


class _Member(io.RawIOBase):
    """What one member of a gzip file holds. At its end `end` is where the next one begins."""

    def __init__(self, file: BinaryIO, start: int) -> None:
        self._file = file
        self._inflater = zlib.decompressobj(wbits=31)
        self._left = b""
        file.seek(start)

    def readable(self) -> bool:
        return True

    def readinto(self, room: memoryview) -> int:  # type: ignore[override]
        while not self._inflater.eof:
            piece = self._left or self._file.read(_PACKED)
            if not piece:
                raise Damaged("Cut")
            try:
                made = self._inflater.decompress(piece, len(room))
            except zlib.error:
                raise Damaged("BadGzip") from None
            self._left = self._inflater.unconsumed_tail
            if made:
                room[: len(made)] = made
                return len(made)
        return 0

    @property
    def end(self) -> int:
        return self._file.tell() - len(self._inflater.unused_data)


def records(path: str | Path, start: int = 0, end: int | None = None, *, longest: int = LONGEST, reader: Reader = "installed") -> Iterator[Record]:
    """The records of a WARC file that begin from `start` to before `end`; a record begins at `start`.

    A block of more than `longest` bytes is kept as far as its head, and the record's fault is `TooLong`. Where `longest` is
    0 no digest is compared: so it is asked where the records begin.
    """
    with Path(path).open("rb") as file:
        for record in _from(file, start, longest, reader):
            if end is not None and record.offset >= end:
                return
            yield record


@functools.cache
def _has_warcio() -> bool:
    return importlib.util.find_spec("warcio") is not None


def _from(file: BinaryIO, start: int, longest: int, reader: Reader) -> Iterator[Record]:
    size = file.seek(0, io.SEEK_END)
    if _is_arc(file):
        yield Record(0, size, {}, b"", "ArcFile")
        return
    known = 0
    if reader == "warcio" or (reader == "installed" and _has_warcio()):
        start, known = yield from _by_warcio(file, start, longest)
    if start < size:
        yield from itertools.islice(_by_own(file, start, size, longest), known, None)


def _by_own(file: BinaryIO, start: int, size: int, longest: int) -> Iterator[Record]:
    file.seek(0)
    packed = file.read(len(GZIP)) == GZIP
    return (_members if packed else _plain)(file, start, size, longest)


def _is_arc(file: BinaryIO) -> bool:
    """Whether the file is an ARC file, compressed or not."""
    file.seek(0)
    begin = file.read(len(_ARC_BEGIN))
    if begin.startswith(GZIP):
        try:
            begin = io.BufferedReader(_Member(file, 0), _PIECE).peek(len(_ARC_BEGIN))
        except Damaged:
            return False
    return begin.startswith(_ARC_BEGIN)


def _members(file: BinaryIO, start: int, size: int, longest: int) -> Iterator[Record]:
    """The records of a file that is compressed record by record. (A member may have several: they have one offset.)"""
    while start < size:
        member = _Member(file, start)
        stream, known = io.BufferedReader(member, _PIECE), _Known()
        try:
            while record := _record(stream, start, longest, known):
                _drained(stream)
                yield record._replace(end=member.end)
                known = _Known()
            start = member.end
        except Damaged as damaged:
            fault = str(damaged)
            behind = size if fault == "Cut" else _next_member(file, start + 1, size)
            yield Record(start, behind, known.headers, known.block, fault)
            start = behind


def _drained(stream: io.BufferedReader) -> None:
    """Reads what stands between two records, so that the member's end and its checksum come to light."""
    while count := len(held := stream.peek(1)) - len(held.lstrip(b"\r\n")):
        stream.read(count)


def _next_member(file: BinaryIO, at: int, size: int) -> int:
    """Where the next member begins that holds a record, or the file's end."""
    while (at := _find(file, GZIP, at)) != -1:
        try:
            if io.BufferedReader(_Member(file, at), _PIECE).peek(len(_BEGIN)).startswith(_BEGIN):
                return at
        except Damaged:
            pass
        at += 1
    return size


def _find(file: BinaryIO, sought: bytes, at: int) -> int:
    """Where these bytes stand next in the file, or -1."""
    file.seek(at)
    held = b""
    while piece := file.read(_PIECE):
        held += piece
        found = held.find(sought)
        if found != -1:
            return at + found
        at += max(0, len(held) - len(sought) + 1)
        held = held[-len(sought) + 1 :]
    return -1


def _plain(file: BinaryIO, start: int, size: int, longest: int) -> Iterator[Record]:
    """The records of a file that isn't compressed."""
    while start < size:
        file.seek(start)
        known = _Known()
        try:
            record = _record(file, start, longest, known)
            if record is None:
                return
            yield record._replace(end=file.tell())
            start = _past_blanks(file, file.tell())
        except Damaged as damaged:
            fault = str(damaged)
            behind = size if fault == "Cut" else _next_plain(file, start, size)
            yield Record(start, behind, known.headers, known.block, fault)
            start = behind


def _past_blanks(file: BinaryIO, at: int) -> int:
    while (blank := file.read(1)) and blank in b"\r\n":
        at += 1
    return at


def _next_plain(file: BinaryIO, at: int, size: int) -> int:
    """Where the next line stands that begins a record, or the file's end."""
    while (at := _find(file, b"\n" + _BEGIN, at)) != -1:
        file.seek(at)
        if _PLAIN_BEGIN.match(file.read(32)):
            return at + 1
        at += 1
    return size


class _Known:
    """What is known of a record while it is read."""

    def __init__(self) -> None:
        self.headers: dict[str, str] = {}
        self.block = b""


def _record(stream: typing.IO[bytes], offset: int, longest: int, known: _Known) -> Record | None:
    """The next record of a stream, or none at its end."""
    line = b"\n"
    while line in (b"\r\n", b"\n"):
        line = stream.readline(_PIECE)
    if not line:
        return None
    if not line.startswith(_BEGIN):
        raise Damaged("BadHeader")
    known.headers = _headers(stream)
    length = known.headers.get("content-length", "")
    if not re.fullmatch("[0-9]{1,18}", length):
        raise Damaged("BadHeader")
    known.block, digest = _block(stream, int(length), longest, known.headers.get("warc-block-digest", "") if longest else "")
    fault = "" if digest is None or digest.right() else "BadDigest"
    if int(length) > longest:
        fault = fault or "TooLong"
    return Record(offset, offset, known.headers, known.block, fault)


def _headers(stream: typing.IO[bytes]) -> dict[str, str]:
    """The headers of a record by their names in small letters; the first one of a name counts."""
    assert isinstance(stream, io.BufferedReader)
    held = stream.peek(1)
    # (most often all stand there already, a line each)
    found = _HEADERS.match(held)
    if found:
        stream.read(found.end())
        return _by_name(found[0].decode("utf-8", "replace"))
    return _headers_by_line(stream)


def _by_name(text: str) -> dict[str, str]:
    headers: dict[str, str] = {}
    for line in text.split("\n"):
        name, colon, value = line.partition(":")
        if colon:
            headers.setdefault(name.strip().lower(), value.strip())
    return headers


def _headers_by_line(stream: typing.IO[bytes]) -> dict[str, str]:
    headers: dict[str, str] = {}
    name = ""
    while (line := stream.readline(_PIECE)) not in (b"\r\n", b"\n"):
        if not line.endswith(b"\n"):
            raise Damaged("Cut" if len(line) < _PIECE else "BadHeader")
        text = line.decode("utf-8", "replace")
        if text[0] in " \t" and name:
            headers[name] += " " + text.strip()
            continue
        name, colon, value = text.partition(":")
        if not colon:
            raise Damaged("BadHeader")
        name = name.strip().lower()
        headers.setdefault(name, value.strip())
    return headers


class _Digest:
    """A digest that is told, and the one of the bytes that are read."""

    def __init__(self, told: str) -> None:
        algorithm, _, self._told = told.partition(":")
        self._of = hashlib.new(algorithm.lower().replace("-", ""), usedforsecurity=False)
        self.update = self._of.update

    def right(self) -> bool:
        """Whether they are the same, in base 16 or base 32."""
        digest, told = self._of.digest(), self._told.rstrip("=").upper()
        spare = 5 * len(told) - 8 * len(digest)
        if not 0 <= spare < 5:
            return told == digest.hex().upper()
        return _BASE32.fullmatch(told) is not None and int(told.translate(_DIGITS), 32) == int.from_bytes(digest) << spare


def _block(stream: typing.IO[bytes], length: int, longest: int, told: str) -> tuple[bytes, _Digest | None]:
    """The block of a record, or its head where it is too long, with its digest where one of a known algorithm is told."""
    try:
        digest = _Digest(told) if ":" in told else None
    except ValueError:
        digest = None
    kept, most = [], length if length <= longest else _HEAD
    size = 0
    while size < length:
        piece = stream.read(min(_PIECE, length - size))
        if not piece:
            raise Damaged("Cut")
        if digest:
            digest.update(piece)
        if size < most:
            kept.append(piece)
        size += len(piece)
    return b"".join(kept)[:most], digest


def _by_warcio(file: BinaryIO, start: int, longest: int) -> Generator[Record, None, tuple[int, int]]:
    """The records as warcio cuts them. Answers where the reader of this module goes on, for warcio ends at what is damaged or
    cut; and how many records from there on have been given."""
    from warcio.archiveiterator import ArchiveIterator
    from warcio.exceptions import ArchiveLoadFailed

    file.seek(start)
    iterator, end, given = ArchiveIterator(file, no_record_parse=True), start, 0
    try:
        for found in iterator:
            record = _of_warcio(found, longest)
            start, given = iterator.get_record_offset(), 1
            end = start + iterator.get_record_length()
            yield record._replace(offset=start, end=end)
    except (ArchiveLoadFailed, Damaged, zlib.error, EOFError, LookupError, ValueError):
        return start, given
    return end, 0


def _of_warcio(found: Any, longest: int) -> Record:
    """A record that warcio has begun to read."""
    headers = {name.lower(): value for name, value in reversed(found.rec_headers.headers)}
    length = int(headers["content-length"])
    block, digest = _block(found.raw_stream, length, longest, headers.get("warc-block-digest", "") if longest else "")
    fault = "BadDigest" if digest and not digest.right() else "TooLong" if length > longest else ""
    return Record(0, 0, headers, block, fault)


def fetched(record: Record, longest: int = LONGEST) -> Fetched | None:
    """What was fetched, where the record is a `response` or a `resource`. A body of more than `longest` bytes is `TooLong`."""
    if record.kind == "resource":
        media_type, charset = _media_type(record.headers.get("content-type", ""))
        return Fetched(200, media_type, charset, b"" if record.fault else record.block, record.fault)
    if record.kind != "response" or not record.address.lower().startswith(("http:", "https:")):
        return None
    try:
        status, headers, begin = _head(record.block)
    except (http.client.HTTPException, ValueError):
        return Fetched(0, "", None, b"", record.fault or "BadHttp")
    media_type, charset = _media_type(headers.get("content-type", ""))
    if record.fault or media_type not in PAGE_TYPES:
        return Fetched(status, media_type, charset, b"", record.fault)
    try:
        return Fetched(status, media_type, charset, body_of(headers, record.block[begin:], longest))
    except Damaged as damaged:
        return Fetched(status, media_type, charset, b"", str(damaged))


def _head(block: bytes) -> tuple[int, Mapping[str, str], int]:
    """The status of a response, its headers by their names in small letters, and where its body begins."""
    line = block[: block.find(b"\n", 0, _PIECE) + 1]
    status, found = _status(line), _HEADERS.match(block, len(line))
    if found:
        return status, _by_name(found[0].decode("latin-1")), found.end()
    stream = io.BytesIO(block)
    stream.seek(len(line))
    message = http.client.parse_headers(stream)
    headers: dict[str, str] = {}
    for name, value in message.items():
        headers.setdefault(name.lower(), value)
    return status, headers, stream.tell()


def _status(line: bytes) -> int:
    found = re.match(rb"HTTP/[0-9.]+ +([0-9]{3})\b", line)
    if not found:
        raise ValueError(line)
    return int(found[1])


@functools.lru_cache(1024)
def _media_type(value: str) -> tuple[str, str | None]:
    """The media type in small letters, and its charset.

    >>> _media_type('Text/HTML; Charset="utf-8"')
    ('text/html', 'utf-8')
    """
    header = Message()
    header["content-type"] = value
    charset = header.get_param("charset")
    return value.partition(";")[0].strip().lower(), charset.strip() if isinstance(charset, str) and charset.strip() else None
