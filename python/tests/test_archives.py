"""Archives: those that wget makes of a site on loopback, damaged ones, and hostile ones."""

from __future__ import annotations

import base64
import gzip
import hashlib
import importlib.util
import shutil
import sys
import tracemalloc
import zlib
from collections.abc import Callable
from pathlib import Path
from urllib.parse import urlsplit

import pytest
import web

from rdfax import archives
from rdfax.archives import Fetched, Record, fetched, records

needs_wget = pytest.mark.skipif(shutil.which("wget") is None, reason="wget isn't installed")
READERS = ["own", "warcio"]
STANDIN = Path(__file__).resolve().parent / "standin"
PACKINGS = {"compressed": (), "plain": ("--no-warc-compression",)}


@pytest.fixture(autouse=True)
def _warcio(monkeypatch: pytest.MonkeyPatch) -> None:
    """warcio, or where it isn't installed what stands in its stead."""
    if importlib.util.find_spec("warcio") is None:
        monkeypatch.syspath_prepend(STANDIN)


def record(address: str, block: bytes, kind: str = "response", digest: str = "", **headers: str) -> bytes:
    """A record as crawlers write it."""
    told = {"WARC-Type": kind, "WARC-Record-ID": f"<urn:uuid:{hashlib.md5(block).hexdigest()}>", "WARC-Target-URI": address}
    told |= {name.replace("_", "-"): value for name, value in headers.items()}
    told |= {"WARC-Block-Digest": digest or f"sha1:{base64.b32encode(hashlib.sha1(block).digest()).decode()}", "Content-Length": str(len(block))}
    return b"WARC/1.1\r\n" + "".join(f"{name}: {value}\r\n" for name, value in told.items()).encode() + b"\r\n" + block + b"\r\n\r\n"


def response(number: int, body: bytes | None = None, head: bytes = b"HTTP/1.1 200 OK\r\nContent-Type: text/html\r\n\r\n") -> bytes:
    """The record of a page."""
    return record(f"http://h.example/{number}", head + (web.page(number) if body is None else body))


def written(path: Path, parts: list[bytes], packed: bool = True) -> list[int]:
    """Writes an archive of these records, and answers where each begins."""
    places, whole = [], b""
    for part in parts:
        places.append(len(whole))
        whole += gzip.compress(part) if packed else part
    path.write_bytes(whole)
    return places


def pages(path: Path, **words: object) -> dict[str, Fetched]:
    """What was fetched, by the paths of the addresses."""
    found = {urlsplit(each.address).path: fetched(each) for each in records(path, **words) if each.kind == "response"}  # type: ignore[arg-type]
    return {name: page for name, page in found.items() if page is not None}


@needs_wget
@pytest.mark.parametrize("reader", READERS)
@pytest.mark.parametrize("packing", PACKINGS)
def test_wget(tmp_path: Path, packing: str, reader: str) -> None:
    path = web.archive(tmp_path, "site", web.ANSWERS, *PACKINGS[packing])
    assert path.suffix == (".gz" if packing == "compressed" else ".warc")
    found = pages(path, reader=reader)
    wrong = {}
    for name, answer in web.ANSWERS.items():
        body = b"" if answer.media_type == "image/png" else answer.body
        expected = Fetched(answer.status, answer.media_type, answer.charset, body)
        if found.get(name) != expected:
            wrong[name] = found.get(name), expected
    assert not wrong
    kinds = [each.kind for each in records(path)]
    assert {"warcinfo", "request", "response", "resource"} <= set(kinds)
    assert kinds.count("request") == kinds.count("response")


@needs_wget
def test_readers_agree(tmp_path: Path) -> None:
    for packing, words in PACKINGS.items():
        path = web.archive(tmp_path, packing, web.ANSWERS, *words)
        own = list(records(path, reader="own"))
        assert len(own) > 2 * len(web.ANSWERS) and list(records(path, reader="warcio")) == own
        middle = own[len(own) // 2].offset
        assert list(records(path, middle, reader="warcio")) == own[len(own) // 2 :]


def test_warcio_where_it_is_installed(tmp_path: Path, monkeypatch: pytest.MonkeyPatch) -> None:
    """Without a word the reader is warcio where there is one, and else our own."""
    written(tmp_path / "a", [response(1)])
    archives._has_warcio.cache_clear()
    iterator = importlib.import_module("warcio.archiveiterator")
    begun = []
    monkeypatch.setattr(iterator, "ArchiveIterator", lambda *words, known=iterator.ArchiveIterator, **more: begun.append(1) or known(*words, **more))
    assert len(list(records(tmp_path / "a"))) == len(begun) == 1
    monkeypatch.setattr(importlib.util, "find_spec", lambda _: None)
    archives._has_warcio.cache_clear()
    assert len(list(records(tmp_path / "a"))) == len(begun) == 1
    archives._has_warcio.cache_clear()


@pytest.mark.parametrize("packed", [True, False])
@pytest.mark.parametrize("reader", READERS)
def test_arc(tmp_path: Path, packed: bool, reader: str) -> None:
    """A file of the older format is refused by its name."""
    arc = b"filedesc://a.arc 0.0.0.0 20080101000000 text/plain 76\n1 0 Alexa Internet\nURL IP-address Archive-date Content-type Archive-length\n\n"
    (tmp_path / "a.arc").write_bytes(gzip.compress(arc) if packed else arc)
    assert [(each.offset, each.fault) for each in records(tmp_path / "a.arc", reader=reader)] == [(0, "ArcFile")]  # type: ignore[arg-type]


CODED = {
    "br": ("brotli", "NoBrotli", lambda module, body: module.compress(body, quality=2)),
    "zstd": ("zstandard", "NoZstandard", lambda module, body: module.ZstdCompressor().compress(body)),
}


def coded(coding: str, sent: bytes) -> Fetched | None:
    """What is read of a body that was sent in a coding."""
    block = HEAD + f"Content-Encoding: {coding}\r\n\r\n".encode() + sent
    return fetched(Record(0, 0, {"warc-type": "response", "warc-target-uri": "http://h.example/"}, block))


@pytest.mark.parametrize("coding", CODED)
def test_codings_of_other_packages(coding: str, monkeypatch: pytest.MonkeyPatch) -> None:
    """Brotli and Zstandard, where their packages are; what is damaged, too long, or already unpacked; and without the package."""
    name, missing, pack = CODED[coding]
    body = web.page(1) * 300
    monkeypatch.setitem(sys.modules, name, None)
    assert coded(coding, b"\x28\xb5\x2f\xfd") == Fetched(200, "text/html", None, b"", missing)
    monkeypatch.undo()
    sent = pack(pytest.importorskip(name), body)
    assert coded(coding, sent) == Fetched(200, "text/html", None, body)
    assert coded(coding, body) == Fetched(200, "text/html", None, body)
    assert coded(f"gzip, {coding}", pack(importlib.import_module(name), gzip.compress(body))) == Fetched(200, "text/html", None, body)
    assert coded(coding, sent[:-3]) == Fetched(200, "text/html", None, b"", "BadEncoding")
    assert coded(coding, pack(importlib.import_module(name), bytes(100 << 20))) == Fetched(200, "text/html", None, b"", "TooLong")
    if coding == "zstd":
        assert coded(coding, sent + sent) == Fetched(200, "text/html", None, body + body)
        assert coded(coding, sent + b"more") == Fetched(200, "text/html", None, b"", "BadEncoding")


@pytest.mark.parametrize("packed", [True, False])
def test_ranges(tmp_path: Path, packed: bool) -> None:
    """The records of all ranges together are those of the archive, wherever it is cut between two."""
    path = tmp_path / "a.warc"
    places = written(path, [response(number) for number in range(9)], packed)
    whole = list(records(path))
    assert [each.offset for each in whole] == places
    for cut in places:
        assert [*records(path, 0, cut), *records(path, cut)] == whole


HEAD = b"HTTP/1.1 200 OK\r\nContent-Type: text/html\r\n"
DAMAGES: dict[str, tuple[bytes, str]] = {
    "no response": (b"Hello\r\n\r\n<html></html>", "BadHttp"),
    "nothing": (b"", "BadHttp"),
    "many headers": (b"HTTP/1.1 200 OK\r\n" + b"A: b\r\n" * 200 + b"\r\n", "BadHttp"),
    "a chunk cut": (HEAD + b"Transfer-Encoding: chunked\r\n\r\n5\r\n<html", "BadChunks"),
    "no last chunk": (HEAD + b"Transfer-Encoding: chunked\r\n\r\n5\r\n<html\r\n", "BadChunks"),
    "a chunk's size": (HEAD + b"Transfer-Encoding: chunked\r\n\r\n5\r\n<html\r\nzz\r\n", "BadChunks"),
    "gzip cut": (HEAD + b"Content-Encoding: gzip\r\n\r\n" + gzip.compress(web.page(1))[:-9], "BadEncoding"),
    "gzip damaged": (HEAD + b"Content-Encoding: gzip\r\n\r\n" + gzip.compress(web.page(1))[:-8] + b"12345678", "BadEncoding"),
    "an unknown coding": (HEAD + b"Content-Encoding: lzma\r\n\r\n<html>", "UnknownEncoding"),
    "a bomb": (HEAD + b"Content-Encoding: gzip\r\n\r\n" + gzip.compress(bytes(80 << 20)), "TooLong"),
    "a bomb of members": (HEAD + b"Content-Encoding: gzip\r\n\r\n" + gzip.compress(bytes(9 << 20)) * 9, "TooLong"),
    "a bomb of deflate": (HEAD + b"Content-Encoding: deflate\r\n\r\n" + zlib.compress(bytes(80 << 20)), "TooLong"),
}


@pytest.mark.parametrize("name", DAMAGES)
def test_damaged_responses(tmp_path: Path, name: str) -> None:
    block, fault = DAMAGES[name]
    written(tmp_path / "a", [record("http://h.example/", block)])
    (found,) = records(tmp_path / "a")
    page = fetched(found)
    assert page is not None and (page.fault, page.body) == (fault, b"")


def _flipped(at: int) -> Callable[[bytearray, list[int]], None]:
    def damage(whole: bytearray, places: list[int]) -> None:
        for place in range(places[2] + at, places[2] + at + 8):
            whole[place] ^= 255

    return damage


def _cut(whole: bytearray, places: list[int]) -> None:
    del whole[places[4] + 60 :]


def _filled(whole: bytearray, places: list[int]) -> None:
    whole[places[2] : places[2]] = b"no record\n" * 9


ARCHIVES: list[tuple[str, bool, Callable[[bytearray, list[int]], None], list[int], str]] = [
    ("a member's begin", True, _flipped(0), [0, 1, 3, 4], "BadGzip"),
    ("a member's middle", True, _flipped(60), [0, 1, 3, 4], "BadGzip"),
    ("cut in a member", True, _cut, [0, 1, 2, 3], "Cut"),
    ("cut in a record", False, _cut, [0, 1, 2, 3], "Cut"),
    ("a record's begin", False, _flipped(0), [0, 1, 3, 4], "BadHeader"),
    ("something between", True, _filled, [0, 1, 2, 3, 4], "BadGzip"),
    ("something between, plain", False, _filled, [0, 1, 2, 3, 4], "BadHeader"),
    ("a page's middle", False, _flipped(400), [0, 1, 3, 4], "BadDigest"),
]


@pytest.mark.parametrize("reader", READERS)
@pytest.mark.parametrize(("name", "packed", "damage", "left", "fault"), ARCHIVES, ids=[row[0] for row in ARCHIVES])
def test_damaged_archives(
    tmp_path: Path, name: str, packed: bool, damage: Callable[[bytearray, list[int]], None], left: list[int], fault: str, reader: str
) -> None:
    """What is damaged is told, and all else is read."""
    path = tmp_path / "a"
    places = written(path, [response(number) for number in range(5)], packed)
    whole = bytearray(path.read_bytes())
    damage(whole, places)
    path.write_bytes(whole)
    found = list(records(path, reader=reader))  # type: ignore[arg-type]
    assert [each.address for each in found if not each.fault] == [f"http://h.example/{number}" for number in left]
    assert [each.fault for each in found if each.fault] == [fault]
    assert [each.offset for each in found[1:]] == [each.end for each in found[:-1]] or not packed


@pytest.mark.parametrize("reader", READERS)
def test_one_member(tmp_path: Path, reader: str) -> None:
    """An archive that was compressed as a whole is read too."""
    path = tmp_path / "a.warc.gz"
    path.write_bytes(gzip.compress(b"".join(response(number) for number in range(5))))
    found = list(records(path, reader=reader))  # type: ignore[arg-type]
    assert [each.address[-1] for each in found] == list("01234")
    assert {each.offset for each in found} == {0}


def test_headers(tmp_path: Path) -> None:
    """Names in any case, lines that go on, addresses in angle brackets, digests of other algorithms, and none."""
    block = b"HTTP/1.1 200 OK\r\ncontent-TYPE: text/html\r\n\r\n<html></html>"
    parts = [
        b"WARC/0.18\nwarc-type: Response\nWARC-TARGET-URI: <http://h.example/>\nX-Note: a\n  b\ncontent-length: %d\n\n%b\n\n" % (len(block), block),
        record("http://h.example/", block, digest=f"sha256:{hashlib.sha256(block).hexdigest()}"),
        record("http://h.example/", block, digest="unheard:of"),
        record("http://h.example/", block, WARC_Truncated="length"),
    ]
    written(tmp_path / "a", parts)
    found = list(records(tmp_path / "a"))
    assert [(each.kind, each.address, each.fault) for each in found] == [("response", "http://h.example/", "")] * 4
    assert found[0].headers["x-note"] == "a b"
    assert {fetched(each) for each in found} == {Fetched(200, "text/html", None, b"<html></html>")}


def test_memory(tmp_path: Path) -> None:
    """A long record takes no more memory than is asked for, and an archive no more than its longest record."""
    path = tmp_path / "a"
    long = response(1, bytes(96 << 20))
    with path.open("wb") as file:
        file.write(gzip.compress(long))
        del long
        for number in range(300):
            file.write(gzip.compress(response(number, web.page(number) * 300)))
    tracemalloc.start()
    found = [(each.kind, each.fault, len(each.block)) for each in records(path, longest=1 << 20, reader="own")]
    _, most = tracemalloc.get_traced_memory()
    tracemalloc.stop()
    assert found[0] == ("response", "TooLong", 1 << 16)
    assert len(found) == 301 and {fault for _, fault, _ in found[1:]} == {""}
    assert most < 4 << 20


def test_resource(tmp_path: Path) -> None:
    written(tmp_path / "a", [record("http://h.example/", web.page(1), "resource", Content_Type="text/html; charset=utf-8"), record("dns:h", b"1", "response")])
    first, second = records(tmp_path / "a")
    assert fetched(first) == Fetched(200, "text/html", "utf-8", web.page(1))
    assert fetched(second) is None
