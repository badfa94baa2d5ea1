"""One page of a crawl: what is handed over, and what comes of it."""

from __future__ import annotations

import codecs
import json
import time
import typing
from typing import NamedTuple

from rdfax.crawling.options import Options
from rdfax.errors import Refused, Usage
from rdfax.pages import SYNTAXES, Request, Syntax, text_and_nodes

if typing.TYPE_CHECKING:
    from rdfax.mending import Mended

__all__ = ["Found", "Given", "Status", "read"]

Status = typing.Literal["read", "refused", "failed"]

# Labels of the Web that mean another encoding than Python's codec of that name.
_LABELS = dict.fromkeys(("ascii", "us-ascii", "iso-8859-1", "iso8859-1", "iso88591", "latin1", "latin-1", "l1"), "cp1252")
_LABELS |= {"iso-8859-9": "cp1254", "latin5": "cp1254", "gb2312": "gb18030", "gbk": "gb18030", "shift_jis": "cp932", "sjis": "cp932", "euc-kr": "cp949"}


class Given(NamedTuple):
    """A page as it was fetched."""

    address: str
    syntax: Syntax
    charset: str | None
    body: bytes


class Found(NamedTuple):
    """What came of a page: its triples and items as texts, or why there are none.

    `places` is a comment of N-Quads, with the place in the original of each triple's element.
    """

    status: Status
    kind: str = ""
    token: int | None = None
    at: int | None = None
    mended: str = ""
    quads: bytes = b""
    items: bytes = b""
    nodes: int = 0
    mending: float = 0.0
    reading: float = 0.0
    places: str = ""
    placing: float = 0.0


class _Text(NamedTuple):
    """A page's bytes in UTF-8, and its charset where it had another."""

    body: bytes
    codec: str | None

    def original(self, place: int) -> int:
        """A place in the page as it was fetched."""
        return place if self.codec is None else len(self.body[:place].decode("utf-8", "ignore").encode(self.codec))


def _text(given: Given) -> _Text:
    """The page in UTF-8. What isn't in the charset of its header is taken as it stands."""
    label = (given.charset or "utf-8").strip().lower()
    try:
        codec = codecs.lookup(_LABELS.get(label, label)).name
        if codec == "utf-8" or (given.body.isascii() and not codec.startswith("utf-")):
            return _Text(given.body, None)
        return _Text(given.body.decode(codec).encode(), codec)
    except (LookupError, UnicodeError):
        return _Text(given.body, None)


class _Reading:
    """A page's reading: by the library alone, or mended first where that refuses it."""

    def __init__(self, given: Given, first_node: int, options: Options) -> None:
        self._given, self._first, self._options = given, first_node, options
        self.nodes = 0

    @property
    def is_placed(self) -> bool:
        """Whether the places of what is said are wanted."""
        return self._options.places

    def texts(self, body: bytes) -> tuple[bytes, bytes]:
        """The page's quads and items."""
        quads, items, address = b"", b"", self._given.address
        syntax = SYNTAXES.index(self._given.syntax)
        if self._options.rdfa:
            quads, nodes = text_and_nodes(Request("extract", syntax, address, 0, address.partition("#")[0], None, self._first), body)
            self.nodes = nodes if b"_:b" in quads else 0
        # Where the page is one of the grammar and has no such letters (of `itemscope`), it has no item.
        if self._options.items and (not self._options.rdfa or b"mscop" in body.lower()):
            items, _ = text_and_nodes(Request("items", syntax, address, 0, None, None, 0), body)
        return quads, items


def read(given: Given, first_node: int, options: Options) -> Found:
    """Reads a page, whose blank nodes are numbered from `first_node`."""
    began, reading = time.thread_time(), _Reading(given, first_node, options)
    text = _text(given)
    try:
        quads, items = reading.texts(text.body)
    except Refused as refused:
        if options.mend:
            return _mended(reading, given, refused, began)
        return Found("refused", refused.kind, text.original(refused.token), text.original(refused.at), reading=time.thread_time() - began)
    except Usage:
        return Found("failed", "BadAddress")
    return Found("read", quads=quads, items=items, nodes=reading.nodes, reading=time.thread_time() - began)


def _mended(reading: _Reading, given: Given, refused: Refused, began: float) -> Found:
    """Reads the page once more, mended."""
    from rdfax.mending import NotMended, mend

    refused_by = time.thread_time()
    try:
        mended = mend(given.body, given.charset, given.syntax)
    except NotMended as limit:
        return Found("failed", limit.kind, refused.token, refused.at, mending=time.thread_time() - refused_by, reading=refused_by - began)
    mended_by = time.thread_time()
    told = Found("read", mended=str(mended), mending=mended_by - refused_by)
    try:
        quads, items = reading.texts(mended.page)
        told = told._replace(quads=quads, items=items, nodes=reading.nodes)
    except Refused as again:
        place = mended.refused(again)
        told = told._replace(status="refused", kind=place.kind, token=place.token, at=place.at)
    told = told._replace(reading=refused_by - began + time.thread_time() - mended_by)
    return _placed(told, mended, given.address) if reading.is_placed else told


def _placed(told: Found, mended: Mended, base: str) -> Found:
    """The same with the places of the triples' and items' elements in the original."""
    from rdfax.mending import places_comment
    from rdfax.tracing import place_items, places_of_quads

    began = time.thread_time()
    if told.quads:
        told = told._replace(places=places_comment(places_of_quads(mended, base)))
    if told.items:
        found = json.loads(told.items)
        place_items(mended, found["items"])
        told = told._replace(items=json.dumps(found, ensure_ascii=False, separators=(",", ":")).encode())
    return told._replace(placing=time.thread_time() - began)
