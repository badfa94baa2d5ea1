"""The elements of a page that the library reads, each with its place: docs/GRAMMAR.md, for pages without a fault.

It looks for no faults: of a page that is refused it tells anything.
"""

from __future__ import annotations

import re
from collections.abc import Iterator
from html.entities import name2codepoint
from typing import NamedTuple

__all__ = ["WHITE_SPACE", "Attribute", "Ended", "Event", "Span", "Tag", "ascii_lowered", "read"]

WHITE_SPACE = "\t\n\f\r "
_SPACE = rb"[\t\n\f\r ]"
_START = re.compile(rb"<([^\t\n\f\r />]+)")
_ATTRIBUTE = re.compile(
    rb"[\t\n\f\r /]*([^\t\n\f\r />=\"'<]+)(?:" + _SPACE + rb"*=" + _SPACE + rb"*(?:\"([^\"]*)\"|'([^']*)'|([^\t\n\f\r >\"'][^\t\n\f\r >]*)))?"
)
_TAG_END = re.compile(rb"([\t\n\f\r /]*)>")
_END_TAG = re.compile(rb"</([^\t\n\f\r >]+)" + _SPACE + rb"*>")
_COMMENT = re.compile(rb"<!--(?:-?>|.*?--!?>)", re.DOTALL)
_SECTION = re.compile(rb"<!\[CDATA\[(.*?)\]\]>", re.DOTALL)
_DECLARATION = re.compile(rb"<!.*?>", re.DOTALL)
_QUESTION = {"html": re.compile(rb"<\?.*?>", re.DOTALL), "xhtml": re.compile(rb"<\?.*?\?>", re.DOTALL)}
_REFERENCE = re.compile(r"&(?:#([0-9]+)|#[xX]([0-9a-fA-F]+)|([A-Za-z][A-Za-z0-9]*));")
_LINE_FEED = re.compile(rb"\r\n|\r|\n|&#0*10;|&#[xX]0*[aA];")
_BYTE_ORDER_MARK = b"\xef\xbb\xbf"

_NAMED = {**{name: chr(number) for name, number in name2codepoint.items()}, "apos": "'", "lang": "\u27e8", "rang": "\u27e9"}
_LETTERS = {ord(letter): letter.lower() for letter in "ABCDEFGHIJKLMNOPQRSTUVWXYZ"}

_VOID = frozenset(b"area base br col embed hr img input link meta param source track wbr".split())
_RAW = frozenset(b"script style iframe noembed noframes xmp".split())
_RCDATA = frozenset(b"title textarea".split())
_DROPPING = frozenset(b"pre textarea listing".split())
_HTML_IN_SVG = frozenset(b"foreignobject desc title".split())
_HOLDING = frozenset(b"a audio del ins map noscript video".split())
_PARTS = frozenset(b"thead tbody tfoot".split())
_PARAGRAPH_ENDERS = frozenset(
    b"address article aside blockquote dd details div dl dt fieldset figcaption figure footer form h1 h2 h3 h4 h5 h6 header hgroup hr li main menu nav "
    b"ol p pre section table tbody td tfoot th thead tr ul".split()
)
# Of each element whose end tag may be omitted the start tags that end it.
_ENDERS = {
    b"li": frozenset([b"li"]),
    b"dt": frozenset([b"dt", b"dd"]),
    b"dd": frozenset([b"dt", b"dd"]),
    b"p": _PARAGRAPH_ENDERS,
    b"option": frozenset([b"option", b"optgroup", b"hr"]),
    **dict.fromkeys(_PARTS, _PARTS),
    b"tr": _PARTS | {b"tr"},
    b"td": _PARTS | {b"td", b"th", b"tr"},
    b"th": _PARTS | {b"td", b"th", b"tr"},
}

Span = tuple[int, int]


class Attribute(NamedTuple):
    """An attribute: its value, and the bytes in which it is written."""

    value: str
    span: Span


class Tag(NamedTuple):
    """The start tag of an element: its name, its attributes in order, and the bytes in which it is written."""

    name: str
    attributes: dict[str, Attribute]
    span: Span


class Ended(NamedTuple):
    """An element ends at this byte."""

    at: int


Event = Tag | str | Ended


class _Open(NamedTuple):
    """An element that is open: what its inside is read as, and what may end it."""

    name: bytes
    content: str
    in_svg: bool
    enders: frozenset[bytes] | None
    hides: bool


_OUTSIDE = _Open(b"", "outside", False, None, False)


def ascii_lowered(text: str) -> str:
    """The text with A to Z in lower case."""
    return text.translate(_LETTERS)


def _character(found: re.Match[str], html: bool) -> str:
    decimal, hexadecimal, name = found.groups()
    if name is not None:
        return _NAMED.get(name, found[0])
    number = int(decimal or hexadecimal, 10 if decimal else 16)
    if html and 0x80 <= number <= 0x9F:
        return bytes([number]).decode("cp1252", "ignore") or chr(number)
    return chr(number)


class _Reader:
    """Reads a page's bytes from left to right."""

    def __init__(self, page: bytes, syntax: str) -> None:
        self._page, self._html, self._question = page, syntax == "html", _QUESTION[syntax]
        self._at = len(_BYTE_ORDER_MARK) if page.startswith(_BYTE_ORDER_MARK) else 0
        self._open = [_OUTSIDE]
        self._hidden = 0

    def events(self) -> Iterator[Event]:
        """Start tags, texts and ends, in order; nothing of what a template hides."""
        while self._at < len(self._page):
            inner = self._open[-1]
            if inner.content in ("raw", "rcdata"):
                yield from self._raw_text(inner)
                continue
            less = self._page.find(b"<", self._at)
            end = len(self._page) if less == -1 else less
            if end > self._at:
                yield from self._text(self._page[self._at : end])
                self._at = end
            if less != -1:
                yield from self._markup()

    def _decoded(self, source: bytes) -> str:
        return source.decode("utf-8", "replace").replace("\r\n", "\n").replace("\r", "\n")

    def _expanded(self, text: str) -> str:
        return _REFERENCE.sub(lambda found: _character(found, self._html), text) if "&" in text else text

    def _text(self, source: bytes, references: bool = True) -> Iterator[str]:
        if not self._hidden and self._open[-1].content != "outside":
            text = self._decoded(source)
            yield self._expanded(text) if references else text

    def _markup(self) -> Iterator[Event]:
        """What stands at a `<`."""
        following = self._page[self._at + 1 : self._at + 2]
        if following == b"!":
            yield from self._declaration()
        elif following == b"?":
            self._skip(self._question)
        elif following == b"/":
            yield from self._end_tag()
        elif following.isalpha() or not self._html:
            yield from self._start_tag()
        else:
            yield from self._text(b"<")
            self._at += 1

    def _skip(self, pattern: re.Pattern[bytes]) -> None:
        found = pattern.match(self._page, self._at)
        self._at = found.end() if found else len(self._page)

    def _declaration(self) -> Iterator[str]:
        if self._page.startswith(b"<!--", self._at):
            self._skip(_COMMENT)
        elif self._open[-1].content in ("foreign", "strict") and (found := _SECTION.match(self._page, self._at)):
            self._at = found.end()
            yield from self._text(found[1], references=False)
        else:
            self._skip(_DECLARATION)

    def _raw_text(self, inner: _Open) -> Iterator[Event]:
        """The text of a raw element, and its end tag."""
        found = re.compile(rb"</" + inner.name + rb"(?=[\t\n\f\r />])", re.IGNORECASE).search(self._page, self._at)
        end = found.start() if found else len(self._page)
        if end > self._at:
            yield from self._text(self._page[self._at : end], references=inner.content == "rcdata")
        self._at = end
        if found:
            yield from self._end_tag()

    def _end_tag(self) -> Iterator[Event]:
        found = _END_TAG.match(self._page, self._at)
        if not found:
            self._at = len(self._page)
            return
        name = found[1].lower() if self._html else found[1]
        while len(self._open) > 1 and self._open[-1].name != name and self._ends_with_parent():
            yield from self._ended(self._at)
        self._at = found.end()
        if len(self._open) > 1:
            yield from self._ended(self._at)

    def _ends_with_parent(self) -> bool:
        inner, parent = self._open[-1], self._open[-2].name
        return inner.enders is not None and not (inner.name == b"p" and (parent in _HOLDING or b"-" in parent))

    def _ended(self, at: int) -> Iterator[Ended]:
        closed = self._open.pop()
        self._hidden -= closed.hides
        if not self._hidden:
            yield Ended(at)

    def _start_tag(self) -> Iterator[Event]:
        begin = self._at
        name, attributes, slash = self._read_tag()
        while self._open[-1].content == "html" and name in (self._open[-1].enders or ()):
            yield from self._ended(begin)
        place = self._open[-1]
        if not self._hidden:
            yield Tag(name.decode("utf-8", "replace"), attributes, (begin, self._at))
        if self._is_alone(place, name, slash):
            if not self._hidden:
                yield Ended(self._at)
            return
        opened = self._inside(place, name)
        self._open.append(opened)
        self._hidden += opened.hides
        if place.content == "html" and name in _DROPPING and (found := _LINE_FEED.match(self._page, self._at)):
            self._at = found.end()

    def _read_tag(self) -> tuple[bytes, dict[str, Attribute], bool]:
        """The name, the attributes and whether the tag ends in `/>`; it goes behind the tag."""
        page, attributes = self._page, dict[str, Attribute]()
        found = _START.match(page, self._at)
        name, at = (found[1], found.end()) if found else (b"", self._at + 1)
        while one := _ATTRIBUTE.match(page, at):
            key = one[1].decode("utf-8", "replace")
            key = ascii_lowered(key) if self._html else key
            if key not in attributes:
                attributes[key] = Attribute(self._value(one[2] or one[3] or one[4] or b""), (one.start(1), one.end()))
            at = one.end()
        end = _TAG_END.match(page, at)
        self._at = end.end() if end else len(page)
        return name.lower() if self._html else name, attributes, bool(end and end[1].endswith(b"/"))

    def _value(self, source: bytes) -> str:
        text = self._decoded(source)
        return self._expanded(text if self._html else text.replace("\t", " ").replace("\n", " "))

    def _is_alone(self, place: _Open, name: bytes, slash: bool) -> bool:
        if not self._html or place.content == "foreign":
            return slash
        return name in _VOID or (slash and name in (b"svg", b"math"))

    def _inside(self, place: _Open, name: bytes) -> _Open:
        if not self._html:
            return _Open(name, "strict", False, None, name == b"template")
        if place.content == "foreign":
            content = "html" if place.in_svg and name in _HTML_IN_SVG else "foreign"
            return _Open(name, content, place.in_svg and content == "foreign", None, False)
        content = "foreign" if name in (b"svg", b"math") else "raw" if name in _RAW else "rcdata" if name in _RCDATA else "html"
        return _Open(name, content, name == b"svg", _ENDERS.get(name) if place.content == "html" else None, name == b"template")


def read(page: bytes, syntax: str = "html") -> Iterator[Event]:
    """The start tags, texts and ends of a page that has no fault.

    >>> for event in read(b"<html><p lang=en>Such<br></html>"):
    ...     print(event)
    Tag(name='html', attributes={}, span=(0, 6))
    Tag(name='p', attributes={'lang': Attribute(value='en', span=(9, 16))}, span=(6, 17))
    Such
    Tag(name='br', attributes={}, span=(21, 25))
    Ended(at=25)
    Ended(at=25)
    Ended(at=32)
    """
    return _Reader(page, syntax).events()
