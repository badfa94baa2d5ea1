"""Pages as they are found, made pages of the grammar: `mend`, over the shared object of the C library `rdfax_mend`.

A mended page has the tree that a browser builds of the original, but for what no page can spell (docs/MENDING.md). What
rdfax says of it is proved of the mended page, and not of the original; so nothing is mended that isn't said to be.
"""

from __future__ import annotations

import ctypes
import functools
import json
import os
import typing
from array import array
from bisect import bisect_right
from collections.abc import Callable, Iterator
from pathlib import Path
from typing import Any, NamedTuple

from rdfax._library import LibraryMissing
from rdfax.errors import Error, Refused, Usage
from rdfax.pages import SYNTAXES, Format, Mend, Source, Syntax, check, extract, items_text, quads, to_bytes
from rdfax.terms import Quad

__all__ = ["Mended", "MendedQuads", "MendedText", "NotMended", "checked", "extracted", "items_told", "mend", "places_comment", "quads_told"]

SONAME = "librdfax_mend.so.0"

_DONE, _REFUSED, _USAGE, _NO_MEMORY = 0, 1, 2, 5
_CHANGES = ("characters", "token_errors", "tree_errors", "implied", "comments", "templates", "attributes", "names", "spans", "raw", "doctypes")

# Faults that no mending takes away, since they aren't faults of form: mended, the page has them too.
_OF_MEANING = frozenset(("RelativeVocab", "XmlLiteral", "HtmlLiteral", "Cycle", "ItemsTooNested", "ItemsTooMany"))


class _Options(ctypes.Structure):
    """`rdfax_mend_options`."""

    _fields_ = [("charset", ctypes.c_char_p), ("syntax", ctypes.c_uint32), ("memory", ctypes.c_size_t)]


class _Place(ctypes.Structure):
    """`rdfax_mend_place`."""

    _fields_ = [("mended", ctypes.c_size_t), ("original", ctypes.c_size_t)]


class _Mended(ctypes.Structure):
    """`rdfax_mended`."""

    _fields_ = [
        ("page", ctypes.c_void_p),
        ("length", ctypes.c_size_t),
        ("charset", ctypes.c_char_p),
        ("found", ctypes.c_uint32),
        ("refusal", ctypes.c_uint32),
        ("changes", ctypes.c_uint64 * len(_CHANGES)),
        ("places", ctypes.c_void_p),
        ("place_count", ctypes.c_size_t),
    ]


class NotMended(Error):
    """The page passes a limit of the mender, of which `kind` is the name (docs/MENDING.md)."""

    def __init__(self, kind: str) -> None:
        super().__init__(kind)
        self.kind = kind

    def __str__(self) -> str:
        return f"not mended: {self.kind}"


class Mended(NamedTuple):
    """A mended page: its bytes in UTF-8, its syntax, and what was done to it.

    `changes` counts what was changed, by kind; kinds of which nothing was changed are left out. `charset` is the name of
    the encoding in which the original was read, `found` how it was found: `bom`, `caller`, `declaration`, `validity` (all
    of the page is UTF-8), or `default` (windows-1252).
    """

    page: bytes
    syntax: Syntax
    changes: dict[str, int]
    charset: str
    found: str
    starts: array[int]
    """Where the start tags of the mended page begin, in order."""
    origins: array[int]
    """Where the original has the tokens that made their elements."""

    def original(self, place: int) -> int:
        """The place in the original of the last start tag that begins at or before a place of the mended page.

        It is the first byte of the token that made the element: its own start tag, or what implied it.
        """
        last = bisect_right(self.starts, place)
        return self.origins[last - 1] if last else 0

    def told(self) -> dict[str, Any]:
        """What was done to the page, as JSON has it."""
        return {"changes": self.changes, "charset": self.charset, "found": self.found}

    def refused(self, refused: Refused) -> Refused:
        """A refusal of the mended page, with its places in the original."""
        return Refused(refused.kind, self.original(refused.at), self.original(refused.token))

    def __str__(self) -> str:
        counts = ", ".join(f"{kind} {count}" for kind, count in self.changes.items())
        return f"mended: charset {self.charset} by {self.found}{'; ' if counts else ''}{counts}"


class MendedText(str):
    """A text of a page that was mended, as `mended` tells."""

    mended: Mended


class MendedQuads(Iterator[Quad]):
    """The quads of a page that was mended, as `mended` tells."""

    def __init__(self, found: Iterator[Quad], mended: Mended, places: Callable[[], list[int] | None]) -> None:
        self._found, self._places = found, places
        self.mended = mended

    def __next__(self) -> Quad:
        return next(self._found)

    @functools.cached_property
    def places(self) -> list[int] | None:
        """Of each quad the place in the original of the element that said it: the first byte of the token that made that.

        It is found when it is asked for, by a second reading (docs/MENDING.md). None where it can't be told.
        """
        return self._places()


def _candidates() -> list[str]:
    named = os.environ.get("RDFAX_MEND_LIBRARY")
    if named:
        return [named]
    beside = Path(__file__).resolve().parent / SONAME
    return [str(beside), SONAME] if beside.exists() else [SONAME]


@functools.cache
def _library() -> Any:
    """The shared object: the one that RDFAX_MEND_LIBRARY names, else the one beside this package, else the system's."""
    said = []
    for name in _candidates():
        try:
            opened = ctypes.CDLL(name)
        except OSError as error:
            said.append(str(error))
            continue
        opened.rdfax_mend.argtypes = [ctypes.c_char_p, ctypes.c_size_t, ctypes.POINTER(_Options), ctypes.POINTER(_Mended)]
        opened.rdfax_mend.restype = ctypes.c_uint32
        opened.rdfax_mended_free.argtypes, opened.rdfax_mended_free.restype = [ctypes.POINTER(_Mended)], None
        for name_of in (opened.rdfax_mend_found_name, opened.rdfax_mend_refusal_name):
            name_of.argtypes, name_of.restype = [ctypes.c_uint32], ctypes.c_char_p
        return opened
    raise LibraryMissing(f"the mender's shared object isn't there ({'; '.join(said)}); RDFAX_MEND_LIBRARY may name it")


def _text(name: bytes) -> str:
    return name.decode("ascii")


def _taken(made: _Mended, syntax: Syntax) -> Mended:
    changes = {kind: int(count) for kind, count in zip(_CHANGES, made.changes, strict=True) if count}
    found = _text(_library().rdfax_mend_found_name(made.found))
    # pairs of offsets, which are of eight bytes as far as this library goes
    places = array("Q", ctypes.string_at(made.places, made.place_count * ctypes.sizeof(_Place)))
    return Mended(ctypes.string_at(made.page, made.length), syntax, changes, _text(made.charset), found, places[::2], places[1::2])


def mend(page: Source, charset: str | None = None, syntax: Syntax = "html") -> Mended:
    """The page as one of the grammar, with the tree that a browser builds of it.

    `charset` is the label that came with the page, as in the Content-Type of a response; one that names no encoding
    counts as none. `syntax` is that of the mended page. A page that passes a limit is `NotMended`.

    >>> mended = mend("<p>Anvil<p>Hammer")
    >>> mended.page
    b'<html><head></head><body><p>Anvil</p><p>Hammer</p></body></html>'
    >>> print(mended, mended.original(mended.page.index(b"<p>Hammer")), sep="; at ")
    mended: charset UTF-8 by caller; tree_errors 1, implied 3; at 8
    """
    if syntax not in SYNTAXES:
        raise Usage(f"the syntax {syntax!r} is none of {', '.join(SYNTAXES)}")
    if isinstance(page, str):
        charset = "utf-8"
    held, made = to_bytes(page), _Mended()
    options = _Options(charset.encode("utf-8") if charset else None, SYNTAXES.index(syntax), 0)
    status = _library().rdfax_mend(held, len(held), options, made)
    try:
        if status == _NO_MEMORY:
            raise MemoryError("rdfax: there was no memory")
        if status == _REFUSED:
            raise NotMended(_text(_library().rdfax_mend_refusal_name(made.refusal)))
        return _taken(made, syntax)
    finally:
        _library().rdfax_mended_free(made)


def _read(read: Callable[[Source], Any], page: Source, mend_when: Mend, charset: str | None, syntax: Syntax) -> tuple[Any, Mended | None]:
    """What a call makes of the page, or of the mended page; and that, where it was mended."""
    if mend_when != "always":
        try:
            return read(page), None
        except Refused as refused:
            if not mend_when or refused.kind in _OF_MEANING:
                raise
    mended = mend(page, charset, syntax)
    try:
        return read(mended.page), mended
    except Refused as refused:
        raise mended.refused(refused) from None


def extracted(page: Source, base: str, mend: Mend, *, charset: str | None = None, syntax: Syntax = "html", format: Format = "nquads", **options: Any) -> str:
    """`rdfax.extract` with mending: the text of a page that was mended begins with a comment that says so, but for JSON-LD.

    In any format it is a `MendedText`. N-Quads have a second comment, with the place in the original of each line's element.
    """

    def read(source: Source) -> str:
        return extract(source, base, syntax=syntax, format=format, **options)

    text, mended = _read(read, page, mend, charset, syntax)
    if mended is None:
        return str(text)
    places = _quad_places(mended, base, options) if format == "nquads" else None
    told = MendedText(text if format == "jsonld" else f"# {mended}\n{places_comment(places)}{text}")
    told.mended = mended
    return told


def _quad_places(mended: Mended, base: str, options: dict[str, Any]) -> list[int] | None:
    from rdfax.tracing import places_of_quads

    return places_of_quads(mended, base, context=options.get("context"))


def places_comment(places: list[int] | None) -> str:
    """The comment of N-Quads that tells the place of each line's element, where that is known."""
    return f"# places: {' '.join(map(str, places))}\n" if places else ""


def quads_told(page: Source, base: str, mend: Mend, *, charset: str | None = None, syntax: Syntax = "html", **options: Any) -> Iterator[Quad]:
    """`rdfax.quads` with mending: the quads of a page that was mended are a `MendedQuads`."""
    found, mended = _read(lambda source: quads(source, base, syntax=syntax, **options), page, mend, charset, syntax)
    if mended is None:
        return typing.cast("Iterator[Quad]", found)
    return MendedQuads(found, mended, functools.partial(_quad_places, mended, base, options))


def items_told(page: Source, base: str, mend: Mend, *, charset: str | None = None, syntax: Syntax = "html") -> str:
    """`rdfax.items_text` with mending: the object of a page that was mended has a member `mended` more, and each item a
    member `place`: the first byte of the token in the original that made its element."""
    from rdfax.tracing import place_items

    text, mended = _read(lambda source: items_text(source, base, syntax=syntax), page, mend, charset, syntax)
    if mended is None:
        return str(text)
    object_told = json.loads(text)
    place_items(mended, object_told["items"])
    told = MendedText(json.dumps({**object_told, "mended": mended.told()}, ensure_ascii=False, separators=(",", ":")) + "\n")
    told.mended = mended
    return told


def checked(page: Source, mend: Mend, *, charset: str | None = None, syntax: Syntax = "html", **options: Any) -> Mended | None:
    """`rdfax.check` with mending: the mended page, where it was mended."""
    return _read(lambda source: check(source, syntax=syntax, **options), page, mend, charset, syntax)[1]
