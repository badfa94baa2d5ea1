"""What is told of a page: its triples, texts, items and drawing, or why it is refused; and where its triples come from.

Each function answers what `json.dumps` takes.
"""

from __future__ import annotations

import functools
import importlib
import itertools
import json
import time
import typing
from collections.abc import Callable, Iterable
from typing import Any

from rdfax import pages
from rdfax.errors import Refused, Usage
from rdfax.kinds import KINDS
from rdfax.places import printable, to_line
from rdfax.serving import item_elements, origins
from rdfax.serving.drawing import drawing
from rdfax.serving.item_elements import Item
from rdfax.serving.markup import Span
from rdfax.serving.names import STANDARD, Name
from rdfax.serving.positions import positions
from rdfax.serving.triples import How, Origin
from rdfax.terms import Iri, Literal, Object

if typing.TYPE_CHECKING:
    from rdfax.mending import Mended

__all__ = ["PLACED_BYTES", "VIEWS", "mended", "places", "read", "text", "whole"]

# More triples, and longer texts, aren't shown.
SHOWN_TRIPLES = 5_000
SHOWN_TEXT = 1_000_000
# Of a longer page no places are told: the second reading would take too long.
PLACED_BYTES = 1_000_000
_DRAWN_TRIPLES = 300
# Of a longer token the begin is marked.
_LONGEST_TOKEN = 10_000

Told = dict[str, Any]


def _term(term: Object) -> Told:
    if isinstance(term, Literal):
        return {"text": term.text, "language": term.language, "datatype": term.datatype}
    return {"iri": term} if isinstance(term, Iri) else {"blank": term}


def _triples(page: bytes, base: str, syntax: pages.Syntax, most: int) -> Told:
    """The first triples, as many as are asked for, and how many may be; how many there are in all."""
    with pages.Page("quads", base, syntax=syntax) as opened:
        _feed(opened, page)
        count = opened.count
        told = [[_term(quad.subject), _term(quad.predicate), _term(quad.object)] for quad in itertools.islice(opened.quads(), min(max(most, 0), SHOWN_TRIPLES))]
    return {"triples": told, "shown": min(count, SHOWN_TRIPLES), "count": count, "prefixes": STANDARD.prefixes}


def _feed(opened: pages.Page, page: bytes) -> None:
    opened.feed(page)
    opened.finish()


def _graph(page: bytes, base: str, syntax: pages.Syntax) -> Told:
    quads = list(pages.quads(page, base, syntax=syntax))
    return {**drawing(quads[:_DRAWN_TRIPLES]), "count": len(quads), "drawn": min(len(quads), _DRAWN_TRIPLES)}


def _items(page: bytes, base: str, syntax: pages.Syntax) -> Told:
    return pages.items(page, base, syntax=syntax)


def _text_view(form: pages.Format) -> Callable[[bytes, str, pages.Syntax], Told]:
    def view(page: bytes, base: str, syntax: pages.Syntax) -> Told:
        written = pages.extract(page, base, syntax=syntax, format=form)
        if form == "jsonld" and len(written) <= SHOWN_TEXT:
            written = json.dumps(json.loads(written), indent=2, ensure_ascii=False)
        return {"text": written[:SHOWN_TEXT], "characters": len(written)}

    return view


VIEWS: dict[str, Callable[[bytes, str, pages.Syntax], Told]] = {
    "triples": functools.partial(_triples, most=SHOWN_TRIPLES),
    **{form: _text_view(form) for form in pages.FORMATS},
    "items": _items,
    "graph": _graph,
}


def read(page: bytes, base: str, syntax: pages.Syntax, view: str, most: int | None = None) -> Told:
    """One view of the page, of triples the first ones; or why the page is refused, or the base is none."""
    started = time.perf_counter()
    try:
        told = VIEWS[view](page, base, syntax) if view != "triples" or most is None else _triples(page, base, syntax, most)
    except Refused as refused:
        told = {"refused": _refusal(page, refused)}
    except Usage as usage:
        told = {"wrong": str(usage)}
    return {**told, "bytes": len(page), "milliseconds": _since(started)}


def _since(started: float) -> float:
    return round(1000 * (time.perf_counter() - started), 1)


def _refusal(page: bytes, refused: Refused) -> Told:
    place, kind = to_line(page, refused), KINDS[refused.kind]
    start, end = positions(page, [refused.token, refused.at + 1])
    return {
        "kind": kind.name,
        "at": refused.at,
        "token": refused.token,
        "line": place.line,
        "column": place.column,
        "told": printable(kind.told(place.source)),
        "wrong": kind.wrong,
        "mended": kind.mended,
        "start": start,
        "end": end,
    }


def text(page: bytes, base: str, syntax: pages.Syntax, view: str) -> bytes:
    """The whole text of a view, as the library writes it, for a file."""
    if view == "items":
        return pages.items_text(page, base, syntax=syntax).encode()
    form: pages.Format = next((form for form in pages.FORMATS if form == view), "nquads")
    return pages.extract(page, base, syntax=syntax, format=form).encode()


def places(page: bytes, base: str, syntax: pages.Syntax) -> Told:
    """Where each triple that is shown and each item comes from, and how many elements and levels the page has."""
    if len(page) > PLACED_BYTES:
        return {"none": f"The page has more than {PLACED_BYTES:,} bytes: no places are told."}
    try:
        quads = list(pages.quads(page, base, syntax=syntax))
    except (Refused, Usage):
        return {"none": "The page is refused: it has no triples."}
    started = time.perf_counter()
    spans, found = _Spans(page), origins.find(page, base, syntax=syntax)
    items = _placed_items(page, base, syntax, spans)
    told: Told = {"elements": found.elements, "depth": found.depth, "milliseconds": _since(started), "items": items}
    agreed = origins.places_of(found, quads)
    if agreed is None:
        none = "The second reading, which tells places, gives other triples than the library. The library's are shown, without places."
        return {**told, "none": none, **spans.told([])}
    return {**told, **spans.told(agreed[:SHOWN_TRIPLES])}


def _placed_items(page: bytes, base: str, syntax: pages.Syntax, spans: _Spans) -> list[Told] | None:
    """The places of the items, where the second reading of them agrees with the library's."""
    try:
        items = pages.items(page, base, syntax=syntax)["items"]
    except Refused:
        return None
    found = item_elements.find(page, syntax)
    return [spans.item(item) for item in found] if item_elements.agrees(found, items) else None


class _Spans:
    """Tells origins, with a table of the places that they name."""

    def __init__(self, page: bytes) -> None:
        self._page, self._numbers = page, dict[Span, int]()

    def _number(self, span: Span | None) -> int | None:
        return None if span is None else self._numbers.setdefault(span, len(self._numbers))

    def _name(self, name: Name | None) -> Told | None:
        if name is None or not name.by:
            return None
        declared = name.declared
        return {
            "by": name.by,
            "word": name.word,
            "iri": None if declared is None else declared.iri,
            "declared": None if declared is None else self._number(declared.span),
        }

    def _how(self, how: How | None) -> Told | None:
        return None if how is None else {"says": how.says, "span": self._number(how.span), "name": self._name(how.name)}

    def _origin(self, origin: Origin) -> Told:
        return {
            "element": origin.element,
            "span": self._number(origin.span),
            "terms": [self._how(how) for how in (origin.subject, origin.predicate, origin.object, origin.datatype)],
            "copied": None if origin.copied is None else self._number(origin.copied.span),
        }

    def item(self, item: Item) -> Told:
        """An item's place, and those of the items among its properties' values."""
        inner = {name: [None if value is None else self.item(value) for value in values] for name, values in item.properties.items()}
        return {"span": self._number(item.span), "properties": inner}

    def told(self, agreed: Iterable[Origin]) -> Told:
        """The origins, and each place as first byte, byte behind it, line and character of both."""
        rows = [self._origin(origin) for origin in agreed]
        spans = list(self._numbers)
        ends = [end for span in spans for end in span]
        told = positions(self._page, ends)
        return {"origins": rows, "spans": [[*span, *told[2 * number], *told[2 * number + 1]] for number, span in enumerate(spans)]}


def mended(page: bytes, charset: str | None, syntax: pages.Syntax) -> Told:
    """The page as a browser's reading has it, where the mender is there."""
    try:
        mend = importlib.import_module("rdfax.mending").mend
        made = mend(page, charset) if syntax == "html" else mend(page, charset, syntax)
    except ImportError:
        return {"none": "The mender isn't there: this rdfax was built without it."}
    except ValueError as error:
        return {"none": f"The page isn't mended: {error}"}
    changes = {kind.replace("_", " "): count for kind, count in made.changes.items()}
    return {"page": bytes(made.page).decode("utf-8", "replace"), "charset": made.charset, "changes": changes, "places": _originals(page, made)}


def _originals(page: bytes, made: Mended) -> list[list[int]]:
    """Of each start tag of a mended page its first byte, and the place in the original of the token that made its element:
    line and character of its begin and of its end."""
    if len(page) > PLACED_BYTES:
        return []
    ends = [page.find(b">", origin, origin + _LONGEST_TOKEN) + 1 or origin + 1 for origin in made.origins]
    told = positions(page, [*made.origins, *ends])
    return [[start, *told[number], *told[len(ends) + number]] for number, start in enumerate(made.starts)]


def whole(page: bytes, base: str, syntax: pages.Syntax) -> Told:
    """All views of a page and the places of its triples, for a report."""
    return {"views": {view: read(page, base, syntax, view) for view in VIEWS}, "places": places(page, base, syntax)}
