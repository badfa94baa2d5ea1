"""rdfax for rdflib: `Graph().parse("page.html", format="rdfax", publicID="http://h.example/d")`.

rdflib finds `Parser` by the entry point `rdfax`, and `rdfa_parser` by the entry point `rdfa`.

>>> from rdflib import Graph
>>> page = '<html><body about="/anvil"><p property="schema:name">Anvil</p></body></html>'
>>> for triple in Graph().parse(data=page, format="rdfax", publicID="http://h.example/d"):
...     print(*triple)
http://h.example/anvil http://schema.org/name Anvil
"""

from __future__ import annotations

import importlib.metadata
from collections.abc import Iterator
from typing import Any

import rdflib
import rdflib.exceptions
import rdflib.graph
import rdflib.parser
import rdflib.term

from rdfax._library import BLANK, IRI
from rdfax.errors import Refused, Usage
from rdfax.kinds import KINDS
from rdfax.pages import Page, Source, Syntax, to_bytes
from rdfax.places import to_line

__all__ = ["PageRefused", "Parser", "rdfa_parser"]

_GROUP = "rdf.plugins.parser"
_XHTML = "application/xhtml+xml"


class PageRefused(Refused, rdflib.exceptions.ParserError):
    """The page that rdflib was to parse is refused: `Refused`, with its address, line and column.

    >>> print(PageRefused("Mismatch", 20, 17, "http://h.example/d", 2, 11, "</b>"))
    http://h.example/d:2:11: Mismatch: </b> ends nothing that is open
    """

    def __init__(self, kind: str, at: int, token: int, address: str, line: int, column: int, source: str) -> None:
        super().__init__(kind, at, token)
        self.args = (kind, at, token, address, line, column, source)
        self.address, self.line, self.column, self.source = address, line, column, source
        self.msg = str(self)

    def __str__(self) -> str:
        return f"{self.address}:{self.line}:{self.column}: {self.kind}: {KINDS[self.kind].told(self.source)}"


class Parser(rdflib.parser.Parser):
    """rdflib's parser of pages.

    The triples go to the graph that parses. Where a dataset parses they go to the graph that has the page's address as
    its name.
    """

    def parse(
        self,
        source: rdflib.parser.InputSource,
        sink: rdflib.Graph,
        *,
        syntax: Syntax | None = None,
        context: Source | None = None,
    ) -> None:
        """Adds the page's triples to the graph; those of a page that is refused aren't added at all.

        `syntax` is XHTML where a response said that it is application/xhtml+xml, and else HTML. `context` is the content
        of a context file.
        """
        page, address = _content(source), _address(source)
        graph, chosen = _graph_of(sink, address), syntax or ("xhtml" if source.content_type == _XHTML else "html")
        with Page("quads", address, syntax=chosen, context=context) as opened:
            try:
                opened.feed(page)
                opened.finish()
            except Refused as refused:
                raise PageRefused(refused.kind, refused.at, refused.token, address, *to_line(page, refused)) from None
            graph.addN((*terms[:3], graph) for terms in opened.terms(_Terms().make))


def _content(source: rdflib.parser.InputSource) -> bytes:
    """The page, from a stream of bytes, or of text where there is none."""
    stream = source.getByteStream() or source.getCharacterStream()
    content: Source = stream.read()
    return to_bytes(content)


def _address(source: rdflib.parser.InputSource) -> str:
    address = source.getPublicId() or source.getSystemId()
    if not address:
        raise Usage("a page needs its address: publicID")
    return str(address)


def _graph_of(sink: rdflib.Graph, address: str) -> rdflib.Graph:
    """The graph that parses; or, of a dataset whose default graph parses, the graph of the page's name."""
    if sink.identifier != rdflib.graph.DATASET_DEFAULT_GRAPH_ID:
        return sink
    return rdflib.Graph(store=sink.store, identifier=rdflib.URIRef(address))


class _Terms:
    """Makes rdflib's terms of one page. Its blank nodes are its own, and an IRI that comes again is the same object."""

    def __init__(self) -> None:
        self._nodes: dict[bytes, rdflib.BNode] = {}
        self._iris: dict[bytes, rdflib.URIRef] = {}

    def make(self, kind: int, text: bytes, language: bytes, datatype: bytes) -> rdflib.term.Node:
        if kind == IRI:
            return self._iris.get(text) or self._iri(text)
        if kind == BLANK:
            return self._nodes.get(text) or self._nodes.setdefault(text, rdflib.BNode())
        return rdflib.Literal(text.decode(), lang=language.decode() or None, datatype=self._iri(datatype) if datatype else None)

    def _iri(self, text: bytes) -> rdflib.URIRef:
        return self._iris.setdefault(text, rdflib.URIRef(text.decode()))


def _others(name: str) -> Iterator[importlib.metadata.EntryPoint]:
    """The parsers of this name that come with another distribution."""
    for found in importlib.metadata.entry_points(group=_GROUP, name=name):
        if found.module != __name__:
            yield found


def rdfa_parser() -> Any:
    """rdflib's parser for the format `rdfa`: that of another distribution, if there is one, and else this one.

    rdflib takes one of all entry points with a name, and which one depends on the order in which it finds them.
    """
    other = next(_others("rdfa"), None)
    return Parser() if other is None else other.load()()
