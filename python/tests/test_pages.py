"""Pages, whole and in pieces: the worked rows, and what is no page, no task or no option."""

from __future__ import annotations

import copy
import ctypes
import json
import pickle
from typing import Any

import pytest
import rdflib
from rows import Row, rows

import rdfax
from rdfax import _library, pages

BASE = "http://h.example/d"
ANVIL = '<html><body about="/anvil"><p property="schema:name">Anvil</p></body></html>'
ERRORS = {1: rdfax.Refused, 2: rdfax.Usage, 6: rdfax.BadContext}
PIECES = (1, 7, 1 << 16)


def _name(row: Row) -> str:
    return f"{row.task}: {row.name}"


def _text(row: Row, length: int) -> bytes:
    """What comes of the row's page in pieces of this length."""
    with rdfax.Page(row.task, **row.words) as page:  # type: ignore[call-overload]
        for start in range(0, len(row.page), length):
            page.feed(row.page[start : start + length])
        return page.finish()


@pytest.mark.parametrize("row", rows("extract", "items", "check"), ids=_name)
def test_a_page_in_pieces_gives_what_the_command_gives(row: Row) -> None:
    for length in PIECES if len(row.page) < 4000 else PIECES[-1:]:
        if row.status == 0:
            assert _text(row, length).decode() == row.written
            continue
        with pytest.raises(ERRORS[row.status]) as caught:
            _text(row, length)
        # (a row in which nothing can be said has no line)
        if row.status == 1 and row.said:
            assert f"{caught.value}\n" == row.said


@pytest.mark.parametrize("row", [row for row in rows("extract", "items", "check") if row.status == 0], ids=_name)
def test_a_whole_page_gives_what_the_command_gives(row: Row) -> None:
    if row.task == "extract":
        assert rdfax.extract(row.page, **row.words) == row.written
    elif row.task == "items":
        assert rdfax.items_text(row.page, **row.words) == row.written
        assert rdfax.items(row.page, **row.words) == json.loads(row.written)
    else:
        rdfax.check(row.page, **row.words)


def _rdflib_term(term: Any, nodes: dict[str, rdflib.BNode]) -> Any:
    """The same term of rdflib, made of the term's named parts."""
    if isinstance(term, rdfax.Literal):
        return rdflib.Literal(term.text, lang=term.language, datatype=term.datatype)
    return nodes.setdefault(term, rdflib.BNode(str(term))) if isinstance(term, rdfax.Blank) else rdflib.URIRef(term)


@pytest.mark.parametrize("row", [row for row in rows("extract") if row.status == 0 and row.words.get("format", "nquads") == "nquads"], ids=_name)
def test_quads_are_what_rdflib_reads_in_the_text(row: Row) -> None:
    read = rdflib.ConjunctiveGraph()
    nodes: dict[str, rdflib.BNode] = {}
    read.get_context(rdflib.URIRef("urn:default")).parse(data=row.written, format="nquads", bnode_context=nodes)
    words = {name: value for name, value in row.words.items() if name != "format"}
    found = list(rdfax.quads(row.page, **words))
    default = rdflib.URIRef("urn:default")
    wanted = {(subject, predicate, value, name.identifier) for subject, predicate, value, name in read.quads()}
    terms = [(*(_rdflib_term(term, nodes) for term in quad[:3]), rdflib.URIRef(quad.graph) if quad.graph else default) for quad in found]
    assert set(terms) == wanted
    assert len(terms) == len(set(terms)) == row.written.count("\n")


def test_a_quad_has_its_terms_in_their_places() -> None:
    page = '<html lang="en"><p property="schema:name">Anvil</p><p property="schema:price" datatype="xsd:decimal">1</p><p rel="schema:offers"><b typeof="schema:Offer"></b></p></html>'
    found = list(rdfax.quads(page, BASE, graph="http://h.example/g"))
    schema, graph = "http://schema.org/", rdfax.Iri("http://h.example/g")
    decimal = rdfax.Iri("http://www.w3.org/2001/XMLSchema#decimal")
    assert found == [
        (BASE, f"{schema}name", rdfax.Literal(text="Anvil", language="en", datatype=None), graph),
        (BASE, f"{schema}price", rdfax.Literal(text="1", language=None, datatype=decimal), graph),
        (rdfax.Blank("b0"), "http://www.w3.org/1999/02/22-rdf-syntax-ns#type", rdfax.Iri(f"{schema}Offer"), graph),
        (BASE, f"{schema}offers", rdfax.Blank("b0"), graph),
    ]
    assert [type(quad.object) for quad in found] == [rdfax.Literal, rdfax.Literal, rdfax.Iri, rdfax.Blank]


@pytest.mark.parametrize("page", [ANVIL, ANVIL.encode(), bytearray(ANVIL.encode()), memoryview(ANVIL.encode()), memoryview(bytearray(ANVIL.encode()))])
def test_a_page_is_a_text_or_whatever_lends_bytes(page: Any) -> None:
    assert rdfax.extract(page, BASE) == '<http://h.example/anvil> <http://schema.org/name> "Anvil" .\n'


@pytest.mark.parametrize("page", [None, 7, [ANVIL], object()])
def test_nothing_else_is_a_page(page: Any) -> None:
    with pytest.raises(TypeError):
        rdfax.check(page)


@pytest.mark.parametrize(
    ("words", "options", "error", "said"),
    [
        (("itmes", BASE), {}, rdfax.Usage, "itmes"),
        (("extract", BASE), {"fromat": "turtle"}, TypeError, "fromat"),
        (("extract", BASE), {"format": "n3"}, rdfax.Usage, "n3"),
        (("extract", BASE), {"syntax": "html4"}, rdfax.Usage, "html4"),
        (("extract", BASE), {"first_node": -1}, rdfax.Usage, "-1"),
        (("extract", BASE), {"first_node": (1 << 64) + 5}, rdfax.Usage, "first_node"),
        (("extract",), {}, TypeError, "base"),
        (("extract", "d"), {}, rdfax.Usage, "'d'"),
        (("extract", ""), {}, rdfax.Usage, "''"),
        (("extract", "http://h.example/\udcff"), {}, rdfax.Usage, "isn't text"),
        (("extract", BASE), {"graph": ""}, rdfax.Usage, "''"),
        (("extract", BASE), {"graph": "g"}, rdfax.Usage, "'g'"),
        (("extract", BASE), {"graph": BASE, "format": "turtle"}, rdfax.Usage, "turtle"),
        (("extract", BASE), {"context": b""}, rdfax.BadContext, "context"),
        (("extract", BASE), {"context": b"[]"}, rdfax.BadContext, "context"),
        (("quads", BASE), {"format": "turtle"}, TypeError, "format"),
        (("items", BASE), {"format": "turtle"}, TypeError, "format"),
        (("items", BASE), {"graph": BASE}, TypeError, "graph"),
        (("items", BASE), {"context": b"{}"}, TypeError, "context"),
        (("items", BASE), {"first_node": 1}, TypeError, "first_node"),
        (("check", BASE), {}, TypeError, "base"),
        (("check",), {"graph": BASE}, TypeError, "graph"),
        (("check",), {"context": b"[]"}, rdfax.BadContext, "context"),
    ],
)
def test_what_is_wrongly_asked_for_is_an_error(words: tuple[str, ...], options: dict[str, Any], error: type[Exception], said: str) -> None:
    with pytest.raises(error, match=said):
        rdfax.Page(*words, **options)


def test_a_page_ends_once() -> None:
    page = rdfax.Page("check")
    page.feed(ANVIL)
    assert page.finish() == page.finish() == b"ok\n"
    with pytest.raises(rdfax.Usage):
        page.feed(b"")
    page.close()
    for call in (lambda: page.feed(b""), page.finish):
        with pytest.raises(rdfax.Usage):
            call()
    page.close()


def test_a_refusal_comes_again_at_each_call() -> None:
    with rdfax.Page("extract", BASE) as page:
        page.feed("<p")
        for call in (lambda: page.feed(">"), lambda: page.feed(ANVIL), page.finish):
            with pytest.raises(rdfax.Refused, match="refused: RootNotHtml at byte 2 in token 0"):
                call()
        assert list(page.quads()) == [] and page.nodes == 0


def test_quads_of_a_page_that_is_closed_meanwhile_are_an_error() -> None:
    page = rdfax.Page("quads", BASE)
    page.feed("<html>" + "".join(f'<p property="schema:name">{number}</p>' for number in range(1000)) + "</html>")
    page.finish()
    found = page.quads()
    next(found)
    page.close()
    with pytest.raises(rdfax.Usage, match="closed"):
        list(found)


@pytest.mark.parametrize("copied", [copy.copy, copy.deepcopy, pickle.dumps])
def test_a_page_cannot_be_copied(copied: Any) -> None:
    with rdfax.Page("check") as page, pytest.raises(TypeError, match="neither"):
        copied(page)


def test_a_term_is_read_where_it_lies() -> None:
    assert pages._TERMS.size == ctypes.sizeof(_library.Terms)


def test_blank_nodes_of_several_pages_go_on_in_their_numbers() -> None:
    page = '<html><p typeof="schema:Offer"></p><p typeof="schema:Offer"></p></html>'
    first, texts = 0, []
    for _ in range(3):
        with rdfax.Page("extract", BASE, first_node=first) as opened:
            opened.feed(page)
            texts.append(opened.finish().decode())
            first += opened.nodes
    assert first == 6
    read = rdflib.Graph().parse(data="".join(texts), format="nt")
    assert len(set(read.subjects())) == 6
    assert [quad.subject for quad in rdfax.quads(page, BASE, first_node=4)] == [rdfax.Blank("b4"), rdfax.Blank("b5")]
