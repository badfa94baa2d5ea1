"""Where triples come from: the second reading agrees with the library, and tells the places of the source."""

from __future__ import annotations

import doctest

import pytest
from made_pages import made_items, made_pages
from rows import TOP, Row, rows

import rdfax
from rdfax.serving import item_elements
from rdfax.serving.names import STANDARD, context_of
from rdfax.serving.origins import find, places_of
from rdfax.serving.triples import Origin

BASE = "http://h.example/d"
# Pages that the library reads, of rows that ask for anything.
READ = list({(row.page, row.words.get("syntax"), row.words.get("context")): row for row in rows("extract", "items", "check") if row.status == 0}.values())


def _agree(row: Row) -> bool:
    words = {name: value for name, value in row.words.items() if name in ("syntax", "context")}
    base = row.words.get("base", BASE)
    context = context_of(words["context"]) if "context" in words else STANDARD
    found = find(row.page, base, syntax=row.words.get("syntax", "html"), context=context)
    try:
        quads = list(rdfax.quads(row.page, base, **words))
    except rdfax.Refused:
        return True  # (a page whose items are read)
    return places_of(found, quads) is not None


def test_the_two_readings_agree_on_all_rows() -> None:
    differing = [row.name for row in READ if not _agree(row)]
    print(f"{len(READ) - len(differing)} of {len(READ)} pages of the worked rows: the two readings agree")
    assert not differing
    assert len(READ) > 80


def test_the_two_readings_agree_on_pages_that_are_made_by_chance() -> None:
    read, differing = 0, list[str]()
    for page in made_pages(seed=46, number=1000):
        try:
            quads = list(rdfax.quads(page, BASE))
        except rdfax.Refused:
            continue
        if places_of(find(page.encode(), BASE), quads) is None:
            differing.append(page)
        read += 1
    print(f"{read} of 1000 pages that are made by chance are read: the two readings agree on {read - len(differing)}")
    assert not differing and read > 500


def test_the_two_readings_of_items_agree() -> None:
    """On the worked rows, and on pages that are made by chance."""
    read = 0
    made = [(page.encode(), "html") for page in made_items(seed=44, number=1000)]
    for page, syntax in [*((row.page, row.words.get("syntax", "html")) for row in READ), *made]:
        try:
            items = rdfax.items(page, BASE, syntax=syntax)["items"]
        except rdfax.Refused:
            continue
        assert item_elements.agrees(item_elements.find(page, syntax), items), page
        read += bool(items)
    print(f"{read} pages with items: the two readings agree")
    assert read > 500


def test_the_example_of_the_documentation() -> None:
    assert doctest.testfile(str(TOP / "docs" / "SERVE.md"), module_relative=False) == (0, 4)


def _spelled(page: bytes, origin: Origin) -> list[str | None]:
    """The start tag, what made each term, and where the predicate's name is declared, as they are written."""
    how = origin.predicate
    declared = None if how.name is None or how.name.declared is None else how.name.declared.span
    spans = [origin.span, origin.subject.span, how.span, origin.object.span, declared]
    return [None if span is None else page[slice(*span)].decode() for span in spans]


@pytest.mark.parametrize(
    ("page", "places"),
    [
        (
            '<html prefix="e: http://v.example/"><p about="#s" property="e:p">é</p></html>',
            [['<p about="#s" property="e:p">', 'about="#s"', 'property="e:p"', '<p about="#s" property="e:p">', 'prefix="e: http://v.example/"']],
        ),
        ("<html><p property=dc:title content=x></html>", [["<p property=dc:title content=x>", None, "property=dc:title", "content=x", None]]),
        (
            '<html vocab="http://v.example/"><a rel="e" href="/x">y</a></html>',
            [
                ['<html vocab="http://v.example/">', None, 'vocab="http://v.example/"', 'vocab="http://v.example/"', None],
                ['<a rel="e" href="/x">', None, 'rel="e"', 'href="/x"', 'vocab="http://v.example/"'],
            ],
        ),
        (
            "<html><head><base href=/b></head><p typeof=schema:Offer></html>",
            [["<p typeof=schema:Offer>", "<p typeof=schema:Offer>", "typeof=schema:Offer", "typeof=schema:Offer", None]],
        ),
        (
            '\ufeff<html><div rel="dc:creator">\r\n<p about="#a"></p></div></html>',
            [['<p about="#a">', None, 'rel="dc:creator"', 'about="#a"', None]],
        ),
    ],
    ids=["a prefix", "the standard context", "a vocabulary", "a new blank node", "a predicate that hangs"],
)
def test_places_are_those_of_the_source(page: str, places: list[list[str | None]]) -> None:
    source = page.encode()
    found = find(source, BASE).triples
    assert [_spelled(source, triple.origin) for triple in found] == places


def test_what_is_copied_names_the_copy() -> None:
    page = b'<html><p resource="#a" typeof="rdfa:Pattern"><b property="dc:title">t</b></p><p about="#s"><link property="rdfa:copy" href="#a"></p></html>'
    (triple,) = find(page, BASE).triples
    assert triple.terms[:2] == (f"{BASE}#s", "http://purl.org/dc/terms/title")
    assert page[slice(*triple.origin.span)] == b'<b property="dc:title">'
    assert triple.origin.copied is not None and page[slice(*triple.origin.copied.span)] == b'<link property="rdfa:copy" href="#a">'


@pytest.mark.parametrize("cut", ["no triple", "another text", "another kind"])
def test_where_the_readings_differ_there_are_no_places(cut: str) -> None:
    found = find(b'<html><p property="dc:title">Anvil</p></html>', BASE)
    subject, predicate, value = found.triples[0].terms
    others = {
        "no triple": [],
        "another text": [rdfax.Quad(subject, predicate, rdfax.Literal("anvil"))],
        "another kind": [rdfax.Quad(rdfax.Blank(subject), predicate, value)],
    }
    assert places_of(found, [rdfax.Quad(subject, predicate, value)]) is not None
    assert places_of(found, others[cut]) is None
