"""Pages that are mended: what `mend=` does, what says so, and where a fault is told. ./test-mend tries the mender itself."""

from __future__ import annotations

import json
import pickle
import subprocess
import sys
from typing import Any

import pytest

import rdfax
from rdfax import tracing
from rdfax._library import LibraryMissing
from rdfax.mending import MendedQuads, MendedText

BASE = "http://h.example/d"
GOOD = b'<html><p property="schema:name">Anvil<b itemscope></b></p></html>'
BROKEN = b'<p property="schema:name">Anvil<p itemscope><b itemprop="name">Anvil'
TRIPLE = f'<{BASE}> <http://schema.org/name> "Anvil" .\n'

try:
    rdfax.mend(b"")
except LibraryMissing as missing:
    pytest.skip(str(missing), allow_module_level=True)


@pytest.mark.parametrize(
    ("page", "charset", "found", "read"),
    [
        (b"\xef\xbb\xbf\xc3\xa9", "koi8-r", "bom", "é"),
        (b"\xe9", "latin1", "caller", "é"),
        (b"<meta charset=koi8-r>\xe6", "nothing", "declaration", "Ф"),
        (b"\xc3\xa9", None, "validity", "é"),
        (b"\xe9", None, "default", "é"),
    ],
)
def test_the_charset_is_found(page: bytes, charset: str | None, found: str, read: str) -> None:
    mended = rdfax.mend(page, charset)
    assert (mended.found, mended.page.decode()[-15:]) == (found, f"{read}</body></html>")


def test_what_was_changed_is_counted() -> None:
    changes = rdfax.mend(b'<!--x--><template><p></template><p a"=b c=d>\xff<plaintext>').changes
    assert {kind: changes[kind] for kind in ("comments", "templates", "attributes", "names")} == {"comments": 1, "templates": 1, "attributes": 1, "names": 1}


def test_places_are_those_of_the_original() -> None:
    page = "é<table><td>é<b>".encode("koi8-r", "replace")
    mended = rdfax.mend(page, "koi8-r")
    places = {tag: page[mended.original(mended.page.index(tag)) :][:4] for tag in (b"<table", b"<tbody", b"<td", b"<b>")}
    assert places == {b"<table": b"<tab", b"<tbody": b"<td>", b"<td": b"<td>", b"<b>": b"<b>"}


def test_an_accepted_page_is_read_as_it_is() -> None:
    assert type(rdfax.extract(GOOD, BASE, mend=True)) is str
    assert rdfax.extract(GOOD, BASE, mend=True) == rdfax.extract(GOOD, BASE) == TRIPLE
    assert rdfax.items(GOOD, BASE, mend=True) == rdfax.items(GOOD, BASE)
    assert rdfax.check(GOOD, mend=True) is None


def test_what_was_mended_says_so() -> None:
    text = rdfax.extract(BROKEN, BASE, mend=True)
    assert isinstance(text, MendedText)
    assert text == f"# {text.mended}\n# places: 0\n{TRIPLE}"
    quads = rdfax.quads(BROKEN, BASE, mend=True)
    assert isinstance(quads, MendedQuads)
    assert (quads.mended.found, next(quads).object) == ("validity", rdfax.Literal("Anvil", None, None))
    told = rdfax.items(BROKEN, BASE, mend=True)
    assert (told["items"], told["mended"]["found"]) == ([{"properties": {"name": ["Anvil"]}, "place": 31}], "validity")
    assert rdfax.check(BROKEN, mend=True) == rdfax.mend(BROKEN)
    assert json.loads(rdfax.extract(BROKEN, BASE, format="jsonld", mend=True))


def test_always_mends_an_accepted_page() -> None:
    text = rdfax.extract(GOOD, BASE, mend="always")
    assert isinstance(text, MendedText)
    assert text.split("\n", 2)[2] == TRIPLE


def test_a_fault_is_told_at_its_place_in_the_original() -> None:
    page = b'<p>\n<b vocab="x">'
    with pytest.raises(rdfax.Refused) as caught:
        rdfax.check(page, mend=True)
    assert (caught.value.kind, caught.value.token) == ("RelativeVocab", 4)


def test_quads_and_items_are_told_at_their_places_in_the_original() -> None:
    page = """<p>caf\xe9<table vocab=http://schema.org/><td property=name>Anvil<tr typeof=Offer><td property=price>1
        <li itemscope itemtype=http://schema.org/Offer><b itemprop="seller buyer" itemscope id=s></li></b><i itemprop=name>x""".encode("latin-1")
    quads = rdfax.quads(page, BASE, mend=True, charset="latin-1")
    assert isinstance(quads, MendedQuads) and quads.places is not None
    said = {(quad.predicate.rpartition("/")[2], page[place : page.index(b">", place) + 1]) for quad, place in zip(quads, quads.places, strict=True)}
    assert said >= {("name", b"<td property=name>"), ("price", b"<td property=price>"), ("22-rdf-syntax-ns#type", b"<tr typeof=Offer>")}
    (item,) = rdfax.items(page, BASE, mend=True, charset="latin-1")["items"]
    assert page[item["place"] :].startswith(b"<li itemscope")
    inner = [item["properties"][name][0]["place"] for name in ("seller", "buyer")]
    assert [page[place : place + 12] for place in inner] == [b"<b itemprop="] * 2


def test_where_the_readings_differ_or_the_page_is_long_no_places_are_told(monkeypatch: pytest.MonkeyPatch) -> None:
    quads = rdfax.quads(BROKEN, BASE, mend=True)
    monkeypatch.setattr(tracing.origins, "places_of", lambda *_: None)
    monkeypatch.setattr(tracing.item_elements, "agrees", lambda *_: False)
    assert isinstance(quads, MendedQuads) and quads.places is None
    assert rdfax.items(BROKEN, BASE, mend=True)["items"] == [{"properties": {"name": ["Anvil"]}}]
    monkeypatch.undo()
    monkeypatch.setattr(tracing, "LONGEST", 100)
    assert "# places" not in rdfax.extract(BROKEN, BASE, mend=True)


def test_places_go_by_the_context_file() -> None:
    context = b'{"prefixes":{"e":"http://v.example/"}}'
    quads = rdfax.quads(b"<p><b property=e:p>Anvil", BASE, mend=True, context=context)
    assert isinstance(quads, MendedQuads) and quads.places == [3]


def test_a_page_past_a_limit_is_not_mended() -> None:
    with pytest.raises(rdfax.NotMended, match="not mended: TooDeep"):
        rdfax.mend(b"<div>" * 600)
    with pytest.raises(rdfax.Usage):
        rdfax.mend(b"", syntax="sgml")  # type: ignore[arg-type]


def test_a_mended_page_is_pickled() -> None:
    mended = rdfax.mend(BROKEN)
    assert pickle.loads(pickle.dumps(mended)) == mended


def command(*words: str) -> tuple[int, bytes, bytes]:
    done = subprocess.run([sys.executable, "-m", "rdfax", *words, "-"], input=BROKEN, capture_output=True, check=False)
    return done.returncode, done.stdout, done.stderr


@pytest.mark.parametrize(
    ("words", "begins", "says"),
    [
        (["mend"], rdfax.mend(BROKEN).page, str(rdfax.mend(BROKEN))),
        (["extract", "--mend", "--base", BASE], b"# mended: charset UTF-8 by validity; ", str(rdfax.mend(BROKEN))),
        (["items", "--mend", "--base", BASE], b'{"items":[{"properties":{"name":["Anvil"]},"place":31}],"mended":{', str(rdfax.mend(BROKEN))),
    ],
)
def test_commands(words: list[str], begins: bytes, says: str) -> None:
    status, written, said = command(*words)
    assert (status, written[: len(begins)], said.decode().strip()) == (0, begins, says)


def test_the_report_is_json() -> None:
    told: dict[str, Any] = json.loads(command("mend", "--report")[2])
    assert told["charset"] == "UTF-8"
