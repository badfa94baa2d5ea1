"""The shapes of extruct, beside extruct itself on pages that both read alike."""

from __future__ import annotations

import json
from typing import Any

import pytest
import rdflib
from rdflib.compare import isomorphic

import rdfax

extruct = pytest.importorskip("extruct")

BASE = "http://shop.example/anvil"
ITEM = '<div itemscope itemtype="http://schema.org/Product" itemid="http://shop.example/anvil#it">{}</div>'
MICRODATA = {
    "no item": "<p>Anvil</p>",
    "one value": ITEM.format('<b itemprop="name">Anvil</b>'),
    "two values": ITEM.format('<b itemprop="name">Anvil</b><b itemprop="name">Amboss</b>'),
    "two names": ITEM.format('<b itemprop="name alternateName">Anvil</b>'),
    "two types": '<div itemscope itemtype="http://schema.org/Product http://schema.org/Thing"><b itemprop="name">Anvil</b></div>',
    "no type": '<div itemscope><b itemprop="name">Anvil</b></div>',
    "an item as value": ITEM.format('<p itemprop="offers" itemscope itemtype="http://schema.org/Offer"><b itemprop="price">119.99</b></p>'),
    "two items as values": ITEM.format(
        '<p itemprop="offers" itemscope><b itemprop="price">1</b></p><p itemprop="offers" itemscope><b itemprop="price">2</b></p>'
    ),
    "two items": ITEM.format('<b itemprop="name">Anvil</b>') * 2,
    "addresses": ITEM.format('<a itemprop="url" href="/a">a</a><img itemprop="image" src="anvil.jpg"><link itemprop="sameAs" href="#x">'),
    "other values": ITEM.format(
        '<meta itemprop="sku" content=" 7 "><data itemprop="mass" value="55">fifty-five</data><time itemprop="validFrom" datetime="2026-11-28">today</time>'
    ),
    "a reference": '<div itemscope itemref="x"><b itemprop="name">Anvil</b></div><p id="x"><b itemprop="brand">Acme</b></p>',
}
RDFA = {
    "no triple": "<p>Anvil</p>",
    "a literal": '<p property="schema:name">Anvil</p>',
    "a language": '<p property="schema:name" xml:lang="en">Anvil</p>',
    "a datatype": '<p property="schema:price" datatype="xsd:decimal" content="119.99">119.99</p>',
    "a type": '<p vocab="http://schema.org/" typeof="Product"><b property="name">Anvil</b><b property="name">Amboss</b></p>',
    "two types": '<p about="#it" typeof="schema:Product schema:Thing"></p>',
    "a node": '<p about="#it" rel="schema:offers"><b typeof="schema:Offer"><i property="schema:price">1</i></b></p>',
    "an address": '<p about="#it"><a rel="schema:url" href="/a">a</a></p>',
    "a list": '<p about="#it"><b property="schema:name" inlist>Anvil</b><b property="schema:name" inlist>Amboss</b></p>',
}


def _page(body: str) -> str:
    return f"<!DOCTYPE html>\n<html><head><title>Anvil</title></head><body>{body}</body></html>"


def _theirs(page: str) -> dict[str, Any]:
    found: dict[str, Any] = extruct.extract(page, BASE, syntaxes=["microdata", "rdfa"])
    return found


@pytest.mark.parametrize("body", MICRODATA.values(), ids=MICRODATA)
def test_microdata(body: str) -> None:
    page = _page(body)
    assert rdfax.syntaxes(page, BASE)["microdata"] == _theirs(page)["microdata"]


def _shape(nodes: list[dict[str, Any]]) -> list[Any]:
    """The nodes without the labels of blank nodes, in an order of their own: members and values count, and not their places."""
    plain = json.loads(json.dumps(nodes), object_hook=lambda members: {name: "_:" if str(value).startswith("_:") else value for name, value in members.items()})
    return sorted(
        json.dumps({name: sorted(values, key=json.dumps) if isinstance(values, list) else values for name, values in node.items()}, sort_keys=True)
        for node in plain
    )


@pytest.mark.parametrize("body", RDFA.values(), ids=RDFA)
def test_rdfa(body: str) -> None:
    page = _page(body)
    ours, theirs = rdfax.syntaxes(page, BASE)["rdfa"], _theirs(page)["rdfa"]
    assert _shape(ours) == _shape(theirs)
    assert isomorphic(*(rdflib.Graph().parse(data=json.dumps(found), format="json-ld") for found in (ours, theirs)))


DIFFERENT = {
    "an item without properties": (ITEM.format("Anvil"), {"type": "http://schema.org/Product", "id": "http://shop.example/anvil#it", "properties": {}}),
    "white space": (ITEM.format('<b itemprop="name"> Anvil\n</b>'), {"properties": {"name": " Anvil\n"}}),
    "content of any element": (ITEM.format('<b itemprop="name" content="Amboss">Anvil</b>'), {"properties": {"name": "Anvil"}}),
    "a time without datetime": (ITEM.format('<time itemprop="validFrom">2026</time>'), {"properties": {"validFrom": "2026"}}),
    "an image without src": (ITEM.format('<img itemprop="image">'), {"properties": {"image": ""}}),
    "a relative itemid": ('<p itemscope itemtype="http://schema.org/Product" itemid="#it"><b itemprop="name">Anvil</b></p>', {"properties": {"name": "Anvil"}}),
    "a property of no item": ('<p itemprop="x" itemscope><b itemprop="name">Anvil</b></p>', None),
}


@pytest.mark.parametrize(("body", "found"), DIFFERENT.values(), ids=DIFFERENT)
def test_what_the_docs_say_is_different(body: str, found: dict[str, Any] | None) -> None:
    page = _page(body)
    ours = rdfax.syntaxes(page, BASE)["microdata"]
    assert ours != _theirs(page)["microdata"]
    assert (found is None and ours == []) or (found is not None and found["properties"] == ours[0]["properties"])


def test_rdfa_s_lang_is_different_too() -> None:
    page = _page('<p property="schema:name" lang="en">Anvil</p>')
    ours, theirs = rdfax.syntaxes(page, BASE)["rdfa"], _theirs(page)["rdfa"]
    assert [node["http://schema.org/name"] for node in (*ours, *theirs)] == [[{"@value": "Anvil", "@language": "en"}], [{"@value": "Anvil"}]]
