"""What mending does to a page's meaning: pages whose graph or items are known, unmended and mended, beside other readers."""

from __future__ import annotations

import io
import json
import re
from collections.abc import Iterator
from pathlib import Path
from typing import Any, NamedTuple
from urllib.parse import urljoin, urlsplit

import rdflib
from rdflib.compare import isomorphic

PRIMER_BASE = "http://www.example.com/index.html"
REFUSED = "refused"


class Known(NamedTuple):
    """A page whose graph is known."""

    name: str
    page: bytes
    base: str
    graph: rdflib.Graph


def plain(graph: rdflib.Graph) -> rdflib.Graph:
    """The graph with plain literals in place of those of xsd:string, which are the same ones."""

    def plain_term(term: Any) -> Any:
        is_string = isinstance(term, rdflib.Literal) and term.datatype == rdflib.XSD.string
        return rdflib.Literal(str(term)) if is_string else term

    made = rdflib.Graph()
    for subject, predicate, value in graph:
        made.add((subject, predicate, plain_term(value)))
    return made


def is_same(graph: rdflib.Graph | None, other: rdflib.Graph | None) -> bool:
    """Whether both are graphs, and the same but for the names of blank nodes."""
    return graph is not None and other is not None and bool(isomorphic(graph, other))  # type: ignore[no-untyped-call]


def ntriples(text: str) -> rdflib.Graph:
    """The graph of a text of N-Triples."""
    return plain(rdflib.Graph().parse(data=text, format="nt"))


def w3c(folder: Path) -> Iterator[Known]:
    """The W3C's tests of RDFa 1.1 in XHTML, as raptor's sources carry them."""
    addresses = dict(re.findall(r'RAPPER_RDFDIFF_TEST\(rdfa11\.(\d+)\s+"\S+ [^"]*?-I (\S+)', (folder / "CMakeLists.txt").read_text("utf-8")))
    for name, address in sorted(addresses.items()):
        page = (folder / f"{name}.xml").read_bytes()
        root = re.search(rb"<([^\s/>]+)", re.sub(rb"(?s)<!--.*?-->|<\?.*?\?>|<![^>]*>", b"", page))
        if root and root.group(1) == b"html":
            yield Known(name, page, address, ntriples((folder / f"{name}.out").read_text("utf-8")))


def primer(folder: Path) -> Iterator[Known]:
    """The examples of RDFa's primer and of RDFa Lite, as extruct's sources carry them."""
    for path in sorted((folder / "w3crdfa").glob("*.html")):
        told = path.with_suffix(".expanded.json").read_text("utf-8")
        yield Known(path.stem, path.read_bytes(), PRIMER_BASE, plain(rdflib.Graph().parse(data=told, format="json-ld")))


def without_places(told: Any) -> Any:
    """Items without the members that tell their places in the original."""
    if isinstance(told, list):
        return [without_places(value) for value in told]
    return {name: without_places(value) for name, value in told.items() if name != "place"} if isinstance(told, dict) else told


class Items(NamedTuple):
    """A page whose items extruct's tests tell: in lists, as the standard has them, where `is_strict`, else in extruct's own shape."""

    name: str
    page: bytes
    items: Any
    is_strict: bool


def microdata(folder: Path) -> Iterator[Items]:
    """The pages of extruct's tests for which it tells items in its own shape."""
    for path in sorted(path for name in ("schema.org", "w3c", "websites") for path in (folder / name).glob("*.html")):
        told = path.with_suffix(".json")
        if not told.exists():
            continue
        held = json.loads(told.read_text("utf-8"))
        held = held.get("microdata", held) if isinstance(held, dict) else held
        if isinstance(held, list) and any("properties" in item for item in held if isinstance(item, dict)):
            yield Items(f"{path.parent.name}/{path.name}", path.read_bytes(), held, path.parent.name == "w3c")


def by_pyrdfa(page: bytes, base: str) -> rdflib.Graph | None:
    """pyRdfa's graph of a page, which html5lib parses for it; None where it gives up."""
    from pyRdfa import pyRdfa
    from pyRdfa.options import Options

    reader = pyRdfa(options=Options(space_preserve=True), base=base, media_type="text/html")
    try:
        return plain(reader.graph_from_source(io.BytesIO(page), rdflib.Graph(), rdfOutput=False))
    except Exception:  # pyRdfa's own errors have no common class
        return None


def by_extruct(page: bytes, is_strict: bool) -> Any:
    """extruct's items of a page."""
    from extruct.w3cmicrodata import MicrodataExtractor

    return MicrodataExtractor(strict=is_strict).extract(page)


def squeezed(value: Any) -> Any:
    """Items without runs of white space and without the order of members, which extruct changes."""
    if isinstance(value, dict):
        return {key: squeezed(held) for key, held in value.items()}
    if isinstance(value, list):
        return [squeezed(held) for held in value]
    return " ".join(value.split()) if isinstance(value, str) else value


def is_alike(own: Any, told: Any) -> bool:
    """Whether items are those that are told, but for white space, and for addresses that were told without their base."""
    if isinstance(own, dict) and isinstance(told, dict):
        return own.keys() == told.keys() and all(is_alike(own[key], told[key]) for key in own)
    if isinstance(own, list) and isinstance(told, list):
        return len(own) == len(told) and all(map(is_alike, own, told))
    if isinstance(own, str) and isinstance(told, str):
        return squeezed(own) == squeezed(told) or own in (urljoin(PRIMER_BASE, told), urljoin(PRIMER_BASE, urlsplit(told)._replace(scheme="", netloc="").geturl()))
    return bool(own == told)


def told(graph: rdflib.Graph | str, expected: rdflib.Graph) -> str:
    """What a reader's graph is beside the expected one."""
    if isinstance(graph, str):
        return graph
    return "passed" if is_same(graph, expected) else "another graph"
