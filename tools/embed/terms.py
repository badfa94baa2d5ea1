"""Quads as the library tells them, beside the text and beside what rdflib reads in it."""

from __future__ import annotations

import importlib
import importlib.util
import json
from typing import Any

# (without a type, which it has only in part)
rdflib: Any = importlib.import_module("rdflib") if importlib.util.find_spec("rdflib") else None

Term = tuple[str, str, str, str]
ESCAPES = str.maketrans({'"': '\\"', "\\": "\\\\", "\n": "\\n", "\r": "\\r"})


def quads_in(text: str) -> list[list[Term]]:
    """The quads of lines of JSON, four terms each."""
    terms: list[Term] = [(kind, text, language, datatype) for kind, text, language, datatype in map(json.loads, text.splitlines())]
    return [terms[at : at + 4] for at in range(0, len(terms), 4)]


def written(term: Term) -> str:
    """A term as N-Quads have it, with a space behind it."""
    kind, text, language, datatype = term
    if kind == "literal":
        return f'"{text.translate(ESCAPES)}"' + (f"@{language}" if language else f"^^<{datatype}>" if datatype else "") + " "
    return {"iri": f"<{text}> ", "blank": f"_:{text} ", "nothing": ""}[kind]


def as_text(quads: list[list[Term]]) -> str:
    return "".join("".join(map(written, quad)) + ".\n" for quad in quads)


def as_read(text: str) -> set[tuple[object, ...]]:
    """The quads that rdflib reads in a text of N-Quads, each blank node by its label."""
    labels: dict[str, object] = {}
    dataset = rdflib.ConjunctiveGraph()
    dataset.parse(data=text, format="nquads", bnode_context=labels)
    names = {node: rdflib.BNode(label) for label, node in labels.items()}
    return {(*(names.get(term, term) for term in quad[:3]), graph_of(quad[3])) for quad in dataset.quads()}


def graph_of(context: Any) -> object:
    """The name of a graph, which is an IRI here; rdflib gives the default graph a blank node of its own."""
    return context.identifier if isinstance(context.identifier, rdflib.URIRef) else None


def as_told(term: Term) -> object:
    """A term of the library as one of rdflib's."""
    kind, text, language, datatype = term
    if kind == "iri":
        return rdflib.URIRef(text)
    if kind == "blank":
        return rdflib.BNode(text)
    if kind == "literal":
        return rdflib.Literal(text, lang=language or None, datatype=rdflib.URIRef(datatype) if datatype else None)
    return None


def is_as_read(quads: list[list[Term]], text: str) -> bool:
    """Whether the quads are, term by term, those that rdflib reads in the text."""
    rdflib.NORMALIZE_LITERALS = False
    told = {tuple(map(as_told, quad)) for quad in quads}
    return told == as_read(text) and len(told) == len(quads)
