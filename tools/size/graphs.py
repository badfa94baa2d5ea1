"""Graphs as sets of triples: what N-Quads, Turtle and JSON-LD say, by rapper and by rdflib."""

from __future__ import annotations

import hashlib
import re
import subprocess
import sys
from collections import defaultdict

import rdflib

# a literal stays as it is written
rdflib.NORMALIZE_LITERALS = False
# (rdflib's reader of Turtle calls itself for each node in a node)
sys.setrecursionlimit(20_000)

RDF = "http://www.w3.org/1999/02/22-rdf-syntax-ns#"
XSD = "http://www.w3.org/2001/XMLSchema#"
FORMATS = ("nquads", "turtle", "nested", "jsonld")
# what rdflib calls them, and what rapper does; rapper 2 has no JSON-LD
RDFLIB = {"nquads": "nt", "turtle": "turtle", "nested": "turtle", "jsonld": "json-ld"}
RAPPER = {"nquads": "nquads", "turtle": "turtle", "nested": "turtle"}

# `iri` and a text, `blank` and a label, `literal` and a text, a language and a datatype
Term = tuple[str, ...]
Triple = tuple[Term, Term, Term]
Graph = frozenset[Triple]

_IRI = r"<((?:[^\x00-\x20<>\"{}|^`\\]|\\u[0-9A-Fa-f]{4}|\\U[0-9A-Fa-f]{8})*)>"
_TEXT = r'"((?:[^"\\\n\r]++|\\[tbnrf"\'\\]|\\u[0-9A-Fa-f]{4}|\\U[0-9A-Fa-f]{8})*)"'
_NODE = rf"(?:{_IRI}|_:([A-Za-z0-9]+))"
_LINE = re.compile(rf"{_NODE} {_IRI} (?:{_NODE}|{_TEXT}(?:@([A-Za-z]+(?:-[A-Za-z0-9]+)*)|\^\^{_IRI})?)(?: {_IRI})? \.")
_ESCAPE = re.compile(r"\\(?:u([0-9A-Fa-f]{4})|U([0-9A-Fa-f]{8})|(.))")
_NAMED = {"t": "\t", "b": "\b", "n": "\n", "r": "\r", "f": "\f"}


class Unreadable(Exception):
    """Another program doesn't read the text."""


def iri(text: str) -> Term:
    return ("iri", text)


def blank(label: object) -> Term:
    return ("blank", str(label))


def literal(text: str, language: str = "", datatype: str = "") -> Term:
    return ("literal", text, language.lower(), "" if datatype == f"{XSD}string" else datatype)


def _unescaped(text: str) -> str:
    return _ESCAPE.sub(lambda found: chr(int(found[1] or found[2], 16)) if found[1] or found[2] else _NAMED.get(found[3], found[3]), text)


def _node(name: str | None, label: str | None) -> Term:
    return blank(label) if name is None else iri(_unescaped(name))


def quads_in(text: str) -> list[tuple[Triple, str | None]]:
    """The triples of N-Quads by their grammar, each with the name of its graph."""
    found = []
    for line in text.split("\n")[:-1]:
        parts = _LINE.fullmatch(line)
        if parts is None:
            raise Unreadable(f"a line that is no N-Quads: {line[:200]!r}")
        name, label, predicate, object_name, object_label, value, language, datatype, graph = parts.groups()
        last = _node(object_name, object_label) if value is None else literal(_unescaped(value), language or "", datatype or "")
        found.append(((_node(name, label), iri(predicate), last), graph))
    if not text.endswith("\n") and text:
        raise Unreadable("the last line has no end")
    return found


def by_grammar(text: str) -> Graph:
    return frozenset(triple for triple, _ in quads_in(text))


def by_rapper(text: bytes, form: str) -> Graph:
    words = ["rapper", "-q", "-i", RAPPER[form], "-o", "ntriples", "-", "http://nowhere.example/"]
    done = subprocess.run(words, input=text, capture_output=True, check=False)
    if done.returncode != 0 or done.stderr:
        raise Unreadable(f"rapper refuses the text: {done.stderr[:200]!r}")
    return by_grammar(done.stdout.decode())


def _rdflib_term(term: object) -> Term:
    if isinstance(term, rdflib.Literal):
        return literal(str(term), term.language or "", str(term.datatype or ""))
    return blank(term) if isinstance(term, rdflib.BNode) else iri(str(term))


def by_rdflib(text: bytes, form: str) -> Graph:
    read = rdflib.Graph()
    try:
        read.parse(data=text, format=RDFLIB[form])
    # (what it raises is of many kinds)
    except Exception as error:  # noqa: BLE001
        raise Unreadable(f"rdflib refuses the text: {str(error)[:200]!r}") from error
    return frozenset((_rdflib_term(one), _rdflib_term(two), _rdflib_term(three)) for one, two, three in read)


def _digest(*parts: object) -> str:
    return hashlib.sha256(repr(parts).encode()).hexdigest()[:32]


def named(graph: Graph) -> Graph:
    """The graph with its blank nodes named by what is said of them, and by the way that leads to them. That tells graphs apart
    up to renaming where each blank node gets a name of its own; else it is Unreadable."""
    said: dict[Term, list[str]] = defaultdict(list)
    above: dict[Term, tuple[Term, Term]] = {}
    for subject, predicate, value in graph:
        if subject[0] == "blank":
            said[subject].append(repr((predicate, value if value[0] != "blank" else None)))
        if value[0] == "blank":
            said[value].append(repr(predicate))
            above[value] = (subject, predicate)
    names: dict[Term, Term] = {}
    for node in said:
        for each in reversed(_way_to(node, above, names)):
            way = above.get(each)
            names[each] = blank(_digest(way and names.get(way[0], way[0]), way and way[1], sorted(said[each])))
    if len(set(names.values())) != len(names):
        raise Unreadable("blank nodes that can't be told apart")
    return frozenset((names.get(one, one), two, names.get(three, three)) for one, two, three in graph)


def _way_to(node: Term, above: dict[Term, tuple[Term, Term]], names: dict[Term, Term]) -> list[Term]:
    """The blank nodes that lead to this one and have no name yet, this one first."""
    way = [node] if node not in names else []
    while way and way[-1] in above and len(way) <= len(above):
        before = above[way[-1]][0]
        if before[0] != "blank" or before in names:
            break
        way.append(before)
    return way


def difference(found: Graph, wanted: Graph) -> str | None:
    """What is wrong with the graph, if anything is."""
    found, wanted = named(found), named(wanted)
    if found == wanted:
        return None
    lacking, other = sorted(wanted - found), sorted(found - wanted)
    return f"{len(found)} triples where {len(wanted)} are right; lacking {lacking[:1]}, and too many {other[:1]}"


# rdflib takes long for a long string of Turtle
_LONG = re.compile(rb"[^\n ]{100000}|\"[^\n\"]{100000}")


def text_differs(text: bytes, form: str, wanted: Graph) -> str | None:
    """What is wrong with the text of a format, as each of the others reads it."""
    try:
        wrong = difference(by_grammar(text.decode()), wanted) if form == "nquads" else None
        if not wrong and form in RAPPER:
            wrong = difference(by_rapper(text, form), wanted)
        if form in RAPPER and _LONG.search(text):
            return wrong
        return wrong or difference(by_rdflib(text, form), wanted)
    except Unreadable as error:
        return str(error)
