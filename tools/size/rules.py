"""Random pages, and RDFa's rules on their trees as RDFa Core 1.1 (7.5) has them, with docs/RULES.md where a list's owner is own."""

from __future__ import annotations

import html
import random
from dataclasses import dataclass, field
from typing import Any

import rdflib
from rdflib.compare import to_isomorphic

from size.cases import Cases, Group, Tries, status_differs
from size.graphs import RDF, Graph, Term, Triple, Unreadable, blank, by_grammar, iri, literal
from size.triples import HERE, V

PREDICATES, DATATYPE = [f"{V}p", f"{V}q", f"{V}r"], f"{V}D"
REFERENCES = {"": HERE, "#x": iri(f"{HERE[1]}#x"), "/a": iri("http://h.example/a"), "http://o.example/": iri("http://o.example/")}
RESOURCES = {**REFERENCES, "_:a": blank("author a"), "[_:a]": blank("author a"), "_:b": blank("author b")}


@dataclass
class Element:
    """An element, with attributes and children; the text of a child that is text."""

    given: dict[str, str]
    inside: list[Element | str]

    def html(self) -> str:
        words = "".join(f' {name}="{html.escape(value)}"' for name, value in self.given.items())
        return f"<b{words}>{''.join(each if isinstance(each, str) else each.html() for each in self.inside)}</b>"

    def text(self) -> str:
        return "".join(each if isinstance(each, str) else each.text() for each in self.inside)

    def words(self, name: str) -> list[str]:
        return self.given.get(name, "").split()

    def about(self) -> Term | None:
        return RESOURCES[self.given["about"]] if "about" in self.given else None

    def resource(self) -> Term | None:
        return next((RESOURCES[self.given[name]] for name in ("resource", "href", "src") if name in self.given), None)

    def links(self) -> bool:
        return "rel" in self.given or "rev" in self.given


Lists = dict[str, list[Term]]


@dataclass
class Around:
    """What an element inherits: `hanging` has the predicates of `rel` and of `rev`, and the lists that wait for an item."""

    subject: Term
    object: Term
    lists: Lists
    hanging: list[tuple[str, str]] = field(default_factory=list)
    waiting: list[list[Term]] = field(default_factory=list)
    language: str = ""


def random_element(chance: random.Random, depth: int) -> Element:
    rare: list[tuple[str, float, list[str]]] = [
        ("about", 0.3, list(RESOURCES)), ("property", 0.4, [*PREDICATES, " ".join(PREDICATES[:2])]),
        ("rel", 0.35, [*PREDICATES, " ".join(PREDICATES[1:])]),
        ("rev", 0.12, PREDICATES), ("resource", 0.2, list(RESOURCES)), ("href", 0.15, list(REFERENCES)), ("src", 0.08, list(REFERENCES)),
        ("typeof", 0.25, ["", f"{V}T", f"{V}T {V}U"]), ("inlist", 0.3, [""]), ("content", 0.12, ["c", ""]), ("datatype", 0.12, ["", DATATYPE]),
        ("lang", 0.1, ["en", "", "de"]),
    ]
    given = {name: chance.choice(values) for name, often, values in rare if chance.random() < often}
    inside: list[Element | str] = []
    for _ in range(chance.randrange(4)):
        inside.append(random_element(chance, depth - 1) if depth and chance.random() < 0.7 else chance.choice(["t", "u", " "]))
    return Element(given, inside)


class Rules:
    """The triples of a page, as they are made."""

    def __init__(self) -> None:
        self.made: set[Triple] = set()
        self.nodes = 0

    def new(self) -> Term:
        self.nodes += 1
        return blank(f"new {self.nodes}")

    def say(self, subject: Term, predicate: str, value: Term) -> None:
        self.made.add((subject, iri(predicate), value))

    def write_lists(self, subject: Term, lists: Lists) -> None:
        for predicate, items in lists.items():
            head = iri(f"{RDF}nil")
            for item in reversed(items):
                cell = self.new()
                self.say(cell, f"{RDF}first", item)
                self.say(cell, f"{RDF}rest", head)
                head = cell
            self.say(subject, predicate, head)

    def page(self, elements: list[Element]) -> Graph:
        around = Around(HERE, HERE, {})
        for each in elements:
            self.element(each, around)
        self.write_lists(HERE, around.lists)
        return frozenset(self.made)

    def resources(self, element: Element, around: Around) -> tuple[Term, Term | None, Term | None]:
        """Steps 5 and 6: the new subject, the typed resource and the object."""
        about, resource, has_type = element.about(), element.resource(), "typeof" in element.given
        if element.links():
            value = resource or (self.new() if has_type and about is None else None)
            return about or around.object, (about or value) if has_type else None, value
        if "property" in element.given and not {"content", "datatype"} & set(element.given):
            typed = (about or resource or self.new()) if has_type else None
            return about or around.object, typed, typed
        subject = about or resource or (self.new() if has_type else around.object)
        return subject, subject if has_type else None, None

    def value(self, element: Element, typed: Term | None, language: str) -> Term:
        """Step 11."""
        given, text = element.given, element.given.get("content", element.text())
        if given.get("datatype"):
            return literal(text, "", given["datatype"])
        if "datatype" in given or "content" in given:
            return literal(text, language)
        resource = None if element.links() else element.resource()
        if resource is None and "typeof" in given and "about" not in given:
            resource = typed
        return resource or literal(text, language)

    def element(self, element: Element, around: Around) -> None:
        given, language = element.given, element.given.get("lang", around.language)
        if not element.links() and not {"property", "about", "resource", "href", "src", "typeof"} & set(given):
            self.children(element, Around(around.subject, around.object, around.lists, around.hanging, around.waiting, language))
            return
        subject, typed, value = self.resources(element, around)
        for each in element.words("typeof") if typed else []:
            self.say(typed or subject, f"{RDF}type", iri(each))
        lists: Lists = around.lists if subject == around.object else {}
        inner = Around(subject, subject, lists, language=language)
        value = self.links(element, inner, value) or value
        for predicate in element.words("property"):
            self.keep(element, lists, subject, predicate, self.value(element, typed, language))
        self.complete(around, subject)
        inner.object = value or subject
        inner.lists = lists if inner.object == subject else {}
        self.children(element, inner)
        if inner.lists is not lists:
            self.write_lists(inner.object, inner.lists)
        if lists is not around.lists:
            self.write_lists(subject, lists)

    def keep(self, element: Element, lists: Lists, subject: Term, predicate: str, value: Term) -> None:
        """A triple, or an item of a list."""
        if "inlist" in element.given:
            lists.setdefault(predicate, []).append(value)
        else:
            self.say(subject, predicate, value)

    def links(self, element: Element, inner: Around, value: Term | None) -> Term | None:
        """Steps 9 and 10. Where predicates hang, the object is a new node, which is answered."""
        rel, rev = element.words("rel"), element.words("rev")
        if value is not None and element.links():
            for predicate in rel:
                self.keep(element, inner.lists, inner.subject, predicate, value)
            for predicate in rev:
                self.say(value, predicate, inner.subject)
            return None
        if value is not None or not rel + rev:
            return None
        if "inlist" in element.given:
            inner.waiting = [inner.lists.setdefault(predicate, []) for predicate in rel]
        inner.hanging = [("rel", predicate) for predicate in rel if "inlist" not in element.given] + [("rev", predicate) for predicate in rev]
        return self.new()

    def complete(self, around: Around, subject: Term) -> None:
        """Step 12."""
        for items in around.waiting:
            items.append(subject)
        for way, predicate in around.hanging:
            one, other = (around.subject, subject) if way == "rel" else (subject, around.subject)
            self.say(one, predicate, other)

    def children(self, element: Element, inner: Around) -> None:
        for each in element.inside:
            if not isinstance(each, str):
                self.element(each, inner)


def _canonical(graph: Graph) -> Any:
    """The graph as rdflib tells it from others up to renaming."""
    library: Any = rdflib
    read = library.Graph()
    nodes: dict[Term, Any] = {}

    def term(one: Term) -> Any:
        if one[0] == "literal":
            return library.Literal(one[1], lang=one[2] or None, datatype=library.URIRef(one[3]) if one[3] else None)
        return library.URIRef(one[1]) if one[0] == "iri" else nodes.setdefault(one, library.BNode())

    for subject, predicate, value in graph:
        read.add((term(subject), term(predicate), term(value)))
    compare: Any = to_isomorphic
    return compare(read)


def random_pages(tries: Tries) -> Cases:
    """1,000 pages, the same at each run."""
    for seed in range(1000):
        chance = random.Random(seed)
        elements = [random_element(chance, chance.choice([1, 2, 3, 4])) for _ in range(chance.choice([1, 2, 3]))]
        page = f"<html><body>{''.join(each.html() for each in elements)}</body></html>"
        answer = tries.answer("extract", "--base", HERE[1], tries.file("page.html", page.encode()))
        wrong = status_differs(answer)
        try:
            found, wanted = by_grammar(answer.written.decode()), Rules().page(elements)
            if not wrong and (len(found) != len(wanted) or _canonical(found) != _canonical(wanted)):
                wrong = f"{len(found)} triples where {len(wanted)} others are right: {page[:500]}"
        except Unreadable as error:
            wrong = str(error)
        yield f"random page {seed}", wrong


GROUPS: list[Group] = [random_pages]
