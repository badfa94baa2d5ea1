"""A triple, and where it comes from."""

from __future__ import annotations

from typing import NamedTuple

from rdfax.serving.markup import Span
from rdfax.serving.names import Name
from rdfax.terms import Iri, Object, Subject

__all__ = ["RDF", "RDFA", "How", "Origin", "Triple"]

RDF = "http://www.w3.org/1999/02/22-rdf-syntax-ns#"
RDFA = "http://www.w3.org/ns/rdfa#"


class How(NamedTuple):
    """How a term came to be: in words, by which attribute or element, and by which name of it."""

    says: str
    span: Span | None = None
    name: Name | None = None


class Origin(NamedTuple):
    """Where a triple comes from: the element that said it, and how each of its terms came to be."""

    element: str
    span: Span
    subject: How
    predicate: How
    object: How
    datatype: How | None = None
    copied: Origin | None = None


class Triple(NamedTuple):
    """A triple with its origin. Equal terms are told apart by their classes: no IRI is a blank node's label."""

    subject: Subject
    predicate: Iri
    object: Object
    origin: Origin

    @property
    def terms(self) -> tuple[Subject, Iri, Object]:
        """The triple alone."""
        return self[:3]
