"""What quads are made of."""

from __future__ import annotations

from typing import NamedTuple

__all__ = ["Blank", "Iri", "Literal", "Object", "Quad", "Subject"]


class Iri(str):
    """An IRI.

    >>> Iri("http://schema.org/name")
    Iri('http://schema.org/name')
    """

    __slots__ = ()

    def __repr__(self) -> str:
        return f"Iri({str(self)!r})"


class Blank(str):
    """A blank node, by its label without `_:`, which is the one it has in the page's N-Quads.

    >>> Blank("b0")
    Blank('b0')
    """

    __slots__ = ()

    def __repr__(self) -> str:
        return f"Blank({str(self)!r})"


class Literal(NamedTuple):
    """A literal: its text, its language if it has one, and its datatype where that isn't xsd:string.

    >>> Literal("Anvil", language="en")
    Literal(text='Anvil', language='en', datatype=None)
    """

    text: str
    language: str | None = None
    datatype: Iri | None = None


Subject = Iri | Blank
Object = Iri | Blank | Literal


class Quad(NamedTuple):
    """A triple, and the name of the graph in which it stands, if that has one."""

    subject: Subject
    predicate: Iri
    object: Object
    graph: Iri | None = None
