"""Property copying, and the numbers of blank nodes: docs/RULES.md."""

from __future__ import annotations

import typing
from collections import defaultdict
from collections.abc import Iterator

from rdfax.serving.triples import RDF, RDFA, Triple
from rdfax.terms import Blank, Iri, Object, Subject

__all__ = ["copied", "numbered"]

# A subject stays a subject.
Term = typing.TypeVar("Term", Subject, Object)

_TYPE, _PATTERN, _COPY = Iri(f"{RDF}type"), Iri(f"{RDFA}Pattern"), Iri(f"{RDFA}copy")


class _Copying:
    """The patterns of a page's triples."""

    def __init__(self, triples: list[Triple]) -> None:
        self._triples = triples
        self._patterns = {triple.subject for triple in triples if triple.predicate == _TYPE and triple.object == _PATTERN}
        self._edges = defaultdict[Object, list[Object]](list)
        for triple in triples:
            if self._is_live(triple):
                self._edges[triple.subject].append(triple.object)
        self._referenced = {pattern for patterns in self._edges.values() for pattern in patterns}

    def _is_live(self, triple: Triple) -> bool:
        return triple.predicate == _COPY and triple.object in self._patterns

    def _reached(self, start: Object) -> set[Object]:
        reached, waiting = {start}, [start]
        while waiting:
            found = [pattern for pattern in self._edges.get(waiting.pop(), ()) if pattern not in reached]
            reached.update(found)
            waiting += found
        return reached

    def _given(self, copy: Triple) -> Iterator[Triple]:
        """What the copying triple's subject gets."""
        reached = self._reached(copy.object)
        for said in self._triples:
            if said.subject in reached and not self._is_live(said) and not (said.predicate == _TYPE and said.object == _PATTERN):
                yield said._replace(subject=copy.subject, origin=said.origin._replace(copied=copy.origin, subject=copy.origin.subject))

    def all(self) -> Iterator[Triple]:
        """Each triple in order: dropped, replaced or kept."""
        for triple in self._triples:
            if triple.subject in self._referenced:
                continue
            if self._is_live(triple):
                yield from self._given(triple)
            else:
                yield triple


def copied(triples: list[Triple]) -> list[Triple]:
    """The triples after copying, without repeats."""
    first = dict[tuple[Subject, Iri, Object], Triple]()
    for triple in _Copying(triples).all():
        first.setdefault(triple.terms, triple)
    return list(first.values())


def numbered(triples: list[Triple]) -> list[Triple]:
    """The triples with b0, b1, b2 for their blank nodes, in order of first occurrence."""
    labels = dict[str, Blank]()

    def label(term: Term) -> Term:
        return typing.cast("Term", labels.setdefault(term, Blank(f"b{len(labels)}"))) if isinstance(term, Blank) else term

    return [triple._replace(subject=label(triple.subject), object=label(triple.object)) for triple in triples]
