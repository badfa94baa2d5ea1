"""What an element says by itself: its facts and its resources (docs/RULES.md), with how each term came to be."""

from __future__ import annotations

from typing import NamedTuple

from rdfax.serving.iris import resolved
from rdfax.serving.markup import WHITE_SPACE, Tag
from rdfax.serving.names import Name, Scope, is_term, tokens_of
from rdfax.serving.triples import RDF, How
from rdfax.terms import Blank, Iri, Subject

__all__ = ["SPEAKING", "Base", "Facts", "Resource", "Resources", "facts_of", "resources_of"]

# The attributes of which RDFa speaks, but for those that declare names.
SPEAKING = frozenset(("about", "content", "datatype", "datetime", "href", "inlist", "property", "rel", "resource", "rev", "src", "typeof", "vocab"))


class Resource(NamedTuple):
    """An IRI or a blank node, and how it came to be."""

    node: Subject
    how: How


class Base(NamedTuple):
    """The page's base, and what made it that."""

    iri: str
    resource: Resource


class Predicate(NamedTuple):
    """A predicate, and how it came to be."""

    iri: Iri
    how: How


class Facts(NamedTuple):
    """The attributes of an element, as far as each counts as present."""

    about: Resource | None
    linked: Resource | None
    rel: list[Predicate] | None
    rev: list[Predicate] | None
    properties: list[Predicate] | None
    types: list[Resource] | None
    datatype: Predicate | None
    plain: bool
    tag: Tag
    scope: Scope

    @property
    def inlist(self) -> bool:
        """Whether its objects are items of lists."""
        return "inlist" in self.tag.attributes

    @property
    def has_link(self) -> bool:
        """Whether `rel` or `rev` is present."""
        return self.rel is not None or self.rev is not None


class Resources(NamedTuple):
    """The resources of an element before its predicates hang."""

    subject: Resource
    typed: Resource | None
    object: Resource | None
    skipped: bool = False


class _Reading:
    """Reads the attributes of one tag."""

    def __init__(self, tag: Tag, scope: Scope, base: Base) -> None:
        self._tag, self._scope, self._base = tag, scope, base

    def _resource(self, attribute: str, name: Name) -> Resource:
        how = How(f"by the attribute {attribute}", self._tag.attributes[attribute].span, name)
        if name.kind == "iri":
            return Resource(Iri(name.text), how)
        if name.kind == "label":
            return Resource(Blank(f" author {name.text}"), how)
        return Resource(Iri(resolved(self._base.iri, name.text)), how)

    def named(self, attribute: str) -> Resource | None:
        """The resource that `about` or `resource` names."""
        said = self._tag.attributes.get(attribute)
        name = None if said is None else self._scope.read_resource(said.value)
        return None if name is None else self._resource(attribute, name)

    def linked(self) -> Resource | None:
        """The first present of `resource`, `href` and `src`."""
        found = self.named("resource")
        if found is not None:
            return found
        for attribute in ("href", "src"):
            if attribute in self._tag.attributes:
                return self._resource(attribute, Name("reference", self._tag.attributes[attribute].value))
        return None

    def _predicates(self, attribute: str, tokens: list[str]) -> list[Predicate]:
        span = self._tag.attributes[attribute].span
        names = [name for token in tokens if (name := self._scope.read(token)) is not None and name.kind == "iri"]
        return [Predicate(Iri(name.text), How(f"by the attribute {attribute}", span, name)) for name in names]

    def predicates(self, attribute: str) -> list[Predicate] | None:
        """The predicates of `property`, or of `rel` or `rev` where there is no `property`."""
        said = self._tag.attributes.get(attribute)
        return None if said is None else self._predicates(attribute, tokens_of(said.value))

    def link(self, attribute: str) -> list[Predicate] | None:
        """The predicates of `rel` or `rev`, which keep CURIEs and IRIs alone beside `property`."""
        said = self._tag.attributes.get(attribute)
        if said is None or "property" not in self._tag.attributes:
            return self.predicates(attribute)
        kept = [token for token in tokens_of(said.value) if not is_term(token) and self._scope.read_no_term(token) is not None]
        return self._predicates(attribute, kept) if kept else None

    def types(self) -> list[Resource] | None:
        """The types, of which an author's blank node may be one."""
        said = self._tag.attributes.get("typeof")
        if said is None:
            return None
        return [self._resource("typeof", name) for token in tokens_of(said.value) if (name := self._scope.read(token)) is not None]

    def datatype(self) -> Predicate | None:
        """The datatype with an IRI."""
        said = self._tag.attributes.get("datatype")
        name = None if said is None else self._scope.read(said.value.strip(WHITE_SPACE))
        if said is None or name is None or name.kind != "iri" or name.text == f"{RDF}langString":
            return None
        return Predicate(Iri(name.text), How("by the attribute datatype", said.span, name))


def facts_of(tag: Tag, scope: Scope, base: Base) -> Facts:
    """The facts of a tag, under the names in force at it."""
    reading = _Reading(tag, scope, base)
    plain = "property" in tag.attributes and not tag.attributes.keys() & {"content", "datatype"}
    return Facts(
        reading.named("about"),
        reading.linked(),
        reading.link("rel"),
        reading.link("rev"),
        reading.predicates("property"),
        reading.types(),
        reading.datatype(),
        plain,
        tag,
        scope,
    )


def resources_of(facts: Facts, around: Resource, fallback: Resource | None, new: Resource) -> Resources:
    """The resources of an element.

    `around` is the parent object, `fallback` what stands for a resource at the root, or at head and body; `new` is the
    element's own blank node.
    """
    at_root = fallback if fallback is not None and fallback.how.says.startswith("the page's base") else None
    has_typeof = facts.types is not None
    if facts.has_link:
        linked = facts.linked or (new if has_typeof and facts.about is None else None)
        return Resources(facts.about or at_root or around, (facts.about or linked) if has_typeof else None, linked)
    if facts.plain:
        typed = (facts.about or at_root or facts.linked or fallback or new) if has_typeof else None
        return Resources(facts.about or at_root or around, typed, typed)
    subject = facts.about or facts.linked or fallback or (new if has_typeof else None) or around
    silent = facts.properties is None and facts.about is None and facts.linked is None and at_root is None and not has_typeof
    return Resources(subject, subject if has_typeof else None, None, silent)
