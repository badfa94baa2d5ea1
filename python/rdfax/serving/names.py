"""Names in scope, and what the values of attributes mean by them: docs/RULES.md, "Names in scope" and "Readings"."""

from __future__ import annotations

import json
import re
from typing import NamedTuple

from rdfax.serving.iris import cleaned, has_scheme
from rdfax.serving.markup import WHITE_SPACE, Span, Tag, ascii_lowered

__all__ = ["STANDARD", "Context", "Declared", "Name", "Scope", "context_of", "is_term", "tokens_of"]

_NC_START = (
    "A-Z_a-z\u00c0-\u00d6\u00d8-\u00f6\u00f8-\u02ff\u0370-\u037d\u037f-\u1fff\u200c\u200d\u2070-\u218f\u2c00-\u2fef"
    "\u3001-\ud7ff\uf900-\ufdcf\ufdf0-\ufffd\U00010000-\U000effff"
)
_NC = _NC_START + "\\-.0-9\u00b7\u0300-\u036f\u203f\u2040"
_NC_NAME = re.compile(f"[{_NC_START}][{_NC}]*")
_TERM = re.compile(f"[{_NC_START}][{_NC}/]*")
_LANGUAGE = re.compile("[A-Za-z]+(-[A-Za-z0-9]+)*")
_TOKEN = re.compile(f"[^{WHITE_SPACE}]+")

_XHTML_VOCABULARY = "http://www.w3.org/1999/xhtml/vocab#"


class Context(NamedTuple):
    """The prefixes and terms that hold where a page declares none."""

    prefixes: dict[str, str]
    terms: dict[str, str]
    name: str


STANDARD = Context(
    {
        "cc": "http://creativecommons.org/ns#",
        "dc": "http://purl.org/dc/terms/",
        "dcat": "http://www.w3.org/ns/dcat#",
        "dcterms": "http://purl.org/dc/terms/",
        "foaf": "http://xmlns.com/foaf/0.1/",
        "gr": "http://purl.org/goodrelations/v1#",
        "og": "http://ogp.me/ns#",
        "owl": "http://www.w3.org/2002/07/owl#",
        "prov": "http://www.w3.org/ns/prov#",
        "rdf": "http://www.w3.org/1999/02/22-rdf-syntax-ns#",
        "rdfa": "http://www.w3.org/ns/rdfa#",
        "rdfs": "http://www.w3.org/2000/01/rdf-schema#",
        "schema": "http://schema.org/",
        "sioc": "http://rdfs.org/sioc/ns#",
        "skos": "http://www.w3.org/2004/02/skos/core#",
        "vcard": "http://www.w3.org/2006/vcard/ns#",
        "void": "http://rdfs.org/ns/void#",
        "xhv": _XHTML_VOCABULARY,
        "xsd": "http://www.w3.org/2001/XMLSchema#",
    },
    {
        "describedby": "http://www.w3.org/2007/05/powder-s#describedby",
        "license": f"{_XHTML_VOCABULARY}license",
        "role": f"{_XHTML_VOCABULARY}role",
    },
    "the standard context",
)


def context_of(content: bytes) -> Context:
    """The context of a context file that the library takes."""
    told = json.loads(content)
    prefixes = {ascii_lowered(name): iri for name, iri in told.get("prefixes", {}).items()}
    return Context(prefixes, dict(sorted(told.get("terms", {}).items())), "the context file")


class Declared(NamedTuple):
    """A prefix or a vocabulary: its IRI, and the attribute that declares it, or none where the context has it."""

    iri: str
    span: Span | None


class Name(NamedTuple):
    """What a token or a value names.

    `kind` is `iri`, `label` (a blank node's), or `reference`, which is still to be resolved. `by` says what made an IRI: a
    `prefix`, a `vocabulary`, a `term` of the context, or nothing but itself. `word` is the prefix or the term.
    """

    kind: str
    text: str
    by: str = ""
    word: str = ""
    declared: Declared | None = None


def is_term(token: str) -> bool:
    """Whether the token has the form of a term."""
    return _TERM.fullmatch(token) is not None


def tokens_of(value: str) -> list[str]:
    """What stands between white space."""
    return _TOKEN.findall(value)


class Scope:
    """The names in force at an element, which are those around it where its own tag declares none."""

    __slots__ = ("_context", "_parent", "_prefixes", "language", "vocabulary")

    def __init__(self, context: Context) -> None:
        self._context, self._parent = context, None
        self._prefixes = {name: Declared(iri, None) for name, iri in context.prefixes.items()}
        self.vocabulary: Declared | None = None
        self.language: str | None = None

    _parent: Scope | None

    @property
    def context(self) -> Context:
        """The context in which all stands."""
        return self._context

    def below(self, tag: Tag) -> Scope:
        """The names in force at the element of this tag."""
        declared = _declarations(tag)
        if not declared and not tag.attributes.keys() & {"vocab", "lang", "xml:lang"}:
            return self
        scope = Scope.__new__(Scope)
        scope._context, scope._parent, scope._prefixes = self._context, self, declared
        scope.vocabulary, scope.language = self.vocabulary, self.language
        if "vocab" in tag.attributes:
            value, span = tag.attributes["vocab"]
            scope.vocabulary = Declared(value.strip(WHITE_SPACE), span) if value.strip(WHITE_SPACE) else None
        said = tag.attributes.get("xml:lang", tag.attributes.get("lang"))
        if said is not None:
            scope.language = said.value if _LANGUAGE.fullmatch(said.value) else None
        return scope

    def _prefix(self, name: str) -> Declared | None:
        scope: Scope | None = self
        while scope is not None:
            if name in scope._prefixes:
                return scope._prefixes[name]
            scope = scope._parent
        return None

    def _term(self, token: str) -> Name | None:
        if self.vocabulary is not None:
            return Name("iri", cleaned(self.vocabulary.iri + token), "vocabulary", "", self.vocabulary)
        terms, lowered = self._context.terms, ascii_lowered(token)
        alike = [token] if token in terms else [term for term in terms if ascii_lowered(term) == lowered]
        name = next(iter(alike), None)
        return None if name is None else Name("iri", cleaned(terms[name]), "term", name)

    def _curie(self, text: str) -> Name | None:
        prefix, colon, reference = text.partition(":")
        if not colon or reference.startswith("//"):
            return None
        if prefix == "_":
            return Name("label", reference)
        declared = Declared(_XHTML_VOCABULARY, None) if not prefix else self._prefix(ascii_lowered(prefix))
        return None if declared is None else Name("iri", cleaned(declared.iri + reference), "prefix", prefix, declared)

    def read_no_term(self, token: str) -> Name | None:
        """A CURIE, or a text with a scheme."""
        return self._curie(token) or (Name("iri", cleaned(token)) if has_scheme(token) else None)

    def read(self, token: str) -> Name | None:
        """A token of `property`, `rel`, `rev`, `typeof` or `datatype`."""
        return self._term(token) if is_term(token) else self.read_no_term(token)

    def read_resource(self, value: str) -> Name | None:
        """The value of `about` or `resource`."""
        text = value.strip(WHITE_SPACE)
        if len(text) > 1 and text.startswith("[") and text.endswith("]"):
            return self._curie(text[1:-1])
        return self._curie(text) or Name("reference", text)


def _declarations(tag: Tag) -> dict[str, Declared]:
    """The prefixes that the tag declares; of several of one name the last one holds."""
    said = [(ascii_lowered(name[6:]), value.strip(WHITE_SPACE), span) for name, (value, span) in tag.attributes.items() if name.startswith("xmlns:")]
    if "prefix" in tag.attributes:
        value, span = tag.attributes["prefix"]
        said += [(name, iri, span) for name, iri in _pairs(tokens_of(value))]
    return {name: Declared(iri, span) for name, iri, span in said if name != "_" and _NC_NAME.fullmatch(name) and has_scheme(iri)}


def _pairs(tokens: list[str]) -> list[tuple[str, str]]:
    """Each token that ends in a colon, with the token after it."""
    pairs, waiting = list[tuple[str, str]](), None
    for token in tokens:
        if waiting is not None:
            pairs.append((waiting, token))
            waiting = None
        elif token.endswith(":"):
            waiting = ascii_lowered(token[:-1])
    return pairs
