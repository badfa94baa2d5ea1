"""Where each triple of a page comes from: a second reading of the page, in Python, by docs/RULES.md.

The library tells no places. What this reading makes of a page is compared with what the library says, triple by triple
(`places_of`), and where the two differ there are no places. It is used to explain, and for nothing else.
"""

from __future__ import annotations

import itertools
from collections.abc import Iterator, Sequence
from typing import NamedTuple

from rdfax.serving.copying import copied, numbered
from rdfax.serving.elements import SPEAKING, Base, Facts, Predicate, Resource, Resources, facts_of, resources_of
from rdfax.serving.iris import cleaned, resolved, without_fragment
from rdfax.serving.markup import Ended, Event, Tag, read
from rdfax.serving.names import STANDARD, Context, Scope
from rdfax.serving.times import time_datatype
from rdfax.serving.triples import RDF, RDFA, How, Origin, Triple
from rdfax.terms import Blank, Iri, Literal, Object, Quad

__all__ = ["Found", "find", "places_of"]

_TYPE, _FIRST, _REST, _NIL = (Iri(RDF + name) for name in ("type", "first", "rest", "nil"))
_USES_VOCABULARY = Iri(f"{RDFA}usesVocabulary")
_XSD_STRING = "http://www.w3.org/2001/XMLSchema#string"


class Found(NamedTuple):
    """What the second reading finds: triples with their origins, and how many elements and levels there are."""

    triples: list[Triple]
    elements: int
    depth: int


class _Item:
    """An item of a list, whose value may be the text of an element that ends later."""

    __slots__ = ("origin", "value")

    def __init__(self, origin: Origin, value: Object | None) -> None:
        self.origin, self.value = origin, value


class _Lists:
    """The lists of one owner: of each predicate its items, and the origin of its first item or touch."""

    _owners = itertools.count()

    def __init__(self) -> None:
        self._owner = next(self._owners)
        self._lists = dict[Iri, tuple[Origin, list[_Item]]]()

    def add(self, predicate: Predicate, origin: Origin, value: Object | None) -> _Item:
        """An item, which may wait for its value."""
        item = _Item(origin, value)
        self.touch(predicate, origin).append(item)
        return item

    def touch(self, predicate: Predicate, origin: Origin) -> list[_Item]:
        """The list, which is begun where it wasn't."""
        return self._lists.setdefault(predicate.iri, (origin, []))[1]

    def triples(self, subject: Resource) -> Iterator[Triple]:
        """The triples of all lists."""
        for predicate, (origin, items) in self._lists.items():
            cells = [Blank(f" cell {self._owner} {number} {predicate}") for number in range(len(items))]
            nodes: list[Blank | Iri] = [*cells, _NIL]
            yield Triple(subject.node, predicate, nodes[0], origin._replace(subject=subject.how, object=How("the first cell of the list")))
            for number, item in enumerate(items):
                here = item.origin._replace(subject=How("a cell of the list"), predicate=How("each cell of a list has it"))
                if item.value is not None:
                    yield Triple(cells[number], _FIRST, item.value, here)
                yield Triple(cells[number], _REST, nodes[number + 1], here._replace(object=How("the next cell, or the list's end")))


class _Hanging(NamedTuple):
    """A predicate that waits for the subject of an element further down; with `lists` it is an item of a list."""

    predicate: Predicate
    reverse: bool
    lists: _Lists | None
    parent: Resource
    tag: Tag


class _Inherited(NamedTuple):
    """What an element inherits: parent subject and object, the predicates that hang, and the owner of lists."""

    subject: Resource
    object: Resource
    hanging: list[_Hanging]
    lists: _Lists


class _Waiting(NamedTuple):
    """A property whose value is the element's text: what of it comes at the element's end."""

    facts: Facts
    subject: Resource
    items: list[_Item]
    text_from: int


class _Frame(NamedTuple):
    """An open element: what its children inherit, and what it has at its end."""

    scope: Scope
    inherited: _Inherited
    waiting: _Waiting | None = None
    lists: Sequence[tuple[_Lists, Resource]] = ()


def _base_of(events: list[Event], address: str) -> Base:
    """The base: the first `href` of a base element that is a child of the root's first element, where that is its head."""
    level = 0
    in_head = False
    for event in events:
        if isinstance(event, Ended):
            level -= 1
            if level == 1:
                break
        elif isinstance(event, Tag):
            level += 1
            in_head = in_head or (level == 2 and event.name == "head")
            if level == 3 and in_head and event.name == "base" and "href" in event.attributes:
                said = event.attributes["href"]
                iri = without_fragment(resolved(address, said.value))
                return Base(iri, Resource(Iri(iri), How("the page's base, by the element base", said.span)))
    iri = without_fragment(address)
    return Base(iri, Resource(Iri(iri), How("the page's base, which is its address")))


class _Machine:
    """Makes the triples of a page from left to right."""

    def __init__(self, base: Base, context: Context) -> None:
        self._base = base
        self._page_lists = _Lists()
        self._frames = [_Frame(Scope(context), _Inherited(base.resource, base.resource, [], self._page_lists))]
        self._texts = list[str]()
        self._triples = list[Triple]()
        self._elements = self._depth = 0

    def found(self, events: list[Event]) -> Found:
        """Reads all."""
        for event in events:
            if isinstance(event, Tag):
                self._start(event)
            elif isinstance(event, Ended):
                self._end(self._frames.pop())
            else:
                self._texts.append(event)
        self._triples += self._page_lists.triples(self._base.resource)
        return Found(numbered(copied(self._triples)), self._elements, self._depth)

    def _start(self, tag: Tag) -> None:
        around, level = self._frames[-1], len(self._frames)
        self._elements += 1
        self._depth = max(self._depth, level)
        scope = around.scope.below(tag)
        if level > 1 and not tag.attributes.keys() & SPEAKING:
            self._frames.append(_Frame(scope, around.inherited))
            return
        facts = facts_of(tag, scope, self._base)
        new = Resource(Blank(f" made {self._elements}"), How("a new blank node of the element", tag.span))
        here = resources_of(facts, around.inherited.object, self._fallback(tag, level), new)
        self._say_vocabulary(facts)
        self._frames.append(_Frame(scope, around.inherited) if here.skipped else self._speak(facts, here, around.inherited, new))

    def _fallback(self, tag: Tag, level: int) -> Resource | None:
        """What stands for a resource at the root, and at head and body."""
        if level == 1:
            return self._base.resource
        if level == 2 and tag.name in ("head", "body"):
            parent = self._frames[-1].inherited.object
            return Resource(parent.node, How(f"the parent's object: {parent.how.says}", parent.how.span, parent.how.name))
        return None

    def _say(self, tag: Tag, subject: Resource, predicate: Predicate, value: Resource) -> None:
        origin = Origin(tag.name, tag.span, subject.how, predicate.how, value.how)
        self._triples.append(Triple(subject.node, predicate.iri, value.node, origin))

    def _say_vocabulary(self, facts: Facts) -> None:
        said = facts.tag.attributes.get("vocab")
        if said is not None and facts.scope.vocabulary is not None:
            vocabulary = Resource(Iri(cleaned(facts.scope.vocabulary.iri)), How("by the attribute vocab", said.span))
            self._say(facts.tag, self._base.resource, Predicate(_USES_VOCABULARY, How("a vocabulary is used", said.span)), vocabulary)

    def _speak(self, facts: Facts, here: Resources, around: _Inherited, new: Resource) -> _Frame:
        """The triples at an element's start, and what its children inherit."""
        tag, links = facts.tag, [*(facts.rel or ()), *(facts.rev or ())]
        hangs = here.object is None and bool(links)
        below = here.object or (new if hangs else None)
        own_lists = around.lists if here.subject.node == around.object.node else _Lists()
        if here.typed is not None and facts.types:
            for kind in facts.types:
                self._say(tag, here.typed, Predicate(_TYPE, How("by the attribute typeof", tag.attributes["typeof"].span)), kind)
        if here.object is not None:
            self._link(facts, here.subject, here.object, own_lists)
        hanging = self._hanging(facts, here.subject, own_lists) if hangs else []
        waiting = self._value(facts, here, own_lists)
        self._complete(tag, here.subject, around)
        lists_below = own_lists if below is None or below.node == here.subject.node else _Lists()
        owned = [(lists_below, below or here.subject)] if lists_below is not own_lists else []
        owned += [(own_lists, here.subject)] if own_lists is not around.lists else []
        return _Frame(facts.scope, _Inherited(here.subject, below or here.subject, hanging, lists_below), waiting, owned)

    def _link(self, facts: Facts, subject: Resource, target: Resource, lists: _Lists) -> None:
        for predicate in facts.rel or ():
            if facts.inlist:
                lists.add(predicate, Origin(facts.tag.name, facts.tag.span, subject.how, predicate.how, target.how), target.node)
            else:
                self._say(facts.tag, subject, predicate, target)
        for predicate in facts.rev or ():
            self._say(facts.tag, target, predicate, subject)

    def _hanging(self, facts: Facts, subject: Resource, lists: _Lists) -> list[_Hanging]:
        tag = facts.tag
        hanging = [_Hanging(predicate, False, lists if facts.inlist else None, subject, tag) for predicate in facts.rel or ()]
        for hung in hanging:
            if hung.lists is not None:
                hung.lists.touch(hung.predicate, Origin(tag.name, tag.span, subject.how, hung.predicate.how, How("the list, which is begun here", tag.span)))
        return hanging + [_Hanging(predicate, True, None, subject, tag) for predicate in facts.rev or ()]

    def _complete(self, tag: Tag, subject: Resource, around: _Inherited) -> None:
        """What hangs from above is said of this element's subject."""
        for hung in around.hanging:
            if hung.lists is not None:
                hung.lists.add(hung.predicate, Origin(tag.name, tag.span, around.subject.how, hung.predicate.how, subject.how), subject.node)
            elif hung.reverse:
                self._say(tag, subject, hung.predicate, around.subject)
            else:
                self._say(tag, around.subject, hung.predicate, subject)

    def _value(self, facts: Facts, here: Resources, lists: _Lists) -> _Waiting | None:
        """Says the properties, or answers what waits for the element's text."""
        if facts.properties is None:
            return None
        value = _value_now(facts, here)
        if value is not None:
            self._say_properties(facts, here.subject, lists, *value)
            return None
        items = []
        if facts.inlist:
            items = [lists.add(predicate, self._origin(facts, here.subject, predicate, _by_text(facts)), None) for predicate in facts.properties]
        return _Waiting(facts, here.subject, items, len(self._texts))

    def _say_properties(self, facts: Facts, subject: Resource, lists: _Lists | None, value: Object, how: How) -> None:
        for predicate in facts.properties or ():
            origin = self._origin(facts, subject, predicate, how)
            if facts.inlist and lists is not None:
                lists.add(predicate, origin, value)
            else:
                self._triples.append(Triple(subject.node, predicate.iri, value, origin))

    def _origin(self, facts: Facts, subject: Resource, predicate: Predicate, how: How) -> Origin:
        datatype = None if facts.datatype is None else facts.datatype.how
        return Origin(facts.tag.name, facts.tag.span, subject.how, predicate.how, how, datatype)

    def _end(self, frame: _Frame) -> None:
        if frame.waiting is not None:
            facts, subject, items, text_from = frame.waiting
            value = _value_of_text(facts, "".join(self._texts[text_from:]))
            for item in items:
                item.value = value
            if not facts.inlist:
                self._say_properties(facts, subject, None, value, _by_text(facts))
        for lists, subject in frame.lists:
            self._triples += lists.triples(subject)


def _by_text(facts: Facts) -> How:
    return How("the text of the element", facts.tag.span)


def _literal(text: str, facts: Facts) -> Literal:
    """A literal of the element's datatype, or else in its language."""
    if facts.datatype is None:
        return Literal(text, facts.scope.language)
    return Literal(text, None, None if facts.datatype.iri == _XSD_STRING else facts.datatype.iri)


def _time(text: str, facts: Facts) -> Literal:
    datatype = time_datatype(text)
    return Literal(text, facts.scope.language) if datatype is None else Literal(text, None, Iri(datatype))


def _value_now(facts: Facts, here: Resources) -> tuple[Object, How] | None:
    """The value of `property`, where that isn't the element's text."""
    attributes = facts.tag.attributes
    content, datetime = attributes.get("content"), attributes.get("datetime")
    if content is not None:
        return _literal(content.value, facts), How("by the attribute content", content.span)
    if datetime is not None:
        literal = _literal(datetime.value, facts) if "datatype" in attributes else _time(datetime.value, facts)
        return literal, How("by the attribute datetime", datetime.span)
    if "datatype" in attributes or facts.tag.name == "time":
        return None
    if not facts.has_link and facts.linked is not None:
        return facts.linked.node, facts.linked.how
    if facts.types is not None and facts.about is None and here.typed is not None:
        return here.typed.node, here.typed.how
    return None


def _value_of_text(facts: Facts, text: str) -> Literal:
    is_time = facts.tag.name == "time" and "datatype" not in facts.tag.attributes
    return _time(text, facts) if is_time else _literal(text, facts)


def find(page: bytes, address: str, *, syntax: str = "html", context: Context = STANDARD) -> Found:
    """The triples of a page that has no fault, in the library's order, each with its origin.

    >>> found = find(b'<html><p property="dc:title">Anvil</p></html>', "http://h.example/d")
    >>> found.triples[0].terms
    (Iri('http://h.example/d'), Iri('http://purl.org/dc/terms/title'), Literal(text='Anvil', language=None, datatype=None))
    >>> found.triples[0].origin.predicate.name.word, found.triples[0].origin.span
    ('dc', (6, 29))
    """
    events = list(read(page, syntax))
    return _Machine(_base_of(events, address), context).found(events)


def places_of(found: Found, quads: Sequence[Quad]) -> list[Origin] | None:
    """The origins of the library's quads, one for one; none where the two readings differ anywhere."""
    if len(found.triples) != len(quads):
        return None
    for triple, quad in zip(found.triples, quads, strict=True):
        if triple.terms != quad[:3] or any(type(ours) is not type(its) for ours, its in zip(triple.terms, quad[:3], strict=True)):
            return None
    return [triple.origin for triple in found.triples]
