"""Which element each item of a page is: a second reading of its Microdata, in Python, for pages without a fault.

The library tells no places. What this reading finds is compared with the library's items in all but the values' texts
(`agrees`), and where the two differ there are no places. It is used to tell places, and for nothing else.
"""

from __future__ import annotations

from collections.abc import Iterator, Mapping, Sequence
from typing import Any, NamedTuple

from rdfax.serving.markup import Ended, Span, Tag, read
from rdfax.serving.names import tokens_of

__all__ = ["Item", "agrees", "find", "pairs"]

# The library refuses what nests deeper, so nothing of it is looked for.
_DEEPEST = 40


class _Element:
    """An element, and those within it."""

    __slots__ = ("children", "number", "tag")

    def __init__(self, tag: Tag, number: int) -> None:
        self.tag, self.number, self.children = tag, number, list[_Element]()

    def tokens(self, attribute: str) -> list[str]:
        """The tokens of an attribute, each once; none where it isn't there."""
        found = self.tag.attributes.get(attribute)
        return [] if found is None else list(dict.fromkeys(tokens_of(found.value)))

    @property
    def is_item(self) -> bool:
        return "itemscope" in self.tag.attributes


class Item(NamedTuple):
    """An item: the start tag of its element, its types, and of each property's values those that are items."""

    span: Span
    types: list[str]
    properties: Mapping[str, list[Item | None]]


class _Page:
    """The elements of a page."""

    def __init__(self, page: bytes, syntax: str) -> None:
        self.elements = list[_Element]()
        self.named = dict[str, _Element]()
        opened = list[_Element]()
        for event in read(page, syntax):
            if isinstance(event, Tag):
                element = _Element(event, len(self.elements))
                self.elements.append(element)
                if opened:
                    opened[-1].children.append(element)
                opened.append(element)
                if "id" in event.attributes:
                    self.named.setdefault(event.attributes["id"].value, element)
            elif isinstance(event, Ended):
                opened.pop()

    def item(self, element: _Element, level: int = 0) -> Item:
        """The item that the element is."""
        properties = dict[str, list[Item | None]]()
        for found in self._properties(element) if level <= _DEEPEST else ():
            value = self.item(found, level + 1) if found.is_item else None
            for name in found.tokens("itemprop"):
                properties.setdefault(name, []).append(value)
        return Item(element.tag.span, element.tokens("itemtype"), properties)

    def _properties(self, root: _Element) -> list[_Element]:
        """The elements that are properties of the item, in the order of the page."""
        pending = [*root.children, *(self.named[name] for name in root.tokens("itemref") if name in self.named)]
        seen = {root.number: root}
        while pending:
            element = pending.pop()
            if element.number in seen:
                continue
            seen[element.number] = element
            if not element.is_item:
                pending += element.children
        del seen[root.number]
        return [seen[number] for number in sorted(seen) if seen[number].tokens("itemprop")]


def find(page: bytes, syntax: str = "html") -> list[Item]:
    """The items of a page that has no fault, in the library's order.

    >>> page = b'<html><p itemscope><b itemprop="maker" itemscope></b><i itemprop="name">Anvil</i></p></html>'
    >>> (item,) = find(page)
    >>> page[slice(*item.span)], page[slice(*item.properties["maker"][0].span)], item.properties["name"]
    (b'<p itemscope>', b'<b itemprop="maker" itemscope>', [None])
    """
    read_page = _Page(page, syntax)
    return [read_page.item(element) for element in read_page.elements if element.is_item and "itemprop" not in element.tag.attributes]


def agrees(found: Sequence[Item], items: Sequence[Mapping[str, Any]]) -> bool:
    """Whether these are the library's items, but for the values' texts."""
    return len(found) == len(items) and all(_is(item, told) for item, told in zip(found, items, strict=True))


def pairs(found: Sequence[Item], items: Sequence[dict[str, Any]]) -> Iterator[tuple[Item, dict[str, Any]]]:
    """Each item with the library's, those among the values of properties too."""
    for item, told in zip(found, items, strict=True):
        yield item, told
        for name, values in item.properties.items():
            inner = [(value, its) for value, its in zip(values, told["properties"][name], strict=True) if value is not None]
            yield from pairs([value for value, _ in inner], [its for _, its in inner])


def _is(item: Item, told: Mapping[str, Any]) -> bool:
    properties = told.get("properties", {})
    return (
        item.types == told.get("type", [])
        and item.properties.keys() == properties.keys()
        and all(_are(values, properties[name]) for name, values in item.properties.items())
    )


def _are(values: Sequence[Item | None], told: Sequence[Any]) -> bool:
    if len(values) != len(told):
        return False
    return all(isinstance(its, str) if value is None else isinstance(its, dict) and _is(value, its) for value, its in zip(values, told, strict=True))
