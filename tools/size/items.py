"""Pages whose items refer to many elements."""

from __future__ import annotations

from typing import Any

from size.cases import Cases, Group, Tries, items_case
from size.triples import page_of


def _elements(count: int, front: str = "a") -> str:
    return "".join(f'<p id="{front}{number}" itemprop="n">{front}{number}</p>\n' for number in range(count))


def _names(numbers: range, front: str = "a") -> list[str]:
    return [f"{front}{number}" for number in numbers]


def references(tries: Tries) -> Cases:
    for count in (1, 2, 3, 4, 10, 100, 3000):
        words = " ".join(reversed(_names(range(count))))
        page = page_of(f'<div itemscope itemref="{words}"></div>\n{_elements(count)}')
        yield items_case(tries, f"an itemref of {count} ids", page, {"items": [{"properties": {"n": _names(range(count))}}]})
    page = page_of(f'<div itemscope itemref=" a1\ta0 a1 none a2 a2\nnone2 a3 "></div>\n{_elements(4)}')
    yield items_case(tries, "an itemref with ids twice, and ids that aren't there", page, {"items": [{"properties": {"n": _names(range(4))}}]})


def items_with_references(tries: Tries) -> Cases:
    """An item of ten parts, each with ten ids of its own; and ten items, each with the same ten ids."""
    parts = "".join(f'<div itemprop="part" itemscope itemref="{" ".join(_names(range(10 * number, 10 * number + 10)))}"></div>\n' for number in range(10))
    page = page_of(f"<div itemscope>{parts}</div>\n{_elements(100)}")
    said: list[Any] = [{"properties": {"n": _names(range(10 * number, 10 * number + 10))}} for number in range(10)]
    yield items_case(tries, "an item with ten itemref of ten ids", page, {"items": [{"properties": {"part": said}}]})
    words = " ".join(_names(range(10)))
    page = page_of(f'<div itemscope itemref="{words}"></div>\n' * 10 + _elements(10))
    yield items_case(tries, "ten items with the same ten ids", page, {"items": [{"properties": {"n": _names(range(10))}}] * 10})


def referred_items(tries: Tries) -> Cases:
    """An item that refers to ten items, each of which refers to ten elements: 100 visits in the second row."""
    words = " ".join(_names(range(10), "i"))
    inner = "".join(f'<div id="i{number}" itemprop="part" itemscope itemref="{" ".join(_names(range(10)))}"></div>\n' for number in range(10))
    page = page_of(f'<div itemscope itemref="{words}"></div>\n{inner}{_elements(10)}')
    said = {"properties": {"part": [{"properties": {"n": _names(range(10))}}] * 10}}
    yield items_case(tries, "an item that refers to ten items of ten ids", page, {"items": [said]})


def many_items(tries: Tries) -> Cases:
    body = "".join(f'<p itemscope itemtype="http://schema.org/T{number}"><b itemprop="n m">{number}</b></p>\n' for number in range(3000))
    said = [{"properties": {"m": [str(number)], "n": [str(number)]}, "type": [f"http://schema.org/T{number}"]} for number in range(3000)]
    yield items_case(tries, "3,000 items", page_of(body), {"items": said})
    body = "".join(f'<div itemprop="in" itemscope><b itemprop="n">{number}</b>' for number in range(1, 40))
    value: dict[str, Any] = {"properties": {"n": ["39"]}}
    for number in range(38, -1, -1):
        value = {"properties": {"in": [value], "n": [str(number)]}}
    page = page_of(f'<div itemscope><b itemprop="n">0</b>{body}{"</div>" * 40}')
    yield items_case(tries, "40 items, each in the one before", page, {"items": [value]})


GROUPS: list[Group] = [references, items_with_references, referred_items, many_items]
