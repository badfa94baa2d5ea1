"""Pages that are made by chance, of what RDFa has rules for."""

from __future__ import annotations

import html
import random
from collections.abc import Iterator

__all__ = ["made_items", "made_pages"]

_NAMES = ["div", "span", "a", "b", "time", "section", "svg", "pre", "ul", "li", "td", "title", "script", "math", "desc", "template"]
_TOKENS = [
    "e:p",
    "e:q",
    "dc:title",
    "schema:name",
    "name",
    "a/b",
    "license",
    "LICENSE",
    "http://v.example/p",
    "_:x",
    "_:y",
    ":next",
    ":",
    "[e:p]",
    "rdf:type",
    "rdfa:copy",
    "rdfa:Pattern",
    "é",
    "urn:a//b",
    "q://c",
]
_RESOURCES = [
    "#a",
    "#b",
    "",
    "[e:s]",
    "[x]",
    "[_:x]",
    "_:y",
    "../g?q#f",
    "http://o.example/\u00e4 b",
    "e:s",
    "?q",
    "//h/p",
    " x ",
    "[",
    "/./a/../b",
    "[rdfa:Pattern]",
]
_TIMES = ["2020", "2020-02-03", "10:11:12", "2020-02-03T10:11:12Z", "P1D", "x", "-0001", "24:00:01", "PT", "P1YT1S", "0000", "12020+14:00"]
_PREFIXES = ["e: http://e.example/", "E: http://E.example/ q: http://q.example/", "_: http://u/", "e: rel x: y:", "dc: http://d/", "e: http://1/ e: http://2/"]
_TEXTS = ["x", " ", "\u00e9", "\r\n", "&amp;", "&#128;", "&lang;", "2020-01-01", "&x", "<!-- c -->", "10:00:00"]
# Of each attribute how often it stands, and its values; none where they are tokens.
_ATTRIBUTES: dict[str, tuple[float, list[str] | None]] = {
    "about": (0.2, _RESOURCES),
    "resource": (0.15, _RESOURCES),
    "href": (0.12, _RESOURCES),
    "src": (0.08, _RESOURCES),
    "rel": (0.15, None),
    "rev": (0.1, None),
    "property": (0.35, None),
    "typeof": (0.2, None),
    "content": (0.1, ["", "x", "2020-01-01", "\u00e9 < x"]),
    "datatype": (0.08, ["", "xsd:string", "xsd:date", "x", "rdf:langString", "e:d", " xsd:int ", "dc:x y"]),
    "datetime": (0.1, _TIMES),
    "inlist": (0.15, [""]),
    "vocab": (0.08, ["", "http://v.example/", " http://v.example/x "]),
    "prefix": (0.1, _PREFIXES),
    "xmlns:e": (0.05, ["http://x.example/", "no"]),
    "lang": (0.08, ["en", "de-AT", "", "x_y"]),
    "xml:lang": (0.05, ["fr", ""]),
}


class _Maker:
    def __init__(self, seed: int) -> None:
        self._chance = random.Random(seed)

    def _attributes(self) -> str:
        pick, said = self._chance, list[str]()
        for name, (often, values) in _ATTRIBUTES.items():
            if pick.random() < often:
                value = " ".join(pick.choices(_TOKENS, k=pick.randint(0, 3))) if values is None else pick.choice(values)
                said.append(f'{name}="{html.escape(value)}"')
        pick.shuffle(said)
        return " ".join(said)

    def _element(self, level: int) -> str:
        pick = self._chance
        if pick.random() < 0.1:
            return f"<{pick.choice(['br', 'img', 'link', 'meta'])} {self._attributes()}>"
        name = pick.choice(_NAMES)
        if name in ("script", "title"):
            inside = pick.choice(["", "\n", "\u00e9&amp;"])
        else:
            inside = "".join(pick.choice(_TEXTS) if level > 5 or pick.random() < 0.4 else self._element(level + 1) for _ in range(pick.randint(0, 3)))
        return f"<{name} {self._attributes()}>{inside}</{name}>"

    def page(self) -> str:
        """A page."""
        pick = self._chance
        base = f"<base href='{pick.choice(_RESOURCES)}'>" if pick.random() < 0.3 else ""
        head = f"<head {self._attributes()}>{base}<title>t</title></head>" if pick.random() < 0.6 else ""
        body = "".join(self._element(1) for _ in range(pick.randint(1, 5)))
        return f"<html {self._attributes()}>{head}<body {self._attributes()}>{body}</body></html>"


def made_pages(seed: int, number: int) -> Iterator[str]:
    """So many pages, which are the same for the same seed."""
    maker = _Maker(seed)
    return (maker.page() for _ in range(number))


def _item_tag(chance: random.Random) -> str:
    words = []
    if chance.random() < 0.4:
        words.append("itemscope")
        if chance.random() < 0.5:
            words.append(f'itemtype="{chance.choice(["http://schema.org/Thing", "http://a.example/ http://b.example/ http://a.example/", " "])}"')
        if chance.random() < 0.3:
            words.append(f'itemref="{chance.choice(["a", "b", "a b", "c none", "d d"])}"')
    if chance.random() < 0.5:
        words.append(f'itemprop="{chance.choice(["name", "a b a", "", "http://v.example/p", "name price"])}"')
    if chance.random() < 0.3:
        words.append(f'id="{chance.choice("abcd")}"')
    return " ".join(words)


def made_items(seed: int, number: int) -> Iterator[str]:
    """Pages that are made by chance, of what Microdata has rules for."""
    chance = random.Random(seed)
    for _ in range(number):
        parts, opened = ["<html>"], list[str]()
        for _ in range(chance.randrange(5, 25)):
            if opened and chance.random() < 0.4:
                parts.append(f"</{opened.pop()}>")
                continue
            name = chance.choice(["div", "span", "b", "section", "template", "meta"])
            parts.append(f"<{name} {_item_tag(chance)}>x" if name != "meta" else f"<meta {_item_tag(chance)} content='x'>")
            if name != "meta":
                opened.append(name)
        parts += [f"</{name}>" for name in reversed(opened)]
        yield "".join([*parts, "</html>"])
