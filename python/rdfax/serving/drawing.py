"""The drawing of a graph: graphviz's SVG, as a tree of which the page builds its own elements."""

from __future__ import annotations

import re
import resource
import shutil
import subprocess
from collections.abc import Sequence
from typing import Any
from xml.etree import ElementTree

from rdfax.serving.names import STANDARD
from rdfax.terms import Blank, Literal, Object, Quad, Subject

__all__ = ["drawing", "short"]

_SECONDS = 5
_LABEL = 40
_SVG = "{http://www.w3.org/2000/svg}"
# What a drawing may have; all else of graphviz's is left out.
_ELEMENTS = frozenset(("svg", "g", "polygon", "polyline", "ellipse", "path", "text"))
_ATTRIBUTES = frozenset(("id", "class", "viewBox", "transform", "points", "cx", "cy", "rx", "ry", "d", "x", "y", "text-anchor", "font-size"))
_UNPRINTABLE = re.compile("[\x00-\x1f\x7f-\x9f\ud800-\udfff\ufffe\uffff]+")


def short(iri: str) -> str:
    """The IRI, short by a prefix of the standard context where there is one.

    >>> short("http://schema.org/name")
    'schema:name'
    """
    found = max((name for name, start in STANDARD.prefixes.items() if iri.startswith(start)), key=lambda name: len(STANDARD.prefixes[name]), default=None)
    return iri if found is None or iri == STANDARD.prefixes[found] else f"{found}:{iri.removeprefix(STANDARD.prefixes[found])}"


def _label(text: str) -> str:
    """A label in DOT, without what a quoted text there would read otherwise."""
    words = _UNPRINTABLE.sub(" ", text)
    cut = words if len(words) <= _LABEL else f"{words[: _LABEL - 1]}\u2026"
    escaped = cut.replace("\\", "\\\\").replace('"', '\\"').replace("&", "&amp;")
    return f'"{escaped}"'


def _shown(term: Object) -> str:
    if isinstance(term, Literal):
        return f"\u201c{term.text}\u201d{f' @{term.language}' if term.language else ''}"
    return f"_:{term}" if isinstance(term, Blank) else short(term)


class _Dot:
    """The graph as a text of DOT: a node for each resource, a box for each literal."""

    def __init__(self) -> None:
        self._nodes = dict[tuple[type, str], str]()
        self.lines = [
            "digraph {",
            'rankdir=LR; nslimit=1; nslimit1=1; mclimit=0.5; node [fontname="sans-serif" fontsize=11]; edge [fontname="sans-serif" fontsize=9];',
        ]

    def _resource(self, term: Subject) -> str:
        key = (type(term), str(term))
        if key not in self._nodes:
            self._nodes[key] = f"node{len(self._nodes)}"
            kind = "blank" if isinstance(term, Blank) else "iri"
            self.lines.append(f'{self._nodes[key]} [id="{self._nodes[key]}" class="{kind}" label={_label(_shown(term))}];')
        return self._nodes[key]

    def add(self, number: int, quad: Quad) -> None:
        """A triple."""
        subject = self._resource(quad.subject)
        if isinstance(quad.object, Literal):
            target = f"literal{number}"
            self.lines.append(f'{target} [id="{target}" class="literal" shape=box label={_label(_shown(quad.object))}];')
        else:
            target = self._resource(quad.object)
        self.lines.append(f'{subject} -> {target} [id="edge{number}" label={_label(_shown(quad.predicate))}];')


def _bounded() -> None:
    resource.setrlimit(resource.RLIMIT_CPU, (_SECONDS, _SECONDS))


def _svg(source: str) -> str | None:
    """Graphviz's SVG, or none where it takes too long."""
    try:
        words = ["dot", "-Tsvg"]
        done = subprocess.run(words, input=source.encode(), capture_output=True, check=True, timeout=_SECONDS, preexec_fn=_bounded)
    except (subprocess.SubprocessError, OSError):
        return None
    return done.stdout.decode()


def _tree(element: ElementTree.Element) -> list[Any] | None:
    """The element as name, attributes, text and children, as far as a drawing may have them."""
    name = element.tag.removeprefix(_SVG)
    if name not in _ELEMENTS:
        return None
    attributes = {key: value for key, value in element.attrib.items() if key in _ATTRIBUTES}
    children = [tree for child in element if (tree := _tree(child)) is not None]
    return [name, attributes, element.text if name == "text" else "", children]


def drawing(quads: Sequence[Quad]) -> dict[str, Any]:
    """The drawing of some triples, or why there is none. Its edges are `edge0`, `edge1` and so on, by the triples' numbers."""
    if shutil.which("dot") is None:
        return {"none": "Graphviz isn't installed: there is no drawing."}
    if not quads:
        return {"none": "There are no triples to draw."}
    dot = _Dot()
    for number, quad in enumerate(quads):
        dot.add(number, quad)
    svg = _svg("\n".join([*dot.lines, "}"]))
    if svg is None:
        return {"none": "The drawing takes too long."}
    return {"svg": _tree(ElementTree.fromstring(svg))}
