"""Trees of pages in one shape, from the readers that are compared: html5lib's test cases, html5lib itself, and expat.

A tree is a list of nodes. A text is a `str`, an element a tuple of its name, its attributes as sorted pairs, and its nodes.
Comments, document types and what templates hold are left out, and texts that meet are one; so are the namespaces of
elements, which HTML tells by their place, and those of attributes but for their usual prefixes.
"""

from __future__ import annotations

import re
import xml.parsers.expat
from collections.abc import Iterator
from pathlib import Path
from typing import Any, NamedTuple

Node = Any  # str | tuple[str, tuple[tuple[str, str], ...], list[Node]]

_PREFIXES = {"http://www.w3.org/1999/xlink": "xlink:", "http://www.w3.org/XML/1998/namespace": "xml:", "http://www.w3.org/2000/xmlns/": "xmlns:"}
_XHTML = "http://www.w3.org/1999/xhtml"


def add_text(nodes: list[Node], text: str) -> None:
    """Adds a text to the nodes, which no other text stands before then."""
    if not text:
        return
    if nodes and isinstance(nodes[-1], str):
        nodes[-1] += text
    else:
        nodes.append(text)


def element(name: str, attributes: list[tuple[str, str]], nodes: list[Node]) -> Node:
    """An element of a tree."""
    return name, tuple(sorted(attributes)), nodes


class Case(NamedTuple):
    """A case of html5lib's tests of tree construction: its page, and the tree that is expected."""

    name: str
    page: str
    tree: list[Node]


def cases(folder: Path) -> Iterator[Case]:
    """The cases of whole pages without scripts, in all files of the folder and below."""
    for path in sorted(folder.rglob("*.dat")):
        text = path.read_bytes().decode("utf-8", "surrogatepass")
        for number, part in enumerate(re.split(r"(?:\A|\n)#data\n", text)[1:], 1):
            page, _, rest = part.partition("\n#errors\n") if not part.startswith("#errors\n") else ("", "", part[8:])
            if "#document-fragment" in rest or "#script-on" in rest or "\n#document\n" not in "\n" + rest:
                continue
            expected = ("\n" + rest).split("\n#document\n", 1)[1]
            yield Case(f"{path.parent.name}/{path.name}:{number}", page, case_tree(expected))


def case_tree(text: str) -> list[Node]:
    """The tree of a case's lines."""
    top: list[Node] = []
    holders: list[list[Node] | None] = [top]
    for line in re.split(r"\n(?=\| )", text.rstrip("\n")):
        indented = line[2:]
        depth = (len(indented) - len(indented.lstrip(" "))) // 2
        said = indented[2 * depth :]
        del holders[depth + 1 :]
        _add_line(holders, said)
    return top


def _add_line(holders: list[list[Node] | None], said: str) -> None:
    holder = holders[-1]
    if said == "content" or said.startswith(("<!--", "<!DOCTYPE", "<?")) or holder is None:
        # what stands below is no part of the tree
        holders.append(None)
    elif said.startswith('"'):
        add_text(holder, said[1:-1])
    elif said.startswith("<") and said.endswith(">"):
        name = said[1:-1]
        name = name.split(" ", 1)[1] if name.startswith(("svg ", "math ")) else name
        holder.append(element(name, [], []))
        holders.append(holder[-1][2])
    else:
        name, value = said.split('="', 1)
        _add_attribute(holders, name, value[:-1])


def _add_attribute(holders: list[list[Node] | None], name: str, value: str) -> None:
    """An attribute's line stands below its element's, which is the last one of the holder around."""
    around = holders[-2]
    assert around is not None
    old = around[-1]
    around[-1] = element(old[0], [*old[1], (name.replace(" ", ":", 1), value)], old[2])


def xml_tree(page: bytes) -> list[Node]:
    """The tree of a page in XHTML, by expat."""
    top: list[Node] = []
    holders: list[list[Node]] = [top]
    parser = xml.parsers.expat.ParserCreate("utf-8")
    parser.ordered_attributes = True
    parser.buffer_text = True

    def start(name: str, given: list[str]) -> None:
        made = element(name, list(zip(given[::2], given[1::2], strict=True)), [])
        holders[-1].append(made)
        holders.append(made[2])

    def end(_: str) -> None:
        holders.pop()

    parser.StartElementHandler, parser.EndElementHandler = start, end
    parser.CharacterDataHandler = lambda text: add_text(holders[-1], text)
    parser.Parse(page, True)
    return top


def html5lib_tree(page: bytes) -> list[Node]:
    """The tree that html5lib builds of a page in UTF-8."""
    import html5lib

    document = html5lib.parse(page, treebuilder="etree", namespaceHTMLElements=True, transport_encoding="utf-8")
    return [_from_etree(document)]


def _split(name: str) -> str:
    if not name.startswith("{"):
        return name
    space, _, local = name[1:].partition("}")
    if space == "http://www.w3.org/2000/xmlns/" and local == "xmlns":
        return "xmlns"
    return _PREFIXES.get(space, "") + local


def _from_etree(node: Any) -> Node:
    nodes: list[Node] = []
    if node.tag != f"{{{_XHTML}}}template":
        add_text(nodes, node.text or "")
        for child in node:
            if isinstance(child.tag, str):
                nodes.append(_from_etree(child))
            add_text(nodes, child.tail or "")
    return element(_split(node.tag), [(_split(name), value) for name, value in node.attrib.items()], nodes)
