"""Pages at the limits of the grammar, and just past them; and long parts of pages that have no limit of their own."""

from __future__ import annotations

from size.cases import ADDRESS, Cases, Group, Tries, differs, graph_cases, items_case
from size.graphs import Graph, iri, literal
from size.triples import HERE, V, page_of

DEPTH, TAG = 512, 1_048_576
FRONT, END = "<html><body>", "</body></html>"
TASKS = (["check"], ["extract", "--base", ADDRESS], ["items", "--base", ADDRESS])


def _refused(tries: Tries, name: str, page: bytes, fault: str) -> Cases:
    path = tries.file("page.html", page)
    for words in TASKS:
        yield f"{name}, {words[0]}", differs(tries.answer(*words, path), (1, b"", f"refused: {fault}\n".encode()))
    told = f"# refused: {fault} of {ADDRESS}\n".encode()
    yield f"{name}, many", differs(tries.answer("many", ADDRESS, path), (0, told, b""))


def _one_value(text: str, datatype: str = "") -> Graph:
    return frozenset([(HERE, iri(f"{V}p"), literal(text, "", datatype))])


def depths(tries: Tries) -> Cases:
    """html and body are two levels."""
    for tag in ("div", "b", "svg", "x-y"):
        opened, closed = f"<{tag}>" * (DEPTH - 3), f"</{tag}>" * (DEPTH - 3)
        value = f'<b property="{V}p" itemprop="p">deep</b>'
        page = f"<html><body itemscope>{opened}{value}{closed}{END}".encode()
        yield from graph_cases(tries, f"{DEPTH} levels of {tag}", page, _one_value("deep"))
        yield items_case(tries, f"{DEPTH} levels of {tag}", page, {"items": [{"properties": {"p": ["deep"]}}]})
        front = f"{FRONT}{opened}<b>"
        page = f"{front}<i>too deep</i></b>{closed}{END}".encode()
        yield from _refused(tries, f"{DEPTH + 1} levels of {tag}", page, f"TooDeep at byte {len(front) + 2} in token {len(front)}")
        page = f"{front}<br>not so</b>{closed}{END}".encode()
        yield from _refused(tries, f"{DEPTH + 1} levels of {tag}, the last empty", page, f"TooDeep at byte {len(front) + 3} in token {len(front)}")


def long_tags(tries: Tries) -> Cases:
    before, after = f'<p property="{V}p" itemprop="p" content="', '">t</p>'
    value = "a" * (TAG - len(before) - 2)
    page = f"{FRONT}{before}{value}{after}{END}".encode()
    yield from graph_cases(tries, f"a tag of {TAG} bytes", page, _one_value(value))
    page = f"{FRONT}{before}{value}b{after}{END}".encode()
    yield from _refused(tries, f"a tag of {TAG + 1} bytes", page, f"TagTooLong at byte {len(FRONT) + TAG} in token {len(FRONT)}")
    for unit, name in (("é", "of two bytes"), ("&amp;", "references"), ("\r\n", "line ends")):
        count = (TAG - len(before) - 2) // len(unit.encode())
        page = f"{FRONT}{before}{unit * count}{after}{END}".encode()
        yield from graph_cases(tries, f"a long value of {count} characters, {name}", page, _one_value({"&amp;": "&", "\r\n": "\n"}.get(unit, unit) * count))
    for word, count in (("a{}", 80_000), ("a{}=b", 70_000), ("a", 400_000), ("property", 100_000)):
        words = " ".join(word.format(number) for number in range(count))
        page = f'{FRONT}<p property="{V}p" {words}>t</p>{END}'.encode()
        yield from graph_cases(tries, f"{count} attributes {word}", page, _one_value("t"), ("nquads",))
    name = "a" * (TAG - 2)
    page = f"{FRONT}<{name}>{END}".encode()
    at = len(FRONT) + TAG
    yield from _refused(tries, "a start tag at the limit that nothing ends", page, f"Mismatch at byte {at + 6} in token {at}")
    page = f"{FRONT}<{name}></{name}>{END}".encode()
    yield from _refused(tries, "an end tag past the limit", page, f"TagTooLong at byte {at + TAG} in token {at}")


def long_parts(tries: Tries) -> Cases:
    """More than a million characters in a part that is one token, or in one text."""
    long = "a - b " * 200_000
    graph = _one_value("t")
    value = f'<p property="{V}p">t</p>'
    parts = {"comment": f"<!--{long}-->", "script": f"<script>{long}</script>", "section": f"<svg><![CDATA[{long}]]></svg>", "run": f"&{'a' * 5_000_000}"}
    for name, part in parts.items():
        yield from graph_cases(tries, f"a long {name}", page_of(f"{part} {value}"), graph, ("nquads",))
    yield from graph_cases(tries, "a long text", page_of(f'<p property="{V}p">{long}</p>'), _one_value(long))
    yield from graph_cases(tries, "a long text with a datatype", page_of(f'<p property="{V}p" datatype="{V}D">{long}</p>'), _one_value(long, f"{V}D"))
    yield from graph_cases(tries, "500,000 characters that are escaped", page_of(f'<p property="{V}p">{chr(34) * 500_000}</p>'), _one_value('"' * 500_000))
    page = page_of(f'<div itemscope><p itemprop="n">{long}</p><p itemprop="n">{chr(1) * 1_000_000}</p></div>')
    yield items_case(tries, "a long text", page, {"items": [{"properties": {"n": [long, "\x01" * 1_000_000]}}]})
    address = f"http://o.example/{'a' * 1_000_000}"
    page = page_of(f'<a rel="{V}p" href="{address}"></a>')
    yield from graph_cases(tries, "an IRI of 1,000,000 characters", page, frozenset([(HERE, iri(f"{V}p"), iri(address))]))


GROUPS: list[Group] = [depths, long_tags, long_parts]
