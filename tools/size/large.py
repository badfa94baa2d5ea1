"""Large pages, and many of them."""

from __future__ import annotations

from size.cases import ADDRESS, Cases, Group, Tries, differs, graph_cases, items_case, status_differs
from size.graphs import RDF, Triple, Unreadable, blank, difference, iri, literal, quads_in
from size.triples import HERE, LEGAL, V

MEGABYTE = 1_000_000
END = "</div></body></html>\n"


def _page(size: int, line: int) -> tuple[bytes, list[str]]:
    """A page of so many bytes, with a property in each line of so many, and the values."""
    front = f"{LEGAL}<div itemscope>\n"
    count = (size - len(front) - len(END)) // line
    values = [f"value {number:09}" for number in range(count)]
    lines = [f'<p property="{V}p" itemprop="p">{value}</p><!-- -->&amp; text &lt;' for value in values]
    body = "".join(text + "." * (line - len(text) - 1) + "\n" for text in lines)
    rest = size - len(front) - len(body) - len(END)
    return f"{front}{body}{' ' * rest}{END}".encode(), values


def _each_task(tries: Tries, name: str, size: int, line: int) -> Cases:
    page, values = _page(size, line)
    assert len(page) == size
    graph = frozenset((HERE, iri(f"{V}p"), literal(value)) for value in values)
    yield from graph_cases(tries, name, page, graph)
    yield items_case(tries, name, page, {"items": [{"properties": {"p": values}}]})
    path = tries.file("page.html", page)
    yield f"{name}, check", differs(tries.answer("check", path), (0, b"ok\n", b""))
    cut, at = tries.file("cut.html", page[: -len(END)]), size - len(END)
    said = f"refused: Unended at byte {at} in token {at}\n".encode()
    for words in (["check"], ["extract", "--base", ADDRESS], ["items", "--base", ADDRESS]):
        yield f"{name} without its end, {words[0]}", differs(tries.answer(*words, cut), (1, b"", said))
    answer = tries.answer("many", ADDRESS, path, "http://h.example/cut", cut, "http://h.example/e", path)
    yield f"{name}, many", status_differs(answer) or _quads_differ(answer.written, values, at)


def _quads_differ(text: bytes, values: list[str], at: int) -> str | None:
    """What is wrong with the text of a page, of its front, and of the page once more."""
    told = f"# refused: Unended at byte {at} in token {at} of http://h.example/cut"
    lines = text.decode().split("\n")
    if lines.count(told) != 1 or lines[len(values)] != told:
        return "the refused page isn't told between the others"
    lines.remove(told)
    try:
        found = quads_in("\n".join(lines))
    except Unreadable as error:
        return str(error)
    wanted = [((iri(address), iri(f"{V}p"), literal(value)), address) for address in (ADDRESS, "http://h.example/e") for value in values]
    return None if found == wanted else f"{len(found)} quads that aren't the {len(wanted)} right ones"


def pages_above_2_mb(tries: Tries) -> Cases:
    for size in (2_000_000, 2_097_151, 2_097_152, 2_097_153, 2_500_000):
        yield from _each_task(tries, f"a page of {size} bytes", size, 1_000)


def dense_page(tries: Tries) -> Cases:
    yield from _each_task(tries, "a page of 3,000,000 bytes, 30,000 triples", 3_000_000, 100)


def pages_of_30_mb(tries: Tries) -> Cases:
    yield from _each_task(tries, "a page of 30 MB", 30 * MEGABYTE, 1_500)


def many_pages(tries: Tries) -> Cases:
    """Pages with a triple each; every tenth is refused."""
    for count in (1, 2, 49, 50, 51, 99, 100, 101, 500, 1000):
        words, wanted = [], ""
        for number in range(count):
            address, value = f"http://h.example/{number}", f"value {number}"
            end = "" if number % 10 == 9 else "</html>"
            page = f'<html><body><p property="{V}p">{value}</p></body>{end}'
            words += [address, str(tries.file(f"page{number}.html", page.encode()))]
            fault = f"# refused: Unended at byte {len(page)} in token {len(page)} of {address}\n"
            wanted += f'<{address}> <{V}p> "{value}" <{address}> .\n' if end else fault
        yield f"many, {count} pages", differs(tries.answer("many", *words), (0, wanted.encode(), b""))
    usage = b"usage: rdfax extract|items|check|sample\n"
    yield "many, 1,001 pages", differs(tries.answer("many", *words, *words[:2]), (2, b"", usage))
    yield "many, 1,000 addresses and a page less", differs(tries.answer("many", *words[:-1]), (2, b"", usage))


def many_pages_with_nodes(tries: Tries) -> Cases:
    """1,000 pages, each with the same three blank nodes and a list: none of the nodes is in two pages."""
    body = f'<p about="_:a" rel="{V}q" resource="_:b"></p><p about="_:b" property="{V}n">1</p><p inlist property="{V}l">x</p>'
    path = tries.file("page.html", f"<html><body>{body}</body></html>".encode())
    addresses = [f"http://h.example/{number}" for number in range(1000)]
    answer = tries.answer("many", *(word for address in addresses for word in (address, path)))
    yield "many, 1,000 pages with three blank nodes each", status_differs(answer) or _nodes_differ(answer.written.decode(), addresses)


def _nodes_differ(text: str, addresses: list[str]) -> str | None:
    """What is wrong with the graphs of these pages, if anything is."""
    try:
        found: dict[str | None, set[Triple]] = {}
        for triple, name in quads_in(text):
            found.setdefault(name, set()).add(triple)
        nodes = [{term for triple in graph for term in triple if term[0] == "blank"} for graph in found.values()]
        if list(found) != addresses or sum(map(len, nodes)) != len(set().union(*nodes)) or set(map(len, nodes)) != {3}:
            return f"{len(found)} graphs with {len(set().union(*nodes))} blank nodes"
        one, two, cell = blank("a"), blank("b"), blank("c")
        for address, graph in found.items():
            said: set[Triple] = {(one, iri(f"{V}q"), two), (two, iri(f"{V}n"), literal("1")), (iri(str(address)), iri(f"{V}l"), cell)}
            said |= {(cell, iri(f"{RDF}first"), literal("x")), (cell, iri(f"{RDF}rest"), iri(f"{RDF}nil"))}
            wrong = difference(frozenset(graph), frozenset(said))
            if wrong:
                return f"{address}: {wrong}"
        return None
    except Unreadable as error:
        return str(error)


GROUPS: list[Group] = [pages_above_2_mb, dense_page, pages_of_30_mb, many_pages, many_pages_with_nodes]
