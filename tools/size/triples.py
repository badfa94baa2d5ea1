"""Pages of many triples, long lists and deep nodes, whose graph the generator knows."""

from __future__ import annotations

import datetime

from size.cases import ADDRESS, Cases, Group, Tries, graph_cases, items_case
from size.graphs import RDF, XSD, Graph, Term, Triple, blank, iri, literal

V, SCHEMA, HERE = "http://v.example/", "http://schema.org/", iri(ADDRESS)
LEGAL = '<!doctype html>\n<html><head><title>t</title></head><body>\n'
NIL = iri(f"{RDF}nil")


def page_of(body: str) -> bytes:
    return f"{LEGAL}{body}</body></html>\n".encode()


def _subject(number: int) -> tuple[str, list[Triple]]:
    """A subject with five triples: a type, two IRIs, a text with a language, a number."""
    subject, near, far = (iri(f"http://s.example/{number}"), iri(f"http://o.example/{number}#it"), iri(f"{SCHEMA}Thing_{number}"))
    verb = iri(f"{V}p{number % 20}")
    html = (
        f'<div about="{subject[1]}" typeof="schema:Thing_{number}">'
        f'<a rel="schema:url" href="{near[1]}"></a><a rel="{verb[1]}" href="{far[1]}"></a>'
        f'<b property="schema:name" lang="en-GB">Nº {number} &amp; "more"</b>'
        f'<i property="schema:price" datatype="xsd:decimal" content="{number}.50"></i></div>\n'
    )
    said = [
        (subject, iri(f"{RDF}type"), far),
        (subject, iri(f"{SCHEMA}url"), near),
        (subject, verb, far),
        (subject, iri(f"{SCHEMA}name"), literal(f'Nº {number} & "more"', "en-GB")),
        (subject, iri(f"{SCHEMA}price"), literal(f"{number}.50", "", f"{XSD}decimal")),
    ]
    return html, said


def many_triples(tries: Tries) -> Cases:
    made = [_subject(number) for number in range(1000)]
    graph = frozenset(triple for _, said in made for triple in said)
    assert len(graph) == 5000
    yield from graph_cases(tries, "5,000 triples, 1,000 subjects, 2,000 other IRIs", page_of("".join(html for html, _ in made)), graph)


def list_graph(first: Term, predicate: Term, items: list[Term], name: str = "cell") -> Graph:
    """A list, with a cell for each item."""
    cells = [blank(f"{name}{number}") for number in range(len(items))]
    heads: list[Term] = [*cells, NIL]
    said = [(first, predicate, heads[0])]
    for cell, item, rest in zip(cells, items, heads[1:]):
        said += [(cell, iri(f"{RDF}first"), item), (cell, iri(f"{RDF}rest"), rest)]
    return frozenset(said)


def long_lists(tries: Tries) -> Cases:
    for count in (15, 16, 17, 33, 3000):
        body = "".join(f'<p inlist property="{V}item">{number}</p>\n' for number in range(count))
        graph = list_graph(HERE, iri(f"{V}item"), [literal(str(number)) for number in range(count)])
        yield from graph_cases(tries, f"a list of {count} items", page_of(body), graph)
    body = "".join(f'<a inlist rel="{V}part" href="http://o.example/{number}"></a>\n' for number in range(3000))
    graph = list_graph(HERE, iri(f"{V}part"), [iri(f"http://o.example/{number}") for number in range(3000)])
    yield from graph_cases(tries, "a list of 3,000 IRIs", page_of(body), graph)


def many_lists(tries: Tries) -> Cases:
    body = "".join(f'<p about="/s{number}"><b inlist property="{V}item">{number}</b><b inlist property="{V}item">x</b></p>\n' for number in range(1000))
    graphs = [list_graph(iri(f"http://h.example/s{number}"), iri(f"{V}item"), [literal(str(number)), literal("x")], f"l{number}_") for number in range(1000)]
    yield from graph_cases(tries, "1,000 lists", page_of(body), frozenset().union(*graphs))


def nested_nodes(tries: Tries) -> Cases:
    for count in (100, 300):
        opened = "".join(f'<div rel="{V}in"><b property="{V}n">{number}</b>' for number in range(count))
        nodes: list[Term] = [HERE, *(blank(f"n{number}") for number in range(count))]
        said = [(around, iri(f"{V}in"), node) for around, node in zip(nodes, nodes[1:])]
        said += [(node, iri(f"{V}n"), literal(str(number))) for number, node in enumerate(nodes[1:])]
        page = page_of(opened + "</div>" * count)
        yield from graph_cases(tries, f"{count} nodes, each in the one before", page, frozenset(said))
    body = "".join(f'<div rel="{V}part"><p typeof="{V}T"><b property="{V}n">{number}</b></p></div>\n' for number in range(3000))
    said = []
    for number in range(3000):
        node = blank(f"n{number}")
        said += [(HERE, iri(f"{V}part"), node), (node, iri(f"{RDF}type"), iri(f"{V}T")), (node, iri(f"{V}n"), literal(str(number)))]
    yield from graph_cases(tries, "3,000 nodes side by side", page_of(body), frozenset(said))


def one_subject(tries: Tries) -> Cases:
    body = "".join(f'<p property="{V}p{number // 2}">{number}</p>\n' for number in range(3000))
    graph = frozenset((HERE, iri(f"{V}p{number // 2}"), literal(str(number))) for number in range(3000))
    yield from graph_cases(tries, "a subject of 3,000 triples, 1,500 predicates", page_of(body), graph)


def many_iris(tries: Tries) -> Cases:
    for count in (*range(30, 36), 64, 65, 128, 129, 257, 513):
        body = "".join(f'<a rel="{V}p" href="{SCHEMA}o{number}"></a>\n' for number in range(count - 1))
        graph = frozenset((HERE, iri(f"{V}p"), iri(f"{SCHEMA}o{number}")) for number in range(count - 1))
        yield from graph_cases(tries, f"{count + 1} IRIs", page_of(body), graph, ("turtle", "nested"))


def many_tasks(tries: Tries) -> Cases:
    for count in (60, 84, 120, 127, 128, 129, 200, 255, 256, 257, 1000):
        body = "".join(f'<p property="{V}p{number}">{number}</p>\n' for number in range(count))
        graph = frozenset((HERE, iri(f"{V}p{number}"), literal(str(number))) for number in range(count))
        yield from graph_cases(tries, f"{count} predicates of a subject", page_of(body), graph, ("nested",))
        body = "".join(f'<p property="{V}p">{number}</p>\n' for number in range(count))
        graph = frozenset((HERE, iri(f"{V}p"), literal(str(number))) for number in range(count))
        yield from graph_cases(tries, f"{count} objects of a predicate", page_of(body), graph, ("nested",))


def _times(number: int) -> tuple[str, str]:
    """A text, and the datatype whose form it has."""
    day = datetime.date(2000, 1, 1) + datetime.timedelta(days=number)
    forms = [
        (day.isoformat(), "date"),
        (f"{day.isoformat()}T12:{number % 60:02}:00Z", "dateTime"),
        (f"{number % 24:02}:{number % 60:02}:30", "time"),
        (f"{day.year}-{day.month:02}", "gYearMonth"),
        (f"{1000 + number}", "gYear"),
        (f"P{number}DT1H", "duration"),
        (f"the day {number}", ""),
    ]
    return forms[number % len(forms)]


def _time(number: int, text: str, has_attribute: bool) -> str:
    words = f'property="{V}t{number}" itemprop="t"'
    return f'<time {words} datetime="{text}">then</time>\n' if has_attribute else f"<time {words}>{text}</time>\n"


def many_times(tries: Tries) -> Cases:
    """Times in their own text, in an attribute, and in either by turns."""
    for count in (1, 2, 3, 17, 1000):
        given = [_times(number) for number in range(count)]
        graph = frozenset((HERE, iri(f"{V}t{number}"), literal(text, "", f"{XSD}{kind}" if kind else "")) for number, (text, kind) in enumerate(given))
        for name, every in (("texts", 0), ("attributes", 1), ("either", 2)):
            body = "".join(_time(number, text, every > 0 and number % every == 0) for number, (text, _) in enumerate(given))
            page = page_of(f"<div itemscope>{body}</div>")
            yield from graph_cases(tries, f"{count} times, {name}", page, graph)
            yield items_case(tries, f"{count} times, {name}", page, {"items": [{"properties": {"t": [text for text, _ in given]}}]})


GROUPS: list[Group] = [many_triples, long_lists, many_lists, nested_nodes, one_subject, many_iris, many_tasks, many_times]
