"""How fast rdflib gets the triples of a page: by rdfax, from the text of the same triples, and by pyRdfa.

    apt-get install python3-rdflib python3-pyrdfa
    ./build                                        # proves and builds the library, if it isn't there
    RDFAX_LIBRARY=built/librdfax.so.0 PYTHONPATH=python /usr/bin/python3 bench/rdflib_parse.py [ROUNDS]

Of each size of page (bench/page.py) a graph is filled in these ways, each of which begins with an empty graph:

    rdfax      Graph().parse(data=page, format="rdfax"), of the page's bytes
    nquads     Graph().parse(data=text, format="nquads"), of the page's N-Quads, which rdfax made before
    store      Graph().addN(triples), of terms that were made before: what rdflib's store takes by itself
    pyRdfa     pyRdfa().graph_from_source(page), with the options that extruct gives it

The ways run in turn, 5 rounds without the word, and of each the least processor time is taken. They have to come to the same
graph, up to the names of blank nodes: for the smallest page that is seen by comparing, for the others by counting.
"""

from __future__ import annotations

import io
import sys
import time
from collections.abc import Callable

import page
import rdflib
import rdflib.compare
import rdflib.parser
import rdflib.plugin
from pyRdfa import Options, pyRdfa

import rdfax

BASE = "http://localhost/"
# how many items make a page of some 2, 20 and 200 kB
ITEMS = [21, 220, 2_190]

rdflib.plugin.register("rdfax", rdflib.parser.Parser, "rdfax.rdflib_parser", "Parser")


def by_pyrdfa(content: bytes) -> rdflib.Graph:
    """The page's graph, by pyRdfa."""
    options = Options(embedded_rdf=False, space_preserve=True, vocab_expansion=False)
    return pyRdfa(options, base=BASE, media_type="text/html").graph_from_source(io.BytesIO(content), graph=rdflib.Graph())


def ways(content: bytes) -> dict[str, Callable[[], rdflib.Graph]]:
    """Each way to the page's graph."""
    text = rdfax.extract(content, BASE)
    triples = list(rdflib.Graph().parse(data=content, format="rdfax", publicID=BASE))

    def store() -> rdflib.Graph:
        graph = rdflib.Graph()
        return graph.addN((*triple, graph) for triple in triples)

    def nquads() -> rdflib.Graph:
        graph = rdflib.Graph()
        graph.parse(data=text, format="nquads", publicID=BASE)
        return graph

    return {
        "rdfax": lambda: rdflib.Graph().parse(data=content, format="rdfax", publicID=BASE),
        "nquads": nquads,
        "store": store,
        "pyRdfa": lambda: by_pyrdfa(content),
    }


def least(calls: dict[str, Callable[[], rdflib.Graph]], rounds: int) -> dict[str, float]:
    """The least processor time of each call, of so many rounds in which each runs in turn."""
    taken = dict.fromkeys(calls, float("inf"))
    for _ in range(rounds):
        for name, call in calls.items():
            began = time.process_time()
            call()
            taken[name] = min(taken[name], time.process_time() - began)
    return taken


def main() -> int:
    """Measures each size, and answers 1 where the graphs differ."""
    rounds = int(sys.argv[1]) if len(sys.argv) > 1 else 5
    for items in ITEMS:
        out = io.StringIO()
        page.write(out, items)
        content = out.getvalue().encode()
        calls = ways(content)
        graphs = {name: call() for name, call in calls.items()}
        counts = {name: len(graph) for name, graph in graphs.items()}
        same = len(set(counts.values())) == 1
        if items == ITEMS[0]:
            same = same and all(rdflib.compare.isomorphic(graphs["rdfax"], graph) for graph in graphs.values())
        if not same:
            print(f"the graphs differ: {counts}")
            return 1
        print(f"{len(content):,} bytes, {counts['rdfax']:,} triples")
        for name, seconds in least(calls, rounds).items():
            print(f"    {name:7} {1000 * seconds:9.2f} ms, {1e6 * seconds / counts['rdfax']:6.1f} microseconds a triple")
    return 0


if __name__ == "__main__":
    sys.exit(main())
