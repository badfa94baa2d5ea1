#!/usr/bin/env python3
"""How many of the W3C's RDFa 1.1 tests rdfax passes, as Debian's source package raptor2 carries them.

    apt-get install python3-rdflib    # with --peers also raptor2-utils and python3-pyrdfa
    apt-get source --download-only raptor2    # with a line deb-src in apt's sources
    tar xzf raptor2_2.0.15.orig.tar.gz
    ./build    # proves and builds the program, if it isn't there
    /usr/bin/python3 bench/conformance.py raptor2-2.0.15/tests/rdfa11

The folder has a page for each test, the graph that is expected of it, and a CMakeLists.txt that gives its address. Pages of
XHTML are read with `--syntax xhtml`; others, whose root isn't html, aren't read. A test is passed where what rdfax writes is
the expected graph, but for the names of blank nodes; a literal of xsd:string is the plain one, as in RDF 1.1. It prints a row
for each test that isn't passed (with --all for each), with the rule behind it (docs/CONFORMANCE.md), and at last the sums. A
test that needs names beyond the standard context is read once more with the context file bench/context.json. With --peers
the rows say what rapper and pyRdfa make of the page, which pyRdfa reads by the rules of HTML. Status 0 if exactly the tests
that RULES names aren't passed.
"""

import argparse
import collections
import os
import re
import sys
import xml.dom.minidom
from xml.parsers.expat import ExpatError

import rdflib
from rdflib.compare import isomorphic

from answers import Answer
from measure import BUILT
from readers import graph_of

CONTEXT = os.path.join(os.path.dirname(os.path.abspath(__file__)), "context.json")

NAMES = "names that the standard context lacks"
MARKUP = "markup as a literal"
PROCESSOR = "processor graph"
EXPECTED = "the expected graph departs from RDFa 1.1"
FOREIGN = "no page of HTML"

# the tests that aren't passed, and why
RULES = {
    FOREIGN: ["0201", "0202", "0203", "0304"],
    NAMES: ["0061", "0062", "0076", "0077", "0259", "0260"],
    MARKUP: ["0196", "0198", "0261", "0295"],
    PROCESSOR: ["0236", "0237", "0238", "0239"],
    EXPECTED: ["0134", "0197", "0220", "0221", "0278", "0286", "0303"],
}
RULE_OF = {test: rule for rule, tests in RULES.items() for test in tests}

PASSED, DIFFERS, NOT_READ = "passed", "another graph", "not read"


def addresses(folder):
    """The address of each test's page."""
    with open(os.path.join(folder, "CMakeLists.txt"), encoding="utf-8") as file:
        return dict(re.findall(r"RAPPER_RDFDIFF_TEST\(rdfa11\.(\d+)\s+\"\S+ [^\"]*?-I (\S+)", file.read()))


def plain(graph):
    """The graph with plain literals in place of those of xsd:string, which are the same ones."""
    def plain_term(term):
        is_string = isinstance(term, rdflib.Literal) and term.datatype == rdflib.XSD.string
        return rdflib.Literal(str(term)) if is_string else term

    result = rdflib.Graph()
    for triple in graph:
        result.add(tuple(map(plain_term, triple)))
    return result


class Test:
    """A test: its name, its page, the page's address, and the graph that is expected of it."""

    def __init__(self, folder, name, address):
        self.name, self.address = name, address
        self.page = os.path.join(folder, f"{name}.xml")
        with open(os.path.join(folder, f"{name}.out"), "rb") as file:
            self.expected = plain(graph_of(file.read(), "nt"))

    def root(self):
        """The name of the page's first element."""
        with open(self.page, encoding="utf-8") as file:
            page = re.sub(r"(?s)<!--.*?-->|<\?.*?\?>|<![^>]*>", "", file.read())
        return re.search(r"<([^\s/>]+)", page).group(1)

    def told(self, graph):
        return PASSED if isomorphic(plain(graph), self.expected) else DIFFERS

    def answer(self, given, options=()):
        words = [given.program, "extract", "--syntax", given.syntax, *options, "--base", self.address, self.page]
        answer = Answer(words)
        if answer.status != 0 and not answer.is_refusal():
            sys.exit(f"{words} ends with {answer.status}")
        return answer

    def result(self, answer):
        """What comes of the test: passed, another graph, or the kind of the page's fault."""
        return f"refused: {answer.kind}" if answer.is_refusal() else self.told(graph_of(answer.text, "nt"))


def by_rapper(test):
    answer = Answer(["rapper", "-q", "-f", "noNet", "-i", "rdfa11", "-I", test.address, "-o", "ntriples", test.page])
    # (2 is rapper's status where it warned)
    return graph_of(answer.text, "nt") if answer.status in (0, 2) else None


def by_pyrdfa(test):
    from pyRdfa import pyRdfa  # (needed with --peers alone)
    from pyRdfa.options import Options

    reader = pyRdfa(options=Options(space_preserve=True), base=test.address, media_type="text/html")
    try:
        return reader.graph_from_DOM(xml.dom.minidom.parse(test.page), rdflib.Graph())
    except ExpatError:
        return None


PEERS = {"rapper": by_rapper, "pyRdfa": by_pyrdfa}


def peer_result(test, answer, graph):
    """What a peer's graph is: the expected one, that of rdfax, or another."""
    if graph is None:
        return "refused"
    if test.told(graph) == PASSED:
        return PASSED
    is_own = not answer.is_refusal() and isomorphic(plain(graph), plain(graph_of(answer.text, "nt")))
    return "as rdfax" if is_own else DIFFERS


def row(test, given):
    """A test's result, the rule behind it where it isn't passed, and with --peers the results of the peers."""
    if test.root() != "html":
        return [NOT_READ, FOREIGN] + ["" for _ in given.peers]
    answer = test.answer(given)
    result = test.result(answer)
    rule = "" if result == PASSED else RULE_OF.get(test.name, "none is named")
    if rule == NAMES:
        rule += f"; with bench/context.json: {test.result(test.answer(given, ['--context', CONTEXT]))}"
    return [result, rule] + [peer_result(test, answer, PEERS[peer](test)) for peer in given.peers]


def print_sums(rows, peers):
    results = collections.Counter(columns[0] for columns in rows.values())
    read = len(rows) - results[NOT_READ]
    print(f"\n{len(rows)} tests, {read} of them pages of XHTML: {results[PASSED]} passed, {read - results[PASSED]} not")
    for rule, count in collections.Counter(columns[1].split(";")[0] for columns in rows.values() if columns[1]).items():
        print(f"  {count}: {rule}")
    for place, peer in enumerate(peers):
        results = collections.Counter(columns[2 + place] for columns in rows.values() if columns[2 + place])
        print(f"{peer}: " + ", ".join(f"{result} {count}" for result, count in results.most_common()))


def arguments():
    parser = argparse.ArgumentParser(description="rdfax on the W3C's RDFa 1.1 tests of Debian's raptor2")
    parser.add_argument("folder", help="tests/rdfa11 of raptor2's sources")
    parser.add_argument("--program", default=BUILT, help="the built program")
    parser.add_argument("--syntax", choices=["xhtml", "html"], default="xhtml", help="as what the pages are read")
    parser.add_argument("--all", action="store_true", help="a row for passed tests, too")
    parser.add_argument("--peers", action="store_const", const=list(PEERS), default=[], help="also by rapper and pyRdfa")
    return parser.parse_args()


def main():
    given = arguments()
    rdflib.NORMALIZE_LITERALS = False
    tests = [Test(given.folder, name, address) for name, address in sorted(addresses(given.folder).items())]
    rows = {test.name: row(test, given) for test in tests}
    titles = ["Test", "Result", "Rule"] + given.peers
    print("| " + " | ".join(titles) + " |\n" + "|---" * len(titles) + "|")
    for name, columns in rows.items():
        if given.all or columns[0] != PASSED:
            print("| " + " | ".join([name] + columns) + " |")
    print_sums(rows, given.peers)
    return 0 if {name for name, columns in rows.items() if columns[0] != PASSED} == set(RULE_OF) else 1


if __name__ == "__main__":
    sys.exit(main())
