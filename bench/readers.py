#!/usr/bin/env python3
"""Reads what the program writes of many pages with other readers, and compares it with the N-Quads of the same pages.

    bench/readers.py PROGRAM [FORMAT]

PROGRAM is the built rdfax; FORMAT is turtle, nested or jsonld, and turtle where none is named. It needs Debian's
raptor2-utils (rapper) and python3-rdflib. The pages are the worked ones of crates/rx_vectors/data that give triples, and
generated ones: 200 in all. Of each page the program's text in FORMAT is read by rdflib and, but for JSON-LD, by rapper,
and each result has to be isomorphic to the program's N-Quads. It prints how many pages were compared, and each that
differs. Status 0 if none does. rdflib's reader of JSON-LD makes http:///g of the IRI http:g, which the JSON-LD
algorithms don't, so that pages with such IRIs are left out there.
"""
import glob
import json
import os
import random
import re
import subprocess
import sys
import tempfile

import rdflib
from rdflib.compare import isomorphic

PAGES = 200
HERE = os.path.dirname(os.path.abspath(__file__))


def worked_pages():
    """The pages of the rows, where they are given as text."""
    found = []

    def search(value):
        if isinstance(value, dict):
            for item in value.values():
                search(item)
        elif isinstance(value, list):
            for item in value:
                search(item)
        elif isinstance(value, str) and value.lstrip().startswith("<html"):
            found.append(value)

    for path in sorted(glob.glob(os.path.join(HERE, "../crates/rx_vectors/data/*.json"))):
        with open(path, encoding="utf-8") as file:
            search(json.load(file))
    return list(dict.fromkeys(found))


def node(chance, depth):
    """An element with RDFa attributes, and others within it."""
    attributes = []
    if chance.random() < 0.4:
        attributes.append('about="%s"' % chance.choice(["#a", "#b", "_:x", "_:y", "http://v.example/s"]))
    if chance.random() < 0.5:
        attributes.append('property="%s"' % chance.choice(["schema:name", "http://v.example/p.q", "dc:title", "v1x"]))
    if chance.random() < 0.3:
        attributes.append('rel="%s"' % chance.choice(["schema:knows", "http://v.example/1r", "foaf:knows"]))
    if chance.random() < 0.3:
        attributes.append('typeof="%s"' % chance.choice(["", "schema:Thing", "http://v.example/T-t"]))
    if chance.random() < 0.3:
        attributes.append('resource="%s"' % chance.choice(["#c", "_:x", "_:z", "http://v.example/o"]))
    if chance.random() < 0.2:
        attributes.append('inlist=""')
    if chance.random() < 0.2:
        attributes.append('lang="%s"' % chance.choice(["en", "de-CH"]))
    if chance.random() < 0.2:
        attributes.append('datatype="%s"' % chance.choice(["xsd:int", "http://v.example/d", "xsd:string"]))
    inner = "".join(node(chance, depth - 1) for _ in range(chance.randrange(3))) if depth else ""
    text = chance.choice(["x", "a \"b\"", "back\\slash", "two\nlines", "t\tab", "\u00e9\U0001f600", ""])
    return "<div %s>%s%s</div>" % (" ".join(attributes), text, inner)


def generated_pages(count):
    chance = random.Random(19)
    return ["<html><body vocab=\"http://schema.org/\">%s</body></html>" % "".join(node(chance, 3) for _ in range(3)) for _ in range(count)]


def run(words):
    done = subprocess.run(words, capture_output=True, check=False)
    return done.stdout if done.returncode == 0 else None


def graph_of(data, form):
    graph = rdflib.Graph()
    graph.parse(data=data.decode("utf-8"), format=form)
    return graph


def is_misread(form, quads):
    """Whether the reader of this form changes an IRI of these quads."""
    return form == "jsonld" and re.search(rb"<https?:[^/]", quads) is not None


def readings(form, text):
    """What the readers make of the text in the file, as graphs; None where one refuses it."""
    with open(text, "rb") as file:
        data = file.read()
    if form == "jsonld":
        return [graph_of(data, "json-ld")]
    by_rapper = run(["rapper", "-q", "-i", "turtle", "-o", "ntriples", text, "http://h.example/d"])
    return [graph_of(data, "turtle"), None if by_rapper is None else graph_of(by_rapper, "nt")]


def main():
    program = sys.argv[1]
    form = sys.argv[2] if len(sys.argv) > 2 else "turtle"
    compared = differing = 0
    with tempfile.TemporaryDirectory() as folder:
        page = os.path.join(folder, "page.html")
        text = os.path.join(folder, "text")
        worked = worked_pages()
        for content in worked + generated_pages(2 * PAGES):
            if compared == PAGES:
                break
            with open(page, "w", encoding="utf-8", newline="") as file:
                file.write(content)
            words = [program, "extract", "--base", "http://h.example/d", page]
            quads = run(words)
            if not quads or is_misread(form, quads):
                continue
            with open(text, "wb") as file:
                file.write(run(words[:2] + ["--format", form] + words[2:]) or b"")
            expected = graph_of(quads, "nt")
            same = all(found is not None and isomorphic(expected, found) for found in readings(form, text))
            compared += 1
            if not same:
                differing += 1
                print("differs:", json.dumps(content)[:2000])
    print(f"{compared} pages compared, {differing} differ")
    return 1 if differing or compared < PAGES else 0


if __name__ == "__main__":
    sys.exit(main())
