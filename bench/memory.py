"""How much memory rdfax takes for hostile and for usual pages, and what a limit of memory brings about.

    ./build    # proves and builds the program, if it isn't there
    python3 bench/memory.py

A hostile page nests 500 elements over one text, or has one element with many names, and each element and each name has the
text as its value: by `property` for the triples, by `itemprop` for the items. Memory is the most that the program held at
once, without what a program takes that does nothing. Under a limit (`ulimit -v`, in kilobytes) the status is printed, and how
many bytes were written and said.
"""

import argparse
import ctypes
import os
import subprocess
import tempfile

import page
from measure import ADDRESS, BUILT, PR_SET_CHILD_SUBREAPER, Run

LEVELS = 500
TEXTS = [10_000, 100_000, 1_000_000]
# pages of which half is names and half is text
HALVES = [20_000, 100_000]
USUAL = [1_000_000, 10_000_000, 20_000_000]
LIMITS = [20_000, 100_000, 400_000]
PRODUCT = '<div itemprop="itemListElement" itemscope itemtype="http://schema.org/Product"><b itemprop="name">Item {}</b>{}</div>\n'
EXTRACT = ["extract", "--base", ADDRESS]
ITEMS = ["items", "--base", ADDRESS]


def nested(folder, attribute, size):
    """The page of so many elements with this attribute around a text of so many bytes."""
    path = os.path.join(folder, f"{attribute}-{size}.html")
    with open(path, "w", encoding="utf-8") as out:
        tags = f'<div {attribute}="http://v.example/p">' * LEVELS
        out.write("<html><body itemscope>" + tags + "x" * size + "</div>" * LEVELS + "</body></html>\n")
    return path


def named(folder, attribute, size):
    """The page of one element with many names and a text, of so many bytes."""
    path = os.path.join(folder, f"{attribute}-names-{size}.html")
    names = " ".join(f"v:{number:05}" for number in range(size // 16))
    with open(path, "w", encoding="utf-8") as out:
        out.write(f'<html><body itemscope><p {attribute}="{names}">{"x" * (size - len(names) - 60)}</p></body></html>\n')
    return path


def usual_triples(folder, size):
    """A page of products by RDFa, of about so many bytes."""
    path = os.path.join(folder, f"triples-{size}.html")
    with open(path, "w", encoding="utf-8") as out:
        page.write(out, size // 95)
    return path


def usual_items(folder, size):
    """A page of products by Microdata, of about so many bytes, each with text that is no value."""
    path = os.path.join(folder, f"items-{size}.html")
    text = "<p>" + "some words on it " * 6 + "</p>"
    with open(path, "w", encoding="utf-8") as out:
        out.write('<html><body itemscope itemtype="http://schema.org/ItemList">\n')
        out.writelines(PRODUCT.format(number, text) for number in range(size // len(PRODUCT.format(10_000, text))))
        out.write("</body></html>\n")
    return path


def megabytes(words, floor):
    run = Run(words)
    return f"{(run.kilobytes - floor) / 1024:.1f} MB, {run.seconds:.2f} s, status {run.status}"


def limited(words, kilobytes):
    """What comes of it under this limit."""
    done = subprocess.run(["sh", "-c", f'ulimit -v {kilobytes}; exec "$@"', "sh", *words], capture_output=True, check=False)
    return f"status {done.returncode}, {len(done.stdout)} bytes written, {len(done.stderr)} said"


def rows(folder):
    """The words and the page of each row, under its name."""
    for size in TEXTS:
        triples = nested(folder, "property", size)
        yield f"extract, {LEVELS} levels over {size} bytes", [*EXTRACT, triples]
        yield f"check, {LEVELS} levels over {size} bytes", ["check", triples]
        yield f"items, {LEVELS} levels over {size} bytes", [*ITEMS, nested(folder, "itemprop", size)]
    for size in HALVES:
        triples, items = named(folder, "property", size), named(folder, "itemprop", size)
        yield f"extract, {size // 16} names, {os.path.getsize(triples)} bytes", [*EXTRACT, triples]
        yield f"items, {size // 16} names, {os.path.getsize(items)} bytes", [*ITEMS, items]
    for size in USUAL:
        triples, items = usual_triples(folder, size), usual_items(folder, size)
        for name, words in (("extract", EXTRACT), ("check", ["check"]), ("many", ["many", ADDRESS])):
            yield f"{name}, {os.path.getsize(triples)} bytes", [*words, triples]
        yield f"extract as jsonld, {os.path.getsize(triples)} bytes", [*EXTRACT, "--format", "jsonld", triples]
        yield f"items, {os.path.getsize(items)} bytes", [*ITEMS, items]


def main():
    parser = argparse.ArgumentParser(description="memory of rdfax on hostile and on usual pages")
    parser.add_argument("--program", default=BUILT, help="the built program")
    program = parser.parse_args().program
    ctypes.CDLL(None).prctl(PR_SET_CHILD_SUBREAPER, 1, 0, 0, 0)
    floor = Run(["true"]).kilobytes
    with tempfile.TemporaryDirectory() as folder:
        for name, words in rows(folder):
            print(f"{name}: {megabytes([program, *words], floor)}", flush=True)
        triples, items = (nested(folder, attribute, TEXTS[-1]) for attribute in ("property", "itemprop"))
        for kilobytes in LIMITS:
            for words in ([*EXTRACT, triples], [*ITEMS, items], ["check", triples]):
                print(f"{words[0]}, the largest text, below {kilobytes} kB: {limited([program, *words], kilobytes)}")


if __name__ == "__main__":
    main()
