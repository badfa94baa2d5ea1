"""How `rdfax items` grows with pages of several shapes, and how fast it is beside a check and beside extruct.

    apt-get install valgrind python3-extruct
    ./build                          # proves and builds program and library, if they aren't there
    python3 bench/items.py growth
    python3 bench/items.py peers
    python3 bench/items.py process

growth counts the instructions of `items` on a page of each shape and on one twice as large, by callgrind: they are the
same whatever else the machine does. peers reads one page of items: `check` and `items` by the instructions, and the first
2,000 of its items by `items` and by extruct in turn, by processor time, the least of the rounds. process does the last
in one process of Python, in which both are loaded: each makes JSON text of the page's bytes, so what a process takes to
start counts for neither.
"""

import argparse
import json
import os
import re
import subprocess
import sys
import tempfile

import shapes
from measure import ADDRESS, BUILT, Program, seconds_alone

TOP = os.path.join(os.path.dirname(os.path.abspath(__file__)), "..")

# of each shape so many elements, such that a page twice as large keeps within 100,000 visits
SIZES = {"items": 50_000, "properties": 100_000, "levels": 50_000, "shared": 1_000, "starts": 200}

EXTRUCT = "import extruct, json, sys; json.dump(extruct.extract(open(sys.argv[1], 'rb').read(), base_url=sys.argv[2], syntaxes=['microdata']), sys.stdout)"


# What both take in one process, given the page, its address and the number of rounds.
PROCESS = """
import extruct, json, sys, time
sys.path.insert(0, sys.argv[1])
import rdfax
with open(sys.argv[2], 'rb') as file:
    page = file.read()
def least(call):
    taken = []
    for _ in range(int(sys.argv[4])):
        began = time.process_time()
        text = call()
        taken.append(time.process_time() - began)
    return min(taken), text
theirs, their_text = least(lambda: json.dumps(extruct.extract(page, base_url=sys.argv[3], syntaxes=['microdata'])))
ours, our_text = least(lambda: rdfax.items_text(page, sys.argv[3]))
print(json.dumps([ours, theirs]))
"""


def page_file(folder, shape, count):
    path = os.path.join(folder, f"{shape}-{count}.html")
    with open(path, "w", encoding="utf-8", newline="\n") as out:
        shapes.write(out, shape, count)
    return path


def product_file(folder, count):
    """A list of products, each with its type and its name."""
    path = os.path.join(folder, f"products-{count}.html")
    with open(path, "w", encoding="utf-8", newline="\n") as out:
        out.write('<!DOCTYPE html>\n<html>\n<body itemscope="" itemtype="http://schema.org/ItemList">\n')
        for number in range(count):
            out.write('<div itemprop="itemListElement" itemscope="" itemtype="http://schema.org/Product">'
                      f'<span itemprop="name">Item {number}</span></div>\n')
        out.write("</body>\n</html>\n")
    return path


def instructions(words, status=0):
    """How many instructions a program takes that ends with this status, by callgrind."""
    with tempfile.NamedTemporaryFile() as out:
        tool = ["valgrind", "--tool=callgrind", f"--callgrind-out-file={out.name}"]
        run = subprocess.run(tool + words, stdout=subprocess.DEVNULL, stderr=subprocess.PIPE, text=True, check=False)
    if run.returncode != status:
        sys.exit(f"{words} ends with {run.returncode}")
    return int(re.search(r"Collected : (\d+)", run.stderr).group(1))


def growth(given, folder):
    for shape in given.shapes.split(","):
        paths = [page_file(folder, shape, SIZES[shape] * times) for times in (1, 2)]
        small, large = (instructions([given.program, "items", "--base", ADDRESS, path]) for path in paths)
        sizes = [os.path.getsize(path) for path in paths]
        print(f"{shape}, {sizes[0]} and {sizes[1]} bytes: {small / 1e6:.0f} and {large / 1e6:.0f} million, {large / small:.2f} times")


def least(programs, path, rounds):
    """The least time of each program, of so many rounds in which each runs in turn."""
    taken = [[seconds_alone(program.words(path)) for program in programs] for _ in range(rounds)]
    return [min(seconds) for seconds in zip(*taken)]


def peers(given, folder):
    page = product_file(folder, 99_999)
    check = instructions([given.program, "check", page])
    items = instructions([given.program, "items", "--base", ADDRESS, page])
    print(f"99,999 products, {os.path.getsize(page)} bytes: check {check / 1e6:.0f} million, items {items / 1e6:.0f} million, {items / check:.2f} times")
    page = product_file(folder, 2_000)
    programs = [
        Program("items", [given.program, "items", "--base", ADDRESS], []),
        Program("extruct", ["/usr/bin/python3", "-c", EXTRUCT], [ADDRESS]),
    ]
    own, other = least(programs, page, given.rounds)
    print(f"2,000 products: items {own:.4f} s, extruct {other:.2f} s, {other / own:.0f} times")


def process(given, folder):
    shared = os.path.join(TOP, "built/librdfax.so")
    page = product_file(folder, 2_000)
    words = ["/usr/bin/python3", "-c", PROCESS, os.path.join(TOP, "python"), page, ADDRESS, str(given.rounds)]
    run = subprocess.run(words, env={**os.environ, "RDFAX_LIBRARY": shared}, stdout=subprocess.PIPE, check=True)
    own, other = json.loads(run.stdout)
    print(f"2,000 products in one process: rdfax {own:.5f} s, extruct {other:.3f} s, {other / own:.0f} times")


def arguments():
    parser = argparse.ArgumentParser(description="rdfax items on pages of several shapes, and beside extruct")
    parser.add_argument("what", choices=["growth", "peers", "process"])
    parser.add_argument("--program", default=BUILT, help="the built program")
    parser.add_argument("--shapes", default=",".join(shapes.ITEM_SHAPES), help="some of the shapes")
    parser.add_argument("--rounds", type=int, default=3)
    return parser.parse_args()


def main():
    given = arguments()
    with tempfile.TemporaryDirectory() as folder:
        {"growth": growth, "peers": peers, "process": process}[given.what](given, folder)


if __name__ == "__main__":
    main()
