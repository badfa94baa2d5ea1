"""What property copying costs, on pages of patterns that copy each other.

    apt-get install valgrind
    ./build    # proves and builds the program, if it isn't there
    python3 bench/copying.py

Each page has so many patterns, and as many subjects that copy them: all the first one, or each its own. The patterns stand
in a chain, a cycle, a tree from its root or from its leaves, a chain of pairs that copy each other, or each copies all. They
say nothing, or the last of them says something, or each does. Instructions are counted by callgrind, for a page, one of
twice and one of four times as many patterns (where each copies all, 1.41 times and twice as many). Beside their growth
stands that of what is read and given, in bytes: the time is to grow by no more than a tenth above it.
"""

import argparse
import os
import subprocess
import tempfile

from items import instructions
from measure import ADDRESS, BUILT

SHAPES = ["chain", "cycle", "tree", "leaves", "pairs", "all"]
SAYS = ["nothing", "last", "each"]
COPIES = ["first", "own"]


def copied(shape, number, count):
    """The patterns that a pattern copies."""
    if shape == "chain":
        return [number + 1] if number + 1 < count else []
    if shape == "cycle":
        return [(number + 1) % count]
    if shape == "tree":
        return [child for child in (2 * number + 1, 2 * number + 2) if child < count]
    if shape == "leaves":
        return [(number - 1) // 2] if number > 0 else []
    if shape == "pairs":
        return [other for other in (number + 1, number - 1 if number % 2 else None) if other is not None and other < count]
    return [other for other in range(count) if other != number]


def speaker(shape, count):
    """The last pattern: the one that all others lead to, where there is one."""
    return 0 if shape == "leaves" else count - 1


def write(out, shape, says, copies, count):
    out.write("<!DOCTYPE html>\n<html><head><title>Patterns</title></head><body>\n")
    for number in range(count):
        links = "".join(f'<link property="rdfa:copy" href="#p{other}">' for other in copied(shape, number, count))
        speaks = says == "each" or (says == "last" and number == speaker(shape, count))
        words = f'<span property="schema:name">{number}</span>' if speaks else ""
        out.write(f'<div resource="#p{number}" typeof="rdfa:Pattern">{links}{words}</div>\n')
    for number in range(count):
        pattern = 0 if copies == "first" else number
        out.write(f'<div resource="#s{number}" typeof="schema:Person"><link property="rdfa:copy" href="#p{pattern}"></div>\n')
    out.write("</body></html>\n")


def counts(given, shape, says):
    if shape == "all":
        return [given.all, int(given.all * 2**0.5), 2 * given.all]
    first = given.each if says == "each" else given.patterns
    return [first, 2 * first, 4 * first]


def measure(given, folder, shape, says, copies):
    before = None
    for count in counts(given, shape, says):
        path = os.path.join(folder, "page.html")
        with open(path, "w", encoding="utf-8", newline="\n") as out:
            write(out, shape, says, copies, count)
        words = [given.program, "extract", "--base", ADDRESS, path]
        text = subprocess.run(words, check=True, stdout=subprocess.PIPE).stdout
        size = os.path.getsize(path) + len(text)
        taken = instructions(words)
        grown = f", {taken / before[0]:.2f} times for {size / before[1]:.2f} times the bytes" if before else ""
        print(f"{shape}, {says} speaks, {copies} copied, {count} patterns: {os.path.getsize(path)} bytes, {text.count(10)} triples, {taken / 1e6:.1f} million{grown}", flush=True)
        before = (taken, size)


def arguments():
    parser = argparse.ArgumentParser(description="what property copying costs, on pages of patterns that copy each other")
    parser.add_argument("--program", default=BUILT, help="the built program")
    parser.add_argument("--patterns", type=int, default=1000, help="patterns of the least page")
    parser.add_argument("--each", type=int, default=100, help="patterns of the least page where each says something")
    parser.add_argument("--all", type=int, default=50, help="patterns of the least page where each copies all")
    parser.add_argument("--shapes", default=",".join(SHAPES), help="some of the shapes")
    return parser.parse_args()


def main():
    given = arguments()
    with tempfile.TemporaryDirectory() as folder:
        for shape in given.shapes.split(","):
            for says in SAYS:
                for copies in COPIES:
                    measure(given, folder, shape, says, copies)


if __name__ == "__main__":
    main()
