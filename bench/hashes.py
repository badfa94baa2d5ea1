"""What a page costs whose keys would meet in a hash table, beside a page of the same size with keys at random.

    ./build    # proves and builds the program, if it isn't there
    python3 bench/hashes.py                  # pages of a mebibyte, by processor time; needs cc, and some ten minutes
    python3 bench/hashes.py --count 30000    # fewer keys
    python3 bench/hashes.py --instructions --count 10000    # by callgrind (apt-get install valgrind)

Each shape is a set of keys in the program: `label` has the labels of blank nodes, `list` the predicates of lists, `quad` the
quads of two pages of one address, and `node` the nodes of a text in Turtle or JSON-LD. The program finds these by a tree, so
both pages should cost the same. `triple` has the triples of a page, `copied` those of one that copies a pattern, and
`repeated` those of one where each stands twice. These are found in a table, by a key that hangs on all of them: they are
chosen for the key that the page has without them, so that they'd meet if it stayed, and both pages should cost the same, too.
bench/hashes.c finds texts that meet in a table like that of the kit's indexmap, and counts what that table would do.
"""

import argparse
import ctypes
import os
import random
import subprocess
import sys
import tempfile

from items import instructions
from measure import ADDRESS, BUILT, PR_SET_CHILD_SUBREAPER, Run

HERE = os.path.dirname(os.path.abspath(__file__))
LETTERS = "abcdefghijklmnopqrstuvwxyzABCDEFGHIJKLMNOPQRSTUVWXYZ0123456789-_"
MEBIBYTE = 1_048_576
TYPES = '<p about="" typeof="{}"></p>'
COPY = '<link about="" property="rdfa:copy" href="v:none">'
EXTRACT = ["extract", "--base", ADDRESS]
# where the page stands among the words before the last one, which it is too
PAGE = "PAGE"


def labels(texts):
    return TYPES.format(" ".join("_:" + text for text in texts))


def types(texts):
    return TYPES.format(" ".join(texts))


def predicates(texts):
    return f'<p about="" inlist property="{" ".join(texts)}" content=""></p>'


def nodes(texts):
    return "".join(f"<p about=v:{text} typeof=T>" for text in texts)


# of each shape what bench/hashes.c calls it, its words, its body, and the most keys of a page of a mebibyte
SHAPES = {
    "label": ("label", EXTRACT, labels, 100_000),
    "list": ("list", EXTRACT, predicates, 100_000),
    "quad": ("quad", ["many", ADDRESS, PAGE, ADDRESS], types, 100_000),
    "triple": ("triple", EXTRACT, types, 100_000),
    "copied": ("copied", EXTRACT, lambda texts: COPY + types(texts), 100_000),
    "repeated": ("triple", EXTRACT, lambda texts: types(texts) + types(texts), 70_000),
    "node": ("node", ["extract", "--format", "jsonld", "--base", ADDRESS], nodes, 36_000),
}


def groups_for(count):
    groups = 1
    while 9 * groups < count:
        groups *= 2
    return groups


def at_random(count):
    drawn = random.Random(count)
    texts = set()
    while len(texts) < count:
        texts.add(drawn.choice(LETTERS[:52]) + "".join(drawn.choices(LETTERS, k=5)))
    return sorted(texts)


def page_file(folder, name, body):
    """The page, as long as a mebibyte at least."""
    path = os.path.join(folder, name + ".html")
    with open(path, "w", encoding="ascii") as out:
        page = f'<html vocab="v:"><body>{body}</body></html>\n'
        out.write(page + f"<!--{' ' * (MEBIBYTE - len(page) - 7)}-->")
    return path


class Finder:
    """bench/hashes.c."""

    def __init__(self, folder):
        self.path = os.path.join(folder, "hashes")
        subprocess.run(["cc", "-O3", "-march=native", "-o", self.path, os.path.join(HERE, "hashes.c")], check=True)
        subprocess.run([self.path, "test"], check=True)

    def texts(self, shape, count):
        groups = groups_for(count)
        words = [self.path, "find", shape, str(count), str(groups), str(max(1, groups // 32))]
        return subprocess.run(words, stdout=subprocess.PIPE, text=True, check=True).stdout.split()

    def cost(self, shape, texts):
        done = subprocess.run([self.path, "count", shape], input="\n".join(texts) + "\n", stdout=subprocess.PIPE, text=True, check=True)
        return done.stdout.strip()


def cost(given, words):
    if given.instructions:
        return f"{instructions(words) / 1e6:.0f} million instructions"
    run = Run(words)
    return f"{run.seconds:.2f} s, {run.kilobytes / 1024:.0f} MB, status {run.status}"


def arguments():
    parser = argparse.ArgumentParser(description="rdfax on pages whose keys meet in its hash tables")
    parser.add_argument("--program", default=BUILT, help="the built program")
    parser.add_argument("--shapes", default=",".join(SHAPES), help="some of the shapes")
    parser.add_argument("--count", type=int, help="how many keys")
    parser.add_argument("--instructions", action="store_true", help="count instructions by callgrind")
    return parser.parse_args()


def main():
    given = arguments()
    ctypes.CDLL(None).prctl(PR_SET_CHILD_SUBREAPER, 1, 0, 0, 0)
    with tempfile.TemporaryDirectory() as folder:
        finder = Finder(folder)
        for name in given.shapes.split(","):
            shape, words, body, most = SHAPES[name]
            count = given.count or most
            for kind, texts in (("at random", at_random(count)), ("that meet", finder.texts(shape, count))):
                path = page_file(folder, name, body(texts))
                command = [given.program, *(path if word == PAGE else word for word in words), path]
                print(f"{name}, {count} keys {kind}, {os.path.getsize(path)} bytes: {cost(given, command)}")
                print(f"  once in the table: {finder.cost(shape, texts)}", flush=True)


if __name__ == "__main__":
    sys.exit(main())
