#!/usr/bin/env python3
"""How many real pages rdfax reads whole, and for which kinds of fault it refuses the others.

    apt-get download debian-policy    # and others
    dpkg -x debian-policy_*.deb FOLDER/debian-policy
    ./build    # proves and builds the program, if it isn't there
    python3 bench/refusals.py FOLDER

Each folder in FOLDER holds pages of one maker: a package. Of each at most so many pages as --most says are read, evenly
spread over all its pages in order of their names: files that end in .html, .htm or .xhtml, links to others left out. A page
that ends in .xhtml is read as XHTML, all others as HTML, as servers tell it; of those that are refused it is told how many
are read as XHTML. Of each kind of fault it tells on how many pages it is the first fault, in how many packages, what stands
there most often, and an example. With --mend it tells how many of them are read once rdfax-mend (`make -C mend`) has mended
them.
"""

import argparse
import collections
import os
import re
import subprocess
import tempfile

from answers import Answer
from measure import BUILT

SUFFIXES = (".html", ".htm", ".xhtml")
SHOWN = 60
MENDER = os.path.join(os.path.dirname(os.path.abspath(__file__)), "..", "mend", "out", "rdfax-mend")


def pages(package, most):
    """The pages of a package, and those of them that are read."""
    found = []
    for folder, _, names in os.walk(package):
        paths = [os.path.join(folder, name) for name in names if name.lower().endswith(SUFFIXES)]
        found += [path for path in paths if not os.path.islink(path)]
    found.sort()
    taken = min(most, len(found))
    return found, [found[number * len(found) // taken] for number in range(taken)]


def checked(given, path, syntax):
    answer = Answer([given.program, "check", "--syntax", syntax, path])
    if answer.status != 0 and not answer.is_refusal():
        raise SystemExit(f"check of {path} ends with {answer.status}")
    return answer


class Refusal:
    """A page that is refused, with what stands at its fault."""

    def __init__(self, package, path, answer):
        self.package, self.path, self.answer = package, path, answer
        with open(path, "rb") as file:
            self.page = file.read()

    def thing(self):
        """The faulty token, of a tag its name alone."""
        token = self.page[self.answer.token:self.answer.byte + 1].decode("latin-1")
        tag = re.match(r"</?[A-Za-z][^\s/>]*", token)
        if tag:
            return tag.group() + (" />" if token.endswith("/>") else " .." if len(tag.group()) + 1 < len(token) else ">")
        return re.sub(r"\s+", " ", token)[:20]

    def is_mended(self, given):
        """Whether the page is read once it is mended."""
        with tempfile.NamedTemporaryFile(suffix=".html") as mended:
            if subprocess.run([MENDER], input=self.page, stdout=mended, stderr=subprocess.DEVNULL, check=False).returncode != 0:
                return False
            return not checked(given, mended.name, "html").is_refusal()

    def place(self):
        """The line of the fault and what stands before it."""
        line = self.page.count(b"\n", 0, self.answer.byte) + 1
        before = self.page[max(0, self.answer.byte + 1 - SHOWN):self.answer.byte + 1].decode("utf-8", "backslashreplace")
        return f"line {line}: " + re.sub(r"\s+", " ", before)


def read_package(given, name):
    """Reads a package's pages. Answers its row and its refusals."""
    found, taken = pages(os.path.join(given.folder, name), given.most)
    refusals = []
    for path in taken:
        answer = checked(given, path, "xhtml" if path.lower().endswith(".xhtml") else "html")
        if answer.is_refusal():
            refusals.append(Refusal(name, path, answer))
    strict = sum(not checked(given, refusal.path, "xhtml").is_refusal() for refusal in refusals)
    kinds = collections.Counter(refusal.answer.kind for refusal in refusals)
    told = ", ".join(f"{kind} {count}" for kind, count in kinds.most_common())
    print(f"| {name} | {len(found)} | {len(taken)} | {len(taken) - len(refusals)} | {len(refusals)} | {strict} | {told} |", flush=True)
    return len(found), len(taken), strict, refusals


def print_kinds(given, refusals):
    by_kind = collections.defaultdict(list)
    for refusal in refusals:
        by_kind[refusal.answer.kind].append(refusal)
    for kind, those in sorted(by_kind.items(), key=lambda entry: -len(entry[1])):
        packages = {refusal.package for refusal in those}
        mended = f", {sum(refusal.is_mended(given) for refusal in those)} read once they are mended" if given.mend else ""
        print(f"\n{kind}: {len(those)} pages of {len(packages)} packages{mended}")
        for thing, count in collections.Counter(refusal.thing() for refusal in those).most_common(given.things):
            example = next(refusal for refusal in those if refusal.thing() == thing)
            print(f"  {count} times {thing!r}, as in {os.path.relpath(example.path, given.folder)}, {example.place()}")


def arguments():
    parser = argparse.ArgumentParser(description="which real pages rdfax refuses, and for what")
    parser.add_argument("folder", help="a folder with a folder of pages for each package")
    parser.add_argument("--program", default=BUILT, help="the built program")
    parser.add_argument("--most", type=int, default=100, help="of a package so many pages at the most")
    parser.add_argument("--things", type=int, default=6, help="of each kind so many things that stand at the fault")
    parser.add_argument("--mend", action="store_true", help="mend the pages that are refused, and check them again")
    return parser.parse_args()


def main():
    given = arguments()
    print("| Package | Pages | Checked | Read whole | Refused | These as XHTML read | First faults |\n|---|---|---|---|---|---|---|")
    rows = [read_package(given, name) for name in sorted(os.listdir(given.folder))]
    refusals = [refusal for row in rows for refusal in row[3]]
    found, taken, strict = (sum(row[place] for row in rows) for place in range(3))
    print(f"| all {len(rows)} | {found} | {taken} | {taken - len(refusals)} | {len(refusals)} | {strict} | |")
    print_kinds(given, refusals)


if __name__ == "__main__":
    main()
