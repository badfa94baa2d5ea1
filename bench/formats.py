"""What each format of an extraction costs, and what several pages at once do.

    apt-get install valgrind raptor2-utils
    ./build    # proves and builds the program, if it isn't there
    python3 bench/formats.py formats
    python3 bench/formats.py turtle
    python3 bench/formats.py many

formats counts the instructions of an extraction to each format, by callgrind: of a page of items and of one list, and of
both twice as large. turtle reads the page of items by `extract --format turtle` and by rapper's Turtle writer in turn, by
processor time. many reads 1,000 pages by `many`, and one of them by `extract`: by callgrind, without what a process takes
to start, and by the time of `many` beside that of 1,000 processes.
"""

import argparse
import ctypes
import os
import tempfile
import time

import page
import shapes
from items import instructions
from measure import ADDRESS, BUILT, PR_SET_CHILD_SUBREAPER, Program, Run, compare

FORMATS = ["nquads", "turtle", "nested", "jsonld"]


def items_file(folder, count, name="items"):
    path = os.path.join(folder, f"{name}-{count}.html")
    with open(path, "w", encoding="utf-8", newline="\n") as out:
        page.write(out, count)
    return path


def list_file(folder, count):
    path = os.path.join(folder, f"list-{count}.html")
    with open(path, "w", encoding="utf-8", newline="\n") as out:
        shapes.write(out, "list", count)
    return path


def extraction(given, name, path):
    return [given.program, "extract", "--format", name, "--base", ADDRESS, path]


def formats(given, folder):
    for shape, write in (("items", items_file), ("list", list_file)):
        least = {}
        for count in (given.count, 2 * given.count):
            path = write(folder, count)
            for name in FORMATS:
                taken = instructions(extraction(given, name, path))
                grown = f", {taken / least[name]:.2f} times that of half the page" if name in least else ""
                least.setdefault(name, taken)
                if name == "nquads":
                    plain = taken
                print(f"{count} {shape}, {name}: {taken / 1e6:.1f} million, {taken / plain:.2f} times N-Quads{grown}", flush=True)


def turtle(given, folder):
    path = items_file(folder, given.count)
    programs = [
        Program("extract --format turtle", [given.program, "extract", "--format", "turtle", "--base", ADDRESS], []),
        Program("rapper -o turtle", ["rapper", "-q", "-i", "rdfa", "-o", "turtle"], [ADDRESS]),
    ]
    least = compare(programs, path, given.rounds)
    own, other = (least[program.name] for program in programs)
    print(f"{given.count} items: rapper takes {other / own:.1f} times as long")


def many(given, folder):
    pages = [items_file(folder, given.each, f"page-{number}") for number in range(1000)]
    words = [word for number, path in enumerate(pages) for word in (f"http://h.example/{number}", path)]
    begun = instructions([given.program], status=2)
    one = instructions([given.program, "extract", "--base", "http://h.example/0", pages[0]]) - begun
    all_pages = instructions([given.program, "many"] + words) - begun
    print(f"1,000 pages of {given.each} items: one extraction {one} instructions, many {all_pages / 1e6:.1f} million, {all_pages / (1000 * one):.2f} times 1,000 of these")
    started = time.perf_counter()
    together = Run([given.program, "many"] + words)
    middle = time.perf_counter()
    apart = [Run([given.program, "extract", "--base", f"http://h.example/{number}", path]) for number, path in enumerate(pages)]
    ended = time.perf_counter()
    seconds = sum(run.seconds for run in apart)
    print(f"many: {together.seconds:.3f} s of processor time, {middle - started:.3f} s in all; 1,000 processes: {seconds:.3f} s and {ended - middle:.3f} s")


def arguments():
    parser = argparse.ArgumentParser(description="what each format of an extraction costs, and several pages at once")
    parser.add_argument("what", choices=["formats", "turtle", "many"])
    parser.add_argument("--program", default=BUILT, help="the built program")
    parser.add_argument("--count", type=int, default=100_000, help="items of a page")
    parser.add_argument("--each", type=int, default=20, help="items of each of 1,000 pages")
    parser.add_argument("--rounds", type=int, default=3)
    return parser.parse_args()


def main():
    given = arguments()
    ctypes.CDLL(None).prctl(PR_SET_CHILD_SUBREAPER, 1, 0, 0, 0)
    with tempfile.TemporaryDirectory() as folder:
        {"formats": formats, "turtle": turtle, "many": many}[given.what](given, folder)


if __name__ == "__main__":
    main()
