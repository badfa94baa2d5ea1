#!/usr/bin/env python3
"""Which names stand for two things: definitions, types and relations of one name in two files of specs/.

    python3 bench/same_names.py [--all]

It reads the texts alone. Tables of worked rows are left out but with --all: no other file uses their words, and a row reads best in
the words of its own table. Names in proofs/, of constructors and of fields aren't looked at.
"""

from __future__ import annotations

import argparse
import re
from collections import defaultdict
from pathlib import Path

TOP = Path(__file__).resolve().parent.parent
DEFINITION = re.compile(r"(?:(?:pub|abbrev|unfoldable|opaque|data|record) )*([A-Za-z_][\w'-]*)")
TABLES = {
    "rx_command/specs/Rows.antt",
    "rx_jsonld/specs/Rows.antt",
    "rx_many/specs/Rows.antt",
    "rx_notation/specs/Rows.antt",
    "rx_notation/specs/Texts.antt",
    "rx_refs/specs/Rows.antt",
    "rx_shapes/specs/Examples.antt",
}
NOT_NAMES = {"use", "mod", "module", "unfolding"}


def defined(text: str) -> set[str]:
    """The names that the text of a specs file gives a type at its outermost level."""
    lines = (line for line in text.split("\n") if re.search(" :( |$)", line) and not line.startswith((" ", "--")))
    found = (DEFINITION.match(line) for line in lines)
    return {it[1] for it in found if it} - NOT_NAMES


def is_table(path: str) -> bool:
    """Whether the file holds worked rows, and no definition that others use."""
    return path in TABLES or path.startswith("rx_rows/")


def main() -> None:
    parser = argparse.ArgumentParser(description="which names stand for two things")
    parser.add_argument("--all", action="store_true", help="with the tables of worked rows")
    has_tables = parser.parse_args().all
    places: defaultdict[str, list[str]] = defaultdict(list)
    for path in sorted(TOP.glob("crates/*/specs/**/*.antt")):
        place = path.relative_to(TOP / "crates").as_posix()
        if has_tables or not is_table(place):
            for name in defined(path.read_text(encoding="utf-8")):
                places[name].append(place)
    twice = {name: files for name, files in places.items() if len(files) > 1}
    for name, files in sorted(twice.items()):
        print(f"{name}: {' '.join(files)}")
    print(f"{len(twice)} names stand twice")


if __name__ == "__main__":
    main()
