#!/usr/bin/env python3
"""The column "Its code calls" of docs/DESIGN.md, made from crates.txt and the crates' code.

    python3 tools/dependencies.py            print each crate of crates.txt with what its code calls
    python3 tools/dependencies.py --write    write the column into docs/DESIGN.md
    python3 tools/dependencies.py --check    status 1 where the document says anything else

A crate's code calls another where a `use` line of its src/ names that, or a path in the code does. What only contracts and
proofs name (`ghost use`, attributes, paths into specs and proofs) isn't counted, and crates.txt has that too: its lines are
longer. A crate that isn't on the line of the crate that calls it is an error, and so is one without a row in the document.
"""

import pathlib
import re
import sys

TOP = pathlib.Path(__file__).resolve().parent.parent
DOCUMENT = TOP / "docs" / "DESIGN.md"
COLUMN = "Its code calls"
COMMENT = re.compile(r"//.*")
GHOST = re.compile(r"^\s*ghost use\b.*?;", re.MULTILINE | re.DOTALL)
ATTRIBUTE = re.compile(r"#!?\[[^\]]*\]")
NAMED = re.compile(r"\buse ([a-z_0-9]+)\b|(?<![\w:])([a-z_0-9]+)::(?!specs\b|proofs\b)")


def listed() -> dict[str, list[str]]:
    """The crates of crates.txt, each with those that its line allows."""
    crates: dict[str, list[str]] = {}
    for line in (TOP / "crates.txt").read_text(encoding="utf-8").splitlines():
        if line and not line.startswith("#"):
            name, allowed = line.split(":")
            crates[name.split()[0]] = allowed.split()
    return crates


def called(name: str, known: list[str]) -> list[str]:
    """What the code of a crate calls, in the order of `known`."""
    found: set[str] = set()
    for path in sorted((TOP / "crates" / name / "src").rglob("*.rt")):
        code = COMMENT.sub("", path.read_text(encoding="utf-8"))
        code = ATTRIBUTE.sub("", GHOST.sub("", code))
        for used, in_path in NAMED.findall(code):
            found.add(used or in_path)
    return [crate for crate in known if crate in found and crate != name]


def all_calls() -> dict[str, list[str]]:
    """What each crate calls; ends the program where crates.txt doesn't allow it."""
    crates = listed()
    kit = sorted({crate for allowed in crates.values() for crate in allowed} - set(crates))
    known = list(crates) + kit
    calls = {name: called(name, known) for name in crates}
    for name, used in calls.items():
        if missing := [crate for crate in used if crate not in crates[name]]:
            sys.exit(f"dependencies: {name} calls {', '.join(missing)}, which crates.txt doesn't allow it")
    return calls


def rewritten(text: str, calls: dict[str, list[str]]) -> str:
    """The document with the column as it has to be."""
    lines, place, rows = text.split("\n"), -1, set()
    for number, line in enumerate(lines):
        cells = [cell.strip() for cell in line.strip("|").split("|")] if line.startswith("|") else []
        if not cells:
            place = -1
        elif COLUMN in cells:
            place = cells.index(COLUMN)
        elif place >= 0 and cells[0] in calls:
            rows.add(cells[0])
            cells[place] = ", ".join(calls[cells[0]]) or "nothing"
            lines[number] = f"| {' | '.join(cells)} |"
    if left := [name for name in calls if name not in rows]:
        sys.exit(f"dependencies: docs/DESIGN.md has no row for {', '.join(left)}")
    return "\n".join(lines)


def main(arguments: list[str]) -> int:
    if arguments not in ([], ["--write"], ["--check"]):
        print("usage: dependencies.py [--write|--check]", file=sys.stderr)
        return 2
    calls = all_calls()
    if not arguments:
        for name, used in calls.items():
            print(f"{name}: {', '.join(used) or 'nothing'}")
        return 0
    text = DOCUMENT.read_text(encoding="utf-8")
    wanted = rewritten(text, calls)
    if arguments == ["--write"]:
        DOCUMENT.write_text(wanted, encoding="utf-8")
    elif wanted != text:
        stale = [new.split("|")[1].strip() for old, new in zip(text.split("\n"), wanted.split("\n"), strict=True) if old != new]
        print(f"dependencies: docs/DESIGN.md is stale for {', '.join(stale)}: run tools/dependencies.py --write", file=sys.stderr)
        return 1
    return 0


if __name__ == "__main__":
    sys.exit(main(sys.argv[1:]))
