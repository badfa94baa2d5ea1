#!/usr/bin/env python3
"""Which lemmas of the crates' proofs std states already, or another file of proofs/ of the crate or of one below it.

    python3 bench/same_lemmas.py [KIT]

KIT is the folder of the kit's std (without it, it is looked for beside `rt`). It reads the texts alone and proves nothing.
Two lemmas are the same where their premises and conclusions are, in order and up to the names of variables; where the types of
the variables differ, the general one is told, and it may not fit. Lemmas of a `where` block that stand alone count too.
"""

from __future__ import annotations

import re
import shutil
import sys
from collections import defaultdict
from pathlib import Path
from typing import Iterator, NamedTuple

TOP = Path(__file__).resolve().parent.parent
NOT_LEMMAS = {"Answers", "Invariants", "Proof", "Lib", "Common"}
SIGNATURE = re.compile(r"^(\s*)(pub )?([^\s:(){}=]+)(?: \{[^}]*\})? : (.*)$")
WORD = re.compile(r"[^\s(){}\[\],;.]+|[(){}\[\],;.]")
BINDER = re.compile(r"^([({])([^:(){}]+) : ")
NOT_NAMES = {"use", "module", "record", "data", "abbrev", "let", "ruleset"}


class Lemma(NamedTuple):
    crate: str
    module: str
    path: Path
    line: int
    name: str
    is_top: bool
    statement: str
    types: tuple[str, ...]


def parts(text: str) -> list[str]:
    """The text cut at the arrows that stand in no bracket."""
    found, depth, current = [], 0, ""
    for character in text:
        depth += (character in "([{") - (character in ")]}")
        if character == "→" and depth == 0:
            found.append(current.strip())
            current = ""
        else:
            current += character
    return found + [current.strip()]


def closing(text: str) -> int:
    """Where the bracket that the text begins with is closed."""
    depth = 0
    for place, character in enumerate(text):
        depth += (character in "([{") - (character in ")]}")
        if depth == 0:
            return place
    return len(text)


def normal(signature: str) -> tuple[str, tuple[str, ...]]:
    """A signature with its variables numbered, and the types of those that aren't types themselves."""
    names: dict[str, str] = {}
    shape: list[str] = []
    types: list[str] = []

    def renamed(text: str) -> str:
        return " ".join(names.get(word, word) for word in WORD.findall(text))

    for part in parts(signature):
        while found := BINDER.match(part):
            end = closing(part)
            kind = part[found.end() : end]
            for variable in found.group(2).split():
                is_type = re.match(r"Type( .*)?$", kind) is not None
                names[variable] = "T" if is_type else f"v{len(types)}"
                if not is_type:
                    types.append(renamed(kind))
                if not is_type or found.group(1) == "(":
                    shape.append(found.group(1) + names[variable])
            part = part[end + 1 :].strip()
        if part:
            shape.append(renamed(part))
    return " → ".join(shape), tuple(types)


def fits(general: str, kind: str) -> bool:
    """Whether the type is the general one, at some type for each T."""
    return re.fullmatch(re.escape(general).replace("T", "(.+)"), kind) is not None


def lemmas(crate: str, module: str, path: Path) -> Iterator[Lemma]:
    lines = path.read_text(encoding="utf-8").split("\n")
    for number, line in enumerate(lines):
        found = SIGNATURE.match(line)
        if not found or found.group(3) in NOT_NAMES:
            continue
        indent, name, signature = found.group(1), found.group(3), found.group(4)
        after = number + 1
        while after < len(lines) and lines[after].startswith(indent + " ") and lines[after].strip():
            signature += " " + lines[after].strip()
            after += 1
        if any(text.startswith(f"{indent}{name} ") for text in lines[after : after + 2]):
            yield Lemma(crate, module, path, number + 1, name, not indent, *normal(signature))


def crates() -> dict[str, set[str]]:
    """The crates, with those below each."""
    rows = (line.split(":") for line in (TOP / "crates.txt").read_text(encoding="utf-8").split("\n") if ":" in line and line[0] != "#")
    return {row[0].split()[0]: set(row[1].split()) for row in rows}


def files(folder: Path, prefix: str) -> Iterator[tuple[str, Path]]:
    for path in sorted(folder.glob("**/*.antt")):
        if path.stem not in NOT_LEMMAS:
            yield ".".join([prefix, *path.relative_to(folder).with_suffix("").parts]), path


def kit() -> Path:
    command = sys.argv[1] if len(sys.argv) > 1 else shutil.which("rt")
    if command is None:
        sys.exit("same_lemmas: there is no rt: name the folder of the kit's std")
    above = Path(command).resolve()
    for folder in [above, *above.parents]:
        for std in [folder, folder / "std", folder / "rattle" / "std"]:
            if (std / "proofs" / "lemmas").is_dir():
                return std
    sys.exit("same_lemmas: the kit's std isn't found: name its folder")


def main() -> None:
    below = crates()
    std = kit() / "proofs" / "lemmas"
    known = [lemma for module, path in files(std, "Rattle.std.proofs.lemmas") for lemma in lemmas("std", module, path)]
    own = [
        lemma
        for crate in below
        for module, path in files(TOP / "crates" / crate / "proofs", f"Rattle.{crate}.proofs")
        for lemma in lemmas(crate, module, path)
    ]
    stated = defaultdict(list)
    for lemma in known + own:
        if lemma.is_top:
            stated[lemma.statement].append(lemma)
    count = 0
    for lemma in own:
        for other in stated[lemma.statement]:
            if other.path == lemma.path or other.crate not in below[lemma.crate] | {"std", lemma.crate}:
                continue
            if other.crate == lemma.crate and (other.module, other.line) > (lemma.module, lemma.line):
                continue
            if len(other.types) == len(lemma.types) and all(map(fits, other.types, lemma.types)):
                print(f"{lemma.path.relative_to(TOP)}:{lemma.line}: {lemma.name} is {other.module}.{other.name}")
                count += 1
                break
    print(f"{count} stated twice")


if __name__ == "__main__":
    main()
