#!/usr/bin/env python3
"""Gives definitions of specs/ new names, in every crate that speaks of them.

    python3 tools/rename_definitions.py MAP

MAP has a line for each: the file that defines it, the name and the new one (`rx_nest/specs/Nests.antt Steps NestSteps`).
It follows `use` lines, through `pub use` of other files, `as` and aliases of modules, and takes in .rt files only what stands in
braces behind `ensures`, `requires` and `ghost`. Constructors, fields, Rust's own names, comments and documents stay. A bound
variable of the name goes along, so take new names that no file has. Afterwards: `rt fmt` and `rt check` in the crates that changed,
and `python3 bench/same_names.py`. What it leaves and can't judge it prints, with file and line.
"""

from __future__ import annotations

import re
import sys
from dataclasses import dataclass, field
from functools import cache
from pathlib import Path
from typing import Iterator, NamedTuple

CRATES = Path(__file__).resolve().parent.parent / "crates"
WORD = re.compile(r"[A-Za-z_◌][\w'◌-]*")
USE = re.compile(r"^(\s*)((?:pub |ghost )*)use (Rattle\.[\w.'-]+)(?:\.\{([^}]*)\})?(?: as ([\w'-]+))?;?\s*$")
DEFINED = re.compile(r"^(  )?(?:(?:pub|abbrev|unfoldable|opaque|data|record) )*([A-Za-z_][\w'-]*)(?= |$)")
CHARACTER = re.compile(r"'(\\(u\{[^}]*\}|x[0-9A-Fa-f]{2}|.)|[^'\\\n])'")
GHOST = re.compile(r"\b(ensures|requires)\b\*?( [A-Za-z_]\w*)? ?\{|\bghost (?!use\b)[A-Za-z_]\w*")
RECORD = re.compile(r"^\s*(?:pub |abbrev )*record ")
FIELDS = re.compile(r"^\s+(?:pub )?(?!use |let )((?:[\w'-]+ )+): ")


class Place(NamedTuple):
    """Where a definition stands: its module and its name there."""

    module: str
    name: str


class Use(NamedTuple):
    """What a `use` line names: items, each with its name here, or a module under an alias."""

    is_public: bool
    module: str
    items: list[tuple[str, str]]
    alias: str | None


@dataclass
class Source:
    path: Path
    module: str
    lines: list[str]
    uses: list[Use] = field(default_factory=list)
    defined: dict[str, int] = field(default_factory=dict)

    @property
    def is_rust(self) -> bool:
        return self.path.suffix == ".rt"


def read_use(line: str) -> Use | None:
    found = USE.match(line)
    if found is None:
        return None
    parts = [item.strip().split(" as ") for item in (found[4] or "").split(",") if item.strip()]
    return Use("pub" in found[2], found[3], [(part[0].strip(), part[-1].strip()) for part in parts], found[5])


def definitions(lines: list[str]) -> dict[str, int]:
    """The names that are defined at the outermost level or in a module with parameters, each with its indentation."""
    found: dict[str, int] = {}
    is_inside = False
    for line in lines:
        if line and not line.startswith((" ", "--")):
            is_inside = line.startswith("module ") and line.endswith("where")
        match = DEFINED.match(line)
        if match and re.search(r" :( |$)", line) and match[2] not in ("use", "module") and (is_inside or not match[1]):
            found[match[2]] = len(match[1] or "")
    return found


def sources() -> dict[str, Source]:
    found = {}
    for path in sorted(CRATES.glob("**/*")):
        parts = path.relative_to(CRATES).with_suffix("").parts
        if path.suffix not in (".antt", ".rt") or "out" in parts:
            continue
        lines = path.read_text(encoding="utf-8").split("\n")
        source = Source(path, ".".join(["Rattle", *parts]), lines, [use for use in map(read_use, lines) if use])
        if not source.is_rust:
            source.defined = definitions(lines)
        found[source.module if not source.is_rust else path.as_posix()] = source
    return found


def code(text: str, is_rust: bool) -> bytearray:
    """A byte for each character: 1 where it belongs to no comment, text or character."""
    marks, place = bytearray(b"\1" * len(text)), 0
    comment = "//" if is_rust else "--"
    while place < len(text):
        end = place
        if text.startswith(comment, place) and (is_rust or place == 0 or text[place - 1] in " \n("):
            end = text.find("\n", place) % (len(text) + 1)
        elif text[place] == '"':
            end = place + 1
            while end < len(text) and text[end] != '"':
                end += 2 if text[end] == "\\" else 1
            end = min(len(text), end + 1)
        elif text[place] == "'" and not re.search(r"[\w'](?<!\bb)$", text[max(0, place - 2) : place]):
            match = CHARACTER.match(text, place)
            end = match.end() if match else place
        marks[place:end] = bytes(end - place)
        place = max(end, place + 1)
    return marks


def behind_brace(text: str, marks: bytearray, place: int) -> int:
    """Behind the brace that closes the one at the place."""
    depth = 0
    for at in range(place, len(text)):
        depth += ((text[at] == "{") - (text[at] == "}")) * marks[at]
        if depth == 0:
            return at + 1
    return len(text)


def ghost(text: str, marks: bytearray) -> bytearray:
    """The marks of what stands in the braces of clauses and of other ghost items of a .rt file."""
    found = bytearray(len(text))
    for match in GHOST.finditer(text):
        place = match.end() - 1 if match[1] else match.end()
        while marks[match.start()] and place < len(text) and text[place] != ";":
            end = behind_brace(text, marks, place) if text[place] == "{" else place + 1
            if text[place] == "{":
                found[place:end] = marks[place:end]
                if match[1]:
                    break
            place = end
    return found


class Renaming:
    def __init__(self, wanted: dict[Place, str]) -> None:
        self.wanted = wanted
        self.sources = sources()
        self.origin = cache(self._origin)

    def _origin(self, module: str, name: str) -> Place:
        """Where the name that a module passes on is defined."""
        source = self.sources.get(module)
        if source is None or name in source.defined:
            return Place(module, name)
        for use in source.uses:
            for there, here in use.items if use.is_public else []:
                if here == name:
                    return self.origin(use.module, there)
        return Place(module, name)

    def module_now(self, module: str) -> str:
        """The path of a module, where a type of that name was renamed on the way."""
        parts = module.split(".")
        for count in range(2, len(parts)):
            parts[count] = self.wanted.get(Place(".".join(parts[:count]), parts[count]), parts[count])
        return ".".join(parts)

    def use_line(self, line: str) -> str:
        found, use = USE.match(line), read_use(line)
        assert found and use
        items = [item.strip() for item in (found[4] or "").split(",") if item.strip()]
        now = []
        for item, (there, here) in zip(items, use.items):
            name = self.wanted.get(self.origin(use.module, there), there)
            now.append(name if " as " not in item else f"{name} as {here}")
        if items == sorted(items):
            now.sort()
        elif items == sorted(items, key=str.lower):
            now.sort(key=str.lower)
        if items:
            line = line[: found.start(4)] + ", ".join(now) + line[found.end(4) :]
        return line.replace(use.module, self.module_now(use.module), 1)

    def local_names(self, source: Source) -> dict[str, str]:
        """The words of a file that stand for what is renamed, with the new names."""
        places = {name: Place(source.module, name) for name in source.defined}
        kept = set()
        for use in source.uses:
            for there, here in use.items:
                places[here] = self.origin(use.module, there)
                kept |= {here} if there != here else set()
        return {name: self.wanted[place] for name, place in places.items() if place in self.wanted and name not in kept}

    def renamed(self, source: Source) -> Iterator[str]:
        text = "\n".join(source.lines)
        marks = code(text, source.is_rust)
        marks = ghost(text, marks) if source.is_rust else marks
        names = self.local_names(source)
        aliases = {use.alias: use.module for use in source.uses if use.alias}
        start, record, fields = 0, -1, set[str]()
        for number, line in enumerate(source.lines):
            indentation = len(line) - len(line.lstrip())
            if RECORD.match(line) and not source.is_rust:
                record, fields = indentation, set()
            elif line.strip() and indentation <= record:
                record, fields = -1, set()
            if read_use(line):
                yield self.use_line(line)
            else:
                declared = FIELDS.match(line) if 0 <= record < indentation else None
                fields |= set(declared[1].split()) if declared else set()
                yield self.line_now(source, number, line, marks[start : start + len(line)], {n: names[n] for n in names if n not in fields}, aliases)
            start += len(line) + 1

    def line_now(self, source: Source, number: int, line: str, marks: bytearray, names: dict[str, str], aliases: dict[str, str]) -> str:
        parts, last = [], 0
        for match in WORD.finditer(line):
            word, before, behind = match[0], line[: match.start()], line[match.end() :]
            if not marks[match.start()]:
                continue
            now = None
            if re.search(r"[^ .]\.$", before):
                alias = re.search(r"(?<![\w.'-])([\w'-]+)\.$", before)
                if alias and alias[1] in aliases:
                    now = self.wanted.get(self.origin(aliases[alias[1]], word))
            elif re.match(r"\.(new|old)\b", behind) and word in names and source.is_rust:
                print(f"{source.path.relative_to(CRATES)}:{number + 1}: `{word}` stays, as Rust's")
            elif not (behind.startswith(" = ") or behind == " =") or self.is_equation(source, word, before):
                now = names.get(word)
            if now:
                parts.append(line[last : match.start()] + now)
                last = match.end()
        return "".join(parts) + line[last:]

    def is_equation(self, source: Source, word: str, before: str) -> bool:
        """Whether a word before `=` belongs to an equation's left side, and is no field and no `let`."""
        if before.strip() == "":
            return source.defined.get(word) == len(before)
        return re.search(r"([{;]|\blet) $", before) is None

    def write(self) -> int:
        count = 0
        for source in self.sources.values():
            lines = list(self.renamed(source))
            if lines != source.lines:
                source.path.write_text("\n".join(lines), encoding="utf-8")
                count += 1
        return count


def main() -> None:
    if len(sys.argv) != 2:
        sys.exit(__doc__)
    wanted = {}
    for line in Path(sys.argv[1]).read_text(encoding="utf-8").splitlines():
        path, name, now = line.split()
        wanted[Place(".".join(["Rattle", *Path(path).with_suffix("").parts]), name)] = now
    renaming = Renaming(wanted)
    for place in wanted:
        if place.module not in renaming.sources or place.name not in renaming.sources[place.module].defined:
            sys.exit(f"rename_definitions: {place.module} doesn't define {place.name}")
    print(f"{renaming.write()} files changed")


if __name__ == "__main__":
    main()
