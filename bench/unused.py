#!/usr/bin/env python3
"""Which lemmas of the crates' proofs no answer rests on, neither itself nor through other lemmas.

    python3 bench/unused.py

It reads the texts alone and proves nothing. A definition stands in a file of proofs/ at its top or in a section: a lemma, a
word, a record or a data with its constructors. It is used where its name stands in an answer, an invariant or a proof of
code, in specs/ or in src/, or in a definition that is used. Its own clauses don't count, nor does a line that only imports
it, nor a word in a comment or a string. A local variable with its name counts, so that some may be missed.

Worked examples stand alone, and all that is in them counts as used: files whose name ends in Examples, and crates of rows
(..._rows). What is left over is printed by file and line.
"""

import pathlib
import re

TOP = pathlib.Path(__file__).resolve().parent.parent
NOT_LEMMAS = {"Answers", "Invariants", "Proof", "Lib"}
MODIFIERS = {"pub", "abbrev", "unfoldable"}
IGNORED = re.compile(r'"(?:[^"\\]|\\.)*"|(?:^|(?<=\s))--(?=\s|$).*')
PATH = re.compile(r"[^\s(){}\[\],;]+")
USE = re.compile(r"(?:pub )?use (\S+?)(?:\.\{(.*)\}| as (\S+))$")
RUST = re.compile(r"\b(crate|Rattle\.\w+)(?:::|\.)proofs((?:(?:::|\.)[^\s:.;,(){}]+)+)(?:(?:::|\.)\{([^}]*)\})?")


def words_of(name):
    """The words by which a name is mentioned: of an operator its parts too."""
    return [name] + [part for part in name.split("◌") if part != name and part]


class Definition:
    def __init__(self, file, name, line):
        self.file, self.name, self.line = file, name, line
        self.words = words_of(name)
        self.lines, self.mentions = [], set()


class File:
    """A file of proofs/ or specs/: what it imports, defines and mentions."""

    def __init__(self, path, module):
        self.path, self.module = path, module
        self.is_lemmas = "proofs" in path.parts and path.stem not in NOT_LEMMAS
        self.is_rows = path.stem.endswith("Examples") or path.relative_to(TOP).parts[1].endswith("_rows")
        self.lines = [IGNORED.sub("", line).rstrip() for line in path.read_text(encoding="utf-8").split("\n")]
        self.definitions, self.imports, self.modules, self.mentions = {}, {}, {}, set()
        self.read()

    def items(self):
        """The lines of each import, signature and clause, with what the sections around it mention."""
        sections, item, inside = [(0, set())], [], 0
        for number, line in enumerate(self.lines):
            indent = len(line) - len(line.lstrip())
            if line and (not item or indent <= inside and line.lstrip()[0] not in ")]}"):
                if item:
                    yield item, sections[-1][1]
                while indent < sections[-1][0]:
                    sections.pop()
                item, inside = [], indent
            if line:
                item.append(number)
            if item and self.is_section(item):
                mentions = self.mentioned(item)
                self.mentions |= mentions
                sections.append((inside + 2, sections[-1][1] | mentions))
                item = []
        if item:
            yield item, sections[-1][1]

    def is_section(self, item):
        first = [word for word in self.lines[item[0]].split() if word not in MODIFIERS][0]
        return first == "mutual" or first == "module" and self.lines[item[-1]].endswith("where")

    def mentioned(self, item):
        return {path for number in item for path in PATH.findall(self.lines[number])}

    def read(self):
        last = None
        for item, around in self.items():
            text = " ".join(self.lines[number].strip() for number in item)
            first, second, *_ = [word for word in text.split() if word not in MODIFIERS] + [""]
            if first == "use":
                self.take_import(text)
                continue
            mentions = self.mentioned(item) | around
            self.mentions |= mentions
            is_type = first in ("data", "record")
            if is_type or second == ":":
                name = second if is_type else first
                last = self.definitions[name] = Definition(self, name, item[0] + 1)
            elif first in self.definitions:
                last = self.definitions[first]
            if last is None:
                continue
            if first == "data":
                inner = [self.lines[number].split() for number in item[1:]]
                last.words += [words[0] for words in inner if words[1:2] == [":"]]
            last.lines += item
            last.mentions |= mentions

    def take_import(self, text):
        found = USE.match(text)
        if not found:
            raise SystemExit(f"{self.path}: {text}")
        module, names, alias = found.groups()
        if alias:
            self.modules[alias] = module
            return
        for one in names.split(","):
            name, _, other = one.strip().partition(" as ")
            for word in words_of(other or name):
                self.imports[word] = (module, name)


class Repository:
    def __init__(self):
        self.files = {}
        for path in sorted(TOP.glob("crates/*/proofs/**/*.antt")) + sorted(TOP.glob("crates/*/specs/**/*.antt")):
            module = "Rattle." + ".".join(path.relative_to(TOP / "crates").with_suffix("").parts)
            self.files[module] = File(path, module)

    def definition(self, module, word):
        """What a module calls by a word: its own definition, or another's that it imports."""
        file = self.files.get(module)
        if file is None:
            above, _, last = module.rpartition(".")
            return self.definition(above, last) if above in self.files else None
        for found in file.definitions.values():
            if word in found.words:
                return found
        return self.definition(*file.imports[word]) if word in file.imports else None

    def meant(self, file, path):
        first, *rest = path.split(".")
        if first == "Rattle" and rest:
            module, _, name = path.rpartition(".")
            return self.definition(module, name)
        if rest and first in file.modules:
            return self.definition(file.modules[first], rest[0])
        return self.definition(file.module, first)

    def code_mentions(self):
        for path in sorted(TOP.glob("crates/*/src/**/*.rt")):
            own = f"Rattle.{path.relative_to(TOP).parts[1]}"
            for crate, inner, names in RUST.findall(path.read_text(encoding="utf-8")):
                module = f"{own if crate == 'crate' else crate}.proofs{inner.replace('::', '.')}"
                for name in names.split(","):
                    yield self.definition(module, name.split()[0]) if name.strip() else self.definition(*module.rsplit(".", 1))

    def used(self):
        """All definitions that answers rest on."""
        new = list(self.code_mentions())
        for file in self.files.values():
            if not file.is_lemmas or file.is_rows:
                new += [self.meant(file, path) for path in file.mentions]
        used = set()
        while new:
            one = new.pop()
            if one is not None and one not in used:
                used.add(one)
                new += [self.meant(one.file, path) for path in one.mentions]
        return used

    def unused(self):
        used = self.used()
        files = [file for file in self.files.values() if file.is_lemmas and not file.is_rows]
        return [one for file in files for one in file.definitions.values() if one not in used]


def main():
    unused = Repository().unused()
    for one in unused:
        print(f"{one.file.path.relative_to(TOP)}:{one.line}: {one.name}")
    print(f"{len(unused)} unused")


if __name__ == "__main__":
    main()
