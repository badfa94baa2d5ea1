"""What the header says, beside the kinds of the grammar and the version."""

from __future__ import annotations

import os
import re
import subprocess

from answers import HERE

WARNINGS = ["-Wall", "-Wextra", "-Wpedantic", "-Werror"]
LANGUAGES = {"C11": ["-x", "c", "-std=c11"], "C++17": ["-x", "c++", "-std=c++17"]}
EXAMPLE = """#include <rdfax.h>
#include <stdio.h>
#include <string.h>
int main(int count, char **words) {{
    const char *base = words[count - 1], *bytes = base;
    size_t length = strlen(bytes);
{}
    return (int)status;
}}
"""


def read(path: str, top: str = HERE) -> str:
    with open(os.path.join(top, path), encoding="utf-8") as file:
        return file.read()


def version() -> str:
    """The one version number."""
    return read("VERSION").strip()


def kinds() -> list[str]:
    """The names of the kinds of fault, in the order of the grammar."""
    body = re.search(r"pub enum Kind \{(.*?)\n\}", read("crates/rx_grammar/src/faults.rt"), re.DOTALL)
    assert body is not None
    return re.findall(r"^    (\w+),$", body[1], re.MULTILINE)


def constant_of(kind: str) -> str:
    """The header's constant of a kind: NotUtf8 is RDFAX_FAULT_NOT_UTF8."""
    return "RDFAX_FAULT_" + re.sub(r"(?<=.)(?=[A-Z])", "_", kind).upper()


def kinds_of_header(top: str = HERE) -> list[tuple[str, int, str]]:
    """The constants of the kinds with their numbers and sentences."""
    rows = re.findall(r"^    (RDFAX_FAULT_\w+) = (\d+),?\s*/\* (.*?) \*/$", read("include/rdfax.h", top), re.MULTILINE)
    return [(name, int(number), sentence) for name, number, sentence in rows]


def kinds_hold(top: str = HERE) -> bool:
    """Whether the header's constants are the grammar's kinds, from 1 and in their order."""
    wanted = [(constant_of(kind), number) for number, kind in enumerate(kinds(), 1)]
    found = [(name, number) for name, number, _ in kinds_of_header(top)]
    if found != wanted:
        print(f"header: the kinds are {found}, where the grammar has {wanted}")
    return found == wanted


# where the version stands beside VERSION, each with what reads it there
VERSIONS = {
    "include/rdfax.h": r'^#define RDFAX_VERSION "(.*)"$',
    "rust/Cargo.toml": r'^version = "(.*)"$',
    "docs/rdfax.3": r'^\.TH RDFAX 3 \S+ "rdfax (.*)"$',
}


def versions_hold() -> bool:
    """Whether each file that has the version has that of VERSION."""
    wrong = [path for path, pattern in VERSIONS.items() if re.findall(pattern, read(path), re.MULTILINE) != [version()]]
    for path in wrong:
        print(f"header: {path} hasn't the version {version()}")
    return not wrong


def example(top: str) -> str:
    """The program at the header's top."""
    lines = re.findall(r"^ \*     (.*)$", read("include/rdfax.h", top), re.MULTILINE)
    return EXAMPLE.format("\n".join("    " + line for line in lines))


def compiles(top: str = HERE) -> bool:
    """Whether the header's example compiles without a warning in each language."""
    right = True
    for language, words in LANGUAGES.items():
        command = ["cc", *words, *WARNINGS, "-fsyntax-only", "-I", os.path.join(top, "include"), "-"]
        done = subprocess.run(command, input=example(top), capture_output=True, text=True, check=False)
        if done.returncode != 0:
            print(f"header: its example isn't {language}:\n{done.stderr}")
            right = False
    return right


def check() -> bool:
    right = [versions_hold(), kinds_hold(), compiles()]
    if all(right):
        print(f"header: version {version()} stands everywhere, its {len(kinds())} kinds are the grammar's, its example is {' and '.join(LANGUAGES)}")
    return all(right)
