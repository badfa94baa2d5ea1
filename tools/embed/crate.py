"""The library in Rust."""

from __future__ import annotations

import os
import shutil
import subprocess
from dataclasses import replace

from answers import HERE
from embed import native, rows

CRATE = os.path.join(HERE, "rust")
STEPS = {"test": ["test"], "doc": ["doc", "--no-deps"], "clippy": ["clippy", "--all-targets", "--", "-D", "warnings"], "pages": ["build", "--examples"]}


def differs(found: tuple[str, str], wanted: rows.Wanted) -> bool:
    """(The crate's example tells no number of a kind, and writes quads as N-Quads.)"""
    words = wanted.line.split(" ")
    line = " ".join(words[:2] + words[3:]) if words[0] == "1" else wanted.line
    return found != (line, wanted.text)


def rows_hold(folder: str, program: str, wanted: list[rows.Wanted]) -> bool:
    path = rows.write_list(folder, "rust.list", [replace(each.job) for each in wanted])
    found = rows.answers_in(native.output([program, path]))
    wrong = [each.job.name for one, each in zip(found, wanted) if differs(one, each)]
    if wrong or len(found) != len(wanted):
        print(f"Rust: {wrong[:3]}: other answers than the program's")
    return not wrong and len(found) == len(wanted)


def check(folder: str, libraries: str, wanted: list[rows.Wanted]) -> bool:
    """Whether the crate passes its tests, has no warning, and answers as the program."""
    if not shutil.which("cargo"):
        print("Rust: not tried, there is no cargo")
        return True
    target = os.path.join(folder, "target")
    settings = {**os.environ, "RDFAX_LIB_DIR": libraries, "CARGO_TARGET_DIR": target, "RUSTDOCFLAGS": "-D warnings", "CARGO_TERM_COLOR": "never"}
    right = True
    for name, words in STEPS.items():
        done = subprocess.run(["cargo", words[0], "--offline", *words[1:]], cwd=CRATE, env=settings, capture_output=True, text=True, check=False)
        if done.returncode != 0 or "\nwarning" in done.stderr:
            print(f"Rust: cargo {name}:\n{done.stdout}{done.stderr}")
            right = False
    right = right and rows_hold(folder, os.path.join(target, "debug/examples/pages"), wanted)
    print(f"Rust: {'all as the program; tests, documents and clippy have no fault' if right else 'wrong'}")
    return right
