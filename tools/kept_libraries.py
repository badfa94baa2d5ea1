#!/usr/bin/env python3
"""Gives a clone the libraries that the gate has proved on this machine, for a developer's checks.

    tools/kept_libraries.py CRATE..    # from the top of the clone

What `rt ci` keeps and what `rt check` keeps are two stores. So on a new machine a check of a high crate first proves all crates
below it, an hour of a processor, also where the gate has just proved the same text. This puts the gate's libraries of the crates
below those named in their `out/` folders, where `rt check` finds them, and says which are missing: those that the gate hasn't
proved yet, or whose text is another one here. While any is missing, a check would prove it.

No verdict rests on this: the gate reads its own store alone, which this leaves as it is. It goes by functions of the kit's own
command (rattle-kit-13f), which a later kit may lack.
"""

from __future__ import annotations

import importlib.machinery
import importlib.util
import os
import shutil
import sys
from pathlib import Path
from typing import Any


def command() -> Any:
    """The kit's command as a module."""
    found = shutil.which("rt")
    if found is None:
        sys.exit("kept_libraries: there is no rt")
    path = os.path.realpath(found)
    sys.path.insert(0, os.path.dirname(path))
    loader = importlib.machinery.SourceFileLoader("rt_command", path)
    spec = importlib.util.spec_from_loader("rt_command", loader)
    if spec is None:
        sys.exit("kept_libraries: rt can't be read")
    module = importlib.util.module_from_spec(spec)
    loader.exec_module(module)
    return module


def below(crates: list[Any], names: list[str]) -> list[Any]:
    """The crates below the named ones, each behind those that it stands on."""
    found: list[Any] = []

    def visit(crate: Any) -> None:
        for library in crate.deps:
            visit(library)
            if library not in found:
                found.append(library)

    for crate in crates:
        if crate.name in names:
            visit(crate)
    return found


def take(kept: Any, crate: Any) -> bool:
    """Puts the crate's library in its place, if the gate has it."""
    library = Path(crate.folder) / "out/rlib"
    shutil.rmtree(library, ignore_errors=True)
    library.parent.mkdir(exist_ok=True)
    if not kept.give(crate, False, kept.key(crate)):
        return False
    kept.is_built(crate)
    (library / "stamp").write_text(crate.stamp(), encoding="utf-8")
    return True


def main(names: list[str]) -> int:
    """Takes what is there, and says what is missing."""
    if not names or names[0].startswith("-"):
        print(__doc__)
        return 2
    rt = command()
    crates = rt.crates_of(os.getcwd())
    unknown = set(names) - {crate.name for crate in crates}
    if unknown:
        sys.exit(f"kept_libraries: crates.txt has no {min(unknown)}")
    kept = rt.Kept(crates)
    missing: list[str] = []
    wanted = below(crates, names)
    for crate in wanted:
        stands_on = {library.name for library in crate.below()}
        if stands_on & set(missing) or not take(kept, crate):
            missing.append(crate.name)
    print(f"{len(wanted) - len(missing)} taken, {len(missing)} missing: {' '.join(missing)}")
    return 1 if missing else 0


if __name__ == "__main__":
    sys.exit(main(sys.argv[1:]))
