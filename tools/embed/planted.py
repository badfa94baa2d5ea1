"""Edits of the header and of the wrappers that the tests have to catch."""

from __future__ import annotations

import contextlib
import io
import os
import shutil
from typing import Callable

from answers import HERE
from embed import header, native, rows

EDITS = os.path.join(HERE, "tools/planted/embed")


def plant(edit: str, room: str) -> None:
    """Does an edit in the room: a file, and a text of it for another."""
    with open(edit, encoding="utf-8") as file:
        (_, path), *pairs = [line.rstrip("\n").split(": ", 1) for line in file]
    with open(os.path.join(room, path), encoding="utf-8") as file:
        text = file.read()
    for (_, old), (_, new) in zip(pairs[::2], pairs[1::2]):
        if text.count(old) != 1:
            raise SystemExit(f"test-embed: {edit}: {old} doesn't stand once in its file")
        text = text.replace(old, new)
    with open(os.path.join(room, path), "w", encoding="utf-8") as file:
        file.write(text)


def catches(edit: str, folder: str, libraries: str, wanted: list[rows.Wanted]) -> list[str]:
    """The tests that fail with the edit."""
    room = os.path.join(folder, os.path.basename(edit))
    shutil.copytree(os.path.join(HERE, "include"), os.path.join(room, "include"))
    plant(edit, room)
    made = native.Native(room, os.path.join(room, "include"), libraries)
    tests: dict[str, Callable[[], bool]] = {
        "kinds": lambda: header.kinds_hold(room),
        "rows": lambda: native.rows_hold(made, wanted),
        "calls": lambda: native.calls_hold(made, {"a": []}),
    }
    with contextlib.redirect_stdout(io.StringIO()):
        return [name for name, test in tests.items() if not test()]


def check(folder: str, libraries: str, wanted: list[rows.Wanted]) -> bool:
    """Whether each edit is caught, each on a copy."""
    right = True
    for name in sorted(os.listdir(EDITS)):
        caught = catches(os.path.join(EDITS, name), folder, libraries, wanted)
        print(f"{name.removesuffix('.edit')}: caught by {', '.join(caught) or 'NO TEST'}", flush=True)
        right = right and bool(caught)
    return right
