"""What ./test-memory, ./test-files and ./test-embed share: the built program, what it answers, and the library that refuses its calls."""

import os
import subprocess
import sys
from typing import Any

HERE = os.path.dirname(os.path.dirname(os.path.abspath(__file__)))
PROGRAM = os.path.join(HERE, "built/rdfax")


class Answer:
    """What a program answers: its status, and what it wrote and said."""

    def __init__(self, words: list[str], settings: dict[str, str] | None = None, program: str = PROGRAM, **streams: Any) -> None:
        given: dict[str, Any] = {"cwd": HERE, "stdout": subprocess.PIPE, "stderr": subprocess.PIPE, **streams}
        done = subprocess.run([program, *words], env={**os.environ, **(settings or {})}, check=False, **given)
        self.status, self.written, self.said = done.returncode, done.stdout or b"", done.stderr or b""

    def __eq__(self, other: object) -> bool:
        return isinstance(other, Answer) and (self.status, self.written, self.said) == (other.status, other.written, other.said)

    def __str__(self) -> str:
        return f"status {self.status}, {len(self.written)} bytes written, {len(self.said)} said"


def need_program(script: str, program: str = PROGRAM) -> None:
    """Ends the script where there is no program."""
    if not os.access(program, os.X_OK):
        print(f"{script}: no program is built; ./build proves and builds it", file=sys.stderr)
        sys.exit(70)


def refusing_library(folder: str) -> str:
    """The library of refuse.c, made in the folder."""
    library = os.path.join(folder, "refuse.so")
    subprocess.run(["cc", "-shared", "-fPIC", "-O1", "-o", library, os.path.join(HERE, "tools/refuse.c")], check=True)
    return library
