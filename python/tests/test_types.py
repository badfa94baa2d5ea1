"""What a type checker says of programs that use the package."""

from __future__ import annotations

import subprocess
import sys
from pathlib import Path

import pytest

pytest.importorskip("mypy")

RIGHT = """
import rdfax

def texts(page: bytes) -> list[str]:
    return [quad.object.text for quad in rdfax.quads(page, "http://h.example/d") if isinstance(quad.object, rdfax.Literal)]

with rdfax.Page("extract", "http://h.example/d", format="turtle", first_node=3) as page:
    page.feed(b"<html></html>")
    print(page.finish().decode(), page.nodes)
try:
    rdfax.check("<html>")
except rdfax.Refused as refused:
    line, column, source = rdfax.to_line("<html>", refused)
    print(line + column, source + rdfax.KINDS[refused.kind].mended)
"""
WRONG = ['rdfax.Page("itmes", "d")', 'rdfax.Page("items", "d", graph="g")', 'rdfax.extract("", "d", format="n3")', 'rdfax.Page("check", "d")', "rdfax.check(7)"]


def _mypy(folder: Path, program: str) -> tuple[int, str]:
    (folder / "program.py").write_text(program)
    done = subprocess.run([sys.executable, "-m", "mypy", "--strict", "program.py"], cwd=folder, capture_output=True, text=True, check=False)
    return done.returncode, done.stdout


def test_a_right_program_has_no_error(tmp_path: Path) -> None:
    assert _mypy(tmp_path, RIGHT) == (0, "Success: no issues found in 1 source file\n")


def test_each_wrong_line_has_one(tmp_path: Path) -> None:
    status, said = _mypy(tmp_path, "import rdfax\n" + "\n".join(WRONG))
    assert status == 1
    assert [line for line in range(2, 2 + len(WRONG)) if f"program.py:{line}: error" not in said] == []
