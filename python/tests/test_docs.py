"""The examples of docs/PYTHON.md."""

from __future__ import annotations

import doctest
from pathlib import Path

import pytest

TOP = Path(__file__).resolve().parents[2]


def test_the_examples_print_what_they_say(monkeypatch: pytest.MonkeyPatch) -> None:
    monkeypatch.chdir(TOP)
    failed, tried = doctest.testfile(str(TOP / "docs" / "PYTHON.md"), module_relative=False)
    assert (failed, tried > 10) == (0, True)
