"""A browser, a server, and the page in it."""

from __future__ import annotations

import sys
from collections.abc import Iterator
from pathlib import Path

import pytest

sys.path.insert(0, str(Path(__file__).resolve().parents[1] / "tests"))

from looking import Page, browsing
from served import Server, serving


def pytest_addoption(parser: pytest.Parser) -> None:
    """The option for new pictures of the documentation."""
    parser.addoption("--pictures", metavar="FOLDER", help="write the pictures of docs/SERVE.md to this folder")


@pytest.fixture(scope="session")
def server() -> Iterator[Server]:
    with serving("--seconds", "60") as started:  # (the machine may have much else to do)
        yield started


@pytest.fixture(scope="session")
def browser(server: Server) -> Iterator[Page]:
    with browsing(server.address) as page:
        yield page


@pytest.fixture
def page(browser: Page) -> Iterator[Page]:
    browser.opened("")
    yield browser
    assert browser.complaints() == []
