"""The pictures of docs/SERVE.md, where `--pictures FOLDER` asks for them."""

from __future__ import annotations

from pathlib import Path

import pytest
from looking import Page

FAULTY = """<!DOCTYPE html>
<html lang="en">
<head><title>Anvils</title></head>
<body vocab="http://schema.org/">
  <p property="description">Anvils come
    <ul><li>of iron</li><li>of steel</li></ul>
  </p>
</body>
</html>
"""


@pytest.fixture
def folder(request: pytest.FixtureRequest) -> Path:
    named = request.config.getoption("--pictures")
    if not named:
        pytest.skip("no pictures are asked for")
    return Path(named).resolve()


def _taken(page: Page, path: Path) -> None:
    """Takes a picture; of few colours, which is smaller, where Pillow is there."""
    page.driver.save_screenshot(str(path))
    try:
        from PIL import Image
    except ImportError:
        return
    with Image.open(path) as picture:
        picture.convert("RGB").quantize(64).save(path, optimize=True)


def _product(page: Page) -> None:
    page.example("product.html")
    page.settled(places=True)
    page.all("tbody tr[data-row]")[2].click()
    page.driver.execute_script("document.activeElement.blur()")


def test_pictures(page: Page, folder: Path) -> None:
    folder.mkdir(parents=True, exist_ok=True)
    page.sized(1180, 660)
    try:
        _product(page)
        _taken(page, folder / "triples.png")
        page.source(FAULTY)
        _taken(page, folder / "refused.png")
        page.dark(True)
        page.example("product.html")
        page.tab("graph")
        page.settled(places=True)
        page.driver.execute_script("document.getElementById('edge2').dispatchEvent(new MouseEvent('click', {bubbles: true})); document.activeElement.blur()")
        _taken(page, folder / "graph-dark.png")
        page.dark(False)
        page.sized(390, 844)
        page.tab("triples")
        _product(page)
        page.driver.execute_script("window.scrollTo(0, 420)")
        _taken(page, folder / "phone.png")
    finally:
        page.dark(False)
        page.sized(1280, 800)
