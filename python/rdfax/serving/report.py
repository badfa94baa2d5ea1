"""A report: the page's view of several pages, in one file that opens without a server."""

from __future__ import annotations

import base64
import hashlib
import json
from collections.abc import Sequence
from pathlib import Path
from typing import Any, NamedTuple

from rdfax.errors import Refused, Usage
from rdfax.pages import FORMATS, Syntax
from rdfax.serving import reading
from rdfax.serving.files import CODEMIRROR, STATIC

__all__ = ["Page", "told_of", "written"]

_STYLES = [CODEMIRROR / "lib" / "codemirror.css", STATIC / "page.css"]
_SCRIPTS = [CODEMIRROR / "lib" / "codemirror.js", CODEMIRROR / "mode" / "xml" / "xml.js", STATIC / "view.js", STATIC / "report.js"]
_FRAME = """<!DOCTYPE html>
<html lang="en">
<head>
<meta charset="utf-8">
<meta http-equiv="Content-Security-Policy" content="{policy}">
<meta name="viewport" content="width=device-width, initial-scale=1">
<title>rdfax: a report</title>
{styles}
</head>
<body>
<header>
<h1>rdfax: a report</h1>
<label>Page <select id="page"></select></label>
</header>
<main id="workbench"></main>
<script id="told" type="application/json">{told}</script>
{scripts}
</body>
</html>
"""


class Page(NamedTuple):
    """A page of a report: its file's name, its bytes, its address and its syntax."""

    name: str
    source: bytes
    base: str
    syntax: Syntax


def told_of(page: Page) -> dict[str, Any]:
    """All that the report tells of the page."""
    words = (page.source, page.base, page.syntax)
    name = page.name.encode("utf-8", "replace").decode()
    return {"name": name, "source": page.source.decode("utf-8-sig", "replace"), "texts": _texts(page), **reading.whole(*words)}


def _texts(page: Page) -> dict[str, str]:
    try:
        return {view: reading.text(page.source, page.base, page.syntax, view).decode() for view in (*FORMATS, "items")}
    except (Refused, Usage):
        return {}


def _content(path: Path) -> str:
    return path.read_text(encoding="utf-8")


def _digest(content: str) -> str:
    return f"'sha256-{base64.b64encode(hashlib.sha256(content.encode()).digest()).decode()}'"


def written(told: Sequence[dict[str, Any]]) -> str:
    """The report's file. Only its own scripts run: its policy names their digests."""
    styles, scripts = [_content(path) for path in _STYLES], [_content(path) for path in _SCRIPTS]
    digests = {"script-src": map(_digest, scripts), "style-src": map(_digest, styles)}
    policy = "; ".join(["default-src 'none'", "base-uri 'none'", "form-action 'none'", *(f"{name} {' '.join(values)}" for name, values in digests.items())])
    return _FRAME.format(
        policy=policy,
        styles="\n".join(f"<style>{style}</style>" for style in styles),
        told=json.dumps(told).replace("<", "\\u003c"),
        scripts="\n".join(f"<script>{script}</script>" for script in scripts),
    )
