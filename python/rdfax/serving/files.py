"""Where the files of the page lie: its own, and those of the editor, which are the system's."""

from __future__ import annotations

from pathlib import Path

__all__ = ["CODEMIRROR", "STATIC"]

STATIC = Path(__file__).resolve().parent / "static"
# Debian's libjs-codemirror: CodeMirror 5.
CODEMIRROR = Path("/usr/share/javascript/codemirror")
