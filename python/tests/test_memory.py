"""Want of memory: an error of Python's own, after which the next page is read."""

from __future__ import annotations

import subprocess
import sys

import pytest

import rdfax
from rdfax._library import NO_MEMORY, library

SCRIPT = """
import resource, rdfax
small, base = '<html><p property="schema:name">Anvil</p></html>', "http://h.example/d"
large = b"<html>" + b"".join(b'<p property="schema:name">%d</p>' % number for number in range(200_000)) + b"</html>"
rdfax.extract(small, base)
with open("/proc/self/statm") as file:
    held = int(file.read().split()[0]) * resource.getpagesize()
resource.setrlimit(resource.RLIMIT_AS, (held + (8 << 20),) * 2)
for _ in range(3):
    try:
        rdfax.extract(large, base)
        print("read")
    except MemoryError as error:
        print("MemoryError")
print(rdfax.extract(small, base), end="")
"""


def test_want_of_memory_is_a_memory_error() -> None:
    done = subprocess.run([sys.executable, "-c", SCRIPT], capture_output=True, text=True, check=True)
    assert done.stdout.splitlines() == ["MemoryError"] * 3 + ['<http://h.example/d> <http://schema.org/name> "Anvil" .']


def test_want_of_memory_for_a_quad_is_a_memory_error(monkeypatch: pytest.MonkeyPatch) -> None:
    with rdfax.Page("quads", "http://h.example/d") as page:
        page.feed('<html><p property="schema:name">Anvil</p></html>')
        page.finish()
        monkeypatch.setattr(library(), "rdfax_quad", lambda *_: NO_MEMORY)
        with pytest.raises(MemoryError):
            next(page.quads())
