"""On the path of a crawl's children: pages that end a child, as no page is known to do, by a mark in their bytes."""

from __future__ import annotations

import os
import signal
import sys
import time
from typing import Any

if "from rdfax.crawling.child import main; main()" in " ".join(sys.orig_argv):
    from rdfax.crawling import pages

    _read = pages.read

    def _hostile(given: Any, first_node: int, options: Any) -> Any:
        if b"MARK-END" in given.body:
            os.kill(os.getpid(), signal.SIGSEGV)
        while b"MARK-SPIN" in given.body:
            pass
        if b"MARK-EAT" in given.body:
            bytearray(4 << 30)
        if b"MARK-SLOW" in given.body:
            time.sleep(float(os.environ.get("MARK_SLOW", "0.2")))
        once = os.environ.get("MARK_ONCE")
        if once and b"MARK-ONCE" in given.body and not os.path.exists(once):
            open(once, "w").close()
            os.kill(os.getpid(), signal.SIGKILL)
        return _read(given, first_node, options)

    pages.read = _hostile
