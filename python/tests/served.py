"""A server of pages to look at, in a process of its own."""

from __future__ import annotations

import json
import os
import re
import subprocess
import sys
import urllib.error
import urllib.request
from collections.abc import Iterator
from contextlib import contextmanager
from typing import Any, NamedTuple
from urllib.parse import urlencode

__all__ = ["Answer", "Server", "serving"]


class Answer(NamedTuple):
    """A response: status, headers by their lowered names, and body."""

    status: int
    headers: dict[str, str]
    body: bytes

    @property
    def json(self) -> Any:
        """The body as JSON."""
        return json.loads(self.body)


class Server:
    """A running server."""

    def __init__(self, address: str) -> None:
        self.address = address

    def get(self, path: str, **headers: str) -> Answer:
        """What is answered to GET."""
        return self._ask(urllib.request.Request(self.address + path, headers=headers))

    def post(self, path: str, body: bytes = b"", headers: dict[str, str] | None = None, **words: str) -> Answer:
        """What is answered to POST, by default with the header that the page itself sends."""
        given = {"X-Rdfax": "1"} if headers is None else headers
        return self._ask(urllib.request.Request(f"{self.address}{path}?{urlencode(words)}", data=body, method="POST", headers=given))

    def read(self, page: bytes | str, view: str = "triples", base: str = "http://h.example/d") -> Any:
        """What is told of a page."""
        return self.post("api/read", page if isinstance(page, bytes) else page.encode(), base=base, view=view).json

    def _ask(self, request: urllib.request.Request) -> Answer:
        opener = urllib.request.build_opener(urllib.request.ProxyHandler({}))
        try:
            with opener.open(request, timeout=120) as response:
                return Answer(response.status, {name.lower(): value for name, value in response.headers.items()}, response.read())
        except urllib.error.HTTPError as error:
            return Answer(error.code, {name.lower(): value for name, value in error.headers.items()}, error.read())


@contextmanager
def serving(*words: str, **environment: str) -> Iterator[Server]:
    """A server that is there for a while."""
    command = [sys.executable, "-m", "rdfax", "serve", "--port", "0", *words]
    with subprocess.Popen(command, stdout=subprocess.PIPE, text=True, env={**os.environ, **environment}) as process:
        try:
            assert process.stdout is not None
            found = re.search(r"http://127\.0\.0\.1:\d+/", process.stdout.readline())
            assert found, "the server didn't start"
            yield Server(found[0])
        finally:
            process.terminate()
            process.wait()
