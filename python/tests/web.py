"""A site on loopback for the tests of archives, and wget, which makes archives of it."""

from __future__ import annotations

import gzip
import http.server
import subprocess
import threading
import zlib
from collections.abc import Iterator, Mapping
from contextlib import contextmanager
from pathlib import Path
from typing import Any, NamedTuple

LINE = '<p property="schema:name" lang="en">Anvil {0}</p>'
ITEM = '<div itemscope itemtype="http://schema.org/Offer"><b itemprop="price">{0}</b></div>'
PAGE = f"<html><head><title>Page</title></head><body>{LINE}{ITEM}</body></html>"


def page(number: int) -> bytes:
    """A page with a triple and an item."""
    return PAGE.format(number).encode()


class Answer(NamedTuple):
    """What the site answers, and what a reader is to find in it."""

    status: int
    headers: Mapping[str, str]
    sent: bytes
    body: bytes
    media_type: str = "text/html"
    charset: str | None = None


def chunked(body: bytes, size: int = 7, extension: bytes = b"", trailer: bytes = b"") -> bytes:
    """The body in chunks."""
    parts = [body[start : start + size] for start in range(0, len(body), size)]
    return b"".join(b"%x%b\r\n%b\r\n" % (len(part), extension, part) for part in parts) + b"0\r\n" + trailer + b"\r\n"


def _raw_deflated(body: bytes) -> bytes:
    packer = zlib.compressobj(wbits=-15)
    return packer.compress(body) + packer.flush()


HTML, XHTML = {"Content-Type": "text/html"}, {"Content-Type": "application/xhtml+xml"}
LATIN = "<html><body><p property='schema:name'>Amboß</p></body></html>"
ANSWERS = {
    "/plain": Answer(200, HTML, page(1), page(1)),
    "/charset": Answer(200, {"Content-Type": 'Text/HTML; Charset="ISO-8859-1"'}, LATIN.encode("latin-1"), LATIN.encode("latin-1"), "text/html", "ISO-8859-1"),
    "/xhtml": Answer(200, XHTML, page(2), page(2), "application/xhtml+xml"),
    "/chunked": Answer(200, {**HTML, "Transfer-Encoding": "chunked"}, chunked(page(3)), page(3)),
    "/extended": Answer(200, {**HTML, "Transfer-Encoding": "chunked"}, chunked(page(3), 50, b"; a=b", b"X-Sum: 1\r\n"), page(3)),
    "/gzip": Answer(200, {**HTML, "Content-Encoding": "gzip"}, gzip.compress(page(4)), page(4)),
    "/members": Answer(200, {**HTML, "Content-Encoding": "x-gzip"}, gzip.compress(page(4)[:50]) + gzip.compress(page(4)[50:]), page(4)),
    "/deflate": Answer(200, {**HTML, "Content-Encoding": "deflate"}, zlib.compress(page(5)), page(5)),
    "/raw-deflate": Answer(200, {**HTML, "Content-Encoding": "deflate"}, _raw_deflated(page(5)), page(5)),
    "/chunked-gzip": Answer(200, {**HTML, "Content-Encoding": "gzip", "Transfer-Encoding": "chunked"}, chunked(gzip.compress(page(6))), page(6)),
    "/unpacked": Answer(200, {**HTML, "Content-Encoding": "gzip"}, page(7), page(7)),
    "/empty": Answer(200, HTML, b"", b""),
    "/image": Answer(200, {"Content-Type": "image/png"}, b"\x89PNG", b"", "image/png"),
    "/lost": Answer(404, HTML, b"<html><p>Not here</html>", b"<html><p>Not here</html>"),
    "/moved": Answer(301, {**HTML, "Location": "/plain"}, b"<html><p>Moved</html>", b"<html><p>Moved</html>"),
    "/inside": Answer(200, HTML, b"<html>\r\n\r\nWARC/1.0\r\nWARC-Type: response\r\n</html>", b"<html>\r\n\r\nWARC/1.0\r\nWARC-Type: response\r\n</html>"),
}


class _Handler(http.server.BaseHTTPRequestHandler):
    protocol_version = "HTTP/1.1"
    disable_nagle_algorithm = True
    answers: Mapping[str, Answer]

    def do_GET(self) -> None:
        answer = self.answers.get(self.path, Answer(404, HTML, b"", b""))
        self.send_response(answer.status)
        for name, value in answer.headers.items():
            self.send_header(name, value)
        if "Transfer-Encoding" not in answer.headers:
            self.send_header("Content-Length", str(len(answer.sent)))
        self.end_headers()
        self.wfile.write(answer.sent)

    def log_message(self, *_: Any) -> None:
        pass


@contextmanager
def site(answers: Mapping[str, Answer]) -> Iterator[str]:
    """A site that gives these answers, by its address."""
    handler = type("Handler", (_Handler,), {"answers": answers})
    with http.server.ThreadingHTTPServer(("127.0.0.1", 0), handler) as server:
        threading.Thread(target=server.serve_forever, daemon=True).start()
        yield f"http://127.0.0.1:{server.server_address[1]}"
        server.shutdown()


def archive(folder: Path, name: str, answers: Mapping[str, Answer], *words: str) -> Path:
    """An archive of all that a site answers, as wget writes it."""
    with site(answers) as address:
        urls = folder / f"{name}.urls"
        urls.write_text("".join(f"{address}{path}\n" for path in answers))
        command = ["wget", "--quiet", "-i", urls, "-O", "/dev/null", f"--warc-file={folder / name}", *words]
        subprocess.run(command, check=False, cwd=folder, stderr=subprocess.DEVNULL)
    return next(path for path in folder.glob(f"{name}*.warc*"))
