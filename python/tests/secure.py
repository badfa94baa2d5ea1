"""Certificates of a test, made by openssl, and a site on this machine that has one."""

from __future__ import annotations

import http.server
import ssl
import subprocess
import threading
from collections.abc import Iterator
from contextlib import contextmanager
from pathlib import Path
from typing import NamedTuple

__all__ = ["CERTIFICATES", "Authority", "secured"]

# Each certificate's host and its days: one that is right, one of another host, one that has expired.
CERTIFICATES = {"right": ("IP:127.0.0.1", "2"), "another": ("DNS:another.example", "2"), "expired": ("IP:127.0.0.1", "-1")}
_KEY = ["-newkey", "ec", "-pkeyopt", "ec_paramgen_curve:P-256", "-nodes"]


def _openssl(folder: Path, *words: str) -> None:
    subprocess.run(["openssl", *words], cwd=folder, check=True, capture_output=True)


class Authority(NamedTuple):
    """An authority of certificates, in a folder: `authority.pem` is what trusts it."""

    folder: Path

    @classmethod
    def made(cls, folder: Path) -> Authority:
        """A new one, and its certificates."""
        _openssl(folder, "req", "-x509", *_KEY, "-keyout", "authority.key", "-out", "authority.pem", "-subj", "/CN=authority of a test", "-days", "2")
        for name, (host, days) in CERTIFICATES.items():
            _openssl(folder, "req", *_KEY, "-keyout", f"{name}.key", "-out", f"{name}.csr", "-subj", "/CN=site of a test", "-addext", f"subjectAltName={host}")
            signed = ["-CA", "authority.pem", "-CAkey", "authority.key", "-days", days, "-copy_extensions", "copyall"]
            _openssl(folder, "x509", "-req", "-in", f"{name}.csr", "-out", f"{name}.pem", *signed)
        return cls(folder)

    @property
    def trusted(self) -> str:
        """The file for SSL_CERT_FILE."""
        return str(self.folder / "authority.pem")


@contextmanager
def secured(authority: Authority, name: str, handler: type[http.server.BaseHTTPRequestHandler]) -> Iterator[str]:
    """A site that is reached by TLS, with the certificate of this name; its address."""
    context = ssl.SSLContext(ssl.PROTOCOL_TLS_SERVER)
    context.load_cert_chain(authority.folder / f"{name}.pem", authority.folder / f"{name}.key")
    made = http.server.ThreadingHTTPServer(("127.0.0.1", 0), handler)
    made.daemon_threads = True
    # (the handshake is done in the thread of the request, where a failed one is told to nobody)
    made.socket = context.wrap_socket(made.socket, server_side=True, do_handshake_on_connect=False)
    made.handle_error = lambda *_: None  # type: ignore[method-assign]
    threading.Thread(target=made.serve_forever, daemon=True).start()
    try:
        yield f"https://127.0.0.1:{made.server_port}"
    finally:
        made.shutdown()
        made.server_close()
