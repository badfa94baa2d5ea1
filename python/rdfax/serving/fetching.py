"""How a page is fetched from its address: bounded, and never from a private one unless that is allowed.

A server that fetches addresses which others name is a way into the network that it stands in. So a name is resolved first,
each of its addresses is looked at, and the connection goes to the address that was looked at; the same for each redirect.
"""

from __future__ import annotations

import http.client
import ipaddress
import socket
import ssl
import time
from typing import NamedTuple
from urllib.parse import SplitResult, urljoin, urlsplit

__all__ = ["Fetched", "NotFetched", "fetch"]

_REDIRECTS = 5
_REDIRECTING = (301, 302, 303, 307, 308)
_PIECE = 1 << 16
_XHTML = "application/xhtml+xml"
# Networks of addresses that stand for IPv4 addresses, which might be private ones.
_TRANSLATED = [ipaddress.ip_network(network) for network in ("64:ff9b::/96", "64:ff9b:1::/48")]

_Address = ipaddress.IPv4Address | ipaddress.IPv6Address


class NotFetched(ValueError):
    """Why the page isn't fetched, in a sentence."""


class Fetched(NamedTuple):
    """A page: its bytes, its address in the end, the addresses that led there, its syntax and its charset."""

    page: bytes
    address: str
    redirects: list[str]
    syntax: str
    charset: str | None


def is_public(address: _Address) -> bool:
    """Whether the address is one of the public network.

    >>> [is_public(ipaddress.ip_address(text)) for text in ("93.184.216.34", "10.0.0.1", "::ffff:127.0.0.1", "169.254.169.254")]
    [True, False, False, False]
    """
    if isinstance(address, ipaddress.IPv6Address):
        inner = address.ipv4_mapped or address.sixtofour
        if inner is not None:
            return is_public(inner)
        if address.teredo is not None or any(address in network for network in _TRANSLATED) or address.is_site_local:
            return False
    return address.is_global and not address.is_multicast


class _Limits(NamedTuple):
    """How long it may take, how long the page may be, and whether private addresses are allowed."""

    until: float
    longest: int
    private: bool

    def left(self) -> float:
        """The seconds that are left."""
        seconds = self.until - time.monotonic()
        if seconds <= 0:
            raise NotFetched("It takes too long.")
        return seconds


def _checked(parts: SplitResult, limits: _Limits) -> str:
    """The address, in numbers, to which a connection for this URL may go."""
    if parts.scheme not in ("http", "https"):
        raise NotFetched("Only addresses of http and https are fetched.")
    if not parts.hostname or parts.username is not None or parts.password is not None:
        raise NotFetched("The address has no host, or it has a name and a password.")
    try:
        found = socket.getaddrinfo(parts.hostname, parts.port, type=socket.SOCK_STREAM)
    except (OSError, ValueError) as error:
        raise NotFetched(f"The host {parts.hostname} isn't found: {error}") from None
    addresses = [str(one[4][0]).partition("%")[0] for one in found]
    if not limits.private and not all(is_public(ipaddress.ip_address(address)) for address in addresses):
        raise NotFetched(f"The host {parts.hostname} is in a private network; the server was started without --private.")
    return addresses[0]


class _Connection(http.client.HTTPConnection):
    """A connection to an address that was looked at, whatever the host's name."""

    def __init__(self, parts: SplitResult, checked: str, seconds: float) -> None:
        self._secure, self._checked = parts.scheme == "https", checked
        super().__init__(parts.hostname or "", parts.port or (443 if self._secure else 80), timeout=seconds)
        self.default_port = 443 if self._secure else 80

    def connect(self) -> None:
        """Connects, and wraps the socket for https; the certificate has to be the name's."""
        self.sock = socket.create_connection((self._checked, self.port), self.timeout)
        if self._secure:
            self.sock = _encrypted(self.sock, self.host)


def _encrypted(plain: socket.socket, host: str) -> ssl.SSLSocket:
    """The connection by TLS, where the certificate is the host's, by authorities that the system trusts, or SSL_CERT_FILE."""
    try:
        return ssl.create_default_context().wrap_socket(plain, server_hostname=host)
    except ssl.SSLCertVerificationError as error:
        raise NotFetched(f"The certificate of {host} is not accepted: {error.verify_message.rstrip('.')}.") from None


def _body(response: http.client.HTTPResponse, connection: _Connection, limits: _Limits) -> bytes:
    body = bytearray()
    while True:
        if connection.sock is not None:
            connection.sock.settimeout(limits.left())
        limits.left()
        piece = response.read1(_PIECE)
        if not piece:
            return bytes(body)
        body += piece
        if len(body) > limits.longest:
            raise NotFetched(f"The page has more than {limits.longest:,} bytes.")


def _one(address: str, limits: _Limits) -> tuple[str | None, Fetched]:
    """One request: where it is redirected to, if it is, and what came."""
    parts = urlsplit(address)
    connection = _Connection(parts, _checked(parts, limits), limits.left())
    try:
        target = (parts.path or "/") + (f"?{parts.query}" if parts.query else "")
        connection.request("GET", target, headers={"Accept": f"text/html, {_XHTML}", "Accept-Encoding": "identity", "User-Agent": "rdfax"})
        response = connection.getresponse()
        to = response.getheader("Location")
        if response.status in _REDIRECTING and to is not None:
            return urljoin(address, to), Fetched(b"", address, [], "html", None)
        if response.status != 200:
            raise NotFetched(f"The server answers {response.status} {response.reason}.")
        syntax = "xhtml" if response.headers.get_content_type() == _XHTML else "html"
        return None, Fetched(_body(response, connection, limits), address, [], syntax, response.headers.get_content_charset())
    finally:
        connection.close()


def fetch(address: str, *, seconds: float, longest: int, private: bool = False) -> Fetched:
    """Fetches a page, through at most five redirects."""
    limits = _Limits(time.monotonic() + seconds, longest, private)
    led = list[str]()
    try:
        for _ in range(_REDIRECTS + 1):
            following, fetched = _one(address, limits)
            if following is None:
                return fetched._replace(redirects=led)
            led.append(address)
            address = following
    except (OSError, http.client.HTTPException, ValueError) as error:
        raise error if isinstance(error, NotFetched) else NotFetched(f"It can't be fetched: {error}") from None
    raise NotFetched(f"It is redirected more than {_REDIRECTS} times.")
