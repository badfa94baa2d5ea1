"""What a reference means against a base: RFC 3986, 5.2, strictly, with the rules of docs/REFERENCES.md."""

from __future__ import annotations

import re
from typing import NamedTuple

from rdfax.serving.markup import WHITE_SPACE

__all__ = ["cleaned", "has_scheme", "resolved", "without_fragment"]

_SCHEME = re.compile(r"([A-Za-z][A-Za-z0-9+.-]*):")
# What no IRI may have.
_FORBIDDEN = re.compile(r'[\x00-\x20<>"{}|\\^`]')
_PARTS = re.compile(r"(?://([^/?#]*))?([^?#]*)(?:\?([^#]*))?(?:#(.*))?", re.DOTALL)


class _Parts(NamedTuple):
    scheme: str | None
    authority: str | None
    path: str
    query: str | None
    fragment: str | None


def has_scheme(text: str) -> bool:
    """Whether a scheme stands before the first colon."""
    return _SCHEME.match(text) is not None


def cleaned(text: str) -> str:
    """The text, with an escape for each character that no IRI may have."""
    return _FORBIDDEN.sub(lambda found: f"%{ord(found[0]):02X}", text)


def without_fragment(text: str) -> str:
    """The text before the first `#`."""
    return text.partition("#")[0]


def _split(text: str) -> _Parts:
    scheme = _SCHEME.match(text)
    found = _PARTS.fullmatch(text, scheme.end() if scheme else 0)
    authority, path, query, fragment = found.groups() if found else (None, text, None, None)
    return _Parts(scheme[1] if scheme else None, authority, path or "", query, fragment)


def _joined(parts: _Parts) -> str:
    scheme = "" if parts.scheme is None else f"{parts.scheme}:"
    authority = "" if parts.authority is None else f"//{parts.authority}"
    query = "" if parts.query is None else f"?{parts.query}"
    fragment = "" if parts.fragment is None else f"#{parts.fragment}"
    return f"{scheme}{authority}{parts.path}{query}{fragment}"


def _without_dots(path: str) -> str:
    """RFC 3986, 5.2.4: its rules A to E, on an input and an output."""
    rest, segments = path, list[str]()
    while rest:
        if rest.startswith(("../", "./")):
            rest = rest[rest.index("/") + 1 :]
        elif rest.startswith("/./") or rest == "/.":
            rest = f"/{rest[3:]}"
        elif rest.startswith("/../") or rest == "/..":
            rest = f"/{rest[4:]}"
            del segments[-1:]
        elif rest in (".", ".."):
            rest = ""
        else:
            end = rest.find("/", 1)
            end = len(rest) if end == -1 else end
            segments.append(rest[:end])
            rest = rest[end:]
    return "".join(segments)


def _merged(base: _Parts, path: str) -> str:
    if base.authority is not None and not base.path:
        return f"/{path}"
    return base.path[: base.path.rfind("/") + 1] + path


def resolved(base: str, reference: str) -> str:
    """The IRI that the reference means against the base.

    >>> resolved("http://a/b/c/d;p?q", "../../../g")
    'http://a/g'
    """
    against, given = _split(base), _split(reference.strip(WHITE_SPACE))
    if given.scheme is not None:
        target = given._replace(path=_without_dots(given.path))
    elif given.authority is not None:
        target = given._replace(scheme=against.scheme, path=_without_dots(given.path))
    elif not given.path:
        query = against.query if given.query is None else given.query
        target = against._replace(query=query, fragment=given.fragment)
    else:
        path = given.path if given.path.startswith("/") else _merged(against, given.path)
        target = _Parts(against.scheme, against.authority, _without_dots(path), given.query, given.fragment)
    return cleaned(_joined(target))
