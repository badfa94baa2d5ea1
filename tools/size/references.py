"""References of IRIs by RFC 3986, and of characters by HTML's tables: a second reading of each, on many at once."""

from __future__ import annotations

import html
import random
import re
from html.entities import html5, name2codepoint

from size.cases import Cases, Group, Tries, differs, status_differs
from size.graphs import Unreadable, quads_in
from size.triples import V

# RFC 3986, Appendix B, with the form of a scheme
PARTS = re.compile(r"(?:([A-Za-z][A-Za-z0-9+.-]*):)?(?://([^/?#]*))?([^?#]*)(?:\?([^#]*))?(?:#(.*))?", re.DOTALL)
BASES = [
    "http://a/b/c/d;p?q", "http://h", "http://h/", "http://h/a", "http://h?q", "http://h/a//b/../c", "file:///a/b",
    "urn:a:b", "x:", "x:/", "x:a/b", "x://", "a:b?q",
]
SEGMENTS = ["", "a", "..", ".", "...", "b:c", "%2e", "%2F", "é", "a;b", "@", "..a", ".b", "1", "a.", "~", "g;x=1/./y"]
NAMES = {name: chr(number) for name, number in name2codepoint.items()} | {"apos": "'", "lang": "\u27e8", "rang": "\u27e9"}
BAD = ["&#0;", "&#x0;", "&#xD800;", "&#xDFFF;", "&#x110000;", "&#99999999999999999999;", "&#xFFFFFFFFFFFFFFFF0000000A;"]


def _without_dots(path: str) -> str:
    """RFC 3986, 5.2.4, rule by rule."""
    out = ""
    while path:
        if path.startswith(("../", "./")):
            path = path[path.index("/") + 1 :]
        elif path.startswith("/./") or path == "/.":
            path = "/" + path[3:]
        elif path.startswith("/../") or path == "/..":
            path, out = "/" + path[4:], out[: max(out.rfind("/"), 0)]
        elif path in (".", ".."):
            path = ""
        else:
            end = path.find("/", 1) if "/" in path[1:] else len(path)
            path, out = path[end:], out + path[:end]
    return out


def _parts(text: str) -> tuple[str | None, ...]:
    found = PARTS.fullmatch(text)
    return found.groups() if found else (None, None, "", None, None)


def resolved(base: str, reference: str) -> str:
    """RFC 3986, 5.2.2, strict."""
    base_scheme, base_authority, base_path, base_query, _ = _parts(base)
    scheme, authority, path, query, fragment = _parts(reference)
    old, new = base_path or "", path or ""
    if scheme is not None or authority is not None:
        new = _without_dots(new)
    elif not new:
        new, query = old, base_query if query is None else query
    else:
        front = "/" if base_authority is not None and not old else old[: old.rfind("/") + 1]
        new = _without_dots(new if new.startswith("/") else front + new)
    if scheme is None:
        scheme, authority = base_scheme, base_authority if authority is None else authority
    start = f"{scheme}:" + ("" if authority is None else f"//{authority}") + new
    return start + ("" if query is None else f"?{query}") + ("" if fragment is None else f"#{fragment}")


def _reference(chance: random.Random) -> str:
    text = chance.choice(["", "", "", "", "http:", "x:", "urn:", "a+b.c-d:"])
    if chance.random() < 0.25:
        text += "//" + chance.choice(["h", "", "h:80", "u@h", "[::1]", "é.example"])
    text += chance.choice(["", "/", "//"]) + "/".join(chance.choice(SEGMENTS) for _ in range(chance.randrange(5))) + chance.choice(["", "/", "/..", "/."])
    text += chance.choice(["", "", "?", "?q", "?a=b&c", "?x/../y", "??", "?é"])
    return text + chance.choice(["", "", "#", "#f", "#a/../b", "#?", "#é"])


def _objects(text: bytes) -> dict[str, str]:
    """The text of each object, by its predicate."""
    return {predicate[1].removeprefix(V): value[1] for (_, predicate, value), _ in quads_in(text.decode())}


def _wrong(tries: Tries, base: str, body: str, wanted: dict[str, str]) -> str | None:
    """What is wrong with the objects that the page's predicates have, if anything is."""
    answer = tries.answer("extract", "--base", base, tries.file("page.html", f"<html><body>{body}</body></html>".encode()))
    try:
        found = _objects(answer.written)
    except Unreadable as error:
        return str(error)
    other = [f"{name}: {found.get(name)!r}, where {value!r} is right" for name, value in wanted.items() if found.get(name) != value]
    return status_differs(answer) or (f"{len(other)} are wrong; {other[0]}" if other else None)


def iri_references(tries: Tries) -> Cases:
    """1,000 references against each base, the same at each run."""
    chance = random.Random(1)
    for base in BASES:
        given = [_reference(chance) for _ in range(1000)]
        body = "".join(f'<a rel="{V}p{number}" href="{html.escape(text)}"></a>' for number, text in enumerate(given))
        yield f"1,000 references against {base}", _wrong(tries, base, body, {f"p{number}": resolved(base, text) for number, text in enumerate(given)})


def _numbered(number: int) -> str:
    """HTML, 13.2.5.80: 0x80 to 0x9F as windows-1252 has them, where it has any."""
    return bytes([number]).decode("cp1252", errors="ignore") or chr(number) if 0x80 <= number <= 0x9F else chr(number)


def character_references(tries: Tries) -> Cases:
    chance = random.Random(1)
    numbers = [*range(1, 0x300), 0xD7FF, 0xE000, 0xFFFD, 0xFFFE, 0xFFFF, 0x10000, 0x10FFFF]
    numbers += [*chance.sample(range(0x300, 0xD800), 1000), *chance.sample(range(0xE000, 0x110000), 1000)]
    rows = [(f"&{name};", value) for name, value in NAMES.items()]
    rows += [(form % number, _numbered(number)) for number in numbers for form in ("&#%d;", "&#x%x;", "&#X%X;", "&#000%d;")]
    texts = "".join(f'<p property="{V}p{number}">a{text}b</p>' for number, (text, _) in enumerate(rows))
    values = "".join(f'<p property="{V}p{number}" content="a{text}b"></p>' for number, (text, _) in enumerate(rows))
    wanted = {f"p{number}": f"a{value}b" for number, (_, value) in enumerate(rows)}
    yield f"{len(rows)} references in text", _wrong(tries, "http://h.example/d", texts, wanted)
    yield f"{len(rows)} references in values", _wrong(tries, "http://h.example/d", values, wanted)
    unknown = [f"&{name}" for name in html5 if name.endswith(";") and name[:-1] not in NAMES]
    for kind, texts_of_kind in (("UnknownReference", unknown), ("BadReference", BAD)):
        for text in texts_of_kind:
            page, said = f"<html><p>a{text}</p></html>".encode(), f"refused: {kind} at byte {9 + len(text)} in token 10\n".encode()
            yield text, differs(tries.answer("check", tries.file("page.html", page)), (1, b"", said))


GROUPS: list[Group] = [iri_references, character_references]
