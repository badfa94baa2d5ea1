"""Names of files: each byte that a name may have, beside files with the names that a part of it would be."""

from __future__ import annotations

import os
import tempfile
from dataclasses import replace

from size.cases import ADDRESS, Cases, Group, Tries, differs
from size.triples import V

USAGE = b"usage: rdfax extract|items|check|sample\n"
# what stands beside each name: its parts, it without the byte, and with a space or an underscore in the byte's place
BESIDE = [b"a", b"z", b"az", b"a z", b"a_z", b" z", b"a ", b"a%20z", b"a?z"]
WORDS = [
    b"a#z", b"#", b"##", b"a#", b"#z", b"a%z", b"%", b"%41", b"%2F", b"a%23z", b"a%00z", b"'", b'"', b"'a'", b'"a"', b"a\nz", b"\n", b"a\n", b"\na", b"a\r\nz",
    b"a?b=c&d", b"a;b", b"a|b", b"a\\b", b"\\", b"~", b"~root", b"$HOME", b"`a`", b"*", b"<a>", b"{a}", b"[a]", b"http:", b"file:a", b"a:b", b"=", b"@a", b"+a",
    b"...", b".a", b"a.", b" ", b"  ", b"\t", b"\x7f", b"\x01",
    "é".encode(), "e\u0301".encode(), "\u202ea".encode(), "\ufeffa".encode(), "😀".encode(), "\U0010fffd".encode(),
    b"a" * 255, b"#" * 255, "é".encode() * 127,
]


def _page(value: str) -> bytes:
    return f'<html><body><p property="{V}p">{value}</p></body></html>'.encode()


def _triple(value: str, graph: str = "") -> bytes:
    return f'<{ADDRESS}> <{V}p> "{value}"{graph} .\n'.encode()


def _awaited(name: bytes, found: bytes) -> tuple[int, bytes, bytes]:
    """The answer where a page has this name: a name has to be text, and begins with no `-`."""
    try:
        name.decode()
    except UnicodeDecodeError:
        return 7, b"", b""
    return (2, b"", USAGE) if name.startswith(b"-") else (0, found, b"")


def _cases_of(tries: Tries, name: bytes) -> Cases:
    """The name as a page's, as a context file's and as that of several pages', in a folder of its own."""
    with tempfile.TemporaryDirectory(dir=tries.folder) as folder:
        here = replace(tries, folder=folder)
        for other in BESIDE:
            here.file(other, _page("another"))
        here.file(name, _page("right"))
        yield f"page {name!r:.40}", differs(tries.answer("extract", "--base", ADDRESS, name, cwd=folder), _awaited(name, _triple("right")))
        yield f"page ./{name!r:.40}", differs(tries.answer("check", b"./" + name, cwd=folder), _awaited(b"./" + name, b"ok\n"))
        graph = f" <{ADDRESS}>"
        many = _triple("right", graph) + _triple("right", " <http://h.example/e>").replace(b"/d>", b"/e>", 1)
        yield f"pages {name!r:.40}", differs(tries.answer("many", ADDRESS, name, "http://h.example/e", name, cwd=folder), _awaited(name, many))
        here.file(name, f'{{"prefixes":{{"e":"{V}"}}}}'.encode())
        page = here.file(b"a page", b'<html><body><p property="e:p">right</p></body></html>')
        answer = tries.answer("extract", "--context", name, "--base", ADDRESS, page, cwd=folder)
        # (the value of an option may begin with `-`)
        yield f"context file {name!r:.40}", differs(answer, _awaited(name.removeprefix(b"-"), _triple("right")))


def each_byte_of_a_name(tries: Tries) -> Cases:
    for byte in sorted(set(range(1, 256)) - {ord("/")}):
        one = bytes([byte])
        for name in (b"a" + one + b"z", one + b"z", b"a" + one):
            yield from _cases_of(tries, name)


def each_character_of_a_name(tries: Tries) -> Cases:
    for number in (*range(0x80, 0x100), 0x7FF, 0x800, 0x2028, 0xD7FF, 0xE000, 0xFFFD, 0x10000, 0x10FFFF):
        yield from _cases_of(tries, f"a{chr(number)}z".encode())


def other_names(tries: Tries) -> Cases:
    for name in WORDS:
        yield from _cases_of(tries, name)


def folders(tries: Tries) -> Cases:
    """The same of a folder's name."""
    for name in (b"a#z", b"#", b"a%2Fz", b"a\nz", b"'", b'"', b"a\x7fz", b" "):
        folder = os.path.join(os.fsencode(tries.folder), name)
        os.makedirs(folder, exist_ok=True)
        path = tries.file(os.path.join(name, b"p#q"), _page("right"))
        yield f"in the folder {name!r}", differs(tries.answer("extract", "--base", ADDRESS, path), (0, _triple("right"), b""))


GROUPS: list[Group] = [each_byte_of_a_name, each_character_of_a_name, other_names, folders]
