"""Pages for the tests: real ones of Debian's packages, damaged ones made of them, and hostile ones."""

from __future__ import annotations

import random
import subprocess
from collections.abc import Iterator
from pathlib import Path

HERE = Path(__file__).resolve().parent

# documentation packages whose pages are made by many programs, with pages that rdfax refuses in most of them
PACKAGES = (
    "apache2-doc bash-doc bind9-doc debian-policy debian-reference-en erlang-doc ghostscript-doc imagemagick-6-doc maint-guide octave-doc "
    "postfix-doc python3.11-doc qtbase5-doc-html sqlite3-doc r-doc-html git-doc"
).split()


def unpacked(package: str, cache: Path) -> Path:
    """The folder of a binary package's files, fetched once."""
    folder = cache / "pages" / package
    if not folder.is_dir():
        folder.parent.mkdir(parents=True, exist_ok=True)
        subprocess.run(["apt-get", "-qq", "download", package], cwd=cache, check=True, stderr=subprocess.DEVNULL)
        (archive,) = cache.glob(f"{package}_*.deb")
        subprocess.run(["dpkg", "-x", archive, folder], check=True)
        archive.unlink()
    return folder


def source(package: str, suite: str, cache: Path) -> Path:
    """The folder of a source package's files, fetched once. The suite is a name, or - for the system's own."""
    folder = cache / "sources" / f"{package}-{suite}"
    if not folder.is_dir():
        tars = cache / "tars" / f"{package}-{suite}"
        subprocess.run([HERE.parent / "get-source", tars, suite, package], check=True)
        folder.mkdir(parents=True)
        for tar in tars.glob("*.orig*.tar.*"):
            subprocess.run(["tar", "-xf", tar, "-C", folder, "--strip-components=1"], check=True)
    return folder


def corpus(cache: Path, each: int | None) -> Iterator[tuple[str, bytes]]:
    """Pages of the documentation packages, of each so many, evenly spread; or all."""
    for package in PACKAGES:
        paths = sorted(path for path in unpacked(package, cache).rglob("*") if path.suffix in (".html", ".htm", ".xhtml") and path.is_file() and not path.is_symlink())
        step = max(1, len(paths) // each) if each else 1
        for path in paths[::step][:each]:
            yield f"{package}/{path.name}", path.read_bytes()


# what a damage puts in: pieces of markup that HTML's rules treat in their own ways
_PIECES = [
    piece.encode()
    for piece in (
        "<p> </p> <table> </table> <tr> <td> </td> <a> </a> <a href=x> <b> </b> <i> </i> <div> </div> <li> <ul> </ul> <svg> </svg> <math> <mi> <title> </title> <select> <option> "
        "</select> <script> </script> <style> </style> <template> </template> <form> </form> <body> </body> <html> </html> <head> <frameset> <plaintext> <textarea> </textarea> <pre> "
        "<!-- --> <!-> <?x <![CDATA[ ]]> <!DOCTYPE & &amp &#x0; &#128; &notit; < > \" ' = / \0 \r \f \xa0 \ud7ff <nobr> <button> <dd> <dt> <h1> </h2> <br/> </br> <image> <foreignObject> <desc> "
        "<p/> <caption> <colgroup> <col> <tbody> <th> <noscript> <xmp> <iframe> <listing> <object> <marquee> <rt> <rp> <applet> <a\"=b> <x:y> <1> </> <base> <meta charset=x> <param> <hr> <input>"
    ).split(" ")
] + [b"\xff", b"\xc3", b"\xed\xa0\x80", b"\x80", b" ", b"\n", b"<a property=b>", b"<p itemscope itemprop=c>", b"<p xmlns:a=b>", b'<p a="', b"<p a='"]

_DAMAGES = 8
_LONGEST = 20_000


def damaged(pages: list[bytes], count: int, seed: int) -> Iterator[bytes]:
    """Pages with bytes taken out, put in, moved or doubled, each by its own number."""
    for number in range(count):
        chance = random.Random(seed * 1_000_003 + number)
        page = bytearray(chance.choice(pages))
        if len(page) > _LONGEST:
            start = chance.randrange(len(page) - _LONGEST)
            page = page[start : start + chance.randrange(_LONGEST)]
        for _ in range(chance.randint(1, _DAMAGES)):
            _damage(page, chance)
        yield bytes(page)


def _damage(page: bytearray, chance: random.Random) -> None:
    at = chance.randrange(len(page) + 1)
    end = min(len(page), at + chance.choice((1, 1, 2, 5, 20, 100)))
    kind = chance.randrange(5)
    if kind == 0:
        del page[at:end]
    elif kind == 1:
        page[at:at] = chance.choice(_PIECES) * chance.choice((1, 1, 1, 2, 3))
    elif kind == 2:
        page[at:end] = chance.choice(_PIECES)
    elif kind == 3:
        piece = page[at:end]
        to = chance.randrange(len(page) + 1)
        page[to:to] = piece
    else:
        page[at:end] = bytes(chance.randrange(256) for _ in range(min(5, end - at)))


def hostile(size: int) -> Iterator[tuple[str, bytes]]:
    """Pages of about this size that are made to cost much."""

    def times(piece: str | bytes) -> bytes:
        held = piece.encode() if isinstance(piece, str) else piece
        return held * (size // len(held))

    def numbered(form: str, most: int | None = None) -> bytes:
        count = size // (len(form) + 4)
        return "".join(form.replace("#", str(number)) for number in range(min(count, most or count))).encode()

    yield "open tags", times("<div>")
    yield "open tags of formatting", numbered("<b id=#>")
    yield "open fonts in paragraphs", numbered("<p><font size=#>")
    yield "end tags below 500 levels", b"<div>" * 500 + times("</p>")
    yield "300 elements opened again", b"<div>" + numbered("<i id=#>", 300) + b"</div>" + times("<p>x</p>")
    yield "a long value opened again", b'<p><b title="' + b"x" * (size // 2) + b'"></p>' + times("<p>x</p>")[: size // 2]
    yield "attributes in one tag", b"<p " + numbered("a#=# ") + b">"
    yield "attributes cut by slashes", b"<p " + numbered("a#/") + b">"
    yield "one attribute again and again", b"<p " + times("a=1 ") + b">"
    yield "1,000 attributes in many tags", (b"<p " + "".join(f"a{number} " for number in range(1_000)).encode() + b">") * (size // 5_893)
    yield "attributes of many html tags", numbered("<html a#=1>")
    yield "names", numbered("<x#></x#>")
    yield "deep tables", times("<table><tr><td>")
    yield "tables of 100 levels", (b"<table><tr><td>" * 100 + b"</table>" * 100) * (size // 2_300)
    yield "elements before a table", b"<table>" + times("<a>x")
    yield "text before a table", b"<table>" + times("x<tr>")
    yield "white space in a table", b"<table>" + times(" &#32;")
    yield "a in a", times("<a href=x>")
    yield "overlapping elements", times("<a><p></a>")
    yield "nobr", times("<nobr><p>")
    yield "select", times("<select><option>")
    yield "li", times("<li>")
    yield "templates", times("<template>")
    yield "svg", times("<svg><g>")
    yield "comments", times("<!--x-->")
    yield "an open comment", times("<!--")
    yield "an open quote", b'<a href="' + times("<p>")
    yield "less-than signs", times("<")
    yield "references", times("&CounterClockwiseContourIntegral;")
    yield "escaped scripts", b"<script>" + times("<!--<script>")
    yield "CDATA", b"<svg>" + times("<![CDATA[")
    yield "U+0000", times("\0")
    yield "one long text", times("x")
    yield "one long name", b"<" + times("x") + b">"
    yield "a declaration at the end", times("x") + b"<meta charset=koi8-r>"
    yield "UTF-16", b"\xff\xfe" + times("<p>\u00e9".encode("utf-16-le"))
    yield "Shift_JIS", b"<meta charset=shift_jis>" + times(b"<p>\x88\x9f")
