"""Each byte in a page, at each kind of place: what docs/GRAMMAR.md and docs/CHARACTERS.md say of it, as tables of their own."""

from __future__ import annotations

import json
from collections.abc import Callable
from dataclasses import dataclass

from size.cases import ADDRESS, Cases, Group, Tries, differs, json_differs, status_differs
from size.graphs import FORMATS, Unreadable, iri, literal, quads_in, text_differs
from size.triples import HERE, V

SPACES = b"\t\n\f\r "
LETTERS = b"ABCDEFGHIJKLMNOPQRSTUVWXYZabcdefghijklmnopqrstuvwxyz"
# of those below 0x80, the characters of names in XML
STRICT = LETTERS + b"0123456789-._:"
PROPERTY = f'property="{V}p"'


@dataclass(frozen=True)
class Fault:
    """A fault that the page has: its kind, and how far the byte that decides it and the token lie from the byte that is tried."""

    kind: str
    at: int = 0
    token: int = 0


# what a byte below 0x80 gives at a place: the value of the one property, no property, or a fault
Gives = Callable[[int], str | None | Fault]


@dataclass(frozen=True)
class Place:
    """A place in a page: what stands before the byte and behind it, where the token begins in which it stands (None: at the
    byte itself), and what a byte below 0x80, but for 0, gives there. Behind the byte stands `1`, unless it is told."""

    name: str
    before: str
    behind: str
    token: str | None
    gives: Gives

    def page(self, byte: int) -> bytes:
        return self.before.encode() + bytes([byte]) + self.behind.encode()

    def token_at(self) -> int:
        """Where the token begins, counted from the byte."""
        return 0 if self.token is None else self.before.rindex(self.token) - len(self.before)

    def awaited(self, byte: int) -> str | None | Fault:
        """What the byte gives. UTF-8: 0xC2 to 0xF4 begin a character, which the next byte doesn't go on; other bytes from
        0x80 on begin none."""
        if byte == 0:
            return Fault("Nul", 0, self.token_at())
        if byte >= 0x80:
            return Fault("NotUtf8", 1 if 0xC2 <= byte <= 0xF4 else 0, self.token_at())
        return self.gives(byte)


def _read(byte: int) -> str:
    """The character that is read: a lone CR is a line feed."""
    return "\n" if byte == 0x0D else chr(byte)


def in_text(byte: int) -> str:
    """HTML: `<1` and `&1` are text."""
    return f"a{_read(byte)}1"


def in_double_quotes(byte: int) -> str | Fault:
    """HTML: behind the value an attribute may begin at once, but its name has no quote."""
    return Fault("BadTag", 2, _VALUE) if byte == ord('"') else in_text(byte)


def in_single_quotes(byte: int) -> str | Fault:
    return Fault("BadTag", 2, _SINGLE) if byte == ord("'") else in_text(byte)


def unquoted(byte: int) -> str:
    """HTML: white space and `>` end the value, and nothing else does."""
    return "a" if byte in SPACES or byte == ord(">") else in_text(byte)


def in_attribute_name(byte: int) -> str | Fault:
    """HTML: quotes and `<` stand in no name; `>` ends the tag, and what follows is text."""
    if byte in b"\"'<":
        return Fault("BadTag", 0, _NAME)
    return '1 content="v">t' if byte == ord(">") else "v"


def in_tag_name(byte: int) -> str | None | Fault:
    """HTML: white space, `/` and `>` end the name. An end tag has none of the first two before a further character."""
    end = len(f'1 {PROPERTY}>t</a')
    if byte in SPACES:
        return Fault("BadTag", end + 2, end - 2)
    if byte == ord("/"):
        return Fault("BadTag", end + 1, end - 2)
    return None if byte == ord(">") else "t"


def anywhere(byte: int) -> str:
    return "t"


def in_doctype(byte: int) -> str | Fault:
    """An internal subset is refused; `>` ends the document type, and `1` stands outside the root then."""
    if byte == ord("["):
        return Fault("BadDoctype", 0, -len("<!doctype html a"))
    return Fault("Outside", 1, 1) if byte == ord(">") else "t"


def outside(byte: int) -> str | Fault:
    """Behind the root: white space alone. That a `<` is text is known at the next character."""
    if byte in SPACES:
        return "t"
    return Fault("Outside", 1 if byte == ord("<") else 0)


def in_strict_text(byte: int) -> str | Fault:
    """XHTML: `<` begins a tag, and `&` a reference."""
    if byte == ord("<"):
        return Fault("BadTag", 1)
    return Fault("StrictText", 1) if byte == ord("&") else in_text(byte)


def in_strict_value(byte: int) -> str | Fault:
    """XHTML: `<` stands in no value, `&` begins a reference, white space is a space, and behind the value stands some."""
    if byte in b'<&"':
        return Fault("StrictText" if byte in b"<&" else "BadTag", 0 if byte == ord("<") else 1, _VALUE)
    return "a 1" if byte in b"\t\n\r" else in_text(byte)


def in_strict_name(byte: int) -> str | Fault:
    """XHTML: names of XML, and `=` with a quoted value behind them, with white space or without."""
    if byte in STRICT:
        return "v"
    return Fault("BadTag", 1 if byte in SPACES + b"=" else 0, _NAME)


def in_strict_tag_name(byte: int) -> str | None | Fault:
    if byte in STRICT:
        return "t"
    if byte == ord(">"):
        return None
    return Fault("BadTag", 1 if byte in SPACES + b"/" else 0, -2)


_FRONT, _END = "<html><body>", "</body></html>"
_VALUE, _SINGLE, _NAME = (-len(f"<p {PROPERTY} {text}") for text in ('content="a', "content='a", "a"))
HTML = [
    Place("text", f"{_FRONT}<p {PROPERTY}>a", f"1</p>{_END}", None, in_text),
    Place("a title", f"<html><head><title {PROPERTY}>a", "1</title></head></html>", None, in_text),
    Place("a value in double quotes", f'{_FRONT}<p {PROPERTY} content="a', f'1">t</p>{_END}', "<", in_double_quotes),
    Place("a value in single quotes", f"{_FRONT}<p {PROPERTY} content='a", f"1'>t</p>{_END}", "<", in_single_quotes),
    Place("a value without quotes", f"{_FRONT}<p {PROPERTY} content=a", f"1>t</p>{_END}", "<", unquoted),
    Place("an attribute's name", f"{_FRONT}<p {PROPERTY} a", f'1 content="v">t</p>{_END}', "<", in_attribute_name),
    Place("a comment", f"{_FRONT}<p {PROPERTY}>t</p><!--a", f"1-->{_END}", "<", anywhere),
    Place("a bogus comment", f"{_FRONT}<p {PROPERTY}>t</p><!a", f"1>{_END}", "<", anywhere),
    Place("a script", f"{_FRONT}<p {PROPERTY}>t</p><script>a", f"1</script>{_END}", None, anywhere),
    Place("a document type", "<!doctype html a", f"1>{_FRONT}<p {PROPERTY}>t</p>{_END}", "<", in_doctype),
    Place("the end", f"{_FRONT}<p {PROPERTY}>t</p>{_END}", "\n", None, outside),
]
XHTML = [
    Place("text", f"{_FRONT}<p {PROPERTY}>a", f"1</p>{_END}", None, in_strict_text),
    Place("a value in double quotes", f'{_FRONT}<p {PROPERTY} content="a', f'1">t</p>{_END}', "<", in_strict_value),
    Place("an attribute's name", f"{_FRONT}<p {PROPERTY} a", f'1="x" content="v">t</p>{_END}', "<", in_strict_name),
    Place("a comment", f"{_FRONT}<p {PROPERTY}>t</p><!--a", f"1-->{_END}", "<", anywhere),
    Place("an instruction", f"{_FRONT}<p {PROPERTY}>t</p><?a", f"1?>{_END}", "<", anywhere),
    Place("a CDATA section", f"{_FRONT}<p {PROPERTY}><![CDATA[a", f"1]]></p>{_END}", "<", in_text),
]


def _tag_places(syntax: str) -> list[tuple[int, Place]]:
    """A tag's name has the byte in its start tag and in its end tag, so that each byte has a place of its own."""
    gives = in_tag_name if syntax == "html" else in_strict_tag_name
    return [(byte, Place("a tag's name", f"{_FRONT}<a", f"1 {PROPERTY}>t</a{chr(byte)}1>{_END}", "<", gives)) for byte in range(128)]


def _said(place: Place, fault: Fault) -> bytes:
    at = len(place.before.encode())
    return f"refused: {fault.kind} at byte {at + fault.at} in token {at + fault.token}\n".encode()


def _case(tries: Tries, syntax: str, place: Place, byte: int) -> str | None:
    """What is wrong with the answers on the page, if anything is."""
    path = tries.file("page.html", place.page(byte))
    options, awaited = ["--syntax", syntax], place.awaited(byte)
    answer, checked = tries.answer("extract", *options, "--base", ADDRESS, path), tries.answer("check", *options, path)
    if isinstance(awaited, Fault):
        said = _said(place, awaited)
        return differs(answer, (1, b"", said)) or differs(checked, (1, b"", said))
    wrong = status_differs(answer) or differs(checked, (0, b"ok\n", b""))
    if wrong:
        return wrong
    wanted = [] if awaited is None else [((HERE, iri(f"{V}p"), literal(awaited)), None)]
    try:
        return None if quads_in(answer.written.decode()) == wanted else f"wrote {answer.written!r}, where the value is {awaited!r}"
    except Unreadable as error:
        return str(error)


def each_byte_of_a_page(tries: Tries) -> Cases:
    for syntax, places in (("html", HTML), ("xhtml", XHTML)):
        for place in places:
            for byte in range(256):
                yield f"byte 0x{byte:02X} in {place.name} of {syntax}", _case(tries, syntax, place, byte)
        for byte, place in _tag_places(syntax):
            yield f"byte 0x{byte:02X} in {place.name} of {syntax}", _case(tries, syntax, place, byte)


def each_byte_in_each_format(tries: Tries) -> Cases:
    """One page with a value for each byte from 1 to 127, as an attribute's value and as text, in each format and as items."""
    values = [(byte, f"a{_read(byte)}1") for byte in range(1, 128)]
    parts = {byte: {"&": "&amp;", "<": "&lt;"}.get(chr(byte), chr(byte)) for byte, _ in values}
    body = "".join(f'<p property="{V}p{byte}" itemprop="p{byte:03}">a{parts[byte]}1</p>' for byte, _ in values)
    page = f"<html><body><div itemscope>{body}</div></body></html>".encode()
    path = tries.file("page.html", page)
    graph = frozenset((HERE, iri(f"{V}p{byte}"), literal(value)) for byte, value in values)
    for form in FORMATS:
        answer = tries.answer("extract", "--format", form, "--base", ADDRESS, path)
        yield f"each byte, {form}", status_differs(answer) or text_differs(answer.written, form, graph)
    answer = tries.answer("items", "--base", ADDRESS, path)
    said = {"items": [{"properties": {f"p{byte:03}": [value] for byte, value in values}}]}
    yield "each byte, items", status_differs(answer) or json_differs(answer.written, json.loads(json.dumps(said)))


GROUPS: list[Group] = [each_byte_of_a_page, each_byte_in_each_format]
