"""The kinds of fault: each is there, with the library's number and sentence, and comes where the manual page says so."""

from __future__ import annotations

import re
from pathlib import Path

import pytest

import rdfax
from rdfax._library import library

TOP = Path(__file__).resolve().parents[2]
MANUAL = (TOP / "docs" / "rdfax.1").read_text(encoding="utf-8")


def test_each_kind_of_the_manual_page_has_its_sentences() -> None:
    refusals = MANUAL[MANUAL.index(".SH REFUSALS") : MANUAL.index(".SH FILES")]
    assert re.findall(r"^\.TP\n\.B (\w+)$", refusals, re.MULTILINE) and set(re.findall(r"^\.TP\n\.B (\w+)$", refusals, re.MULTILINE)) == set(rdfax.KINDS)
    for kind in rdfax.KINDS.values():
        assert kind.wrong.endswith(".") and kind.mended.endswith(".") and kind.told("</p>")


def test_the_kinds_have_the_library_s_numbers() -> None:
    source = (TOP / "crates" / "rx_grammar" / "src" / "faults.rt").read_text(encoding="utf-8")
    names = re.findall(r"^    (\w+),$", source[: source.index("pub struct Fault")], re.MULTILINE)
    assert [(kind.number, kind.name) for kind in rdfax.KINDS.values()] == list(enumerate(names, 1))


def test_the_sentences_are_those_of_the_library() -> None:
    if not hasattr(library(), "rdfax_kind_sentence"):
        pytest.skip("the library has no sentences")
    import ctypes

    sentence = library().rdfax_kind_sentence
    sentence.argtypes, sentence.restype = [ctypes.c_uint32], ctypes.c_char_p
    assert [sentence(kind.number).decode() for kind in rdfax.KINDS.values()] == [kind.wrong for kind in rdfax.KINDS.values()]


@pytest.mark.parametrize(
    ("kind", "page", "told"),
    [
        ("NotUtf8", b"<html>\xff</html>", "bytes that are no UTF-8"),
        ("Nul", b"<html>\0</html>", "the character U+0000"),
        ("BadTag", b'<html><p "bold"></html>', '<p " begins no tag'),
        ("Mismatch", b"<html><i>x</b></i></html>", "</b> ends nothing that is open"),
        ("NothingOpen", b"</html>", "</html> where no element is open"),
        ("SelfClosed", b"<html><p/></html>", "<p/> closes nothing in HTML"),
        ("UnknownReference", b"<html>&eurosign;</html>", "&eurosign; is no reference that is known"),
        ("BadReference", b"<html>&#xD800;</html>", "&#xD800; stands for no character"),
        ("TooDeep", b"<html>" + b"<b>" * 512, "<b> stands below the 512th level"),
        ("TagTooLong", b'<html><p title="' + b"y" * 1_200_000, f'<p title="{"y" * 47}... is a tag of more than 1,048,576 bytes'),
        ("Outside", b"<html></html>bye", "b stands outside of <html>..</html>"),
        ("RootNotHtml", b"<body></body>", "<body> stands where <html> has to"),
        ("BadDoctype", b"<!DOCTYPE book><html></html>", "<!DOCTYPE b is no document type of HTML, or the second one, or misplaced"),
        ("Unended", b"<html><p>", "the page ends too early"),
        ("Plaintext", b"<html><plaintext>", "<plaintext> can't be closed"),
        ("RelativeVocab", b'<html vocab="terms/"></html>', '<html vocab="terms/"> has a vocab without a scheme'),
    ],
)
def test_what_is_told_of_a_fault(kind: str, page: bytes, told: str) -> None:
    with pytest.raises(rdfax.Refused) as caught:
        rdfax.check(page)
    assert caught.value.kind == kind
    assert rdfax.KINDS[kind].told(rdfax.to_line(page, caught.value).source) == told
