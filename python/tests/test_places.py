"""Places of faults: lines, columns, and what is shown of them."""

from __future__ import annotations

import pytest

import rdfax
from rdfax.places import caret, line_at


@pytest.mark.parametrize(
    ("page", "place", "shown"),
    [
        (b"", (1, 1, ""), ("", "^")),
        (b"<html>\n  <p>Anvil</b>\n</html>", (2, 11, "</b>"), ("  <p>Anvil</b>", "          ^~~~")),
        (b"<html>\r\n  </b>\r\n</html>", (2, 3, "</b>"), ("  </b>", "  ^~~~")),
        (b"<html>\r\r</b>", (3, 1, "</b>"), ("</b>", "^~~~")),
        (b"<html>\n\r\n\r</b>", (4, 1, "</b>"), ("</b>", "^~~~")),
        (b"\xef\xbb\xbf<html></b>", (1, 7, "</b>"), ("<html></b>", "      ^~~~")),
        (b"\xef\xbb\xbf</b>", (1, 1, "</b>"), ("</b>", "^~~~")),
        ("<html>Ambo\u00df \u00e4</b>".encode(), (1, 14, "</b>"), ("<html>Ambo\u00df \u00e4</b>", "             ^~~~")),
        ("<html>\u9244\u7827</b>".encode(), (1, 9, "</b>"), ("<html>\u9244\u7827</b>", "          ^~~~")),
        ("<html>e\u0301</b>".encode(), (1, 9, "</b>"), ("<html>e\u0301</b>", "       ^~~~")),
        (b"<html>\t</b>", (1, 8, "</b>"), ("<html>\t</b>", "      \t^~~~")),
        (b"<html>\x1b[31m</b>", (1, 12, "</b>"), ("<html>\ufffd[31m</b>", "           ^~~~")),
        (b"<html>\xff", (1, 7, "\ufffd"), ("<html>\ufffd", "      ^")),
        (b"<html>\n<p\n\n  title='' \"", (2, 1, "<p\n\n  title='' \""), ("<p", "^~")),
        (b"<html>\n\n", (3, 1, ""), ("", "^")),
    ],
)
def test_a_fault_has_a_line_and_a_column(page: bytes, place: tuple[int, int, str], shown: tuple[str, str]) -> None:
    with pytest.raises(rdfax.Refused) as caught:
        rdfax.check(page)
    assert rdfax.to_line(page, caught.value) == place
    assert tuple(caret(page, caught.value).split("\n")) == shown


def test_a_page_of_text_has_the_same_places() -> None:
    page = "<html>\n\u00e4</b>"
    assert rdfax.to_line(page, rdfax.Refused("Mismatch", 12, 9)) == rdfax.to_line(page.encode(), rdfax.Refused("Mismatch", 12, 9)) == (2, 2, "</b>")
    assert line_at(page, 9) == "\u00e4</b>"


def test_of_a_long_line_the_part_about_the_fault_is_shown() -> None:
    page = "<html>" + "a" * 5000 + "</b>" + "c" * 5000
    line, mark = caret(page, rdfax.Refused("Mismatch", 5009, 5006)).split("\n")
    assert len(line) == 120 and line[mark.index("^") :].startswith("</b>c")
