"""The kinds of fault: of each what is wrong, and how the page is mended."""

from __future__ import annotations

from typing import NamedTuple

__all__ = ["KINDS", "Kind"]

# A longer piece of a page isn't told whole.
_SHOWN = 60


class Kind(NamedTuple):
    """A kind of fault.

    >>> KINDS["Mismatch"].wrong
    'An end tag has another name than the open element.'
    >>> KINDS["Mismatch"].told("</p>")
    '</p> ends nothing that is open'
    """

    number: int
    """The library's number of the kind, from 1."""
    name: str
    """The name, as `Refused.kind` has it."""
    wrong: str
    """What is wrong, as a sentence."""
    at_source: str
    """What is wrong with a piece of a page, for which `{}` stands."""
    mended: str
    """How the page is mended, as a sentence."""

    def told(self, source: str) -> str:
        """What is wrong with this piece of a page, in one line."""
        words = " ".join(source.split())
        return self.at_source.format(words if len(words) <= _SHOWN else f"{words[: _SHOWN - 3]}...")


_ROWS = [
    (
        "NotUtf8",
        "The bytes since the last whole character begin no character of UTF-8.",
        "bytes that are no UTF-8",
        "Store the page as UTF-8, as `iconv -f LATIN1 -t UTF-8` does for one in Latin-1.",
    ),
    (
        "Nul",
        "The character U+0000 stands literally.",
        "the character U+0000",
        "Take the character away; a page in UTF-16 is to be stored as UTF-8.",
    ),
    (
        "BadTag",
        "A character can't stand there in a tag, or begins none.",
        "{} begins no tag",
        "Look for a quote too many or too few; in XHTML each attribute has a value in quotes.",
    ),
    (
        "Mismatch",
        "An end tag has another name than the open element.",
        "{} ends nothing that is open",
        (
            "End what was begun last first, and each element once: a p ends where a list, a table, a heading or a div begins, "
            "and an element without content, such as br, has no end tag."
        ),
    ),
    (
        "NothingOpen",
        "An end tag stands where no element is open.",
        "{} where no element is open",
        "Take the end tag away.",
    ),
    (
        "SelfClosed",
        "In HTML, /> ends the start tag of an element that an end tag has to close.",
        "{} closes nothing in HTML",
        'Write an end tag, as in `<a id="x"></a>`; where all of the page is XHTML, read it as XHTML.',
    ),
    (
        "UnknownReference",
        "A named character reference isn't in the table of HTML 4.01.",
        "{} is no reference that is known",
        "Write the character itself, or its number, as in `&#47;`.",
    ),
    (
        "BadReference",
        "A numeric character reference is to 0, to a surrogate, or past U+10FFFF.",
        "{} stands for no character",
        "Take the reference away.",
    ),
    (
        "TooDeep",
        "An element stands below the 512th level.",
        "{} stands below the 512th level",
        "Close what is left open around it; most often the program that makes the page is at fault.",
    ),
    (
        "TagTooLong",
        "A tag has more than 1,048,576 bytes.",
        "{} is a tag of more than 1,048,576 bytes",
        "Look for a quote that isn't closed; most often the program that makes the page is at fault.",
    ),
    (
        "Outside",
        "Text, a reference, a CDATA section or a further start tag stands outside the root.",
        "{} stands outside of <html>..</html>",
        "Take it away, or move it into the body.",
    ),
    (
        "RootNotHtml",
        "The first start tag isn't html.",
        "{} stands where <html> has to",
        "Write `<html>` before it, and `</html>` at the end.",
    ),
    (
        "BadDoctype",
        "A document type isn't HTML's, is a second one, or stands after the root's start tag.",
        "{} is no document type of HTML, or the second one, or misplaced",
        "Write `<!DOCTYPE html>`, once, before `<html>`.",
    ),
    (
        "Unended",
        "The page ends too early.",
        "the page ends too early",
        "Write `</body></html>` at the end; or the page was cut off, and has to be fetched again.",
    ),
    (
        "RepeatedAttribute",
        "In XHTML, an attribute's name stands twice in one tag.",
        "{} has an attribute twice",
        "Keep one of the two.",
    ),
    (
        "StrictText",
        "In XHTML, a character that XML doesn't allow stands in text, a value or a comment.",
        "{} isn't allowed in XML",
        "Write `&amp;`, `&lt;` or `]]&gt;`, and no `--` in a comment.",
    ),
    (
        "Plaintext",
        "In HTML, there is a plaintext element.",
        "{} can't be closed",
        "Use pre.",
    ),
    (
        "PageTooLong",
        "The page has more than 1,073,741,824 bytes.",
        "the page has more than 1,073,741,824 bytes",
        "Cut the page in several; most often the program that makes it is at fault.",
    ),
    (
        "RelativeVocab",
        "A vocab attribute has no scheme.",
        "{} has a vocab without a scheme",
        "Write the vocabulary's whole IRI.",
    ),
    (
        "XmlLiteral",
        "A property has the datatype rdf:XMLLiteral, whose value would be markup.",
        "{} has the datatype rdf:XMLLiteral",
        "Drop the datatype: then the value is the text, without its markup.",
    ),
    (
        "HtmlLiteral",
        "A property has the datatype rdf:HTML, whose value would be markup.",
        "{} has the datatype rdf:HTML",
        "Drop the datatype: then the value is the text, without its markup.",
    ),
    (
        "Cycle",
        "An item is a value within itself.",
        "{} is a value within itself",
        "Take an id out of an itemref, so that no item leads back to itself.",
    ),
    (
        "ItemsTooNested",
        "An item stands within 40 others.",
        "{} lies within 40 other items",
        "Nest fewer items.",
    ),
    (
        "ItemsTooMany",
        "There are more than 100,000 item objects.",
        "with {} there are more than 100,000 objects of items",
        "Cut the page in several, or name an id in fewer itemrefs: an item counts each time that it is a value.",
    ),
]

KINDS = {name: Kind(number, name, wrong, at_source, mended) for number, (name, wrong, at_source, mended) in enumerate(_ROWS, 1)}
