/* What the library says of itself and of the kinds of fault. */
#include "rdfax.h"

const char *rdfax_version(void) {
    return RDFAX_VERSION;
}

/* (each sentence is the one beside its number in the header, as ./test-embed sees to) */
static const char *const sentences[] = {
    [RDFAX_FAULT_NOT_UTF8] = "The bytes since the last whole character begin no character of UTF-8.",
    [RDFAX_FAULT_NUL] = "The character U+0000 stands literally.",
    [RDFAX_FAULT_BAD_TAG] = "A character can't stand there in a tag, or begins none.",
    [RDFAX_FAULT_MISMATCH] = "An end tag has another name than the open element.",
    [RDFAX_FAULT_NOTHING_OPEN] = "An end tag stands where no element is open.",
    [RDFAX_FAULT_SELF_CLOSED] = "In HTML, /> ends the start tag of an element that an end tag has to close.",
    [RDFAX_FAULT_UNKNOWN_REFERENCE] = "A named character reference isn't in the table of HTML 4.01.",
    [RDFAX_FAULT_BAD_REFERENCE] = "A numeric character reference is to 0, to a surrogate, or past U+10FFFF.",
    [RDFAX_FAULT_TOO_DEEP] = "An element stands below the 512th level.",
    [RDFAX_FAULT_TAG_TOO_LONG] = "A tag has more than 1,048,576 bytes.",
    [RDFAX_FAULT_OUTSIDE] = "Text, a reference, a CDATA section or a further start tag stands outside the root.",
    [RDFAX_FAULT_ROOT_NOT_HTML] = "The first start tag isn't html.",
    [RDFAX_FAULT_BAD_DOCTYPE] = "A document type isn't HTML's, is a second one, or stands after the root's start tag.",
    [RDFAX_FAULT_UNENDED] = "The page ends too early.",
    [RDFAX_FAULT_REPEATED_ATTRIBUTE] = "In XHTML, an attribute's name stands twice in one tag.",
    [RDFAX_FAULT_STRICT_TEXT] = "In XHTML, a character that XML doesn't allow stands in text, a value or a comment.",
    [RDFAX_FAULT_PLAINTEXT] = "In HTML, there is a plaintext element.",
    [RDFAX_FAULT_PAGE_TOO_LONG] = "The page has more than 1,073,741,824 bytes.",
    [RDFAX_FAULT_RELATIVE_VOCAB] = "A vocab attribute has no scheme.",
    [RDFAX_FAULT_XML_LITERAL] = "A property has the datatype rdf:XMLLiteral, whose value would be markup.",
    [RDFAX_FAULT_HTML_LITERAL] = "A property has the datatype rdf:HTML, whose value would be markup.",
    [RDFAX_FAULT_CYCLE] = "An item is a value within itself.",
    [RDFAX_FAULT_ITEMS_TOO_NESTED] = "An item stands within 40 others.",
    [RDFAX_FAULT_ITEMS_TOO_MANY] = "There are more than 100,000 item objects.",
};

const char *rdfax_kind_sentence(uint32_t kind) {
    return kind < sizeof sentences / sizeof *sentences ? sentences[kind] : NULL;
}
