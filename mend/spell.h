/* A tree spelled out as a page of rdfax's grammar (docs/GRAMMAR.md). */
#ifndef SPELL_H
#define SPELL_H

#include "buffer.h"
#include "rdfax_mend.h"
#include <lexbor/html/html.h>

typedef struct {
    buffer page;
    buffer places; /* of rdfax_mend_place; `original` is a place of the text that was parsed */
    rdfax_mend_changes *changes;
    uint32_t refusal; /* RDFAX_MEND_NO_REFUSAL, or the limit that was passed */
} spelled;

/* Spells the document, which was parsed from the text, in the syntax RDFAX_MEND_HTML or RDFAX_MEND_XHTML.
 * False where there was no memory. */
bool spell(lxb_html_document_t *document, const unsigned char *text, size_t length, uint32_t syntax, spelled *result);

#endif
