/* The tree that a browser builds of a page without scripts, by lexbor, within limits. */
#ifndef PARSE_H
#define PARSE_H

#include <lexbor/html/html.h>
#include <stdint.h>

/* The page's elements have at most so many levels, which is rdfax's limit. */
enum { PARSE_DEPTH = 512 };

typedef struct {
    lxb_html_document_t *document; /* to be destroyed by parse_free; NULL where there is none */
    uint32_t refusal;              /* RDFAX_MEND_NO_REFUSAL, or the limit that was passed */
    uint64_t token_errors;
    uint64_t tree_errors;
    uint64_t nulls; /* U+0000 that was dropped or replaced */
} parsed;

/* Parses the text, which is UTF-8 and stays as it is while the tree is used. False where there was no memory.
 * The field `user` of an element's node points to the token of the text that made it, where that is known. */
bool parse_text(const unsigned char *text, size_t length, size_t memory, parsed *tree);

void parse_free(parsed *tree);

#endif
