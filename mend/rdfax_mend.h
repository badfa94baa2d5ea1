/* rdfax_mend: a page as it is found to a page of rdfax's grammar, with the tree that a browser builds of it.
 *
 *     rdfax_mended mended;
 *     rdfax_mend_options options = {.syntax = RDFAX_MEND_HTML};
 *     if (rdfax_mend(bytes, length, &options, &mended) == RDFAX_MEND_DONE)
 *         use(mended.page, mended.length);
 *     rdfax_mended_free(&mended);
 *
 * Nothing of it is proved: it parses by lexbor, and spells the tree out. What rdfax says of a mended page is proved of that
 * page, and not of the original. There is no state between calls, and any threads may call at once.
 */
#ifndef RDFAX_MEND_H
#define RDFAX_MEND_H

#include <stdbool.h>
#include <stddef.h>
#include <stdint.h>

#ifdef __cplusplus
extern "C" {
#endif

/* What rdfax_mend answers. */
enum {
    RDFAX_MEND_DONE = 0,     /* the mended page is there */
    RDFAX_MEND_REFUSED = 1,  /* the page passes a limit, which `refusal` names */
    RDFAX_MEND_USAGE = 2,    /* the options ask for nothing that there is */
    RDFAX_MEND_NO_MEMORY = 5 /* there was no memory */
};

enum { RDFAX_MEND_HTML = 0, RDFAX_MEND_XHTML = 1 };

/* How the charset was found, in the order in which it is looked for. */
enum {
    RDFAX_MEND_BY_BOM = 0,         /* a byte order mark */
    RDFAX_MEND_BY_CALLER = 1,      /* the caller's label */
    RDFAX_MEND_BY_DECLARATION = 2, /* a meta element, or an XML declaration */
    RDFAX_MEND_BY_VALIDITY = 3,    /* nothing is declared, and all of the page is valid UTF-8 */
    RDFAX_MEND_BY_DEFAULT = 4      /* windows-1252, as nothing else was found */
};

/* Why a page is refused. */
enum {
    RDFAX_MEND_NO_REFUSAL = 0,
    RDFAX_MEND_TOO_DEEP = 1,            /* the tree has more than 512 levels, or 1,024 elements were open at once */
    RDFAX_MEND_TAG_TOO_LONG = 2,        /* a mended start tag has more than a mebibyte */
    RDFAX_MEND_PAGE_TOO_LONG = 3,       /* the page or the mended page has more than a gibibyte */
    RDFAX_MEND_TOO_MANY_ATTRIBUTES = 4, /* a tag has more than 1,024 attributes; those of all html and body tags count as one's */
    RDFAX_MEND_TOO_MANY_NAMES = 5,      /* more than 8,192 names of attributes, or of elements, are unlike */
    RDFAX_MEND_TREE_TOO_LARGE = 6       /* the parser's tree takes more memory than the options allow */
};

typedef struct {
    const char *charset; /* the label that came with the page, as in its Content-Type; NULL, or one that is unknown: none */
    uint32_t syntax;     /* of the mended page: RDFAX_MEND_HTML or RDFAX_MEND_XHTML */
    size_t memory;       /* the bytes that the parser's tree may take; 0: 16 MiB and 160 times the page's, a gibibyte at most */
} rdfax_mend_options;

/* What was changed, by kind: how often. */
typedef struct {
    uint64_t characters;   /* bytes that stood for no character, or U+0000: U+FFFD was read there */
    uint64_t token_errors; /* errors of HTML's tokens that the parser told: quotes, references, characters */
    uint64_t tree_errors;  /* errors of HTML's tree that the parser told: tags that don't nest, elements that are misplaced */
    uint64_t implied;      /* elements that have no start tag of their own */
    uint64_t comments;     /* comments that were dropped */
    uint64_t templates;    /* templates whose contents were dropped, which are no part of the page's tree */
    uint64_t attributes;   /* attributes that were dropped, since no page spells their names */
    uint64_t names;        /* elements that were renamed to span, or plaintext to pre */
    uint64_t spans;        /* span elements that were put between a parent and a child that would end it */
    uint64_t raw;          /* places in raw text that were changed: an end tag in a script's text, a carriage return */
    uint64_t doctypes;     /* document types that were dropped, or written without identifiers */
} rdfax_mend_changes;

/* A start tag of the mended page, and the token of the original that made its element. */
typedef struct {
    size_t mended;   /* the offset of the start tag's first byte */
    size_t original; /* the offset of the token's first byte, a byte order mark counted */
} rdfax_mend_place;

typedef struct {
    uint8_t *page; /* UTF-8, with a byte order mark where it declares another charset still */
    size_t length;
    const char *charset; /* the name of the encoding by the Encoding Standard; static */
    uint32_t found;      /* how: RDFAX_MEND_BY_.. */
    uint32_t refusal;    /* RDFAX_MEND_NO_REFUSAL, or why the page is refused */
    rdfax_mend_changes changes;
    rdfax_mend_place *places; /* one for each start tag, in the mended page's order */
    size_t place_count;
} rdfax_mended;

/* Mends the page. `mended` is written whole in any case, and is to be freed; but for RDFAX_MEND_DONE it has no page. */
uint32_t rdfax_mend(const void *bytes, size_t length, const rdfax_mend_options *options, rdfax_mended *mended);

/* Frees what rdfax_mend made; the struct is empty then. */
void rdfax_mended_free(rdfax_mended *mended);

/* The place in the original of the last start tag that begins at or before a place of the mended page; 0 where there is none. */
size_t rdfax_mend_original(const rdfax_mended *mended, size_t place);

/* Whether a label names an encoding, by the Encoding Standard. */
bool rdfax_mend_knows(const char *charset);

/* The name of a way to find the charset, as "declaration"; of a refusal, as "TooDeep"; NULL for another number. */
const char *rdfax_mend_found_name(uint32_t found);
const char *rdfax_mend_refusal_name(uint32_t refusal);

#ifdef __cplusplus
}
#endif

#endif
