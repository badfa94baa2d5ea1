/* Which encoding a page is in, and its characters as UTF-8 (Encoding Standard; HTML, 13.2.3). */
#ifndef CHARSET_H
#define CHARSET_H

#include "buffer.h"
#include <lexbor/encoding/encoding.h>
#include <stdint.h>

typedef struct {
    const lxb_encoding_data_t *encoding;
    uint32_t found; /* RDFAX_MEND_BY_.. */
    size_t skipped; /* the bytes of the byte order mark */
} charset;

/* The encoding that a label names, or NULL. */
const lxb_encoding_data_t *charset_named(const unsigned char *label, size_t length);

/* The same of a page's own declaration, where UTF-16 can't be meant (HTML, 13.2.3.2). */
const lxb_encoding_data_t *charset_declared(const unsigned char *label, size_t length);

/* What stands behind `charset=` in the content of a meta element names it, or NULL. */
const lxb_encoding_data_t *charset_in_content(const unsigned char *content, size_t length);

/* The encoding of a page, from its first bytes and the caller's label, which may be NULL. */
charset charset_of(const unsigned char *bytes, size_t length, const char *label);

/* A place of the text where the place in the original is known. */
typedef struct {
    size_t text;
    size_t original;
} charset_mark;

/* A page's characters as UTF-8: its own bytes, where they are that already, or a text of their own. */
typedef struct {
    const unsigned char *bytes;
    size_t length;
    size_t malformed; /* how often U+FFFD was put */
    size_t skipped;
    buffer own;
    buffer marks; /* of charset_mark, in order: each `<`, and what follows each `>` */
} decoded;

/* Whether there was memory for it. */
bool charset_decode(const unsigned char *bytes, size_t length, charset from, decoded *text);

/* The place in the original of a place in the text. */
size_t charset_original(const decoded *text, size_t place);

void charset_free(decoded *text);

#endif
