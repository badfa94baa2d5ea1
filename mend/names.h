/* What rdfax's grammar knows of names (docs/GRAMMAR.md, Elements). */
#ifndef NAMES_H
#define NAMES_H

#include <lexbor/html/html.h>

/* What an element of HTML is by its name. */
enum {
    NAME_VOID = 1,       /* its start tag alone */
    NAME_RAW = 2,        /* raw text */
    NAME_RCDATA = 4,     /* text and references */
    NAME_DROPS = 8,      /* a line feed directly after its start tag is dropped */
    NAME_PLAINTEXT = 16, /* no end tag would close it */
    NAME_HOLDS_HTML = 32 /* it holds HTML where it stands in svg */
};

/* The rows of the table of end tags that may be omitted, as bits. */
typedef struct {
    unsigned short kind;
    unsigned char row;  /* its own row, or 0 */
    unsigned char ends; /* the rows whose elements its start tag ends */
} name_traits;

/* By lexbor's number of the name in lower case. */
name_traits name_traits_of(lxb_tag_id_t tag);

/* Whether the byte ends the name of a tag: white space, `/`, `>` or 0. */
bool name_ends_at(unsigned char byte);

/* Whether a name can be spelled: of an element or an attribute, in XHTML; of an element in HTML; of an attribute in HTML. */
bool name_is_strict(const unsigned char *name, size_t length);
bool name_is_tag(const unsigned char *name, size_t length);
bool name_is_attribute(const unsigned char *name, size_t length);

#endif
