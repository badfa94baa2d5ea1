/* rdfax as a library: the triples, the items or the faults of an HTML page that is in memory already.
 *
 *     rdfax_page page = RDFAX_NO_PAGE;
 *     rdfax_options options = {RDFAX_HTML, RDFAX_TURTLE, 0};
 *     uint32_t status = rdfax_extract(&options, base, strlen(base), NULL, 0, NULL, 0, &page);
 *     if (status == RDFAX_DONE)
 *         status = rdfax_feed(&page, bytes, length);
 *     if (status == RDFAX_DONE)
 *         status = rdfax_finish(&page);
 *     char room[4096];
 *     for (size_t from = 0; (length = rdfax_text(&page, from, room, sizeof room)) != 0; from += length)
 *         fwrite(room, 1, length, stdout);
 *     rdfax_close(&page);
 *
 * What each call answers is proved: its contract stands above it in crates/rdfax_c/src/exports.rt. In C (native/), without
 * a proof, are rdfax_version, rdfax_kind_sentence, the three of memory, and that NULL is told as absent or as empty. The
 * proofs hold where the caller keeps the following, which nothing checks.
 *
 * Pages. A page is UTF-8: bytes that aren't are its fault (RDFAX_FAULT_NOT_UTF8), and a page in another encoding is converted
 * first. It may come in pieces of any length, which may end within a character. The grammar allows 1,073,741,824 bytes to a
 * page, 1,048,576 bytes to a tag, and 512 levels of elements.
 *
 * What is kept. A rdfax_page begins as RDFAX_NO_PAGE, and only these calls change it. It may be moved, but not copied: of
 * two copies one is used. Memory of a page is held from the call that opens it until rdfax_close, so each page that was
 * opened is closed, also after a refusal. Nothing that a call is given to read is kept after it: pieces, names and context
 * may go at once. What it is given to write in overlaps with nothing else that it is given. What rdfax_quad points to stays
 * until the next call with that page; rdfax_version and rdfax_kind_sentence answer constants.
 *
 * Threads. A page is given to one call at a time. It may go from one thread to another between two calls, where something
 * orders the two (a lock, a thread's start or end). Pages have nothing in common, so threads may have pages of their own. No
 * call is made from a signal's handler, nor in the forked child of a process with threads. The proofs don't speak of threads.
 *
 * Memory. Of a usual page an extraction holds 3 to 4 times its bytes, as JSON-LD 6 to 7 times, rdfax_items twice, and
 * rdfax_check less than a megabyte. A hostile page can make memory grow with the square of its size, 300 MB for 100 kB, and
 * with it the time. A host that reads the pages of others bounds this by an allocator of its own (rdfax_alloc below), or for
 * the whole process by the system (setrlimit with RLIMIT_AS). Where memory is refused, the call answers RDFAX_NO_MEMORY, and
 * nothing else is lost.
 *
 * Empty. NULL with length 0 is the empty buffer, wherever bytes are read or written. No other pointer is NULL.
 */
#ifndef RDFAX_H
#define RDFAX_H

#include <stdbool.h>
#include <stddef.h>
#include <stdint.h>

#ifdef __cplusplus
extern "C" {
#endif

/* The version of this header, and of the library that is running. */
#define RDFAX_VERSION "0.1.0"
const char *rdfax_version(void);

/* What a call answers: the statuses that the command ends with, and one more. */
enum {
    RDFAX_DONE = 0,        /* it was done: the page is open, the piece was taken, the text is there */
    RDFAX_REFUSED = 1,     /* the page has a fault, which rdfax_fault tells */
    RDFAX_USAGE = 2,       /* nothing that rdfax does was asked for, or no page is open, or it was finished before, or there
                              is no such quad */
    RDFAX_NO_MEMORY = 5,   /* there was no memory */
    RDFAX_BAD_CONTEXT = 6, /* the context file has another shape, or it is too long */
    RDFAX_READING = 8      /* the page is being read (rdfax_status alone) */
};

/* The syntax of a page. */
enum {
    RDFAX_HTML = 0,
    RDFAX_XHTML = 1
};

/* What an extraction makes of a page's triples. */
enum {
    RDFAX_NQUADS = 0, /* RDF 1.1 N-Quads; the graph may have a name */
    RDFAX_TURTLE = 1, /* RDF 1.1 Turtle */
    RDFAX_NESTED = 2, /* Turtle with blank nodes and lists where they are used */
    RDFAX_JSONLD = 3, /* JSON-LD 1.1, expanded and flattened */
    RDFAX_QUADS = 4   /* no text: rdfax_quad tells the quads one at a time; the graph may have a name */
};

/* The kinds of fault. rdfax_fault_name tells a kind's name, and rdfax_kind_sentence the sentence that stands here. */
enum {
    /* Faults of form: rdfax_feed or rdfax_finish. */
    RDFAX_FAULT_NOT_UTF8 = 1,           /* The bytes since the last whole character begin no character of UTF-8. */
    RDFAX_FAULT_NUL = 2,                /* The character U+0000 stands literally. */
    RDFAX_FAULT_BAD_TAG = 3,            /* A character can't stand there in a tag, or begins none. */
    RDFAX_FAULT_MISMATCH = 4,           /* An end tag has another name than the open element. */
    RDFAX_FAULT_NOTHING_OPEN = 5,       /* An end tag stands where no element is open. */
    RDFAX_FAULT_SELF_CLOSED = 6,        /* In HTML, /> ends the start tag of an element that an end tag has to close. */
    RDFAX_FAULT_UNKNOWN_REFERENCE = 7,  /* A named character reference isn't in the table of HTML 4.01. */
    RDFAX_FAULT_BAD_REFERENCE = 8,      /* A numeric character reference is to 0, to a surrogate, or past U+10FFFF. */
    RDFAX_FAULT_TOO_DEEP = 9,           /* An element stands below the 512th level. */
    RDFAX_FAULT_TAG_TOO_LONG = 10,      /* A tag has more than 1,048,576 bytes. */
    RDFAX_FAULT_OUTSIDE = 11,           /* Text, a reference, a CDATA section or a further start tag stands outside the root. */
    RDFAX_FAULT_ROOT_NOT_HTML = 12,     /* The first start tag isn't html. */
    RDFAX_FAULT_BAD_DOCTYPE = 13,       /* A document type isn't HTML's, is a second one, or stands after the root's start tag. */
    RDFAX_FAULT_UNENDED = 14,           /* The page ends too early. */
    RDFAX_FAULT_REPEATED_ATTRIBUTE = 15, /* In XHTML, an attribute's name stands twice in one tag. */
    RDFAX_FAULT_STRICT_TEXT = 16,       /* In XHTML, a character that XML doesn't allow stands in text, a value or a comment. */
    RDFAX_FAULT_PLAINTEXT = 17,         /* In HTML, there is a plaintext element. */
    RDFAX_FAULT_PAGE_TOO_LONG = 18,     /* The page has more than 1,073,741,824 bytes. */
    /* Faults of meaning, of rdfax_extract and rdfax_check: rdfax_feed or rdfax_finish. */
    RDFAX_FAULT_RELATIVE_VOCAB = 19,    /* A vocab attribute has no scheme. */
    RDFAX_FAULT_XML_LITERAL = 20,       /* A property has the datatype rdf:XMLLiteral, whose value would be markup. */
    RDFAX_FAULT_HTML_LITERAL = 21,      /* A property has the datatype rdf:HTML, whose value would be markup. */
    /* Faults of items, of rdfax_items: rdfax_finish. */
    RDFAX_FAULT_CYCLE = 22,             /* An item is a value within itself. */
    RDFAX_FAULT_ITEMS_TOO_NESTED = 23,  /* An item stands within 40 others. */
    RDFAX_FAULT_ITEMS_TOO_MANY = 24     /* There are more than 100,000 item objects. */
};

/* A page, by the pointer of what is kept of it. Leave the fields alone. */
typedef struct {
    void *at;
    bool opened;
} rdfax_page;

#define RDFAX_NO_PAGE {NULL, false}

/* How an extraction is asked for. */
typedef struct {
    uint32_t syntax;     /* RDFAX_HTML or RDFAX_XHTML */
    uint32_t format;     /* RDFAX_NQUADS, RDFAX_TURTLE, RDFAX_NESTED, RDFAX_JSONLD or RDFAX_QUADS */
    uint64_t first_node; /* the number of the first blank node's label, _:b0 where it is 0; 2^63 at the most */
} rdfax_options;

/* Where a fault is, in bytes from the page's first one, which is 0. */
typedef struct {
    uint32_t kind;  /* RDFAX_FAULT_NOT_UTF8 and so on */
    uint64_t token; /* the first byte of the token that is faulty or unfinished */
    uint64_t at;    /* the byte that decides the fault */
} rdfax_fault_place;

/* Open a page: for its triples, for its items (Microdata), or for its faults. What the page had open is closed first.
 *
 * `base` is the page's address, an IRI with a scheme; `graph` the name of the graph in which the quads stand, an IRI too, or
 * NULL for the default graph; `context` the bytes of a context file, whose prefixes and terms hold in place of the standard
 * ones, or NULL. Where a pointer is NULL its length isn't looked at. Any other pointer is given, also with length 0: an
 * empty name is no IRI, and an empty context file is none.
 *
 * DONE; BAD_CONTEXT; NO_MEMORY; or USAGE, where a number is unknown, first_node is above 2^63, `base` or `graph` is no IRI
 * in UTF-8, or a graph is named for a format that has no names of graphs. The page is open where the answer is DONE, and
 * only then. */
uint32_t rdfax_extract(const rdfax_options *options, const char *base, size_t base_length, const char *graph,
                       size_t graph_length, const void *context, size_t context_length, rdfax_page *page);
uint32_t rdfax_items(uint32_t syntax, const char *base, size_t base_length, rdfax_page *page);
uint32_t rdfax_check(uint32_t syntax, const void *context, size_t context_length, rdfax_page *page);

/* Hand over the next piece, of any length. DONE; REFUSED, where a byte of the piece decides a fault; or NO_MEMORY. After
 * the last two each later call of rdfax_feed and rdfax_finish answers the same and changes nothing. USAGE, and nothing
 * changed, where no page is open or it was finished. */
uint32_t rdfax_feed(rdfax_page *page, const void *piece, size_t length);

/* The page's end. DONE, and its text or its quads are there; REFUSED; or NO_MEMORY. Asked again it answers the same. USAGE
 * where no page is open, and only then. */
uint32_t rdfax_finish(rdfax_page *page);

/* Where the page stands: READING, DONE, REFUSED or NO_MEMORY; USAGE where no page is open. */
uint32_t rdfax_status(rdfax_page *page);

/* The text of a finished page, in UTF-8 and without a 0 at its end: how many bytes it has, and those from a place on, as
 * many as there is room for, which are counted. There are none before the end, after a refusal or want of memory, and for
 * RDFAX_QUADS; rdfax_check makes the text of the command, "ok" and a line feed. */
size_t rdfax_text_length(rdfax_page *page);
size_t rdfax_text(rdfax_page *page, size_t from, void *room, size_t length);

/* Whether the page was refused, and then where; else `*fault` stays. */
bool rdfax_fault(rdfax_page *page, rdfax_fault_place *fault);

/* How many bytes the name of the fault's kind has, as "Mismatch", without a 0 at its end; 0 where there is no fault. As
 * many of them as there is room for are copied. */
size_t rdfax_fault_name(rdfax_page *page, void *room, size_t length);

/* The sentence of a kind of fault, as it stands above; NULL for a number that is none. */
const char *rdfax_kind_sentence(uint32_t kind);

/* Of an extraction that was finished: how many blank nodes its graph has. Their labels are _:b<first_node> to
 * _:b<first_node + nodes - 1>; who puts texts or quads of several pages together gives the next page first_node + nodes as
 * its first_node, and no two share a node. 0 of any other page. */
uint64_t rdfax_nodes(rdfax_page *page);

/* What a term is. */
enum {
    RDFAX_NOTHING = 0, /* the graph's name of a quad in the default graph */
    RDFAX_IRI = 1,
    RDFAX_BLANK = 2,
    RDFAX_LITERAL = 3
};

/* Bytes of UTF-8, without a 0 at their end. `bytes` is never NULL where length isn't 0. */
typedef struct {
    const char *bytes;
    size_t length;
} rdfax_bytes;

typedef struct {
    uint32_t kind;        /* RDFAX_IRI and so on */
    rdfax_bytes text;     /* an IRI, a blank node's label without "_:", or a literal's text; nothing in it is escaped */
    rdfax_bytes language; /* the tag of a literal that has a language; else of length 0 */
    rdfax_bytes datatype; /* the datatype of a literal that has no language, where it isn't xsd:string; else of length 0 */
} rdfax_term;

typedef struct {
    rdfax_term subject;
    rdfax_term predicate;
    rdfax_term object;
    rdfax_term graph; /* the graph's name, or RDFAX_NOTHING */
} rdfax_terms;

/* The quads of a page that was finished with RDFAX_QUADS: how many there are (0 of any other page), each once and in order
 * of first appearance; and that of a number, from 0. DONE; USAGE, where the number isn't below the count, and only there; or
 * NO_MEMORY, after which the call may be made again. `*terms` stays but for DONE. */
size_t rdfax_quad_count(rdfax_page *page);
uint32_t rdfax_quad(rdfax_page *page, size_t number, rdfax_terms *terms);

/* Close the page, and free what is kept of it. It may be opened again. Closing a page that isn't open does nothing. */
void rdfax_close(rdfax_page *page);

/* The memory of all pages. The library has these three over malloc, realloc and free, and asks for memory by them alone. A
 * program that defines them itself has its own used instead, for instance one that counts bytes and refuses past a bound. It
 * defines all three, over one allocator; whether it is linked with librdfax.a or librdfax.so makes no difference. They are
 * called on the thread of the call that needs memory.
 *
 * `align` is a power of two, 16 at the most. A block is aligned to `align` and to each power of two up to 16 that divides its
 * size, as malloc's blocks are; a size may be 0. rdfax_realloc keeps at least the first `kept` bytes of the block, which are
 * no more than either size. Where `ok` is false nothing was got, an old block is as it was, and `at` points to any byte: it
 * isn't NULL. */
typedef struct {
    bool ok;
    void *at;
} rdfax_memory;

rdfax_memory rdfax_alloc(size_t size, size_t align);
rdfax_memory rdfax_realloc(void *at, size_t kept, size_t size, size_t align);
void rdfax_dealloc(void *at);

#ifdef __cplusplus
}
#endif

#endif
