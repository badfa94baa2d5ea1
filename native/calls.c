/* The calls to which a pointer may be NULL, over those of the proved library, to which none may: absent is told by a flag
 * there, and the empty buffer is no bytes at some place. */
#include "rdfax.h"

uint32_t rdfax_extract_given(const rdfax_options *options, const void *base, size_t base_length, const void *graph,
                             size_t graph_length, bool has_graph, const void *context, size_t context_length,
                             bool has_context, rdfax_page *page);
uint32_t rdfax_items_given(uint32_t syntax, const void *base, size_t base_length, rdfax_page *page);
uint32_t rdfax_check_given(uint32_t syntax, const void *context, size_t context_length, bool has_context, rdfax_page *page);
uint32_t rdfax_feed_given(rdfax_page *page, const void *piece, size_t length);
size_t rdfax_text_given(rdfax_page *page, size_t from, void *room, size_t length);
size_t rdfax_fault_name_given(rdfax_page *page, void *room, size_t length);

static const char no_bytes[1];
static char no_room[1];

static const void *read_at(const void *at) {
    return at != NULL ? at : no_bytes;
}

static void *written_at(void *at) {
    return at != NULL ? at : no_room;
}

static size_t length_of(const void *at, size_t length) {
    return at != NULL ? length : 0;
}

uint32_t rdfax_extract(const rdfax_options *options, const char *base, size_t base_length, const char *graph,
                       size_t graph_length, const void *context, size_t context_length, rdfax_page *page) {
    return rdfax_extract_given(options, read_at(base), base_length, read_at(graph), length_of(graph, graph_length),
                               graph != NULL, read_at(context), length_of(context, context_length), context != NULL, page);
}

uint32_t rdfax_items(uint32_t syntax, const char *base, size_t base_length, rdfax_page *page) {
    return rdfax_items_given(syntax, read_at(base), base_length, page);
}

uint32_t rdfax_check(uint32_t syntax, const void *context, size_t context_length, rdfax_page *page) {
    return rdfax_check_given(syntax, read_at(context), length_of(context, context_length), context != NULL, page);
}

uint32_t rdfax_feed(rdfax_page *page, const void *piece, size_t length) {
    return rdfax_feed_given(page, read_at(piece), length);
}

size_t rdfax_text(rdfax_page *page, size_t from, void *room, size_t length) {
    return rdfax_text_given(page, from, written_at(room), length);
}

size_t rdfax_fault_name(rdfax_page *page, void *room, size_t length) {
    return rdfax_fault_name_given(page, written_at(room), length);
}
