/* Prints the triples of the page on standard input as N-Quads, and holds no more memory than is said:
 *
 *     ./bounded BYTES BASE <page.html
 *
 * The three functions at the top take the place of the library's own. They count what is held, on this thread alone. */
#include <rdfax.h>
#include <stdio.h>
#include <stdlib.h>
#include <string.h>

/* The size of a block stands before it. */
typedef struct {
    _Alignas(16) size_t size;
} header;

static size_t held, most, bound;

static rdfax_memory refused(void) {
    static char nothing;
    return (rdfax_memory){false, &nothing};
}

rdfax_memory rdfax_alloc(size_t size, size_t align) {
    (void)align; /* (16 serves all) */
    header *block = size <= bound - held ? malloc(sizeof(header) + size) : NULL;
    if (block == NULL)
        return refused();
    block->size = size;
    held += size;
    most = held > most ? held : most;
    return (rdfax_memory){true, block + 1};
}

void rdfax_dealloc(void *at) {
    header *block = (header *)at - 1;
    held -= block->size;
    free(block);
}

rdfax_memory rdfax_realloc(void *at, size_t kept, size_t size, size_t align) {
    rdfax_memory got = rdfax_alloc(size, align);
    if (!got.ok)
        return got;
    memcpy(got.at, at, kept);
    rdfax_dealloc(at);
    return got;
}

int main(int count, char **words) {
    static char room[65536];
    if (count != 3)
        return 2;
    bound = strtoul(words[1], NULL, 10);
    rdfax_page page = RDFAX_NO_PAGE;
    rdfax_options options = {RDFAX_HTML, RDFAX_NQUADS, 0};
    uint32_t status = rdfax_extract(&options, words[2], strlen(words[2]), NULL, 0, NULL, 0, &page);
    size_t length;
    while (status == RDFAX_DONE && (length = fread(room, 1, sizeof room, stdin)) != 0)
        status = rdfax_feed(&page, room, length);
    if (status == RDFAX_DONE)
        status = rdfax_finish(&page);
    for (size_t from = 0; (length = rdfax_text(&page, from, room, sizeof room)) != 0; from += length)
        fwrite(room, 1, length, stdout);
    rdfax_close(&page);
    fprintf(stderr, "status %u, %zu bytes held at the most, %zu after the end\n", (unsigned)status, most, held);
    return (int)status;
}
