/* Prints the quads of the page on standard input, in the graph of a name or in the default graph, a term a line:
 *
 *     ./quads BASE [GRAPH] <page.html */
#include "terms.h"
#include <string.h>

/* Reads the page whole, and answers its status. */
static uint32_t read_page(rdfax_page *page, const char *base, const char *graph) {
    static char room[65536];
    rdfax_options options = {RDFAX_HTML, RDFAX_QUADS, 0};
    uint32_t status = rdfax_extract(&options, base, strlen(base), graph, graph != NULL ? strlen(graph) : 0, NULL, 0, page);
    size_t length;
    while (status == RDFAX_DONE && (length = fread(room, 1, sizeof room, stdin)) != 0)
        status = rdfax_feed(page, room, length);
    return status == RDFAX_DONE ? rdfax_finish(page) : status;
}

int main(int count, char **words) {
    rdfax_page page = RDFAX_NO_PAGE;
    uint32_t status = read_page(&page, count > 1 ? words[1] : "", count > 2 ? words[2] : NULL);
    if (status == RDFAX_DONE)
        status = print_quads(stdout, &page);
    rdfax_close(&page);
    return (int)status;
}
