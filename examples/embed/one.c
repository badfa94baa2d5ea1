/* Prints the triples of the page on standard input as Turtle: ./one BASE <page.html */
#include <rdfax.h>
#include <stdio.h>
#include <string.h>

/* Says why there is no text. */
static void tell(rdfax_page *page, uint32_t status) {
    rdfax_fault_place fault;
    if (rdfax_fault(page, &fault))
        fprintf(stderr, "refused at byte %llu: %s\n", (unsigned long long)fault.at, rdfax_kind_sentence(fault.kind));
    else
        fprintf(stderr, "status %u\n", (unsigned)status);
}

int main(int count, char **words) {
    static char room[65536];
    const char *base = count == 2 ? words[1] : "";
    rdfax_page page = RDFAX_NO_PAGE;
    rdfax_options options = {RDFAX_HTML, RDFAX_TURTLE, 0};
    uint32_t status = rdfax_extract(&options, base, strlen(base), NULL, 0, NULL, 0, &page);
    size_t length;
    while (status == RDFAX_DONE && (length = fread(room, 1, sizeof room, stdin)) != 0)
        status = rdfax_feed(&page, room, length);
    if (status == RDFAX_DONE)
        status = rdfax_finish(&page);
    if (status != RDFAX_DONE)
        tell(&page, status);
    for (size_t from = 0; (length = rdfax_text(&page, from, room, sizeof room)) != 0; from += length)
        fwrite(room, 1, length, stdout);
    rdfax_close(&page);
    return (int)status;
}
