/* What the calls answer while all memory is refused, and what goes on once it isn't: ./no_memory. Status 0 where all is as it
 * must be. */
#include <rdfax.h>
#include <stdio.h>
#include <stdlib.h>
#include <string.h>

#define TEXT(text) (text), strlen(text)
#define CHECK(is_so) check((is_so), __LINE__, #is_so)

static const char BASE[] = "http://h.example/d", PAGE[] = "<html><p property=\"dc:title\">Anvil</p></html>";
static bool refuses;
static char nothing;
static int wrong;

static rdfax_memory answer(void *at) {
    return (rdfax_memory){at != NULL, at != NULL ? at : &nothing};
}

rdfax_memory rdfax_alloc(size_t size, size_t align) {
    return answer(refuses ? NULL : malloc(size != 0 ? size : align));
}

rdfax_memory rdfax_realloc(void *at, size_t kept, size_t size, size_t align) {
    (void)kept;
    return answer(refuses ? NULL : realloc(at, size != 0 ? size : align));
}

void rdfax_dealloc(void *at) {
    free(at);
}

static void check(bool is_so, int line, const char *what) {
    if (!is_so) {
        fprintf(stderr, "no_memory.c:%d: %s\n", line, what);
        wrong++;
    }
}

static uint32_t extraction(rdfax_page *page) {
    rdfax_options options = {RDFAX_HTML, RDFAX_QUADS, 0};
    return rdfax_extract(&options, TEXT(BASE), NULL, 0, NULL, 0, page);
}

/* No page is open then. */
static void openings(void) {
    rdfax_page page = RDFAX_NO_PAGE;
    refuses = true;
    CHECK(extraction(&page) == RDFAX_NO_MEMORY && rdfax_status(&page) == RDFAX_USAGE);
    CHECK(rdfax_items(RDFAX_HTML, TEXT(BASE), &page) == RDFAX_NO_MEMORY && rdfax_status(&page) == RDFAX_USAGE);
    CHECK(rdfax_check(RDFAX_HTML, NULL, 0, &page) == RDFAX_NO_MEMORY && rdfax_status(&page) == RDFAX_USAGE);
    refuses = false;
}

/* Want of memory at the end comes again, and the page has neither text nor quads. */
static void an_end(void) {
    rdfax_page page = RDFAX_NO_PAGE;
    rdfax_terms terms = {.subject = {.kind = 99}};
    CHECK(extraction(&page) == RDFAX_DONE && rdfax_feed(&page, TEXT(PAGE)) == RDFAX_DONE);
    refuses = true;
    CHECK(rdfax_finish(&page) == RDFAX_NO_MEMORY);
    refuses = false;
    CHECK(rdfax_finish(&page) == RDFAX_NO_MEMORY && rdfax_feed(&page, TEXT(PAGE)) == RDFAX_NO_MEMORY);
    CHECK(rdfax_status(&page) == RDFAX_NO_MEMORY && rdfax_text_length(&page) == 0 && rdfax_quad_count(&page) == 0);
    CHECK(rdfax_quad(&page, 0, &terms) == RDFAX_USAGE && terms.subject.kind == 99);
    rdfax_close(&page);
}

/* Want of memory for a quad loses nothing, and isn't told for a number that no quad has. */
static void a_quad(void) {
    rdfax_page page = RDFAX_NO_PAGE;
    rdfax_terms terms = {.subject = {.kind = 99}};
    CHECK(extraction(&page) == RDFAX_DONE && rdfax_feed(&page, TEXT(PAGE)) == RDFAX_DONE && rdfax_finish(&page) == RDFAX_DONE);
    refuses = true;
    CHECK(rdfax_quad(&page, 0, &terms) == RDFAX_NO_MEMORY && rdfax_quad(&page, 1, &terms) == RDFAX_USAGE);
    CHECK(terms.subject.kind == 99 && rdfax_status(&page) == RDFAX_DONE && rdfax_quad_count(&page) == 1);
    refuses = false;
    CHECK(rdfax_quad(&page, 0, &terms) == RDFAX_DONE && terms.object.kind == RDFAX_LITERAL);
    CHECK(terms.object.text.length == 5 && memcmp(terms.object.text.bytes, "Anvil", 5) == 0);
    rdfax_close(&page);
}

int main(void) {
    openings();
    an_end();
    a_quad();
    return wrong != 0;
}
