/* Tries each call of the library, and each option that it refuses: ./calls VERSION [long]. Status 0 where all is as it must
 * be. With the second word a page of more than a gibibyte is handed over, too. */
#include <rdfax.h>
#include <stdio.h>
#include <string.h>

#define TEXT(text) (text), strlen(text)
#define NONE NULL, 0
#define CHECK(is_so) check((is_so), __LINE__, #is_so)

static const char BASE[] = "http://h.example/d", CONTEXT[] = "{\"prefixes\":{\"e\":\"http://v.example/\"}}";
static const char LINE[] = "<http://h.example/d> <http://purl.org/dc/terms/title> \"Anvil\" .\n";
static const char ANVIL[] = "<html><p property=\"dc:title\">Anvil</p></html>", BLANK[] = "<html><p typeof=\"dc:A\"></p></html>";
static int wrong;

static void check(bool is_so, int line, const char *what) {
    if (!is_so) {
        fprintf(stderr, "calls.c:%d: %s\n", line, what);
        wrong++;
    }
}

static uint32_t extraction(uint32_t format, uint64_t first_node, rdfax_page *page) {
    rdfax_options options = {RDFAX_HTML, format, first_node};
    return rdfax_extract(&options, TEXT(BASE), NONE, NONE, page);
}

/* Opens an extraction by all that is asked of it, closes it, and answers the status. */
static uint32_t opened(uint32_t syntax, uint32_t format, const char *base, const char *graph, const char *context, uint64_t first) {
    rdfax_page page = RDFAX_NO_PAGE;
    rdfax_options options = {syntax, format, first};
    size_t graph_length = graph != NULL ? strlen(graph) : 77, context_length = context != NULL ? strlen(context) : 77;
    uint32_t status = rdfax_extract(&options, TEXT(base), graph, graph_length, context, context_length, &page);
    CHECK(rdfax_status(&page) == (status == RDFAX_DONE ? RDFAX_READING : RDFAX_USAGE));
    rdfax_close(&page);
    return status;
}

static void refused_options(void) {
    static const struct {
        uint32_t syntax, format;
        const char *base, *graph, *context;
        uint64_t first;
        uint32_t status;
    } rows[] = {
        {RDFAX_HTML, RDFAX_NQUADS, BASE, NULL, NULL, 0, RDFAX_DONE},
        {RDFAX_XHTML, RDFAX_QUADS, BASE, BASE, CONTEXT, 0, RDFAX_DONE},
        {RDFAX_HTML, RDFAX_NQUADS, BASE, BASE, NULL, 1ULL << 63, RDFAX_DONE},
        {2, RDFAX_NQUADS, BASE, NULL, NULL, 0, RDFAX_USAGE},
        {UINT32_MAX, RDFAX_NQUADS, BASE, NULL, NULL, 0, RDFAX_USAGE},
        {RDFAX_HTML, 5, BASE, NULL, NULL, 0, RDFAX_USAGE},
        {RDFAX_HTML, UINT32_MAX, BASE, NULL, NULL, 0, RDFAX_USAGE},
        {RDFAX_HTML, RDFAX_NQUADS, "", NULL, NULL, 0, RDFAX_USAGE},
        {RDFAX_HTML, RDFAX_NQUADS, "d", NULL, NULL, 0, RDFAX_USAGE},
        {RDFAX_HTML, RDFAX_NQUADS, "http://h.example/\xff", NULL, NULL, 0, RDFAX_USAGE},
        {RDFAX_HTML, RDFAX_NQUADS, BASE, "", NULL, 0, RDFAX_USAGE},
        {RDFAX_HTML, RDFAX_QUADS, BASE, "g", NULL, 0, RDFAX_USAGE},
        {RDFAX_HTML, RDFAX_TURTLE, BASE, BASE, NULL, 0, RDFAX_USAGE},
        {RDFAX_HTML, RDFAX_NESTED, BASE, BASE, NULL, 0, RDFAX_USAGE},
        {RDFAX_HTML, RDFAX_JSONLD, BASE, BASE, NULL, 0, RDFAX_USAGE},
        {RDFAX_HTML, RDFAX_NQUADS, BASE, NULL, NULL, (1ULL << 63) + 1, RDFAX_USAGE},
        {RDFAX_HTML, RDFAX_QUADS, BASE, NULL, NULL, UINT64_MAX, RDFAX_USAGE},
        {RDFAX_HTML, RDFAX_NQUADS, BASE, NULL, "", 0, RDFAX_BAD_CONTEXT},
        {RDFAX_HTML, RDFAX_NQUADS, BASE, NULL, "[]", 0, RDFAX_BAD_CONTEXT},
    };
    for (size_t i = 0; i < sizeof rows / sizeof *rows; i++) {
        uint32_t status = opened(rows[i].syntax, rows[i].format, rows[i].base, rows[i].graph, rows[i].context, rows[i].first);
        if (status != rows[i].status) {
            fprintf(stderr, "calls.c: row %zu of refused_options: status %u\n", i, (unsigned)status);
            wrong++;
        }
    }
}

static void refused_tasks(void) {
    rdfax_page page = RDFAX_NO_PAGE;
    CHECK(rdfax_items(2, TEXT(BASE), &page) == RDFAX_USAGE);
    CHECK(rdfax_items(RDFAX_HTML, TEXT("d"), &page) == RDFAX_USAGE);
    CHECK(rdfax_items(RDFAX_HTML, NONE, &page) == RDFAX_USAGE);
    CHECK(rdfax_check(2, NONE, &page) == RDFAX_USAGE);
    CHECK(rdfax_check(RDFAX_HTML, "", 0, &page) == RDFAX_BAD_CONTEXT);
    CHECK(rdfax_check(RDFAX_HTML, TEXT("{}"), &page) == RDFAX_DONE);
    CHECK(rdfax_check(RDFAX_HTML, TEXT("[]"), &page) == RDFAX_BAD_CONTEXT);
    CHECK(rdfax_status(&page) == RDFAX_USAGE);
    rdfax_close(&page);
}

static void no_page(void) {
    rdfax_page page = RDFAX_NO_PAGE;
    rdfax_fault_place fault = {99, 98, 97};
    rdfax_terms terms = {.subject = {.kind = 99}};
    char room[8];
    CHECK(rdfax_feed(&page, "x", 1) == RDFAX_USAGE);
    CHECK(rdfax_finish(&page) == RDFAX_USAGE);
    CHECK(rdfax_status(&page) == RDFAX_USAGE);
    CHECK(rdfax_text_length(&page) == 0 && rdfax_text(&page, 0, room, sizeof room) == 0);
    CHECK(!rdfax_fault(&page, &fault) && fault.kind == 99 && fault.token == 98 && fault.at == 97);
    CHECK(rdfax_fault_name(&page, room, sizeof room) == 0);
    CHECK(rdfax_nodes(&page) == 0 && rdfax_quad_count(&page) == 0);
    CHECK(rdfax_quad(&page, 0, &terms) == RDFAX_USAGE && terms.subject.kind == 99);
    rdfax_close(&page);
}

/* A page from its opening to its end, with each empty buffer. */
static void a_text(void) {
    rdfax_page page = RDFAX_NO_PAGE;
    char room[256];
    CHECK(extraction(RDFAX_NQUADS, 0, &page) == RDFAX_DONE);
    CHECK(rdfax_feed(&page, NONE) == RDFAX_DONE);
    CHECK(rdfax_feed(&page, TEXT(ANVIL)) == RDFAX_DONE);
    CHECK(rdfax_status(&page) == RDFAX_READING && rdfax_text_length(&page) == 0);
    CHECK(rdfax_finish(&page) == RDFAX_DONE && rdfax_finish(&page) == RDFAX_DONE);
    CHECK(rdfax_status(&page) == RDFAX_DONE && rdfax_feed(&page, NONE) == RDFAX_USAGE);
    size_t length = strlen(LINE);
    CHECK(rdfax_text_length(&page) == length && rdfax_text(&page, 0, room, sizeof room) == length);
    CHECK(memcmp(room, LINE, length) == 0);
    CHECK(rdfax_text(&page, 0, NONE) == 0);
    CHECK(rdfax_text(&page, length - 2, room, sizeof room) == 2 && memcmp(room, ".\n", 2) == 0);
    CHECK(rdfax_text(&page, length, room, sizeof room) == 0 && rdfax_text(&page, SIZE_MAX, room, sizeof room) == 0);
    rdfax_terms terms = {.subject = {.kind = 99}};
    CHECK(rdfax_quad_count(&page) == 0 && rdfax_nodes(&page) == 0);
    CHECK(rdfax_quad(&page, 0, &terms) == RDFAX_USAGE && terms.subject.kind == 99);
    CHECK(rdfax_items(RDFAX_HTML, TEXT(BASE), &page) == RDFAX_DONE && rdfax_status(&page) == RDFAX_READING);
    rdfax_close(&page);
    rdfax_close(&page);
    CHECK(rdfax_status(&page) == RDFAX_USAGE);
}

static void a_fault(void) {
    rdfax_page page = RDFAX_NO_PAGE;
    rdfax_fault_place fault;
    char room[8] = "-------";
    CHECK(rdfax_check(RDFAX_HTML, NONE, &page) == RDFAX_DONE);
    CHECK(rdfax_feed(&page, TEXT("<html></p>")) == RDFAX_REFUSED);
    CHECK(rdfax_feed(&page, NONE) == RDFAX_REFUSED && rdfax_finish(&page) == RDFAX_REFUSED && rdfax_status(&page) == RDFAX_REFUSED);
    CHECK(rdfax_fault(&page, &fault) && fault.kind == RDFAX_FAULT_MISMATCH && fault.token == 6 && fault.at == 9);
    CHECK(rdfax_fault_name(&page, NONE) == 8 && rdfax_fault_name(&page, room, 3) == 8 && memcmp(room, "Mis----", 7) == 0);
    CHECK(rdfax_fault_name(&page, room, sizeof room) == 8 && memcmp(room, "Mismatch", 8) == 0);
    CHECK(rdfax_text_length(&page) == 0 && rdfax_quad_count(&page) == 0 && rdfax_nodes(&page) == 0);
    rdfax_terms terms = {.subject = {.kind = 99}};
    CHECK(rdfax_quad(&page, 0, &terms) == RDFAX_USAGE && terms.subject.kind == 99);
    rdfax_close(&page);
}

/* What HTML refuses and XHTML doesn't. */
static void syntaxes(void) {
    static const struct {
        uint32_t syntax, status;
    } rows[] = {{RDFAX_HTML, RDFAX_REFUSED}, {RDFAX_XHTML, RDFAX_DONE}};
    for (size_t i = 0; i < 2; i++) {
        rdfax_page page = RDFAX_NO_PAGE;
        rdfax_fault_place fault = {0, 0, 0};
        CHECK(rdfax_check(rows[i].syntax, NONE, &page) == RDFAX_DONE);
        CHECK(rdfax_feed(&page, TEXT("<html><p/></html>")) == rows[i].status && rdfax_finish(&page) == rows[i].status);
        CHECK(!rdfax_fault(&page, &fault) || fault.kind == RDFAX_FAULT_SELF_CLOSED);
        rdfax_close(&page);
    }
}

/* The fault of a page that begins so and goes on with this many pieces of a mebibyte, all spaces. */
static void too_long(const char *begin, int pieces, rdfax_fault_place wanted) {
    static char spaces[1 << 20];
    memset(spaces, ' ', sizeof spaces);
    rdfax_page page = RDFAX_NO_PAGE;
    rdfax_fault_place fault = {0, 0, 0};
    CHECK(rdfax_check(RDFAX_HTML, NONE, &page) == RDFAX_DONE);
    uint32_t status = rdfax_feed(&page, TEXT(begin));
    for (int i = 0; i < pieces && status == RDFAX_DONE; i++)
        status = rdfax_feed(&page, spaces, sizeof spaces);
    CHECK(status == RDFAX_REFUSED && rdfax_fault(&page, &fault));
    CHECK(fault.kind == wanted.kind && fault.token == wanted.token && fault.at == wanted.at);
    rdfax_close(&page);
}

static bool is(rdfax_bytes bytes, const char *text) {
    return bytes.length == strlen(text) && (bytes.length == 0 || memcmp(bytes.bytes, text, bytes.length) == 0);
}

static void quads(void) {
    rdfax_page page = RDFAX_NO_PAGE;
    rdfax_terms terms = {.subject = {.kind = 99}};
    CHECK(extraction(RDFAX_QUADS, 0, &page) == RDFAX_DONE);
    CHECK(rdfax_feed(&page, TEXT(ANVIL)) == RDFAX_DONE && rdfax_quad_count(&page) == 0 && rdfax_quad(&page, 0, &terms) == RDFAX_USAGE);
    CHECK(rdfax_finish(&page) == RDFAX_DONE && rdfax_quad_count(&page) == 1 && rdfax_text_length(&page) == 0);
    CHECK(rdfax_quad(&page, 1, &terms) == RDFAX_USAGE && rdfax_quad(&page, SIZE_MAX, &terms) == RDFAX_USAGE);
    CHECK(terms.subject.kind == 99 && rdfax_status(&page) == RDFAX_DONE);
    CHECK(rdfax_quad(&page, 0, &terms) == RDFAX_DONE);
    CHECK(terms.subject.kind == RDFAX_IRI && is(terms.subject.text, BASE));
    CHECK(terms.predicate.kind == RDFAX_IRI && is(terms.predicate.text, "http://purl.org/dc/terms/title"));
    CHECK(terms.object.kind == RDFAX_LITERAL && is(terms.object.text, "Anvil"));
    CHECK(is(terms.object.language, "") && is(terms.object.datatype, "") && terms.graph.kind == RDFAX_NOTHING);
    rdfax_close(&page);
}

/* Two pages put together: the nodes of the second come after those of the first. */
static void nodes(void) {
    uint64_t first = (1ULL << 63) - 1;
    const char *labels[] = {"b9223372036854775807", "b9223372036854775808"};
    for (int i = 0; i < 2; i++) {
        rdfax_page page = RDFAX_NO_PAGE;
        rdfax_terms terms;
        CHECK(extraction(RDFAX_QUADS, first, &page) == RDFAX_DONE && rdfax_nodes(&page) == 0);
        CHECK(rdfax_feed(&page, TEXT(BLANK)) == RDFAX_DONE && rdfax_finish(&page) == RDFAX_DONE);
        CHECK(rdfax_quad(&page, 0, &terms) == RDFAX_DONE && terms.subject.kind == RDFAX_BLANK && is(terms.subject.text, labels[i]));
        CHECK(rdfax_nodes(&page) == 1);
        first += rdfax_nodes(&page);
        rdfax_close(&page);
    }
}

/* The sentence of each kind's number, a line each. */
static void print_sentences(void) {
    CHECK(rdfax_kind_sentence(0) == NULL && rdfax_kind_sentence(UINT32_MAX) == NULL);
    for (uint32_t kind = 1; rdfax_kind_sentence(kind) != NULL; kind++)
        puts(rdfax_kind_sentence(kind));
}

int main(int count, char **words) {
    CHECK(count >= 2 && strcmp(rdfax_version(), words[1]) == 0 && strcmp(RDFAX_VERSION, words[1]) == 0);
    refused_options();
    refused_tasks();
    no_page();
    a_text();
    a_fault();
    syntaxes();
    too_long("<html><p title=\"", 2, (rdfax_fault_place){RDFAX_FAULT_TAG_TOO_LONG, 6, 6 + (1 << 20)});
    if (count == 3)
        too_long("<html>", 1025, (rdfax_fault_place){RDFAX_FAULT_PAGE_TOO_LONG, 1 << 30, 1 << 30});
    quads();
    nodes();
    print_sentences();
    return wrong != 0;
}
