/* Does the jobs of a list, two pages in turn: ./pages LIST
 *
 * Each line of the list is a job of nine words with tabs between them: extract, items or check; html or xhtml; nquads,
 * turtle, nested, jsonld or quads; the base; the name of the graph; the context file; the number of the first node; the
 * page's file; and how many bytes a piece has. `-` stands for none. Of each job a line is written, with its status, the
 * length of its text and how many blank nodes it has or, where it was refused, the number of the fault's kind and the fault;
 * and behind it the text. Quads are written as terms.h tells. */
#define _POSIX_C_SOURCE 200809L
#include "terms.h"
#include <stdlib.h>
#include <string.h>

enum { WORDS = 9, ROOM = 1 << 16 };
enum { TASK, SYNTAX, FORMAT, BASE, GRAPH, CONTEXT, NODE, PAGE, PIECE };

typedef struct {
    char *at;
    size_t length;
} bytes;

typedef struct {
    char line[ROOM];
    char *words[WORDS];
    bytes file, context;
    size_t from;
    uint32_t status;
    bool opened;
    uint32_t told;
    rdfax_page page;
} job;

static void fail(const char *what) {
    perror(what);
    exit(70);
}

static bytes read_file(const char *name) {
    FILE *file = fopen(name, "rb");
    if (file == NULL || fseek(file, 0, SEEK_END) != 0)
        fail(name);
    bytes found = {NULL, (size_t)ftell(file)};
    rewind(file);
    found.at = malloc(found.length + 1);
    if (found.at == NULL || fread(found.at, 1, found.length, file) != found.length)
        fail(name);
    fclose(file);
    return found;
}

static bool given(const char *word) {
    return strcmp(word, "-") != 0;
}

static bytes of_word(char *word) {
    return given(word) ? (bytes){word, strlen(word)} : (bytes){NULL, 0};
}

static uint32_t syntax_of(const char *word) {
    return strcmp(word, "xhtml") == 0 ? RDFAX_XHTML : RDFAX_HTML;
}

static uint32_t format_of(const char *word) {
    static const struct {
        const char *name;
        uint32_t number;
    } formats[] = {{"nquads", RDFAX_NQUADS}, {"turtle", RDFAX_TURTLE}, {"nested", RDFAX_NESTED}, {"jsonld", RDFAX_JSONLD}, {"quads", RDFAX_QUADS}};
    for (size_t i = 0; i < sizeof formats / sizeof *formats; i++)
        if (strcmp(word, formats[i].name) == 0)
            return formats[i].number;
    fail(word);
    return 0;
}

/* Cuts a line at its tabs. */
static void cut(char *line, char **words) {
    char *rest = line;
    for (int i = 0; i < WORDS; i++) {
        words[i] = rest;
        rest += strcspn(rest, "\t\n");
        if (*rest == 0 && i + 1 < WORDS)
            fail("a line has too few words");
        *rest++ = 0;
    }
}

static uint32_t open_page(job *job) {
    char **words = job->words;
    bytes base = of_word(words[BASE]), graph = of_word(words[GRAPH]), context = job->context;
    uint32_t syntax = syntax_of(words[SYNTAX]);
    if (strcmp(words[TASK], "items") == 0)
        return rdfax_items(syntax, base.at, base.length, &job->page);
    if (strcmp(words[TASK], "check") == 0)
        return rdfax_check(syntax, context.at, context.length, &job->page);
    rdfax_options options = {syntax, format_of(words[FORMAT]), strtoull(words[NODE], NULL, 10)};
    return rdfax_extract(&options, base.at, base.length, graph.at, graph.length, context.at, context.length, &job->page);
}

/* Reads the next job of the list and opens its page. */
static bool begin(job *job, FILE *list) {
    if (fgets(job->line, sizeof job->line, list) == NULL)
        return false;
    cut(job->line, job->words);
    job->page = (rdfax_page)RDFAX_NO_PAGE;
    job->file = read_file(job->words[PAGE]);
    job->context = given(job->words[CONTEXT]) ? read_file(job->words[CONTEXT]) : (bytes){NULL, 0};
    job->from = 0;
    job->told = RDFAX_DONE;
    job->status = open_page(job);
    job->opened = job->status == RDFAX_DONE;
    return true;
}

/* Feeds the next piece, or finishes the page. */
static bool goes_on(job *job) {
    if (job->status != RDFAX_DONE)
        return false;
    size_t left = job->file.length - job->from, size = strtoul(job->words[PIECE], NULL, 10);
    if (left == 0) {
        job->status = rdfax_finish(&job->page);
        return false;
    }
    if (size > left)
        size = left;
    job->status = rdfax_feed(&job->page, job->file.at + job->from, size);
    job->from += size;
    return true;
}

/* A stream to a text, which the caller frees. */
static FILE *stream_to(bytes *text) {
    *text = (bytes){NULL, 0};
    FILE *out = open_memstream(&text->at, &text->length);
    if (out == NULL)
        fail("open_memstream");
    return out;
}

/* Writes the quads of a page, or nothing where one wasn't told. */
static bytes written_quads(job *job) {
    bytes text;
    FILE *out = stream_to(&text);
    job->told = print_quads(out, &job->page);
    fclose(out);
    if (job->told != RDFAX_DONE)
        text.length = 0;
    return text;
}

/* The text of a page, in small pieces. */
static bytes copied_text(rdfax_page *page) {
    char room[1021];
    bytes text;
    FILE *out = stream_to(&text);
    for (size_t from = 0, count; (count = rdfax_text(page, from, room, sizeof room)) != 0; from += count)
        fwrite(room, 1, count, out);
    fclose(out);
    return text;
}

static void tell_fault(rdfax_page *page) {
    char name[64];
    rdfax_fault_place fault;
    size_t count = rdfax_fault_name(page, NULL, 0);
    if (rdfax_fault(page, &fault) && count <= sizeof name && rdfax_fault_name(page, name, sizeof name) == count)
        printf(" %u %.*s at byte %llu in token %llu", (unsigned)fault.kind, (int)count, name, (unsigned long long)fault.at, (unsigned long long)fault.token);
}

/* What was answered has to come again. */
static void see_that_it_stays(job *job) {
    rdfax_page *page = &job->page;
    uint32_t fed = job->status == RDFAX_DONE ? RDFAX_USAGE : job->status;
    if (job->opened && (rdfax_finish(page) != job->status || rdfax_status(page) != job->status || rdfax_feed(page, "x", 1) != fed))
        fail("an answer changed");
}

/* Writes what came of a job, and lets it go. */
static void end(job *job) {
    rdfax_page *page = &job->page;
    bytes text = rdfax_quad_count(page) != 0 ? written_quads(job) : copied_text(page);
    uint32_t status = job->told != RDFAX_DONE ? job->told : job->status;
    printf("%u %zu", (unsigned)status, text.length);
    if (status == RDFAX_DONE)
        printf(" %llu", (unsigned long long)rdfax_nodes(page));
    tell_fault(page);
    printf("\n");
    fwrite(text.at, 1, text.length, stdout);
    see_that_it_stays(job);
    rdfax_close(page);
    if (rdfax_status(page) != RDFAX_USAGE)
        fail("a page is open that was closed");
    free(text.at);
    free(job->file.at);
    free(job->context.at);
}

int main(int count, char **words) {
    static job jobs[2];
    FILE *list = count == 2 ? fopen(words[1], "r") : NULL;
    if (list == NULL)
        fail("pages LIST");
    while (begin(&jobs[0], list)) {
        bool two = begin(&jobs[1], list);
        bool first = true, second = two;
        while (first || second) {
            first = first && goes_on(&jobs[0]);
            second = second && goes_on(&jobs[1]);
        }
        end(&jobs[0]);
        if (two)
            end(&jobs[1]);
    }
    fclose(list);
    return 0;
}
