/* Two threads, with a page each at a time, and each page handed to the other thread before it ends: ./threads COUNT */
#include <pthread.h>
#include <rdfax.h>
#include <stdio.h>
#include <stdlib.h>
#include <string.h>

static const char BASE[] = "http://h.example/d", PAGE[] = "<html vocab=\"http://v.example/\"><p typeof=\"A\" property=\"p\">x</p></html>";

typedef struct {
    int count;
    uint32_t format;
    rdfax_page last;
    bool is_right;
} work;

static bool begin(rdfax_page *page, uint32_t format) {
    rdfax_options options = {RDFAX_HTML, format, 0};
    return rdfax_extract(&options, BASE, strlen(BASE), NULL, 0, NULL, 0, page) == RDFAX_DONE && rdfax_feed(page, PAGE, 40) == RDFAX_DONE;
}

static bool end(rdfax_page *page, uint32_t format) {
    bool is_right = rdfax_feed(page, PAGE + 40, strlen(PAGE) - 40) == RDFAX_DONE && rdfax_finish(page) == RDFAX_DONE;
    is_right = is_right && (format == RDFAX_QUADS ? rdfax_quad_count(page) == 3 : rdfax_text_length(page) != 0);
    rdfax_close(page);
    return is_right;
}

static void *run(void *given) {
    work *work = given;
    for (int i = 0; i < work->count; i++) {
        rdfax_page page = RDFAX_NO_PAGE;
        work->is_right = begin(&page, work->format) && end(&page, work->format) && work->is_right;
    }
    work->is_right = begin(&work->last, work->format) && work->is_right;
    return NULL;
}

static void *run_rest(void *given) {
    work *work = given;
    work->is_right = end(&work->last, work->format) && work->is_right;
    return NULL;
}

int main(int count, char **words) {
    int pages = count == 2 ? atoi(words[1]) : 1000;
    work works[2] = {{pages, RDFAX_QUADS, RDFAX_NO_PAGE, true}, {pages, RDFAX_TURTLE, RDFAX_NO_PAGE, true}};
    void *(*const runs[])(void *) = {run, run_rest};
    for (int turn = 0; turn < 2; turn++) {
        pthread_t threads[2];
        for (int i = 0; i < 2; i++)
            if (pthread_create(&threads[i], NULL, runs[turn], &works[turn == 0 ? i : 1 - i]) != 0)
                return 70;
        for (int i = 0; i < 2; i++)
            pthread_join(threads[i], NULL);
    }
    if (!works[0].is_right || !works[1].is_right)
        fputs("threads: an answer was wrong\n", stderr);
    return !works[0].is_right || !works[1].is_right;
}
