/* rdfax-mend: the page on standard input, mended, to standard output. */
#include "buffer.h"
#include "rdfax_mend.h"
#include <errno.h>
#include <stdio.h>
#include <stdlib.h>
#include <string.h>
#include <sysexits.h>
#include <unistd.h>

enum { PIECE = 1 << 16 };

typedef struct {
    rdfax_mend_options mend;
    bool is_reported;
    bool is_places;
} words;

static int usage(void) {
    fputs("usage: rdfax-mend [--charset LABEL] [--syntax html|xhtml] [--report] [--places] <PAGE >MENDED\n", stderr);
    return EX_USAGE;
}

static bool take_value(words *asked, const char *option, const char *value) {
    if (strcmp(option, "--charset") == 0 && rdfax_mend_knows(value))
        asked->mend.charset = value;
    else if (strcmp(option, "--syntax") == 0 && strcmp(value, "html") == 0)
        asked->mend.syntax = RDFAX_MEND_HTML;
    else if (strcmp(option, "--syntax") == 0 && strcmp(value, "xhtml") == 0)
        asked->mend.syntax = RDFAX_MEND_XHTML;
    else
        return false;
    return true;
}

static bool take_words(int count, char **given, words *asked) {
    for (int at = 1; at < count; at++) {
        if (strcmp(given[at], "--report") == 0)
            asked->is_reported = true;
        else if (strcmp(given[at], "--places") == 0)
            asked->is_places = true;
        else if (at + 1 < count && take_value(asked, given[at], given[at + 1]))
            at++;
        else
            return false;
    }
    return true;
}

static int read_all(buffer *page) {
    for (;;) {
        if (!buffer_reserve(page, PIECE))
            return EX_OSERR;
        ssize_t count = read(STDIN_FILENO, page->bytes + page->length, PIECE);
        if (count == 0)
            return EX_OK;
        if (count > 0)
            page->length += (size_t)count;
        else if (errno != EINTR)
            return EX_IOERR;
    }
}

static int write_all(const uint8_t *bytes, size_t length) {
    while (length != 0) {
        ssize_t count = write(STDOUT_FILENO, bytes, length);
        if (count < 0 && errno == EINTR)
            continue;
        if (count < 0)
            return EX_IOERR;
        bytes += count;
        length -= (size_t)count;
    }
    return EX_OK;
}

/* One line of JSON: the charset, how it was found, and how often each kind of change was made. */
static void report(const rdfax_mended *mended) {
    const rdfax_mend_changes *changes = &mended->changes;
    const struct {
        const char *kind;
        uint64_t count;
    } rows[] = {
        {"characters", changes->characters}, {"token_errors", changes->token_errors}, {"tree_errors", changes->tree_errors},
        {"implied", changes->implied},       {"comments", changes->comments},         {"templates", changes->templates},
        {"attributes", changes->attributes}, {"names", changes->names},               {"spans", changes->spans},
        {"raw", changes->raw},               {"doctypes", changes->doctypes},
    };
    fprintf(stderr, "{\"charset\": \"%s\", \"found\": \"%s\", \"changes\": {", mended->charset, rdfax_mend_found_name(mended->found));
    for (size_t at = 0; at < sizeof rows / sizeof *rows; at++)
        fprintf(stderr, "%s\"%s\": %llu", at != 0 ? ", " : "", rows[at].kind, (unsigned long long)rows[at].count);
    fputs("}}\n", stderr);
}

/* A line for each start tag: its place in the mended page, and that of its token in the original. */
static void tell_places(const rdfax_mended *mended) {
    for (size_t at = 0; at < mended->place_count; at++)
        fprintf(stderr, "%zu\t%zu\n", mended->places[at].mended, mended->places[at].original);
}

static int mend(const words *asked, const buffer *page) {
    rdfax_mended mended;
    uint32_t status = rdfax_mend(page->bytes, page->length, &asked->mend, &mended);
    int answer = status == RDFAX_MEND_NO_MEMORY ? EX_OSERR : EX_DATAERR;
    if (status == RDFAX_MEND_REFUSED)
        fprintf(stderr, "refused: %s\n", rdfax_mend_refusal_name(mended.refusal));
    if (status == RDFAX_MEND_DONE) {
        answer = write_all(mended.page, mended.length);
        if (asked->is_reported)
            report(&mended);
        if (asked->is_places)
            tell_places(&mended);
    }
    rdfax_mended_free(&mended);
    return answer;
}

int main(int count, char **given) {
    words asked = {0};
    if (!take_words(count, given, &asked))
        return usage();
    buffer page = {0};
    int status = read_all(&page);
    if (status == EX_OK)
        status = mend(&asked, &page);
    buffer_free(&page);
    return status;
}
