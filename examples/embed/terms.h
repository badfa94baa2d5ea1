/* Terms as lines of JSON, which quads.c and pages.c print: an array of four texts, what the term is (iri, blank, literal or
 * nothing), its text, its language and its datatype. */
#include <rdfax.h>
#include <stdio.h>

static const char *name_of(uint32_t kind) {
    switch (kind) {
    case RDFAX_NOTHING:
        return "nothing";
    case RDFAX_IRI:
        return "iri";
    case RDFAX_BLANK:
        return "blank";
    case RDFAX_LITERAL:
        return "literal";
    default:
        return "unknown";
    }
}

static void print_bytes(FILE *out, rdfax_bytes text) {
    fputc('"', out);
    for (size_t i = 0; i < text.length; i++) {
        unsigned char byte = (unsigned char)text.bytes[i];
        fprintf(out, byte < 0x20 || byte == '"' || byte == '\\' ? "\\u%04x" : "%c", byte);
    }
    fputc('"', out);
}

static void print_term(FILE *out, const rdfax_term *term) {
    fprintf(out, "[\"%s\",", name_of(term->kind));
    print_bytes(out, term->text);
    fputc(',', out);
    print_bytes(out, term->language);
    fputc(',', out);
    print_bytes(out, term->datatype);
    fputs("]\n", out);
}

/* Prints all quads of a finished page, four terms each. RDFAX_DONE, or the answer where one wasn't told. */
static uint32_t print_quads(FILE *out, rdfax_page *page) {
    rdfax_terms terms;
    size_t count = rdfax_quad_count(page);
    for (size_t number = 0; number < count; number++) {
        uint32_t status = rdfax_quad(page, number, &terms);
        if (status != RDFAX_DONE)
            return status;
        print_term(out, &terms.subject);
        print_term(out, &terms.predicate);
        print_term(out, &terms.object);
        print_term(out, &terms.graph);
    }
    return RDFAX_DONE;
}
