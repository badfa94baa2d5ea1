#include "rdfax_mend.h"
#include "charset.h"
#include "parse.h"
#include "spell.h"
#include <stdlib.h>
#include <string.h>

static const size_t PAGE_LIMIT = (size_t)1 << 30;

/* What the parser's tree may take where the options don't say: more than a tree does in which nothing is opened again. */
static size_t usual_memory(size_t length) {
    static const size_t base = (size_t)16 << 20, each = 160, most = (size_t)1 << 30;
    return length < (most - base) / each ? base + each * length : most;
}

static const char *const FOUND[] = {"bom", "caller", "declaration", "validity", "default"};
static const char *const REFUSALS[] = {"", "TooDeep", "TagTooLong", "PageTooLong", "TooManyAttributes", "TooManyNames", "TreeTooLarge"};

enum { FOUND_COUNT = sizeof FOUND / sizeof *FOUND, REFUSAL_COUNT = sizeof REFUSALS / sizeof *REFUSALS };

const char *rdfax_mend_found_name(uint32_t found) {
    return found < FOUND_COUNT ? FOUND[found] : NULL;
}

const char *rdfax_mend_refusal_name(uint32_t refusal) {
    return refusal != RDFAX_MEND_NO_REFUSAL && refusal < REFUSAL_COUNT ? REFUSALS[refusal] : NULL;
}

bool rdfax_mend_knows(const char *label) {
    return charset_named((const unsigned char *)label, strlen(label)) != NULL;
}

/* ---------- a declaration that the parser meets ---------- */

static lxb_dom_node_t *next_node(lxb_dom_node_t *node) {
    if (node->first_child != NULL)
        return node->first_child;
    while (node->next == NULL) {
        node = node->parent;
        if (node == NULL)
            return NULL;
    }
    return node->next;
}

static bool is_content_type(lxb_dom_element_t *meta) {
    size_t length = 0;
    const lxb_char_t *value = lxb_dom_element_get_attribute(meta, (const lxb_char_t *)"http-equiv", 10, &length);
    return value != NULL && length == 12 && lexbor_str_data_ncasecmp(value, (const lxb_char_t *)"content-type", 12);
}

static const lxb_encoding_data_t *meta_encoding(lxb_dom_element_t *meta) {
    size_t length = 0;
    const lxb_char_t *value = lxb_dom_element_get_attribute(meta, (const lxb_char_t *)"charset", 7, &length);
    const lxb_encoding_data_t *encoding = value != NULL ? charset_declared(value, length) : NULL;
    if (encoding != NULL || !is_content_type(meta))
        return encoding;
    value = lxb_dom_element_get_attribute(meta, (const lxb_char_t *)"content", 7, &length);
    return value != NULL ? charset_in_content(value, length) : NULL;
}

/* The encoding that a meta element of the tree names, for a page that declares none in its first bytes (HTML, 13.2.3.4). */
static const lxb_encoding_data_t *late_declaration(lxb_html_document_t *document) {
    lxb_dom_element_t *root = lxb_dom_interface_document(document)->element;
    for (lxb_dom_node_t *node = root != NULL ? lxb_dom_interface_node(root) : NULL; node != NULL; node = next_node(node)) {
        if (node->type != LXB_DOM_NODE_TYPE_ELEMENT || node->ns != LXB_NS_HTML || node->local_name != LXB_TAG_META)
            continue;
        const lxb_encoding_data_t *encoding = meta_encoding(lxb_dom_interface_element(node));
        if (encoding != NULL)
            return encoding;
    }
    return NULL;
}

/* ---------- a page ---------- */

/* What is made of a page on the way. */
typedef struct {
    const unsigned char *bytes;
    size_t length;
    size_t memory;
    charset from;
    decoded text;
    parsed tree;
} work;

static bool decode_and_parse(work *page) {
    return charset_decode(page->bytes, page->length, page->from, &page->text) &&
           parse_text(page->text.bytes, page->text.length, page->memory, &page->tree);
}

/* Parses the page, and once more where it turns out to declare another encoding. */
static bool read_page(work *page) {
    if (!decode_and_parse(page))
        return false;
    if (page->from.found < RDFAX_MEND_BY_VALIDITY || page->tree.refusal != RDFAX_MEND_NO_REFUSAL)
        return true;
    const lxb_encoding_data_t *late = late_declaration(page->tree.document);
    if (late == NULL)
        return true;
    bool is_another = late->encoding != page->from.encoding->encoding;
    page->from = (charset){late, RDFAX_MEND_BY_DECLARATION, 0};
    if (!is_another)
        return true;
    parse_free(&page->tree);
    charset_free(&page->text);
    return decode_and_parse(page);
}

static void take_changes(const work *page, rdfax_mended *mended) {
    mended->charset = (const char *)page->from.encoding->name;
    mended->found = page->from.found;
    mended->changes.characters = page->text.malformed + page->tree.nulls;
    mended->changes.token_errors = page->tree.token_errors;
    mended->changes.tree_errors = page->tree.tree_errors;
}

static uint32_t refused(rdfax_mended *mended, uint32_t refusal) {
    mended->refusal = refusal;
    return RDFAX_MEND_REFUSED;
}

/* Whether a reader of the mended page would take it for another charset than UTF-8, since it declares that still. */
static bool misleads(const work *page, const spelled *result) {
    charset read = charset_of(result->page.bytes, result->page.length, NULL);
    const lxb_encoding_data_t *encoding = read.encoding;
    if (read.found >= RDFAX_MEND_BY_VALIDITY)
        encoding = late_declaration(page->tree.document);
    return encoding != NULL && encoding->encoding != LXB_ENCODING_UTF_8;
}

/* Puts a byte order mark, which goes before any declaration, in front of the page. */
static void put_mark(spelled *result) {
    static const char mark[] = "\xEF\xBB\xBF";
    enum { LENGTH = sizeof mark - 1 };
    if (!buffer_reserve(&result->page, LENGTH))
        return;
    memmove(result->page.bytes + LENGTH, result->page.bytes, result->page.length);
    memcpy(result->page.bytes, mark, LENGTH);
    result->page.length += LENGTH;
    rdfax_mend_place *places = (rdfax_mend_place *)(void *)result->places.bytes;
    for (size_t at = 0; at < result->places.length / sizeof *places; at++)
        places[at].mended += LENGTH;
}

/* Hands the mended page over, with its places as the original's. */
static void hand_over(const work *page, spelled *result, rdfax_mended *mended) {
    mended->page = result->page.bytes;
    mended->length = result->page.length;
    mended->places = (rdfax_mend_place *)(void *)result->places.bytes;
    mended->place_count = result->places.length / sizeof *mended->places;
    for (size_t at = 0; at < mended->place_count; at++)
        mended->places[at].original = charset_original(&page->text, mended->places[at].original);
}

static uint32_t spell_page(const work *page, uint32_t syntax, rdfax_mended *mended) {
    spelled result = {.changes = &mended->changes};
    bool done = spell(page->tree.document, page->text.bytes, page->text.length, syntax, &result);
    if (done && misleads(page, &result))
        put_mark(&result);
    done = done && !result.page.failed;
    if (done && result.refusal == RDFAX_MEND_NO_REFUSAL) {
        hand_over(page, &result, mended);
        return RDFAX_MEND_DONE;
    }
    buffer_free(&result.page);
    buffer_free(&result.places);
    return done ? refused(mended, result.refusal) : RDFAX_MEND_NO_MEMORY;
}

uint32_t rdfax_mend(const void *bytes, size_t length, const rdfax_mend_options *options, rdfax_mended *mended) {
    *mended = (rdfax_mended){0};
    if (options->syntax != RDFAX_MEND_HTML && options->syntax != RDFAX_MEND_XHTML)
        return RDFAX_MEND_USAGE;
    if (length > PAGE_LIMIT)
        return refused(mended, RDFAX_MEND_PAGE_TOO_LONG);
    work page = {.bytes = bytes, .length = length, .memory = options->memory != 0 ? options->memory : usual_memory(length)};
    page.from = charset_of(bytes, length, options->charset);
    uint32_t status = RDFAX_MEND_NO_MEMORY;
    if (read_page(&page)) {
        take_changes(&page, mended);
        status = page.tree.refusal != RDFAX_MEND_NO_REFUSAL ? refused(mended, page.tree.refusal) : spell_page(&page, options->syntax, mended);
    }
    parse_free(&page.tree);
    charset_free(&page.text);
    return status;
}

void rdfax_mended_free(rdfax_mended *mended) {
    free(mended->page);
    free(mended->places);
    *mended = (rdfax_mended){0};
}

size_t rdfax_mend_original(const rdfax_mended *mended, size_t place) {
    size_t low = 0, high = mended->place_count;
    while (low < high) {
        size_t middle = low + (high - low) / 2;
        if (mended->places[middle].mended <= place)
            low = middle + 1;
        else
            high = middle;
    }
    return low != 0 ? mended->places[low - 1].original : 0;
}
