#include "parse.h"
#include "rdfax_mend.h"
#include <string.h>

enum { OPEN_LIMIT = 2 * PARSE_DEPTH, ATTRIBUTE_LIMIT = 1024, NAME_LIMIT = 8192 };

/* How many bytes are parsed between two looks at the names and at a tag that isn't whole. */
#ifndef PARSE_PIECE
#define PARSE_PIECE ((size_t)1 << 18)
#endif

/* How much memory an arena of lexbor's has taken, told without going through it again. */
typedef struct {
    const lexbor_mem_t *arena;
    const lexbor_mem_chunk_t *last;
    size_t bytes;
} meter;

/* What is kept while a page is parsed. */
typedef struct {
    lxb_html_parser_t *parser;
    lxb_html_tokenizer_token_f build; /* the call by which lexbor's tree takes a token */
    void *build_context;
    lxb_dom_document_mutation_cb_t watch;
    const lxb_dom_document_mutation_cb_t *watched;
    const unsigned char *text;
    const unsigned char *end;
    const unsigned char *token; /* the first byte of the token that is being read */
    size_t root_attributes;     /* of all html and body tags */
    size_t memory;
    meter nodes;
    meter strings;
    uint32_t refusal;
    uint64_t nulls;
    uint64_t repeated; /* attributes that were dropped, since their tags have them before */
} watcher;

static size_t measured(meter *counted) {
    for (const lexbor_mem_chunk_t *chunk = counted->arena->chunk; chunk != NULL && chunk != counted->last; chunk = chunk->prev)
        counted->bytes += chunk->size;
    counted->last = counted->arena->chunk;
    return counted->bytes;
}

/* ---------- limits ---------- */

static size_t attribute_count(const lxb_html_token_t *token) {
    size_t count = 0;
    for (const lxb_html_token_attr_t *attribute = token->attr_first; attribute != NULL; attribute = attribute->next)
        count++;
    return count;
}

static bool has_too_many_attributes(watcher *page, const lxb_html_token_t *token) {
    size_t count = attribute_count(token);
    if (token->tag_id == LXB_TAG_HTML || token->tag_id == LXB_TAG_BODY)
        count = page->root_attributes += count;
    return count > ATTRIBUTE_LIMIT;
}

static bool has_too_many_names(const watcher *page) {
    const lxb_html_tokenizer_t *tokenizer = page->parser->tkz;
    return lexbor_hash_entries_count(tokenizer->attrs) > NAME_LIMIT || lexbor_hash_entries_count(tokenizer->tags) > NAME_LIMIT;
}

static uint32_t limit_before(watcher *page, const lxb_html_token_t *token) {
    if (token->attr_first != NULL && has_too_many_attributes(page, token))
        return RDFAX_MEND_TOO_MANY_ATTRIBUTES;
    return has_too_many_names(page) ? RDFAX_MEND_TOO_MANY_NAMES : RDFAX_MEND_NO_REFUSAL;
}

static uint32_t limit_after(watcher *page) {
    if (lexbor_array_length(page->parser->tree->open_elements) > OPEN_LIMIT)
        return RDFAX_MEND_TOO_DEEP;
    if (measured(&page->nodes) + measured(&page->strings) > page->memory)
        return RDFAX_MEND_TREE_TOO_LARGE;
    return RDFAX_MEND_NO_REFUSAL;
}

/* ---------- places ---------- */

static bool is_unplaced(const lxb_dom_node_t *node) {
    return node->type == LXB_DOM_NODE_TYPE_ELEMENT && node->user == NULL;
}

static lxb_dom_node_t *open_element(const watcher *page, size_t at) {
    return lexbor_array_get(page->parser->tree->open_elements, at);
}

/* an element was put into the tree */
static lxb_status_t inserted(lxb_dom_node_t *node) {
    watcher *page = node->owner_document->user;
    if (is_unplaced(node))
        node->user = (void *)(uintptr_t)page->token;
    return page->watched != NULL && page->watched->inserted != NULL ? page->watched->inserted(node) : LXB_STATUS_OK;
}

/* What is put before a table isn't told by `inserted`: it is among the open elements, or stands directly before the table. */
static void place_before_tables(watcher *page) {
    for (size_t at = lexbor_array_length(page->parser->tree->open_elements); at > 0; at--) {
        lxb_dom_node_t *node = open_element(page, at - 1);
        if (is_unplaced(node))
            node->user = (void *)(uintptr_t)page->token;
        if (node->local_name != LXB_TAG_TABLE)
            continue;
        for (node = node->prev; node != NULL && is_unplaced(node); node = node->prev)
            node->user = (void *)(uintptr_t)page->token;
        return;
    }
}

static void place_open_elements(watcher *page) {
    for (size_t at = lexbor_array_length(page->parser->tree->open_elements); at > 0; at--) {
        lxb_dom_node_t *node = open_element(page, at - 1);
        if (!is_unplaced(node))
            return;
        node->user = (void *)(uintptr_t)page->token;
    }
}

/* Whether the token may have put elements elsewhere than at the end of what is open. */
static bool moves_elements(const watcher *page, lxb_tag_id_t tag) {
    switch (tag) {
    case LXB_TAG_A: case LXB_TAG_B: case LXB_TAG_BIG: case LXB_TAG_CODE: case LXB_TAG_EM: case LXB_TAG_FONT: case LXB_TAG_I:
    case LXB_TAG_NOBR: case LXB_TAG_S: case LXB_TAG_SMALL: case LXB_TAG_STRIKE: case LXB_TAG_STRONG: case LXB_TAG_TT: case LXB_TAG_U:
        return true;
    default:
        break;
    }
    size_t open = lexbor_array_length(page->parser->tree->open_elements);
    switch (open != 0 ? open_element(page, open - 1)->local_name : LXB_TAG__UNDEF) {
    case LXB_TAG_TABLE: case LXB_TAG_TBODY: case LXB_TAG_TFOOT: case LXB_TAG_THEAD: case LXB_TAG_TR:
        return true;
    default:
        return false;
    }
}

/* ---------- tokens ---------- */

static bool is_repeated(const lxb_html_token_t *token, const lxb_html_token_attr_t *attribute) {
    for (const lxb_html_token_attr_t *before = token->attr_first; before != attribute; before = before->next)
        if (before->name == attribute->name)
            return true;
    return false;
}

/* Of attributes of one name the first stays. lexbor would look for them while it reads the tag, however many there are. */
static void drop_repeated(watcher *page, lxb_html_token_t *token) {
    lxb_html_token_attr_t *attribute = token->attr_first, *next;
    for (; attribute != NULL; attribute = next) {
        next = attribute->next;
        if (!is_repeated(token, attribute))
            continue;
        lxb_html_token_attr_delete(token, attribute, page->parser->tkz->dobj_token_attr);
        page->repeated++;
    }
}

static lxb_html_token_t *refuse(watcher *page, lxb_html_tokenizer_t *tokenizer, uint32_t refusal) {
    page->refusal = refusal;
    tokenizer->status = LXB_STATUS_STOPPED;
    return NULL;
}

/* The token's first byte. lexbor's `begin` stands behind the `<` or `</` of a tag. */
static const unsigned char *first_byte(const watcher *page, const lxb_html_token_t *token) {
    const unsigned char *at = token->begin;
    if (at < page->text || at >= page->end || token->tag_id == LXB_TAG__END_OF_FILE)
        return page->end;
    if (token->tag_id < LXB_TAG__BEGIN && token->tag_id != LXB_TAG__UNDEF)
        return at;
    for (int back = 0; back < 2 && at > page->text && *at != '<'; back++)
        at--;
    return *at == '<' ? at : token->begin;
}

static lxb_html_token_t *take_token(lxb_html_tokenizer_t *tokenizer, lxb_html_token_t *token, void *context) {
    watcher *page = context;
    page->token = first_byte(page, token);
    page->nulls += token->null_count;
    uint32_t refusal = limit_before(page, token);
    if (refusal != RDFAX_MEND_NO_REFUSAL)
        return refuse(page, tokenizer, refusal);
    drop_repeated(page, token);
    lxb_tag_id_t tag = token->tag_id;
    token = page->build(tokenizer, token, page->build_context);
    if (moves_elements(page, tag))
        place_before_tables(page);
    else
        place_open_elements(page);
    refusal = limit_after(page);
    return refusal != RDFAX_MEND_NO_REFUSAL ? refuse(page, tokenizer, refusal) : token;
}

/* ---------- a page ---------- */

static void watch(watcher *page, lxb_html_document_t *document) {
    lxb_dom_document_t *dom = lxb_dom_interface_document(document);
    lxb_html_tokenizer_t *tokenizer = page->parser->tkz;
    page->build = tokenizer->callback_token_done;
    page->build_context = tokenizer->callback_token_ctx;
    lxb_html_tokenizer_callback_token_done_set(tokenizer, take_token, page);
    lxb_html_tokenizer_keep_duplicate_set(tokenizer, true);
    page->nodes.arena = dom->mraw->mem;
    page->strings.arena = dom->text->mem;
    page->watched = dom->mutation;
    if (dom->mutation != NULL)
        page->watch = *dom->mutation;
    page->watch.inserted = inserted;
    dom->mutation = &page->watch;
    dom->user = page;
}

/* The length of the next piece. It ends behind a character that stands in no keyword: lexbor 3.0.1 loses the text behind a
 * document type whose keyword PUBLIC or SYSTEM is cut. */
static size_t piece_at(const unsigned char *at, const unsigned char *end) {
    size_t left = (size_t)(end - at), length = PARSE_PIECE;
    while (length < left && memchr("\t\n\f\r />\"'", at[length - 1], 9) == NULL)
        length++;
    return length < left ? length : left;
}

/* False where it was stopped, or there was no memory. */
static bool parse_pieces(watcher *page) {
    for (const unsigned char *at = page->text; at < page->end;) {
        size_t length = piece_at(at, page->end);
        if (lxb_html_parse_chunk_process(page->parser, at, length) != LXB_STATUS_OK)
            return false;
        at += length;
        if (has_too_many_names(page))
            page->refusal = RDFAX_MEND_TOO_MANY_NAMES;
        if (attribute_count(page->parser->tkz->token) > ATTRIBUTE_LIMIT)
            page->refusal = RDFAX_MEND_TOO_MANY_ATTRIBUTES;
        if (page->refusal != RDFAX_MEND_NO_REFUSAL)
            return false;
    }
    return lxb_html_parse_chunk_end(page->parser) == LXB_STATUS_OK;
}

static bool run(watcher *page, parsed *tree) {
    lxb_html_parser_scripting_set(page->parser, false);
    tree->document = lxb_html_parse_chunk_begin(page->parser);
    if (tree->document == NULL)
        return false;
    watch(page, tree->document);
    bool done = parse_pieces(page);
    tree->refusal = page->refusal;
    tree->token_errors = lexbor_array_obj_length(page->parser->tkz->parse_errors) + page->repeated;
    tree->tree_errors = lexbor_array_obj_length(page->parser->tree->parse_errors);
    tree->nulls = page->nulls;
    lxb_dom_interface_document(tree->document)->mutation = page->watched;
    lxb_dom_interface_document(tree->document)->user = NULL;
    return done || page->refusal != RDFAX_MEND_NO_REFUSAL;
}

bool parse_text(const unsigned char *text, size_t length, size_t memory, parsed *tree) {
    *tree = (parsed){0};
    watcher page = {.parser = lxb_html_parser_create(), .text = text, .end = text + length, .token = text, .memory = memory};
    bool done = lxb_html_parser_init(page.parser) == LXB_STATUS_OK && run(&page, tree);
    lxb_html_parser_destroy(page.parser);
    if (!done)
        parse_free(tree);
    return done;
}

void parse_free(parsed *tree) {
    if (tree->document != NULL)
        lxb_html_document_destroy(tree->document);
    tree->document = NULL;
}
