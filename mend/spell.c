#include "spell.h"
#include "names.h"
#include "parse.h"
#include <lexbor/dom/interfaces/character_data.h>
#include <lexbor/dom/interfaces/document_type.h>
#include <string.h>
#include <strings.h>

/* rdfax's limits */
static const size_t TAG_LIMIT = (size_t)1 << 20, PAGE_LIMIT = (size_t)1 << 30;

/* How what stands inside of an element is read. */
enum content { HTML, FOREIGN, SVG, STRICT };

/* An open element, as it was spelled. */
typedef struct {
    const unsigned char *name;
    size_t length;
    enum content inner;
    unsigned char row;
    bool is_wrapped;
} level;

typedef struct {
    spelled *out;
    const unsigned char *text;
    size_t length;
    bool is_strict;
    size_t depth; /* levels that are open, spans among them */
    size_t open;  /* elements that are open */
    level levels[PARSE_DEPTH + 1];
} speller;

/* An element that begins: its node, and how its name is spelled. */
typedef struct {
    lxb_dom_node_t *node;
    const unsigned char *name;
    size_t length;
    name_traits traits;
    bool is_wrapped;
} beginning;

#define ADD(s, literal) BUFFER_ADD(&(s)->out->page, literal)

static void refuse(speller *s, uint32_t refusal) {
    if (s->out->refusal == RDFAX_MEND_NO_REFUSAL)
        s->out->refusal = refusal;
}

static bool is_stopped(const speller *s) {
    return s->out->refusal != RDFAX_MEND_NO_REFUSAL || s->out->page.failed || s->out->places.failed;
}

/* ---------- characters ---------- */

static const char *escape_of(unsigned char byte, bool in_strict_value) {
    switch (byte) {
    case '&': return "&amp;";
    case '<': return "&lt;";
    case '>': return "&gt;";
    case '"': return "&quot;";
    case '\r': return "&#13;";
    case '\t': return in_strict_value ? "&#9;" : NULL;
    case '\n': return in_strict_value ? "&#10;" : NULL;
    case 0: return "\xEF\xBF\xBD";
    default: return NULL;
    }
}

static void add_escaped(buffer *page, const unsigned char *text, size_t length, bool in_value, bool is_strict) {
    size_t from = 0;
    for (size_t at = 0; at < length; at++) {
        unsigned char byte = text[at];
        if (byte > '>' || (byte == '"' && !in_value))
            continue;
        const char *escape = escape_of(byte, in_value && is_strict);
        if (escape == NULL)
            continue;
        buffer_add(page, text + from, at - from);
        buffer_add(page, escape, strlen(escape));
        from = at + 1;
    }
    buffer_add(page, text + from, length - from);
}

static bool is_text(const lxb_dom_node_t *node) {
    return node->type == LXB_DOM_NODE_TYPE_TEXT || node->type == LXB_DOM_NODE_TYPE_CDATA_SECTION;
}

static lexbor_str_t *text_of(lxb_dom_node_t *node) {
    return &lxb_dom_interface_character_data(node)->data;
}

static void add_text(speller *s, lxb_dom_node_t *node) {
    const lexbor_str_t *text = text_of(node);
    add_escaped(&s->out->page, text->data, text->length, false, s->is_strict);
}

/* Whether these characters and the name stand there, and then what ends a name. */
static bool is_tag_of(const char *front, const unsigned char *text, size_t length, const beginning *e) {
    size_t count = strlen(front);
    return length > count + e->length && memcmp(text, front, count) == 0 &&
           strncasecmp((const char *)text + count, (const char *)e->name, e->length) == 0 && name_ends_at(text[count + e->length]);
}

/* Whether a browser that reads the script's text takes no `</script>` behind it as its end: after `<!--` and `<script`
 * (HTML, 13.2.5.20, script data double escaped state). The text's own end tags are broken, and end nothing. */
static bool hides_its_end(const unsigned char *text, size_t length, const beginning *e) {
    enum { PLAIN, ESCAPED, HIDING } state = PLAIN;
    size_t hyphens = 0;
    for (size_t at = 0; at < length; at++) {
        if (state == PLAIN) {
            if (text[at] == '<' && length - at >= 4 && memcmp(text + at, "<!--", 4) == 0) {
                state = ESCAPED;
                hyphens = 2;
                at += 3;
            }
            continue;
        }
        if (text[at] == '>' && hyphens >= 2)
            state = PLAIN;
        else if (text[at] == '<' && is_tag_of("<", text + at, length - at, e))
            state = HIDING;
        hyphens = text[at] == '-' ? hyphens + 1 : 0;
    }
    return state == HIDING;
}

/* Raw text has no references. A tag in a script that ends it too early, or not at all, is broken by a backslash, which a
 * string of JavaScript reads as nothing. */
static void add_raw(speller *s, const lexbor_str_t *text, const beginning *e) {
    buffer *page = &s->out->page;
    bool hides = e->node->local_name == LXB_TAG_SCRIPT && hides_its_end(text->data, text->length, e);
    size_t from = 0;
    for (size_t at = 0; at < text->length; at++) {
        unsigned char byte = text->data[at];
        size_t left = text->length - at;
        bool is_broken = byte == '<' && (is_tag_of("</", text->data + at, left, e) || (hides && is_tag_of("<", text->data + at, left, e)));
        if (!is_broken && byte != '\r' && byte != 0)
            continue;
        buffer_add(page, text->data + from, at - from);
        buffer_add(page, is_broken ? "<\\" : byte == 0 ? "\xEF\xBF\xBD" : "\n", is_broken ? 2 : byte == 0 ? 3 : 1);
        from = at + 1;
        s->out->changes->raw++;
    }
    buffer_add(page, text->data + from, text->length - from);
}

/* ---------- the document type ---------- */

static bool can_quote(const lexbor_str_t *identifier, bool is_public, bool is_strict) {
    static const char *const punctuation = " \n-'()+,./:=?;!*#@$_%";
    for (size_t at = 0; at < identifier->length; at++) {
        unsigned char byte = identifier->data[at];
        bool is_plain = (byte >= '0' && byte <= '9') || ((byte | 32) >= 'a' && (byte | 32) <= 'z');
        if (is_public && is_strict && !is_plain && (byte == 0 || strchr(punctuation, byte) == NULL))
            return false;
        if (byte == 0 || byte == '>' || byte == '[' || byte == '"' || byte == '\r')
            return false;
    }
    return true;
}

static void add_identifier(buffer *page, const lexbor_str_t *identifier) {
    BUFFER_ADD(page, " \"");
    buffer_add(page, identifier->data, identifier->length);
    BUFFER_ADD(page, "\"");
}

static void add_identifiers(buffer *page, const lxb_dom_document_type_t *type) {
    BUFFER_ADD(page, "<!DOCTYPE html");
    if (type->public_id.length != 0) {
        BUFFER_ADD(page, " PUBLIC");
        add_identifier(page, &type->public_id);
    } else {
        BUFFER_ADD(page, " SYSTEM");
    }
    if (type->system_id.length != 0)
        add_identifier(page, &type->system_id);
    BUFFER_ADD(page, ">\n");
}

/* The document type, such that the mended page is read in the same mode: without identifiers it would end quirks mode. */
static void add_doctype(speller *s, lxb_html_document_t *document) {
    lxb_dom_node_t *node = lxb_dom_interface_node(document)->first_child;
    while (node != NULL && node->type != LXB_DOM_NODE_TYPE_DOCUMENT_TYPE)
        node = node->next;
    if (node == NULL)
        return;
    lxb_dom_document_type_t *type = lxb_dom_interface_document_type(node);
    size_t length = 0;
    const lxb_char_t *name = lxb_dom_document_type_name(type, &length);
    bool is_html = length == 4 && memcmp(name, "html", 4) == 0;
    bool has_any = type->public_id.length != 0 || type->system_id.length != 0;
    bool can_spell = can_quote(&type->public_id, true, s->is_strict) && can_quote(&type->system_id, false, s->is_strict) &&
                     !(s->is_strict && type->system_id.length == 0);
    bool is_quirks = lxb_dom_interface_document(document)->compat_mode == LXB_DOM_DOCUMENT_CMODE_QUIRKS;
    if (is_html && has_any && can_spell) {
        add_identifiers(&s->out->page, type);
        return;
    }
    if (is_html && !is_quirks)
        ADD(s, "<!DOCTYPE html>\n");
    s->out->changes->doctypes += has_any || !is_html || is_quirks;
}

/* ---------- start tags ---------- */

static beginning beginning_of(speller *s, lxb_dom_node_t *node) {
    beginning e = {.node = node, .traits = name_traits_of(node->local_name)};
    enum content content = s->levels[s->open].inner;
    e.name = lxb_dom_element_qualified_name(lxb_dom_interface_element(node), &e.length);
    /* what a template of XHTML holds is hidden, and one of svg is none */
    bool hides = s->is_strict && node->local_name == LXB_TAG_TEMPLATE && node->ns != LXB_NS_HTML;
    bool can_spell = s->is_strict ? name_is_strict(e.name, e.length) : name_is_tag(e.name, e.length);
    if (hides || !can_spell) {
        e.name = (const unsigned char *)"span";
        e.length = 4;
        e.traits = name_traits_of(LXB_TAG_SPAN);
        s->out->changes->names++;
    } else if (node->ns == LXB_NS_HTML && (e.traits.kind & NAME_PLAINTEXT) != 0) {
        e.name = (const unsigned char *)"pre";
        e.length = 3;
        e.traits = name_traits_of(LXB_TAG_PRE);
        s->out->changes->names++;
    }
    e.is_wrapped = content == HTML && (s->levels[s->open].row & e.traits.ends) != 0;
    return e;
}

static void add_attributes(speller *s, lxb_dom_node_t *node) {
    buffer *page = &s->out->page;
    lxb_dom_attr_t *attribute = lxb_dom_element_first_attribute(lxb_dom_interface_element(node));
    for (; attribute != NULL; attribute = lxb_dom_element_next_attribute(attribute)) {
        size_t length = 0, value_length = 0;
        const lxb_char_t *name = lxb_dom_attr_qualified_name(attribute, &length);
        const lxb_char_t *value = lxb_dom_attr_value(attribute, &value_length);
        if (s->is_strict ? !name_is_strict(name, length) : !name_is_attribute(name, length)) {
            s->out->changes->attributes++;
            continue;
        }
        BUFFER_ADD(page, " ");
        buffer_add(page, name, length);
        BUFFER_ADD(page, "=\"");
        if (value != NULL)
            add_escaped(page, value, value_length, true, s->is_strict);
        BUFFER_ADD(page, "\"");
    }
}

/* Whether the element's own start tag stands at the place: `<` and its name. */
static bool is_own_tag(const speller *s, lxb_dom_node_t *node, size_t place) {
    size_t length = 0;
    const lxb_char_t *name = lxb_dom_element_qualified_name(lxb_dom_interface_element(node), &length);
    if (place >= s->length || s->text[place] != '<')
        return false;
    /* HTML, 13.2.6.4.7: the parser reads the name image as img */
    if (node->local_name == LXB_TAG_IMG && s->length - place > 6 && strncasecmp((const char *)s->text + place + 1, "image", 5) == 0)
        return true;
    return s->length - place > length && strncasecmp((const char *)s->text + place + 1, (const char *)name, length) == 0;
}

static void add_place(speller *s, lxb_dom_node_t *node) {
    rdfax_mend_place place = {.mended = s->out->page.length, .original = s->length};
    const rdfax_mend_place *last = NULL;
    if (node->user != NULL)
        place.original = (size_t)((const unsigned char *)node->user - s->text);
    else if (s->out->places.length != 0)
        last = (const rdfax_mend_place *)(const void *)(s->out->places.bytes + s->out->places.length) - 1;
    if (last != NULL)
        place.original = last->original;
    s->out->changes->implied += !is_own_tag(s, node, place.original);
    buffer_add(&s->out->places, &place, sizeof place);
}

/* A start tag without its end, and before it the span that keeps it from ending its parent. */
static void add_start(speller *s, const beginning *e) {
    if (e->is_wrapped) {
        ADD(s, "<span>");
        s->out->changes->spans++;
    }
    add_place(s, e->node);
    size_t from = s->out->page.length;
    ADD(s, "<");
    buffer_add(&s->out->page, e->name, e->length);
    add_attributes(s, e->node);
    /* `/>` at most comes still */
    if (s->out->page.length - from + 2 > TAG_LIMIT)
        refuse(s, RDFAX_MEND_TAG_TOO_LONG);
    if (s->depth + 1 + e->is_wrapped > PARSE_DEPTH)
        refuse(s, RDFAX_MEND_TOO_DEEP);
}

static void add_end(speller *s, const unsigned char *name, size_t length, bool is_wrapped) {
    ADD(s, "</");
    buffer_add(&s->out->page, name, length);
    ADD(s, ">");
    if (is_wrapped)
        ADD(s, "</span>");
}

/* ---------- elements ---------- */

static lxb_dom_node_t *first_shown(lxb_dom_node_t *node) {
    lxb_dom_node_t *child = node->first_child;
    while (child != NULL && !is_text(child) && child->type != LXB_DOM_NODE_TYPE_ELEMENT)
        child = child->next;
    return child;
}

/* The reader drops a line feed behind some start tags: one that stands in the tree is written twice. */
static void add_line_feed(speller *s, const beginning *e) {
    lxb_dom_node_t *first = first_shown(e->node);
    if ((e->traits.kind & NAME_DROPS) == 0 || first == NULL || !is_text(first))
        return;
    const lexbor_str_t *text = text_of(first);
    if (text->length != 0 && text->data[0] == '\n')
        ADD(s, "\n");
}

static void add_raw_element(speller *s, const beginning *e) {
    ADD(s, ">");
    add_line_feed(s, e);
    for (lxb_dom_node_t *child = e->node->first_child; child != NULL; child = child->next) {
        if (!is_text(child))
            continue;
        if ((e->traits.kind & NAME_RAW) != 0)
            add_raw(s, text_of(child), e);
        else
            add_text(s, child);
    }
    add_end(s, e->name, e->length, e->is_wrapped);
}

static void add_empty(speller *s, const beginning *e, enum content content) {
    name_traits own = name_traits_of(e->node->local_name);
    bool is_void = (own.kind & NAME_VOID) != 0;
    bool is_alone = content == HTML ? (e->traits.kind & NAME_VOID) != 0 : is_void || e->node->ns != LXB_NS_HTML;
    if (!is_alone) {
        ADD(s, ">");
        add_end(s, e->name, e->length, e->is_wrapped);
        return;
    }
    ADD(s, "/>");
    if (e->is_wrapped)
        ADD(s, "</span>");
}

static enum content inside(enum content content, const beginning *e) {
    lxb_tag_id_t tag = e->node->local_name;
    if (content == HTML)
        return tag == LXB_TAG_SVG ? SVG : tag == LXB_TAG_MATH ? FOREIGN : HTML;
    return content == SVG && (e->traits.kind & NAME_HOLDS_HTML) != 0 ? HTML : content;
}

static bool has_raw_text(enum content content, const beginning *e) {
    return content == HTML && (e->traits.kind & (NAME_RAW | NAME_RCDATA)) != 0;
}

static bool is_template(const lxb_dom_node_t *node) {
    return node->ns == LXB_NS_HTML && node->local_name == LXB_TAG_TEMPLATE;
}

static void open_level(speller *s, const beginning *e, enum content content) {
    ADD(s, ">");
    enum content inner = inside(content, e);
    if (content == HTML)
        add_line_feed(s, e);
    s->depth += 1 + e->is_wrapped;
    s->levels[++s->open] = (level){e->name, e->length, inner, inner == HTML && content == HTML ? e->traits.row : 0, e->is_wrapped};
}

static void close_level(speller *s) {
    const level *last = &s->levels[s->open--];
    add_end(s, last->name, last->length, last->is_wrapped);
    s->depth -= 1 + last->is_wrapped;
}

/* Whether what is inside of the element comes next. */
static bool add_element(speller *s, lxb_dom_node_t *node) {
    enum content content = s->levels[s->open].inner;
    beginning e = beginning_of(s, node);
    add_start(s, &e);
    if (is_stopped(s))
        return false;
    if (has_raw_text(content, &e)) {
        add_raw_element(s, &e);
        return false;
    }
    if (is_template(node)) {
        s->out->changes->templates += lxb_html_interface_template(node)->content->node.first_child != NULL;
        add_empty(s, &e, content);
        return false;
    }
    if (first_shown(node) == NULL) {
        add_empty(s, &e, content);
        return false;
    }
    open_level(s, &e, content);
    return true;
}

static bool add_node(speller *s, lxb_dom_node_t *node) {
    if (node->type == LXB_DOM_NODE_TYPE_ELEMENT)
        return add_element(s, node);
    if (is_text(node))
        add_text(s, node);
    s->out->changes->comments += node->type == LXB_DOM_NODE_TYPE_COMMENT;
    return false;
}

/* the comments before and behind the root */
static void count_outer_comments(speller *s, lxb_html_document_t *document) {
    for (lxb_dom_node_t *node = lxb_dom_interface_node(document)->first_child; node != NULL; node = node->next)
        s->out->changes->comments += node->type == LXB_DOM_NODE_TYPE_COMMENT;
}

static void add_tree(speller *s, lxb_dom_node_t *root) {
    lxb_dom_node_t *node = root;
    while (!is_stopped(s)) {
        if (add_node(s, node)) {
            node = node->first_child;
            continue;
        }
        while (node != root && node->next == NULL && !is_stopped(s)) {
            node = node->parent;
            close_level(s);
        }
        if (node == root)
            return;
        node = node->next;
    }
}

bool spell(lxb_html_document_t *document, const unsigned char *text, size_t length, uint32_t syntax, spelled *result) {
    speller s = {.out = result, .text = text, .length = length, .is_strict = syntax == RDFAX_MEND_XHTML};
    s.levels[0].inner = s.is_strict ? STRICT : HTML;
    lxb_dom_element_t *root = lxb_dom_interface_document(document)->element;
    if (root == NULL)
        return false;
    buffer_reserve(&result->page, length + length / 8);
    add_doctype(&s, document);
    count_outer_comments(&s, document);
    add_tree(&s, lxb_dom_interface_node(root));
    if (result->page.length > PAGE_LIMIT)
        refuse(&s, RDFAX_MEND_PAGE_TOO_LONG);
    return !result->page.failed && !result->places.failed;
}
