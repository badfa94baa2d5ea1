#include "names.h"

enum {
    ROW_LI = 1,
    ROW_DT = 2, /* dt and dd */
    ROW_P = 4,
    ROW_OPTION = 8,
    ROW_PART = 16, /* thead, tbody and tfoot */
    ROW_TR = 32,
    ROW_CELL = 64 /* td and th */
};

enum { PARTS = ROW_P | ROW_PART | ROW_TR | ROW_CELL };

static const name_traits TRAITS[LXB_TAG__LAST_ENTRY] = {
    [LXB_TAG_ADDRESS] = {.ends = ROW_P},
    [LXB_TAG_AREA] = {.kind = NAME_VOID},
    [LXB_TAG_ARTICLE] = {.ends = ROW_P},
    [LXB_TAG_ASIDE] = {.ends = ROW_P},
    [LXB_TAG_BASE] = {.kind = NAME_VOID},
    [LXB_TAG_BLOCKQUOTE] = {.ends = ROW_P},
    [LXB_TAG_BR] = {.kind = NAME_VOID},
    [LXB_TAG_COL] = {.kind = NAME_VOID},
    [LXB_TAG_DD] = {.row = ROW_DT, .ends = ROW_DT | ROW_P},
    [LXB_TAG_DESC] = {.kind = NAME_HOLDS_HTML},
    [LXB_TAG_DETAILS] = {.ends = ROW_P},
    [LXB_TAG_DIV] = {.ends = ROW_P},
    [LXB_TAG_DL] = {.ends = ROW_P},
    [LXB_TAG_DT] = {.row = ROW_DT, .ends = ROW_DT | ROW_P},
    [LXB_TAG_EMBED] = {.kind = NAME_VOID},
    [LXB_TAG_FIELDSET] = {.ends = ROW_P},
    [LXB_TAG_FIGCAPTION] = {.ends = ROW_P},
    [LXB_TAG_FIGURE] = {.ends = ROW_P},
    [LXB_TAG_FOOTER] = {.ends = ROW_P},
    [LXB_TAG_FOREIGNOBJECT] = {.kind = NAME_HOLDS_HTML},
    [LXB_TAG_FORM] = {.ends = ROW_P},
    [LXB_TAG_H1] = {.ends = ROW_P},
    [LXB_TAG_H2] = {.ends = ROW_P},
    [LXB_TAG_H3] = {.ends = ROW_P},
    [LXB_TAG_H4] = {.ends = ROW_P},
    [LXB_TAG_H5] = {.ends = ROW_P},
    [LXB_TAG_H6] = {.ends = ROW_P},
    [LXB_TAG_HEADER] = {.ends = ROW_P},
    [LXB_TAG_HGROUP] = {.ends = ROW_P},
    [LXB_TAG_HR] = {.kind = NAME_VOID, .ends = ROW_P | ROW_OPTION},
    [LXB_TAG_IFRAME] = {.kind = NAME_RAW},
    [LXB_TAG_IMG] = {.kind = NAME_VOID},
    [LXB_TAG_INPUT] = {.kind = NAME_VOID},
    [LXB_TAG_LI] = {.row = ROW_LI, .ends = ROW_LI | ROW_P},
    [LXB_TAG_LINK] = {.kind = NAME_VOID},
    [LXB_TAG_LISTING] = {.kind = NAME_DROPS},
    [LXB_TAG_MAIN] = {.ends = ROW_P},
    [LXB_TAG_MENU] = {.ends = ROW_P},
    [LXB_TAG_META] = {.kind = NAME_VOID},
    [LXB_TAG_NAV] = {.ends = ROW_P},
    [LXB_TAG_NOEMBED] = {.kind = NAME_RAW},
    [LXB_TAG_NOFRAMES] = {.kind = NAME_RAW},
    [LXB_TAG_OL] = {.ends = ROW_P},
    [LXB_TAG_OPTGROUP] = {.ends = ROW_OPTION},
    [LXB_TAG_OPTION] = {.row = ROW_OPTION, .ends = ROW_OPTION},
    [LXB_TAG_P] = {.row = ROW_P, .ends = ROW_P},
    [LXB_TAG_PARAM] = {.kind = NAME_VOID},
    [LXB_TAG_PLAINTEXT] = {.kind = NAME_PLAINTEXT},
    [LXB_TAG_PRE] = {.kind = NAME_DROPS, .ends = ROW_P},
    [LXB_TAG_SCRIPT] = {.kind = NAME_RAW},
    [LXB_TAG_SECTION] = {.ends = ROW_P},
    [LXB_TAG_SOURCE] = {.kind = NAME_VOID},
    [LXB_TAG_STYLE] = {.kind = NAME_RAW},
    [LXB_TAG_TABLE] = {.ends = ROW_P},
    [LXB_TAG_TBODY] = {.row = ROW_PART, .ends = PARTS},
    [LXB_TAG_TD] = {.row = ROW_CELL, .ends = ROW_P | ROW_CELL},
    [LXB_TAG_TEXTAREA] = {.kind = NAME_RCDATA | NAME_DROPS},
    [LXB_TAG_TFOOT] = {.row = ROW_PART, .ends = PARTS},
    [LXB_TAG_TH] = {.row = ROW_CELL, .ends = ROW_P | ROW_CELL},
    [LXB_TAG_THEAD] = {.row = ROW_PART, .ends = PARTS},
    [LXB_TAG_TITLE] = {.kind = NAME_RCDATA | NAME_HOLDS_HTML},
    [LXB_TAG_TR] = {.row = ROW_TR, .ends = ROW_P | ROW_TR | ROW_CELL},
    [LXB_TAG_TRACK] = {.kind = NAME_VOID},
    [LXB_TAG_UL] = {.ends = ROW_P},
    [LXB_TAG_WBR] = {.kind = NAME_VOID},
    [LXB_TAG_XMP] = {.kind = NAME_RAW},
};

name_traits name_traits_of(lxb_tag_id_t tag) {
    return tag < LXB_TAG__LAST_ENTRY ? TRAITS[tag] : (name_traits){0};
}

typedef struct {
    unsigned long first;
    unsigned long last;
} range;

/* XML 1.0, 2.3, NameStartChar, beyond ASCII */
static const range STARTS[] = {
    {0xC0, 0xD6},     {0xD8, 0xF6},     {0xF8, 0x2FF},    {0x370, 0x37D},   {0x37F, 0x1FFF},    {0x200C, 0x200D},
    {0x2070, 0x218F}, {0x2C00, 0x2FEF}, {0x3001, 0xD7FF}, {0xF900, 0xFDCF}, {0xFDF0, 0xFFFD},   {0x10000, 0xEFFFF},
};

/* and what NameChar has besides */
static const range FOLLOWING[] = {{0xB7, 0xB7}, {0x300, 0x36F}, {0x203F, 0x2040}};

#define IS_IN(code, ranges) is_in(code, ranges, sizeof(ranges) / sizeof *(ranges))

static bool is_in(unsigned long code, const range *ranges, size_t count) {
    for (size_t at = 0; at < count && ranges[at].first <= code; at++)
        if (code <= ranges[at].last)
            return true;
    return false;
}

static bool is_letter(unsigned long code) {
    return (code | 32) >= 'a' && (code | 32) <= 'z';
}

static bool is_start(unsigned long code) {
    return code < 0x80 ? is_letter(code) || code == '_' || code == ':' : IS_IN(code, STARTS);
}

static bool is_following(unsigned long code) {
    return is_start(code) || (code >= '0' && code <= '9') || code == '-' || code == '.' || IS_IN(code, FOLLOWING);
}

/* the next code point of valid UTF-8 */
static unsigned long next_code(const unsigned char **at) {
    unsigned long code = *(*at)++;
    size_t more = code < 0xC0 ? 0 : code < 0xE0 ? 1 : code < 0xF0 ? 2 : 3;
    if (more != 0)
        code &= 0x3FU >> more;
    for (; more != 0; more--)
        code = code << 6 | (*(*at)++ & 0x3FU);
    return code;
}

bool name_is_strict(const unsigned char *name, size_t length) {
    const unsigned char *end = name + length;
    if (length == 0 || !is_start(next_code(&name)))
        return false;
    while (name < end)
        if (!is_following(next_code(&name)))
            return false;
    return true;
}

bool name_ends_at(unsigned char byte) {
    return byte == 0 || byte == '\t' || byte == '\n' || byte == '\f' || byte == '\r' || byte == ' ' || byte == '/' || byte == '>';
}

bool name_is_tag(const unsigned char *name, size_t length) {
    for (size_t at = 0; at < length; at++)
        if (name_ends_at(name[at]))
            return false;
    return length != 0 && is_letter(name[0]);
}

bool name_is_attribute(const unsigned char *name, size_t length) {
    for (size_t at = 0; at < length; at++)
        if (name_ends_at(name[at]) || name[at] == '=' || name[at] == '"' || name[at] == '\'' || name[at] == '<')
            return false;
    return length != 0;
}
