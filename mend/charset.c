#include "charset.h"
#include "rdfax_mend.h"
#include <lexbor/encoding/multi.h>
#include <lexbor/html/encoding.h>
#include <string.h>

enum { PRESCANNED = 1024, REPLACEMENT = 0xFFFD };

#define CHARS(literal) (const lxb_char_t *)(literal)

const lxb_encoding_data_t *charset_named(const unsigned char *label, size_t length) {
    return length != 0 ? lxb_encoding_data_by_pre_name(label, length) : NULL;
}

const lxb_encoding_data_t *charset_declared(const unsigned char *label, size_t length) {
    const lxb_encoding_data_t *encoding = charset_named(label, length);
    if (encoding == NULL)
        return NULL;
    if (encoding->encoding == LXB_ENCODING_UTF_16BE || encoding->encoding == LXB_ENCODING_UTF_16LE)
        return lxb_encoding_data(LXB_ENCODING_UTF_8);
    if (encoding->encoding == LXB_ENCODING_X_USER_DEFINED)
        return lxb_encoding_data(LXB_ENCODING_WINDOWS_1252);
    return encoding;
}

const lxb_encoding_data_t *charset_in_content(const unsigned char *content, size_t length) {
    const lxb_char_t *end = NULL;
    const lxb_char_t *name = lxb_html_encoding_content(content, content + length, &end);
    return name != NULL ? charset_declared(name, (size_t)(end - name)) : NULL;
}

/* ---------- the declaration ---------- */

static bool begins_with(const unsigned char *bytes, size_t length, const char *front, size_t count) {
    return length >= count && memcmp(bytes, front, count) == 0;
}

/* The bytes of `<?x` in UTF-16, which are taken as a mark of it. */
static const lxb_encoding_data_t *wide_declaration(const unsigned char *bytes, size_t length) {
    if (begins_with(bytes, length, "<\0?\0x\0", 6))
        return lxb_encoding_data(LXB_ENCODING_UTF_16LE);
    if (begins_with(bytes, length, "\0<\0?\0x", 6))
        return lxb_encoding_data(LXB_ENCODING_UTF_16BE);
    return NULL;
}

static size_t skip_controls(const unsigned char *bytes, size_t at, size_t end) {
    while (at < end && bytes[at] <= 0x20)
        at++;
    return at;
}

/* The encoding that an XML declaration at the page's beginning names (HTML, 13.2.3.2, get an XML encoding). */
static const lxb_encoding_data_t *xml_declaration(const unsigned char *bytes, size_t length) {
    if (!begins_with(bytes, length, "<?xml", 5))
        return NULL;
    const unsigned char *close = memchr(bytes, '>', length);
    size_t end = close != NULL ? (size_t)(close - bytes) : 0, at = 5;
    while (at + 8 <= end && memcmp(bytes + at, "encoding", 8) != 0)
        at++;
    if (at + 8 > end)
        return NULL;
    at = skip_controls(bytes, at + 8, end);
    if (at >= end || bytes[at] != '=')
        return NULL;
    at = skip_controls(bytes, at + 1, end);
    if (at >= end || (bytes[at] != '"' && bytes[at] != '\''))
        return NULL;
    const unsigned char *label = bytes + at + 1, *quote = memchr(label, bytes[at], end - at - 1);
    return quote != NULL ? charset_declared(label, (size_t)(quote - label)) : NULL;
}

/* The first meta element's that names an encoding. */
static const lxb_encoding_data_t *meta_declaration(const unsigned char *bytes, size_t length) {
    lxb_html_encoding_t scan;
    const lxb_encoding_data_t *encoding = NULL;
    if (lxb_html_encoding_init(&scan) != LXB_STATUS_OK)
        return NULL;
    lxb_html_encoding_determine(&scan, bytes, bytes + length);
    for (size_t at = 0; encoding == NULL && at < lxb_html_encoding_meta_length(&scan); at++) {
        const lxb_html_encoding_entry_t *entry = lxb_html_encoding_meta_entry(&scan, at);
        encoding = charset_declared(entry->name, (size_t)(entry->end - entry->name));
    }
    lxb_html_encoding_destroy(&scan, false);
    return encoding;
}

static const lxb_encoding_data_t *declaration(const unsigned char *bytes, size_t length) {
    if (length > PRESCANNED)
        length = PRESCANNED;
    const lxb_encoding_data_t *encoding = wide_declaration(bytes, length);
    if (encoding == NULL)
        encoding = meta_declaration(bytes, length);
    return encoding != NULL ? encoding : xml_declaration(bytes, length);
}

/* ---------- UTF-8 ---------- */

static size_t skip_ascii(const unsigned char *bytes, size_t at, size_t length) {
    uint64_t word;
    while (length - at >= sizeof word) {
        memcpy(&word, bytes + at, sizeof word);
        if ((word & UINT64_C(0x8080808080808080)) != 0)
            break;
        at += sizeof word;
    }
    while (at < length && bytes[at] < 0x80)
        at++;
    return at;
}

/* The second byte's range, by the first byte (Unicode, table 3-7); and how many bytes follow the first, 0 for none that begins. */
static size_t followers(unsigned char first, unsigned char *low, unsigned char *high) {
    *low = first == 0xE0 ? 0xA0 : first == 0xF0 ? 0x90 : 0x80;
    *high = first == 0xED ? 0x9F : first == 0xF4 ? 0x8F : 0xBF;
    return first < 0xC2 ? 0 : first < 0xE0 ? 1 : first < 0xF0 ? 2 : first < 0xF5 ? 3 : 0;
}

static bool is_utf8(const unsigned char *bytes, size_t length) {
    for (size_t at = skip_ascii(bytes, 0, length); at < length; at = skip_ascii(bytes, at, length)) {
        unsigned char low, high;
        size_t more = followers(bytes[at], &low, &high);
        if (more == 0 || length - at <= more || bytes[at + 1] < low || bytes[at + 1] > high)
            return false;
        for (size_t next = 2; next <= more; next++)
            if ((bytes[at + next] & 0xC0) != 0x80)
                return false;
        at += more + 1;
    }
    return true;
}

/* ---------- the order in which it is looked for ---------- */

static charset found_by(lxb_encoding_t encoding, uint32_t found, size_t skipped) {
    return (charset){lxb_encoding_data(encoding), found, skipped};
}

charset charset_of(const unsigned char *bytes, size_t length, const char *label) {
    if (begins_with(bytes, length, "\xEF\xBB\xBF", 3))
        return found_by(LXB_ENCODING_UTF_8, RDFAX_MEND_BY_BOM, 3);
    if (begins_with(bytes, length, "\xFE\xFF", 2))
        return found_by(LXB_ENCODING_UTF_16BE, RDFAX_MEND_BY_BOM, 2);
    if (begins_with(bytes, length, "\xFF\xFE", 2))
        return found_by(LXB_ENCODING_UTF_16LE, RDFAX_MEND_BY_BOM, 2);
    const lxb_encoding_data_t *encoding = label != NULL ? charset_named(CHARS(label), strlen(label)) : NULL;
    if (encoding != NULL)
        return (charset){encoding, RDFAX_MEND_BY_CALLER, 0};
    encoding = declaration(bytes, length);
    if (encoding != NULL)
        return (charset){encoding, RDFAX_MEND_BY_DECLARATION, 0};
    if (is_utf8(bytes, length))
        return found_by(LXB_ENCODING_UTF_8, RDFAX_MEND_BY_VALIDITY, 0);
    return found_by(LXB_ENCODING_WINDOWS_1252, RDFAX_MEND_BY_DEFAULT, 0);
}

/* ---------- decoding ---------- */

/* encodings in which a byte of ASCII may stand for another character */
static bool keeps_ascii(lxb_encoding_t encoding) {
    return encoding != LXB_ENCODING_UTF_16BE && encoding != LXB_ENCODING_UTF_16LE && encoding != LXB_ENCODING_ISO_2022_JP &&
           encoding != LXB_ENCODING_REPLACEMENT;
}

static bool is_utf8_already(const unsigned char *bytes, size_t length, lxb_encoding_t encoding) {
    if (encoding == LXB_ENCODING_UTF_8)
        return is_utf8(bytes, length);
    return keeps_ascii(encoding) && skip_ascii(bytes, 0, length) == length;
}

static void mark(decoded *text, size_t original) {
    charset_mark place = {text->own.length, original};
    buffer_add(&text->marks, &place, sizeof place);
}

static void put(decoded *text, lxb_codepoint_t code, size_t original, size_t after) {
    if (code == '<')
        mark(text, original);
    if (code > LXB_ENCODING_MAX_CODEPOINT) {
        code = REPLACEMENT;
        text->malformed++;
    }
    buffer_add_character(&text->own, code);
    if (code == '>')
        mark(text, after);
}

/* The next character of Shift_JIS (Encoding Standard, 12.3.1). lexbor 3.0.1 refuses the lead bytes E1 to FB. */
static lxb_codepoint_t shift_jis_next(const lxb_char_t **at, const lxb_char_t *end) {
    lxb_char_t lead = *(*at)++;
    if (lead <= 0x80)
        return lead;
    if (lead >= 0xA1 && lead <= 0xDF)
        return 0xFF61 - 0xA1 + (lxb_codepoint_t)lead;
    if (lead == 0xA0 || lead > 0xFC || *at == end)
        return LXB_ENCODING_DECODE_ERROR;
    lxb_char_t trail = **at;
    size_t pointer = (lead - (lead < 0xA0 ? 0x81U : 0xC1U)) * 188U + trail - (trail < 0x7F ? 0x40U : 0x41U);
    lxb_codepoint_t code = LXB_ENCODING_DECODE_ERROR;
    if (trail >= 0x40 && trail <= 0xFC && trail != 0x7F)
        code = pointer >= 8836 && pointer <= 10715 ? (lxb_codepoint_t)(0xE000 - 8836 + pointer)
             : pointer < sizeof lxb_encoding_multi_jis0208_map / sizeof *lxb_encoding_multi_jis0208_map ? lxb_encoding_multi_jis0208_map[pointer]
             : LXB_ENCODING_DECODE_ERROR;
    *at += code <= LXB_ENCODING_MAX_CODEPOINT || trail >= 0x80;
    return code;
}

static bool is_surrogate(lxb_codepoint_t unit, lxb_codepoint_t first) {
    return unit >= first && unit < first + 0x400;
}

static lxb_codepoint_t utf_16_unit(const lxb_char_t *at, bool is_big) {
    return is_big ? (lxb_codepoint_t)(at[0] << 8 | at[1]) : (lxb_codepoint_t)(at[1] << 8 | at[0]);
}

/* The next character of UTF-16 (Encoding Standard, 14.2.1). lexbor 3.0.1 tells a surrogate that stands alone as one. */
static lxb_codepoint_t utf_16_next(const lxb_char_t **at, const lxb_char_t *end, bool is_big) {
    if (end - *at < 2) {
        *at = end;
        return LXB_ENCODING_DECODE_ERROR;
    }
    lxb_codepoint_t unit = utf_16_unit(*at, is_big);
    *at += 2;
    if (!is_surrogate(unit, 0xD800))
        return is_surrogate(unit, 0xDC00) ? LXB_ENCODING_DECODE_ERROR : unit;
    lxb_codepoint_t low = end - *at >= 2 ? utf_16_unit(*at, is_big) : 0;
    if (is_surrogate(low, 0xDC00)) {
        *at += 2;
        return 0x10000 + ((unit - 0xD800) << 10) + (low - 0xDC00);
    }
    if (end - *at < 2)
        *at = end;
    return LXB_ENCODING_DECODE_ERROR;
}

static lxb_codepoint_t next_code(lxb_encoding_decode_t *state, const lxb_char_t **at, const lxb_char_t *end) {
    lxb_encoding_t encoding = state->encoding_data->encoding;
    if (encoding == LXB_ENCODING_SHIFT_JIS)
        return shift_jis_next(at, end);
    if (encoding == LXB_ENCODING_UTF_16BE || encoding == LXB_ENCODING_UTF_16LE)
        return utf_16_next(at, end, encoding == LXB_ENCODING_UTF_16BE);
    return state->encoding_data->decode_single(state, at, end);
}

/* Whether the bytes ended within a character, where the decoder asked for more of them. */
static bool is_unfinished(const lxb_encoding_decode_t *state) {
    if (state->encoding_data->encoding != LXB_ENCODING_ISO_2022_JP)
        return true;
    unsigned within = state->u.iso_2022_jp.state;
    return within == LXB_ENCODING_DECODE_2022_JP_TRAIL || within == LXB_ENCODING_DECODE_2022_JP_ESCAPE_START ||
           within == LXB_ENCODING_DECODE_2022_JP_ESCAPE;
}

static void decode_each(const unsigned char *bytes, size_t length, const lxb_encoding_data_t *encoding, decoded *text) {
    lxb_encoding_decode_t state;
    lxb_codepoint_t code = 0;
    lxb_encoding_decode_init_single(&state, encoding);
    const lxb_char_t *at = bytes, *end = bytes + length;
    while (at < end && !text->own.failed && !text->marks.failed) {
        const lxb_char_t *from = at;
        code = next_code(&state, &at, end);
        if (code != LXB_ENCODING_DECODE_CONTINUE)
            put(text, code, (size_t)(from - bytes), (size_t)(at - bytes));
    }
    if (state.second_codepoint != 0)
        put(text, state.second_codepoint, length, length);
    if (code == LXB_ENCODING_DECODE_CONTINUE && is_unfinished(&state))
        put(text, LXB_ENCODING_DECODE_ERROR, length, length);
}

bool charset_decode(const unsigned char *bytes, size_t length, charset from, decoded *text) {
    static const unsigned char nothing[1];
    *text = (decoded){.bytes = nothing, .length = length - from.skipped, .skipped = from.skipped};
    if (text->length == 0)
        return true;
    text->bytes = bytes + from.skipped;
    if (is_utf8_already(text->bytes, text->length, from.encoding->encoding))
        return true;
    buffer_reserve(&text->own, text->length + text->length / 2);
    /* the replacement encoding has one character for all of the page */
    if (from.encoding->encoding == LXB_ENCODING_REPLACEMENT)
        put(text, LXB_ENCODING_DECODE_ERROR, 0, text->length);
    else
        decode_each(text->bytes, text->length, from.encoding, text);
    text->bytes = text->own.bytes;
    text->length = text->own.length;
    return !text->own.failed && !text->marks.failed;
}

size_t charset_original(const decoded *text, size_t place) {
    const charset_mark *marks = (const charset_mark *)(const void *)text->marks.bytes;
    size_t low = 0, high = text->marks.length / sizeof *marks;
    while (low < high) {
        size_t middle = low + (high - low) / 2;
        if (marks[middle].text <= place)
            low = middle + 1;
        else
            high = middle;
    }
    charset_mark last = low != 0 ? marks[low - 1] : (charset_mark){0, 0};
    return text->skipped + last.original + (place - last.text);
}

void charset_free(decoded *text) {
    buffer_free(&text->own);
    buffer_free(&text->marks);
}
