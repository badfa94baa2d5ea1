/* Texts whose keys meet in the program's hash tables, and what they cost there.
 *
 *     cc -O3 -march=native -o hashes bench/hashes.c
 *     ./hashes test                               # whether the hashes are those of the program
 *     ./hashes find SHAPE COUNT GROUPS WINDOW     # so many texts, for a table of so many groups
 *     ./hashes meet SHAPE GROUPS WINDOW < texts   # how many of them meet
 *     ./hashes count SHAPE < texts                # what it costs to add each of these texts
 *
 * The tables are those of `indexmap` as the kit has it: groups of 12 places, 9 of them taken at the most on average. Of a key's
 * hash of 64 bits the halves are joined by xor. The low bits of the 32 that are left tell the group in which a search begins,
 * the high eight are the tag, and a search goes on in the next group while a key with the tag's low five bits has overflowed.
 * Keys that begin in few neighbouring groups and have one tag are compared with all before them: to find such a text takes
 * as many tries as GROUPS / WINDOW * 256.
 *
 * A SHAPE is what is hashed of the text: `label` the text as a label of a blank node; `list` the IRI `v:TEXT` as the
 * predicate of a list; `node` the same as a node; `quad` the same as the type that the subject SUBJECT has in the graph GRAPH.
 * `triple` is that without the graph, in a set whose hashes begin with a key: the key of a page that says only that SUBJECT uses
 * the vocabulary `v:`, and `copied` with that of one that says also that SUBJECT copies `v:none`. So these are the texts that meet
 * under the key that the page has without them. A text has six characters.
 */
#include <stdint.h>
#include <stdio.h>
#include <stdlib.h>
#include <string.h>

#define GRAPH "http://localhost/"
#define SUBJECT "http://localhost/"
#define TYPE "http://www.w3.org/1999/02/22-rdf-syntax-ns#type"
#define USES "http://www.w3.org/ns/rdfa#usesVocabulary"
#define COPY "http://www.w3.org/ns/rdfa#copy"

enum { TEXT = 6, TAG = 0x5A, LANES = 12, LOAD = 9 };

static const char letters[] = "abcdefghijklmnopqrstuvwxyzABCDEFGHIJKLMNOPQRSTUVWXYZ0123456789-_";

/* SipHash-1-3 with keys 0, a word at a time. */
struct sip {
    uint64_t v0, v1, v2, v3;
};

static const struct sip initial = {0x736f6d6570736575, 0x646f72616e646f6d, 0x6c7967656e657261, 0x7465646279746573};

static inline uint64_t turned(uint64_t x, int bits) { return x << bits | x >> (64 - bits); }

static inline struct sip turn(struct sip s) {
    s.v0 += s.v1;
    s.v2 += s.v3;
    s.v1 = turned(s.v1, 13) ^ s.v0;
    s.v3 = turned(s.v3, 16) ^ s.v2;
    s.v0 = turned(s.v0, 32);
    s.v2 += s.v1;
    s.v0 += s.v3;
    s.v1 = turned(s.v1, 17) ^ s.v2;
    s.v3 = turned(s.v3, 21) ^ s.v0;
    s.v2 = turned(s.v2, 32);
    return s;
}

static inline struct sip fed(struct sip s, uint64_t word) {
    s.v3 ^= word;
    s = turn(s);
    s.v0 ^= word;
    return s;
}

/* The hash, where the last bytes and the whole length stand in `tail`. */
static inline uint64_t ended(struct sip s, uint64_t tail, uint64_t length) {
    s = fed(s, (length & 0xFF) << 56 | tail);
    s.v2 ^= 0xFF;
    s = turn(turn(turn(s)));
    return s.v0 ^ s.v1 ^ s.v2 ^ s.v3;
}

static uint64_t sip_of(const void *bytes, size_t length) {
    struct sip s = initial;
    uint64_t word = 0;
    size_t at = 0;
    for (; at + 8 <= length; at += 8) {
        memcpy(&word, (const char *)bytes + at, 8);
        s = fed(s, word);
    }
    word = 0;
    memcpy(&word, (const char *)bytes + at, length - at);
    return ended(s, word, length);
}

__extension__ typedef unsigned __int128 wide;

/* The quick hash, of eight bytes. */
static inline uint64_t folded(uint64_t state, uint64_t word) {
    wide product = (wide)(state ^ word) * (0x9e3779b97f4a7c15 ^ 16);
    return (uint64_t)product ^ (uint64_t)(product >> 64);
}

static const uint64_t quick = 0x243f6a8885a308d3;

static uint64_t iri(const char *text) { return sip_of(text, strlen(text)); }

/* The quick hash of a node or a term that is an IRI, behind what the state has taken. */
static inline uint64_t resource(uint64_t state, uint64_t number) { return folded(folded(state, 0), number); }

/* The state of a list's key with one more triple of IRIs. */
static struct sip keyed(struct sip s, const char *subject, const char *predicate, const char *object) {
    s = fed(s, resource(quick, iri(subject)));
    s = fed(s, folded(quick, iri(predicate)));
    return fed(s, folded(quick, iri(object)));
}

/* The number of a state. */
static uint64_t key_of(struct sip s) {
    s.v2 ^= 0xFF;
    s = turn(turn(turn(s)));
    return s.v0 ^ s.v1 ^ s.v2 ^ s.v3;
}

/* What is hashed before the text: of a quad, and of a triple by two keys. */
static struct sip before_quad;
static uint64_t before_triple, before_copied;

static uint64_t before(struct sip list) {
    uint64_t state = resource(folded(quick, key_of(list)), iri(SUBJECT));
    return folded(folded(state, iri(TYPE)), 0); /* the object is an IRI */
}

static void prepare(void) {
    struct sip s = fed(initial, iri(GRAPH)), list = keyed(initial, SUBJECT, USES, "v:");
    s = fed(s, 0); /* the subject is an IRI */
    s = fed(fed(s, iri(SUBJECT)), iri(TYPE));
    before_quad = fed(s, 0); /* the object is an IRI */
    before_triple = before(list);
    before_copied = before(keyed(list, SUBJECT, COPY, "v:none"));
}

/* The text's six bytes as the low ones of a word. */
typedef uint64_t (*hash_of)(uint64_t text);

static inline uint64_t label(uint64_t text) { return ended(initial, text | 0xFFull << 48, 7); }

/* The number that an IRI keeps. */
static inline uint64_t number(uint64_t text) { return ended(fed(initial, text << 16 | ':' << 8 | 'v'), 0, 8); }

static inline uint64_t list(uint64_t text) { return ended(fed(initial, number(text)), 0, 8); }

static inline uint64_t node(uint64_t text) { return resource(quick, number(text)); }

static inline uint64_t quad(uint64_t text) { return ended(fed(before_quad, number(text)), 0, 48); }

static inline uint64_t triple(uint64_t text) { return folded(before_triple, number(text)); }

static inline uint64_t copied(uint64_t text) { return folded(before_copied, number(text)); }

static uint32_t joined(uint64_t hash) { return (uint32_t)(hash ^ hash >> 32); }

static hash_of shape(const char *name) {
    static const struct {
        const char *name;
        hash_of hash;
    } shapes[] = {{"label", label}, {"list", list}, {"node", node}, {"quad", quad}, {"triple", triple}, {"copied", copied}};
    for (size_t i = 0; i < sizeof shapes / sizeof *shapes; i++) {
        if (strcmp(name, shapes[i].name) == 0) return shapes[i].hash;
    }
    fprintf(stderr, "hashes: no shape %s\n", name);
    exit(2);
}

static int meets(uint32_t hash, uint32_t groups, uint32_t window) {
    return hash >> 24 == TAG && (hash & (groups - 1)) < window;
}

/* The text of this number: the first character is a letter, so that it is a term. */
static uint64_t text_of(uint64_t count) {
    uint64_t text = (uint64_t)letters[count % 52];
    count /= 52;
    for (int i = 1; i < TEXT; i++) {
        text |= (uint64_t)letters[count % 64] << (8 * i);
        count /= 64;
    }
    return text;
}

static void print_text(uint64_t text) {
    char bytes[TEXT + 1];
    memcpy(bytes, &text, TEXT);
    bytes[TEXT] = '\n';
    fwrite(bytes, 1, sizeof bytes, stdout);
}

static int find(hash_of hash, long count, uint32_t groups, uint32_t window) {
    uint64_t tried = 0;
    for (long found = 0; found < count; tried++) {
        uint64_t text = text_of(tried);
        if (!meets(joined(hash(text)), groups, window)) continue;
        print_text(text);
        found++;
    }
    fprintf(stderr, "%ld texts of %llu\n", count, (unsigned long long)tried);
    return 0;
}

static int next_text(uint64_t *text) {
    char line[64];
    *text = 0;
    if (!fgets(line, sizeof line, stdin)) return 0;
    memcpy(text, line, TEXT);
    return 1;
}

static int meet(hash_of hash, uint32_t groups, uint32_t window) {
    long all = 0, met = 0;
    for (uint64_t text; next_text(&text); all++) met += meets(joined(hash(text)), groups, window);
    printf("%ld of %ld texts meet\n", met, all);
    return 0;
}

struct group {
    uint8_t tags[LANES];
    uint32_t overflow;
};

/* A table, and what was done in it: groups looked at, keys compared. No text comes twice. */
struct table {
    struct group *groups;
    uint32_t count, length;
    uint64_t visited, compared;
};

static uint8_t tag_of(uint32_t hash) { return hash >> 24 ? hash >> 24 : 1; }

static void look_up(struct table *t, uint32_t hash) {
    uint8_t tag = tag_of(hash);
    uint32_t start = hash & (t->count - 1), at = start;
    if (t->count == 0) return;
    do {
        struct group *g = &t->groups[at];
        t->visited++;
        for (int i = 0; i < LANES; i++) t->compared += g->tags[i] == tag;
        if (!(g->overflow >> (tag & 31) & 1)) return;
        at = (at + 1) & (t->count - 1);
    } while (at != start);
}

static void put(struct table *t, uint32_t hash) {
    uint32_t at = hash & (t->count - 1);
    for (;; at = (at + 1) & (t->count - 1)) {
        struct group *g = &t->groups[at];
        t->visited++;
        for (int i = 0; i < LANES; i++) {
            if (g->tags[i]) continue;
            g->tags[i] = tag_of(hash);
            return;
        }
        g->overflow |= 1u << (tag_of(hash) & 31);
    }
}

static void grow(struct table *t, const uint32_t *hashes) {
    if (t->length < LOAD * t->count) return;
    t->count = t->count ? 2 * t->count : 1;
    free(t->groups);
    t->groups = calloc(t->count, sizeof *t->groups);
    if (!t->groups) exit(5);
    for (uint32_t i = 0; i < t->length; i++) put(t, hashes[i]);
}

static int count(hash_of hash) {
    struct table t = {0};
    uint32_t *hashes = NULL;
    for (uint64_t text; next_text(&text);) {
        hashes = realloc(hashes, (t.length + 1) * sizeof *hashes);
        if (!hashes) exit(5);
        hashes[t.length] = joined(hash(text));
        look_up(&t, hashes[t.length]);
        grow(&t, hashes);
        put(&t, hashes[t.length++]);
    }
    printf("%u texts in %u groups: %llu groups looked at, %llu keys compared\n", t.length, t.count, (unsigned long long)t.visited,
           (unsigned long long)t.compared);
    return 0;
}

/* That of no bytes is what Rust's DefaultHasher, which has the same keys and rounds, gives. */
static int test(void) {
    uint64_t text = 0, word;
    memcpy(&text, "abcdef", TEXT);
    word = number(text);
    int right = sip_of("", 0) == 15130871412783076140ull && word == sip_of("v:abcdef", 8) && label(text) == sip_of("abcdef\xff", 7) &&
                list(text) == sip_of(&word, 8);
    puts(right ? "ok" : "wrong");
    return !right;
}

int main(int words, char **word) {
    prepare();
    if (words == 2 && strcmp(word[1], "test") == 0) return test();
    if (words == 6 && strcmp(word[1], "find") == 0) return find(shape(word[2]), atol(word[3]), (uint32_t)atol(word[4]), (uint32_t)atol(word[5]));
    if (words == 5 && strcmp(word[1], "meet") == 0) return meet(shape(word[2]), (uint32_t)atol(word[3]), (uint32_t)atol(word[4]));
    if (words == 3 && strcmp(word[1], "count") == 0) return count(shape(word[2]));
    fputs("usage: hashes test | find SHAPE COUNT GROUPS WINDOW | meet SHAPE GROUPS WINDOW | count SHAPE\n", stderr);
    return 2;
}
