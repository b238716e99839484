/* The headers traceparent and tracestate of W3C's Trace Context, in and out. */
#include "hindsight.h"
#include <string.h>

enum { PARENT = 55, MOST_ENTRIES = 32, LONG_ENTRY = 128, MOST_STATE = HIND_TRACESTATE_SIZE - 1, MOST_KEY = 256, MOST_VALUE = 256 };
enum { KNOWN_FLAGS = 3 }; /* sampled, and random trace id */

/* ---- hexadecimal digits, lower case alone */

static int digit_of(char c) { return c >= '0' && c <= '9' ? c - '0' : c >= 'a' && c <= 'f' ? c - 'a' + 10 : -1; }

/* Whether 2 * n digits stand there; their bytes are in `out` then. */
static int read_hex(const char *digits, uint8_t *out, size_t n) {
    for (size_t i = 0; i < n; i++) {
        int high = digit_of(digits[2 * i]), low = digit_of(digits[2 * i + 1]);
        if (high < 0 || low < 0) return 0;
        out[i] = (uint8_t)(high << 4 | low);
    }
    return 1;
}

static void write_hex(char *to, const uint8_t *bytes, size_t n) {
    for (size_t i = 0; i < n; i++) {
        to[2 * i] = "0123456789abcdef"[bytes[i] >> 4];
        to[2 * i + 1] = "0123456789abcdef"[bytes[i] & 15];
    }
}

static int is_zero(const uint8_t *bytes, size_t n) {
    while (n && !bytes[n - 1]) n--;
    return n == 0;
}

/* ---- tracestate: entries between commas, each a key, '=', and a value */

typedef struct {
    const char *at;
    size_t len;
    size_t key; /* the length of its key */
} entry;

static int is_key_start(char c) { return (c >= 'a' && c <= 'z') || (c >= '0' && c <= '9'); }
static int is_key(char c) { return is_key_start(c) || c == '_' || c == '-' || c == '*' || c == '/' || c == '@'; }
static int is_value(char c) { return c >= ' ' && c <= '~' && c != ',' && c != '='; }
static int is_blank(char c) { return c == ' ' || c == '\t'; }

/* Whether these bytes are an entry. */
static int is_entry(entry *e) {
    size_t at = 0, value;
    if (!e->len || !is_key_start(e->at[0])) return 0;
    while (at < e->len && is_key(e->at[at])) at++;
    e->key = at;
    if (at == e->len || e->at[at] != '=' || at > MOST_KEY) return 0;
    value = e->len - at - 1;
    if (!value || value > MOST_VALUE) return 0;
    while (++at < e->len)
        if (!is_value(e->at[at])) return 0;
    return 1;
}

/* The entries of a tracestate, and how many there are; none where it is NULL or invalid. Blanks around an entry are none of it, and empty
 * entries count for nothing. */
static size_t entries_of(const char *state, entry found[MOST_ENTRIES]) {
    size_t n = 0;
    while (state && *state) {
        entry e = {state, strcspn(state, ","), 0};
        state += e.len + (state[e.len] == ',');
        while (e.len && is_blank(*e.at)) e.at++, e.len--;
        while (e.len && is_blank(e.at[e.len - 1])) e.len--;
        if (!e.len) continue;
        if (n == MOST_ENTRIES || !is_entry(&e)) return 0;
        found[n++] = e;
    }
    return n;
}

static int is_ours(const entry *e) { return e->key == 4 && !memcmp(e->at, "hind", 4); }

/* The node that an entry of ours names. */
static hind_node_id node_of(const entry *e) {
    uint8_t node[2];
    if (e->len != 11 || memcmp(e->at, "hind=1-", 7) || !read_hex(e->at + 7, node, 2)) return HIND_NO_NODE;
    return (hind_node_id)(node[0] << 8 | node[1]);
}

/* ---- in */

hind_code hind_context_read(const char *traceparent, const char *tracestate, hind_context *context) {
    entry found[MOST_ENTRIES];
    uint8_t version;
    hind_context c;
    if (!traceparent || !context || strnlen(traceparent, PARENT) < PARENT) return HIND_INVALID;
    if (!read_hex(traceparent, &version, 1) || version == 0xff) return HIND_INVALID;
    if (traceparent[2] != '-' || traceparent[35] != '-' || traceparent[52] != '-') return HIND_INVALID;
    if (traceparent[PARENT] && (version == 0 || traceparent[PARENT] != '-')) return HIND_INVALID;
    if (!read_hex(traceparent + 3, c.trace.bytes, 16) || is_zero(c.trace.bytes, 16)) return HIND_INVALID;
    if (!read_hex(traceparent + 36, c.span.bytes, 8) || is_zero(c.span.bytes, 8)) return HIND_INVALID;
    if (!read_hex(traceparent + 53, &c.flags, 1)) return HIND_INVALID;
    if (version != 0) c.flags &= KNOWN_FLAGS;
    c.node = HIND_NO_NODE;
    for (size_t i = entries_of(tracestate, found); i-- > 0;)
        if (is_ours(&found[i])) c.node = node_of(&found[i]);
    *context = c;
    return HIND_OK;
}

/* ---- out */

/* Takes an entry out of the list. */
static size_t without(entry *list, size_t n, size_t at) {
    memmove(list + at, list + at + 1, (n - at - 1) * sizeof *list);
    return n - 1;
}

/* The entry that goes first where there is no room: the last one that is long, or else the last one. Not the first `kept` ones. */
static size_t first_to_go(const entry *list, size_t n, size_t kept) {
    for (size_t i = n; i-- > kept;)
        if (list[i].len > LONG_ENTRY) return i;
    return n - 1;
}

/* How long the entries are with the commas between them. */
static size_t length_of(const entry *list, size_t n) {
    size_t len = n ? n - 1 : 0;
    for (size_t i = 0; i < n; i++) len += list[i].len;
    return len;
}

static void write_entries(const entry *list, size_t n, char *to) {
    for (size_t i = 0; i < n; i++) {
        if (i) *to++ = ',';
        memcpy(to, list[i].at, list[i].len);
        to += list[i].len;
    }
    *to = 0;
}

hind_code hind_context_write(const hind_context *context, const char *before, char traceparent[HIND_TRACEPARENT_SIZE], char tracestate[HIND_TRACESTATE_SIZE]) {
    entry found[MOST_ENTRIES], list[MOST_ENTRIES + 1];
    char own[] = "hind=1-0000";
    size_t n = 0, kept, others;
    if (!context || !traceparent || !tracestate) return HIND_INVALID;
    if (is_zero(context->trace.bytes, 16) || is_zero(context->span.bytes, 8)) return HIND_INVALID;
    if (context->node != HIND_NO_NODE) {
        const uint8_t node[2] = {(uint8_t)(context->node >> 8), (uint8_t)context->node};
        entry e = {own, 11, 4};
        write_hex(own + 7, node, 2);
        list[n++] = e;
    }
    kept = n;
    others = entries_of(before, found);
    for (size_t i = 0; i < others; i++)
        if (!is_ours(&found[i])) list[n++] = found[i];
    while (n > MOST_ENTRIES || length_of(list, n) > MOST_STATE) n = without(list, n, first_to_go(list, n, kept));

    memcpy(traceparent, "00-", 3);
    write_hex(traceparent + 3, context->trace.bytes, 16);
    traceparent[35] = '-';
    write_hex(traceparent + 36, context->span.bytes, 8);
    traceparent[52] = '-';
    write_hex(traceparent + 53, &context->flags, 1);
    traceparent[PARENT] = 0;
    write_entries(list, n, tracestate);
    return HIND_OK;
}
