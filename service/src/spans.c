/* The span profile: payloads that a hub can turn into spans (docs/FORMATS.md, "The span profile"). */
#include "hindsight.h"
#include <string.h>

enum { MARK = 0, HEAD = 2 + 8 };

/* ---- out */

/* How many bytes of a text fit, cut in front of a character of UTF-8 and not inside one. Such a character has at most four bytes. */
static size_t fitting(const char *text, size_t most) {
    size_t n = strnlen(text, most + 1);
    if (n <= most) return n;
    for (n = most; n > most - 3; n--)
        if (((uint8_t)text[n] & 0xc0) != 0x80) return n;
    return ((uint8_t)text[n] & 0xc0) != 0x80 ? n : most;
}

static int is_none(hind_span_id span) {
    static const hind_span_id none;
    return !memcmp(&span, &none, sizeof none);
}

/* The mark, the tag and the span. */
static size_t put_head(uint8_t *out, char tag, hind_span_id span) {
    out[0] = MARK;
    out[1] = (uint8_t)tag;
    memcpy(out + 2, span.bytes, 8);
    return HEAD;
}

static size_t put_text(uint8_t *out, size_t at, const char *text, size_t most) {
    size_t n = fitting(text, most);
    memcpy(out + at, text, n);
    return at + n;
}

size_t hind_put_span_start(uint8_t *out, hind_span_id span, hind_span_id parent, int kind, const char *name) {
    size_t at;
    if (!out || !name || is_none(span) || kind < HIND_KIND_INTERNAL || kind > HIND_KIND_CONSUMER) return 0;
    at = put_head(out, 'S', span);
    memcpy(out + at, parent.bytes, 8);
    out[at + 8] = (uint8_t)kind;
    return put_text(out, at + 9, name, HIND_SPAN_TEXT);
}

size_t hind_put_span_end(uint8_t *out, hind_span_id span, int status, const char *message) {
    size_t at;
    if (!out || is_none(span) || status < HIND_STATUS_UNSET || status > HIND_STATUS_ERROR) return 0;
    at = put_head(out, 'E', span);
    out[at] = (uint8_t)status;
    return put_text(out, at + 1, message ? message : "", HIND_SPAN_TEXT);
}

size_t hind_put_span_event(uint8_t *out, hind_span_id span, const char *name) {
    if (!out || !name || is_none(span)) return 0;
    return put_text(out, put_head(out, 'V', span), name, HIND_SPAN_TEXT);
}

/* What every attribute begins with: its type, and its key behind the key's length. 0 where it cannot be written. */
static size_t put_key(uint8_t *out, hind_span_id span, const char *key, int type) {
    size_t at, n;
    if (!out || !key || !*key || is_none(span)) return 0;
    n = fitting(key, HIND_SPAN_TEXT);
    at = put_head(out, 'A', span);
    out[at] = (uint8_t)type;
    out[at + 1] = (uint8_t)n;
    memcpy(out + at + 2, key, n);
    return at + 2 + n;
}

static size_t put_number(uint8_t *out, size_t at, uint64_t number) {
    for (int i = 0; i < 8; i++) out[at + (size_t)i] = (uint8_t)(number >> (56 - 8 * i));
    return at + 8;
}

size_t hind_put_span_text(uint8_t *out, hind_span_id span, const char *key, const char *value) {
    size_t at = value ? put_key(out, span, key, HIND_VALUE_TEXT) : 0;
    return at ? put_text(out, at, value, HIND_SPAN_VALUE) : 0;
}

size_t hind_put_span_int(uint8_t *out, hind_span_id span, const char *key, int64_t value) {
    size_t at = put_key(out, span, key, HIND_VALUE_INT);
    return at ? put_number(out, at, (uint64_t)value) : 0;
}

size_t hind_put_span_double(uint8_t *out, hind_span_id span, const char *key, double value) {
    size_t at = put_key(out, span, key, HIND_VALUE_DOUBLE);
    uint64_t bits;
    memcpy(&bits, &value, sizeof bits);
    return at ? put_number(out, at, bits) : 0;
}

size_t hind_put_span_bool(uint8_t *out, hind_span_id span, const char *key, int value) {
    size_t at = put_key(out, span, key, HIND_VALUE_BOOL);
    if (!at) return 0;
    out[at] = value != 0;
    return at + 1;
}

/* ---- in */

static uint64_t number_at(const uint8_t *at) {
    uint64_t number = 0;
    for (int i = 0; i < 8; i++) number = number << 8 | at[i];
    return number;
}

/* A text of at most `most` bytes that is all the rest. */
static int read_text(const uint8_t *at, size_t len, size_t most, const char **text, size_t *text_len) {
    *text = (const char *)at;
    *text_len = len;
    return len <= most;
}

static int read_start(const uint8_t *at, size_t len, hind_span_record *r) {
    if (len < 9 || at[8] < HIND_KIND_INTERNAL || at[8] > HIND_KIND_CONSUMER) return 0;
    r->what = HIND_SPAN_START;
    memcpy(r->parent.bytes, at, 8);
    r->kind = at[8];
    return read_text(at + 9, len - 9, HIND_SPAN_TEXT, &r->text, &r->text_len);
}

static int read_end(const uint8_t *at, size_t len, hind_span_record *r) {
    if (len < 1 || at[0] > HIND_STATUS_ERROR) return 0;
    r->what = HIND_SPAN_END;
    r->status = at[0];
    return read_text(at + 1, len - 1, HIND_SPAN_TEXT, &r->text, &r->text_len);
}

static int read_event(const uint8_t *at, size_t len, hind_span_record *r) {
    r->what = HIND_SPAN_EVENT;
    return read_text(at, len, HIND_SPAN_TEXT, &r->text, &r->text_len);
}

static int read_value(const uint8_t *at, size_t len, hind_span_record *r) {
    uint64_t bits;
    switch (r->type) {
    case HIND_VALUE_TEXT:
        return read_text(at, len, HIND_SPAN_VALUE, &r->value, &r->value_len);
    case HIND_VALUE_INT:
        if (len != 8) return 0;
        bits = number_at(at);
        memcpy(&r->integer, &bits, sizeof bits);
        return 1;
    case HIND_VALUE_DOUBLE:
        if (len != 8) return 0;
        bits = number_at(at);
        memcpy(&r->real, &bits, sizeof bits);
        return 1;
    case HIND_VALUE_BOOL:
        if (len != 1 || at[0] > 1) return 0;
        r->integer = at[0];
        return 1;
    default:
        return 0;
    }
}

static int read_attribute(const uint8_t *at, size_t len, hind_span_record *r) {
    if (len < 2 || !at[1] || len - 2 < at[1]) return 0;
    r->what = HIND_SPAN_ATTRIBUTE;
    r->type = at[0];
    r->text = (const char *)at + 2;
    r->text_len = at[1];
    return read_value(at + 2 + at[1], len - 2 - at[1], r);
}

int hind_read_span(const void *payload, size_t len, hind_span_record *record) {
    const uint8_t *bytes = payload;
    hind_span_record r;
    int is_read;
    if (!bytes || !record || len < HEAD || bytes[0] != MARK) return 0;
    memset(&r, 0, sizeof r);
    memcpy(r.span.bytes, bytes + 2, 8);
    if (is_none(r.span)) return 0;
    bytes += HEAD;
    len -= HEAD;
    switch (bytes[1 - HEAD]) {
    case 'S':
        is_read = read_start(bytes, len, &r);
        break;
    case 'E':
        is_read = read_end(bytes, len, &r);
        break;
    case 'V':
        is_read = read_event(bytes, len, &r);
        break;
    case 'A':
        is_read = read_attribute(bytes, len, &r);
        break;
    default:
        is_read = 0;
    }
    if (is_read) *record = r;
    return is_read;
}
