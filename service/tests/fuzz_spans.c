/* Bytes of any kind, read as a payload of the span profile by the library and by a second reader, which was written from the tables of
 * docs/FORMATS.md, "The span profile". What is read is written again: the same bytes. */
#include "hindsight.h"
#include <stdio.h>
#include <stdlib.h>
#include <string.h>

unsigned long long fuzz_taken;

static void wrong(const char *why, const uint8_t *bytes, size_t len) {
    fprintf(stderr, "%s:", why);
    for (size_t i = 0; i < len; i++) fprintf(stderr, " %02x", bytes[i]);
    fprintf(stderr, "\n");
    abort();
}

/* The second reader. */
static int is_profile(const uint8_t *b, size_t len) {
    static const uint8_t zero[8];
    if (len < 10 || b[0] != 0 || !memcmp(b + 2, zero, 8)) return 0;
    if (b[1] == 'S') return len >= 19 && b[18] >= 1 && b[18] <= 5 && len <= 19 + 255;
    if (b[1] == 'E') return len >= 11 && b[10] <= 2 && len <= 11 + 255;
    if (b[1] == 'V') return len <= 10 + 255;
    if (b[1] != 'A' || len < 12 || b[11] < 1 || len < 12u + b[11]) return 0;
    size_t value = len - 12 - b[11];
    if (b[10] == 0) return value <= 4096;
    if (b[10] == 1 || b[10] == 2) return value == 8;
    return b[10] == 3 && value == 1 && b[len - 1] <= 1;
}

/* A text of a payload with a 0 behind it. */
static const char *text_of(char *to, const char *at, size_t len) {
    memcpy(to, at, len);
    to[len] = 0;
    return to;
}

static size_t write_again(uint8_t *out, const hind_span_record *r) {
    static char text[5000], value[5000];
    text_of(text, r->text, r->text_len);
    switch (r->what) {
    case HIND_SPAN_START:
        return hind_put_span_start(out, r->span, r->parent, r->kind, text);
    case HIND_SPAN_END:
        return hind_put_span_end(out, r->span, r->status, text);
    case HIND_SPAN_EVENT:
        return hind_put_span_event(out, r->span, text);
    default:
        break;
    }
    switch (r->type) {
    case HIND_VALUE_TEXT:
        return hind_put_span_text(out, r->span, text, text_of(value, r->value, r->value_len));
    case HIND_VALUE_INT:
        return hind_put_span_int(out, r->span, text, r->integer);
    case HIND_VALUE_DOUBLE:
        return hind_put_span_double(out, r->span, text, r->real);
    default:
        return hind_put_span_bool(out, r->span, text, (int)r->integer);
    }
}

int LLVMFuzzerTestOneInput(const uint8_t *bytes, size_t len) {
    static uint8_t out[HIND_SPAN_PAYLOAD];
    hind_span_record r;
    int is_read = hind_read_span(bytes, len, &r);
    if (is_read != is_profile(bytes, len)) wrong("one reads it and the other does not", bytes, len);
    if (!is_read) return 0;
    fuzz_taken++;
    /* what C's texts cannot say is not written again: a 0 inside */
    if (memchr(r.text, 0, r.text_len) || (r.value && memchr(r.value, 0, r.value_len))) return 0;
    if (write_again(out, &r) != len || memcmp(out, bytes, len)) wrong("other bytes are written", bytes, len);
    return 0;
}

size_t LLVMFuzzerMutate(uint8_t *bytes, size_t len, size_t most);
size_t LLVMFuzzerCustomMutator(uint8_t *bytes, size_t len, size_t most, unsigned seed);

/* Half of the mutations begin anew with a payload of the profile. */
size_t LLVMFuzzerCustomMutator(uint8_t *bytes, size_t len, size_t most, unsigned seed) {
    hind_span_id span = {{1, 2, 3, 4, 5, 6, 7, (uint8_t)(seed >> 8)}};
    if (seed & 1 || most < HIND_SPAN_PAYLOAD) return LLVMFuzzerMutate(bytes, len, most);
    switch (seed >> 1 & 7) {
    case 0:
        return hind_put_span_start(bytes, span, span, (int)(seed >> 4 & 7), "a name");
    case 1:
        return hind_put_span_end(bytes, span, (int)(seed >> 4 & 3), "a message");
    case 2:
        return hind_put_span_event(bytes, span, "an event");
    case 3:
        return hind_put_span_text(bytes, span, "key", "a value");
    case 4:
        return hind_put_span_int(bytes, span, "key", (int)seed);
    case 5:
        return hind_put_span_double(bytes, span, "key", (double)seed);
    case 6:
        return hind_put_span_bool(bytes, span, "key", (int)(seed >> 4 & 1));
    default:
        memset(bytes + 12, (int)(seed >> 4 & 0x7f) | 1, 300);
        bytes[11] = 255;
        bytes[1] = "SEVA"[seed >> 5 & 3];
        return 250 + (seed >> 8 & 63);
    }
}
