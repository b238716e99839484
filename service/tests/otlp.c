/* Prints traces as OTLP: one that is worked by hand in otlp.py, one with what is rare, and then as many random ones as the first argument says. With a
 * second argument the n-th allocation of each is refused, for n from 0 until none is. otlp.py reads the lines. */
#include "otlp.h"
#include <math.h>
#include <stdio.h>
#include <stdlib.h>
#include <string.h>

/* ---- memory: the linker has malloc and realloc go through here (--wrap) */

void *__real_malloc(size_t size);
void *__real_realloc(void *old, size_t size);
void *__wrap_malloc(size_t size);
void *__wrap_realloc(void *old, size_t size);

static long allocations, refused_at = -1;

void *__wrap_malloc(size_t size) { return allocations++ == refused_at ? NULL : __real_malloc(size); }
void *__wrap_realloc(void *old, size_t size) { return allocations++ == refused_at ? NULL : __real_realloc(old, size); }

/* ---- records */

enum { MOST = 400 };
static uint8_t payloads[MOST][HIND_SPAN_PAYLOAD];
static otlp_record records[MOST];
static size_t count;

static otlp_record *add(uint16_t client, uint64_t number, uint64_t moment, size_t len) {
    otlp_record r = {client, 0, number, 0, moment, payloads[count], len};
    records[count] = r;
    return &records[count++];
}

static otlp_record *add_text(uint16_t client, uint64_t number, uint64_t moment, const char *text) {
    memcpy(payloads[count], text, strlen(text));
    return add(client, number, moment, strlen(text));
}

static uint8_t *next(void) { return payloads[count]; }

static hind_span_id id(uint8_t last) {
    hind_span_id span = {{0}};
    span.bytes[7] = last;
    return span;
}

static void print(const otlp_trace *trace, int is_refused) {
    otlp_text text;
    memset(&text, 0, sizeof text);
    refused_at = -1;
    if (is_refused) {
        for (refused_at = 0;; refused_at++) {
            size_t len = text.len;
            allocations = 0;
            if (!otlp_write(trace, &text)) break;
            if (text.len != len) exit(3);
        }
        if (refused_at < 3) exit(4);
    } else if (otlp_write(trace, &text)) {
        exit(5);
    }
    fwrite(text.bytes, 1, text.len, stdout);
    free(text.bytes);
}

static const hind_trace_id trace_id = {{0, 0, 0, 0, 0, 0, 0, 0, 0, 0, 0, 0, 0, 0, 0xa1, 0xb0}};

static void by_hand(int is_refused) {
    size_t web;
    count = 0;
    add(0, 4, 1000, hind_put_span_start(next(), id(0xc7), id(0xc6), HIND_KIND_SERVER, "GET \"/\""));
    add(0, 5, 1010, hind_put_span_int(next(), id(0xc7), "code", 503));
    add(0, 6, 1020, hind_put_span_event(next(), id(0xc7), "retry"));
    add_text(0, 7, 1030, "slow\n");
    add(0, 9, 1100, hind_put_span_end(next(), id(0xc7), HIND_STATUS_ERROR, "no"))->missing = 1;
    add_text(1, 0, 1050, "\xff\x01")->core = 2;
    web = count;
    add(3, 0, 2000, hind_put_span_start(next(), id(0xc8), id(0xc7), HIND_KIND_CLIENT, "\xc3\xa4"));
    otlp_part parts[] = {{3, 258, "web", "whole since 80", records, web}, {5, 1, "db", "silent", records + web, count - web}};
    otlp_trace trace = {trace_id, 2, 0, 1, parts, 2};
    print(&trace, is_refused);
}

static void rare(int is_refused) {
    count = 0;
    add(0, 0, 5, hind_put_span_double(next(), id(1), "nan", NAN));
    add(0, 1, 6, hind_put_span_double(next(), id(1), "low", -INFINITY));
    add(0, 2, 7, hind_put_span_double(next(), id(1), "high", INFINITY));
    add(0, 5, 8, hind_put_span_double(next(), id(1), "tenth", 0.1))->missing = 2;
    add(0, 6, 9, hind_put_span_bool(next(), id(1), "yes", 1));
    add(0, 7, 10, hind_put_span_bool(next(), id(1), "no", 0));
    add(0, 8, 4, hind_put_span_text(next(), id(1), "bad", "a\xc0\xaf\xed\xa0\x80\xf4\x90\x80\x80z"));
    add(0, 9, UINT64_MAX, hind_put_span_int(next(), id(1), "least", INT64_MIN));
    otlp_part part = {0, UINT64_MAX, "", "unknown", records, count};
    otlp_trace trace = {trace_id, 255, 3, 0, &part, 1};
    print(&trace, is_refused);
    trace.count = 0;
    print(&trace, 0);
}

/* ---- random traces */

static uint64_t state;
static unsigned drawn(unsigned below) {
    state = state * 6364136223846793005u + 1442695040888963407u;
    return (unsigned)(state >> 33) % below;
}

static size_t draw_payload(uint8_t *out) {
    char text[40];
    size_t n = drawn(30);
    for (size_t i = 0; i < n; i++) text[i] = drawn(4) ? "ab\"\\\n\xc3\xa4 "[drawn(8)] : (char)(1 + drawn(255));
    text[n] = 0;
    hind_span_id span = id((uint8_t)(1 + drawn(12)));
    switch (drawn(9)) {
    case 0:
    case 1:
        return hind_put_span_start(out, span, id((uint8_t)drawn(4)), 1 + (int)drawn(5), text);
    case 2:
        return hind_put_span_end(out, span, (int)drawn(3), text);
    case 3:
        return hind_put_span_event(out, span, text);
    case 4:
        return hind_put_span_text(out, span, "key", text);
    case 5:
        return hind_put_span_int(out, span, "key", (int64_t)state);
    case 6:
        return hind_put_span_double(out, span, "key", (double)(int64_t)state / 3);
    default:
        memcpy(out, text, n);
        return n;
    }
}

static void random_trace(void) {
    otlp_part parts[4];
    size_t n = drawn(5), begin;
    count = 0;
    for (size_t p = 0; p < n; p++) {
        begin = count;
        for (uint16_t client = 0; client < 3; client++)
            for (unsigned i = drawn(20), number = 0; i; i--) {
                otlp_record *r = add(client, number, 1000 + drawn(1000), draw_payload(next()));
                number += 1 + (unsigned)(r->missing = drawn(3) ? 0 : drawn(5));
            }
        otlp_part part = {(hind_node_id)p, p + 1, "any", "open", records + begin, count - begin};
        parts[p] = part;
    }
    otlp_trace trace = {trace_id, 1, 1, (int)drawn(2), parts, n};
    print(&trace, 0);
}

int main(int argc, char **argv) {
    by_hand(argc > 2);
    rare(argc > 2);
    for (long i = argc > 1 ? atol(argv[1]) : 0; i; i--) random_trace();
    return 0;
}
