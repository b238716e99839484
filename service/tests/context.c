/* Headers, spans and ids: what is read, what is refused, and what is written. Expected values are worked by hand from docs/FORMATS.md and from
 * the grammar of W3C's Trace Context. */
#include "expect.h"
#include "hindsight.h"
#include <stdlib.h>
#include <string.h>
#include <sys/wait.h>
#include <unistd.h>

static hind_context context;
static char parent[HIND_TRACEPARENT_SIZE], state[HIND_TRACESTATE_SIZE];

#define GOOD "00-0000000000000000000000000000a1b0-00000000000000c7-01"

static int read_parent(const char *text) { return hind_context_read(text, NULL, &context); }

/* The node that a tracestate names. */
static hind_node_id named(const char *text) {
    context.node = 7;
    EXPECT(hind_context_read(GOOD, text, &context), HIND_OK);
    return context.node;
}

static void reads_traceparent(void) {
    static const char *const refused[] = {
        "",
        "00",
        "00-0000000000000000000000000000a1b0-00000000000000c7-0",                                /* too short */
        "00-0000000000000000000000000000a1b0-00000000000000c7-01-x",                             /* version 00 ends there */
        "00-0000000000000000000000000000a1b0-00000000000000c7-011",
        "ff-0000000000000000000000000000a1b0-00000000000000c7-01",                               /* no version */
        "0G-0000000000000000000000000000a1b0-00000000000000c7-01",
        "00-00000000000000000000000000000000-00000000000000c7-01",                               /* no trace */
        "00-0000000000000000000000000000a1b0-0000000000000000-01",                               /* no span */
        "00-0000000000000000000000000000A1B0-00000000000000c7-01",                               /* upper case */
        "00-0000000000000000000000000000a1b.-00000000000000c7-01",
        "00-0000000000000000000000000000a1b0-00000000000000.7-01",
        "00-0000000000000000000000000000a1b0-00000000000000c7-.1",
        "00_0000000000000000000000000000a1b0-00000000000000c7-01",
        "00-0000000000000000000000000000a1b0_00000000000000c7-01",
        "00-0000000000000000000000000000a1b0-00000000000000c7_01",
        "cc-0000000000000000000000000000a1b0-00000000000000c7-01.what",
    };
    for (size_t i = 0; i < sizeof refused / sizeof *refused; i++) EXPECT(read_parent(refused[i]), HIND_INVALID);
    EXPECT(hind_context_read(NULL, NULL, &context), HIND_INVALID);
    EXPECT(hind_context_read(GOOD, NULL, NULL), HIND_INVALID);

    EXPECT(read_parent(GOOD), HIND_OK);
    EXPECT(context.trace.bytes[14], 0xa1);
    EXPECT(context.trace.bytes[15], 0xb0);
    EXPECT(context.trace.bytes[0], 0);
    EXPECT(context.span.bytes[7], 0xc7);
    EXPECT(context.flags, 1);
    EXPECT(context.node, HIND_NO_NODE);
    EXPECT(read_parent("00-0000000000000000000000000000a1b0-00000000000000c7-f5"), HIND_OK);
    EXPECT(context.flags, 0xf5);
    EXPECT(read_parent("cc-0000000000000000000000000000a1b0-00000000000000c7-f5"), HIND_OK);
    EXPECT(context.flags, 1);
    EXPECT(read_parent("cc-0000000000000000000000000000a1b0-00000000000000c7-02-what-will-be"), HIND_OK);
    EXPECT(context.flags, 2);
}

static void reads_tracestate(void) {
    char many[33 * 5 + 1] = "", long_key[300], long_value[300];
    EXPECT(named("hind=1-00a3"), 0xa3);
    EXPECT(named("a=1,hind=1-00a3"), 0xa3);
    EXPECT(named(" \ta=1 \t,\t hind=1-00a3 , "), 0xa3);
    EXPECT(named("a=1,,,hind=1-00a3,"), 0xa3);
    EXPECT(named("hind=1-0001,hind=1-0002"), 1);
    EXPECT(named("5@b_-*/=a b!~<>,hind=1-0004"), 4);
    EXPECT(named("hind=1-ffff"), HIND_NO_NODE);
    EXPECT(named("hind=2-0001"), HIND_NO_NODE);
    EXPECT(named("hind=1-001"), HIND_NO_NODE);
    EXPECT(named("hind=1-00A3"), HIND_NO_NODE);
    EXPECT(named("hind=1-00a30"), HIND_NO_NODE);
    EXPECT(named("hinds=1-00a3"), HIND_NO_NODE);
    EXPECT(named(""), HIND_NO_NODE);
    /* invalid as a whole */
    EXPECT(named("hind=1-00a3,b"), HIND_NO_NODE);
    EXPECT(named("hind=1-00a3,=b"), HIND_NO_NODE);
    EXPECT(named("hind=1-00a3,b="), HIND_NO_NODE);
    EXPECT(named("hind=1-00a3,B=1"), HIND_NO_NODE);
    EXPECT(named("hind=1-00a3,b.c=1"), HIND_NO_NODE);
    EXPECT(named("hind=1-00a3,b =1"), HIND_NO_NODE);
    EXPECT(named("hind=1-00a3,_b=1"), HIND_NO_NODE);
    EXPECT(named("hind=1-00a3,b=1=2"), HIND_NO_NODE);
    EXPECT(named("hind=1-00a3,b=1\n"), HIND_NO_NODE);
    /* 32 entries, and one more */
    size_t len = (size_t)snprintf(many, sizeof many, "hind=1-00a3");
    for (int i = 0; i < 31; i++) len += (size_t)snprintf(many + len, sizeof many - len, ",b=1");
    EXPECT(named(many), 0xa3);
    snprintf(many + len, sizeof many - len, ",b=1");
    EXPECT(named(many), HIND_NO_NODE);
    /* keys and values of 256 bytes, and one more */
    for (int n = 256; n <= 257; n++) {
        memset(long_key, 'k', 300);
        memcpy(long_key + n, "=1,", 4);
        char text[640];
        snprintf(text, sizeof text, "%shind=1-00a3", long_key);
        EXPECT(named(text), n == 256 ? 0xa3 : HIND_NO_NODE);
        memset(long_value, 'v', 300);
        long_value[n] = 0;
        snprintf(text, sizeof text, "k=%s,hind=1-00a3", long_value);
        EXPECT(named(text), n == 256 ? 0xa3 : HIND_NO_NODE);
    }
}

/* What tracestate is written where this one came. */
static const char *written(hind_node_id node, const char *before) {
    hind_context c = {{{0}}, {{0}}, 1, node};
    c.trace.bytes[14] = 0xa1;
    c.trace.bytes[15] = 0xb0;
    c.span.bytes[7] = 0xc7;
    memset(parent, 'x', sizeof parent);
    memset(state, 'x', sizeof state);
    EXPECT(hind_context_write(&c, before, parent, state), HIND_OK);
    EXPECT(strcmp(parent, GOOD), 0);
    return state;
}

enum { ROOM = 1000 };

/* Puts a text behind another one. */
static void add(char text[ROOM], const char *more) {
    size_t len = strlen(text), n = strlen(more);
    EXPECT(len + n < ROOM, 1);
    if (len + n < ROOM) memcpy(text + len, more, n + 1);
}

static void writes(void) {
    char before[ROOM] = "", wanted[ROOM] = "";
    hind_context none = {{{0}}, {{1}}, 0, 1}, no_span = {{{1}}, {{0}}, 0, 1}, good = {{{1}}, {{1}}, 0, 1};
    EXPECT(strcmp(written(3, NULL), "hind=1-0003"), 0);
    EXPECT(strcmp(written(0xa3, "other=x"), "hind=1-00a3,other=x"), 0);
    EXPECT(strcmp(written(3, " a=1 ,hind=1-0007,, b=2"), "hind=1-0003,a=1,b=2"), 0);
    EXPECT(strcmp(written(HIND_NO_NODE, "a=1,hind=1-0007"), "a=1"), 0);
    EXPECT(strcmp(written(HIND_NO_NODE, NULL), ""), 0);
    EXPECT(strcmp(written(3, "a=1,b"), "hind=1-0003"), 0);
    /* 32 others: the last one goes */
    add(before, "a=1");
    add(wanted, "hind=1-0003,a=1");
    for (int i = 1; i < 32; i++) {
        add(before, i < 31 ? ",b=2" : ",c=3");
        if (i < 31) add(wanted, ",b=2");
    }
    EXPECT(strcmp(written(3, before), wanted), 0);
    /* 12 bytes of ours with its comma, and 501 of others: the one of 130 bytes goes, and not the last one */
    *before = *wanted = 0;
    add(before, "l=");
    memset(before + 2, 'v', 128);
    before[130] = 0;
    add(wanted, "hind=1-0003");
    for (int i = 0; i < 4; i++) {
        char more[100] = ",k=";
        size_t n = i < 3 ? 92 : 95;
        memset(more + 3, '0' + i, n - 3);
        more[n] = 0;
        add(before, more);
        add(wanted, more);
    }
    EXPECT(strlen(before) + 12, 513);
    EXPECT(strcmp(written(3, before), wanted), 0);
    before[strlen(before) - 1] = 0; /* 512 fit */
    EXPECT(strlen(written(3, before)), 512);

    EXPECT(hind_context_write(NULL, NULL, parent, state), HIND_INVALID);
    EXPECT(hind_context_write(&good, NULL, NULL, state), HIND_INVALID);
    EXPECT(hind_context_write(&good, NULL, parent, NULL), HIND_INVALID);
    EXPECT(hind_context_write(&none, NULL, parent, state), HIND_INVALID);
    EXPECT(hind_context_write(&no_span, NULL, parent, state), HIND_INVALID);
}

/* ---- spans */

static uint8_t out[HIND_SPAN_PAYLOAD];
static const hind_span_id c7 = {{0, 0, 0, 0, 0, 0, 0, 0xc7}}, c6 = {{0, 0, 0, 0, 0, 0, 0, 0xc6}}, no_span_id;

static int is_written(size_t len, const char *hex) {
    if (strlen(hex) != 2 * len) return 0;
    for (size_t i = 0; i < len; i++) {
        unsigned byte;
        if (sscanf(hex + 2 * i, "%2x", &byte) != 1 || byte != out[i]) return 0;
    }
    return 1;
}

static void spans(void) {
    char text[5000];
    hind_span_record r;
    EXPECT(is_written(hind_put_span_start(out, c7, c6, HIND_KIND_SERVER, "GET"), "005300000000000000c700000000000000c602474554"), 1);
    EXPECT(is_written(hind_put_span_end(out, c7, HIND_STATUS_ERROR, "no"), "004500000000000000c7026e6f"), 1);
    EXPECT(is_written(hind_put_span_end(out, c7, HIND_STATUS_OK, NULL), "004500000000000000c701"), 1);
    EXPECT(is_written(hind_put_span_event(out, c7, "ev"), "005600000000000000c76576"), 1);
    EXPECT(is_written(hind_put_span_text(out, c7, "k", "v"), "004100000000000000c700016b76"), 1);
    EXPECT(is_written(hind_put_span_int(out, c7, "code", 503), "004100000000000000c70104636f646500000000000001f7"), 1);
    EXPECT(is_written(hind_put_span_int(out, c7, "k", -1), "004100000000000000c701016bffffffffffffffff"), 1);
    EXPECT(is_written(hind_put_span_double(out, c7, "k", -2.5), "004100000000000000c702016bc004000000000000"), 1);
    EXPECT(is_written(hind_put_span_bool(out, c7, "k", 5), "004100000000000000c703016b01"), 1);
    EXPECT(is_written(hind_put_span_bool(out, c7, "k", 0), "004100000000000000c703016b00"), 1);
    /* a text is cut in front of a character: 254 bytes and one of two bytes */
    memset(text, 'n', 254);
    memcpy(text + 254, "\xc3\xa4", 3);
    EXPECT(hind_put_span_event(out, c7, text), 10 + 254);
    memcpy(text + 254, "nn", 3);
    EXPECT(hind_put_span_event(out, c7, text), 10 + 255);
    memset(text, 0x80, 300);
    text[300] = 0;
    EXPECT(hind_put_span_event(out, c7, text), 10 + 255);
    memset(text, 'v', 4097);
    text[4097] = 0;
    EXPECT(hind_put_span_text(out, c7, "k", text), 13 + 4096);
    EXPECT(hind_read_span(out, 13 + 4096, &r), 1);
    EXPECT(r.value_len, 4096);
    memset(text, 'k', 300);
    text[300] = 0;
    EXPECT(hind_put_span_text(out, c7, text, "v"), 12 + 255 + 1);
    /* refused */
    EXPECT(hind_put_span_start(NULL, c7, c6, 1, "n"), 0);
    EXPECT(hind_put_span_start(out, no_span_id, c6, 1, "n"), 0);
    EXPECT(hind_put_span_start(out, c7, c6, 0, "n"), 0);
    EXPECT(hind_put_span_start(out, c7, c6, 6, "n"), 0);
    EXPECT(hind_put_span_start(out, c7, c6, 1, NULL), 0);
    EXPECT(hind_put_span_end(out, c7, -1, "n"), 0);
    EXPECT(hind_put_span_end(out, c7, 3, "n"), 0);
    EXPECT(hind_put_span_end(out, no_span_id, 0, "n"), 0);
    EXPECT(hind_put_span_end(NULL, c7, 0, "n"), 0);
    EXPECT(hind_put_span_event(out, c7, NULL), 0);
    EXPECT(hind_put_span_event(NULL, c7, "n"), 0);
    EXPECT(hind_put_span_event(out, no_span_id, "n"), 0);
    EXPECT(hind_put_span_text(out, c7, "", "v"), 0);
    EXPECT(hind_put_span_text(out, c7, NULL, "v"), 0);
    EXPECT(hind_put_span_text(out, c7, "k", NULL), 0);
    EXPECT(hind_put_span_int(out, no_span_id, "k", 1), 0);
    EXPECT(hind_put_span_double(NULL, c7, "k", 1), 0);
    EXPECT(hind_put_span_bool(out, c7, NULL, 1), 0);
    EXPECT(hind_read_span(NULL, 20, &r), 0);
    EXPECT(hind_read_span(out, 20, NULL), 0);
    EXPECT(hind_read_span("Starting a new request", 22, &r), 0);
}

/* ---- ids */

static int is_zero(const void *bytes, size_t n) {
    static const uint8_t zero[16];
    return !memcmp(bytes, zero, n);
}

/* No two of many ids are one, in a parent and its child. */
static void ids(void) {
    enum { MANY = 1000 };
    static hind_trace_id traces[2 * MANY];
    static hind_span_id spans_drawn[MANY];
    int ends[2];
    EXPECT(hind_new_trace(NULL), HIND_INVALID);
    EXPECT(hind_new_span(NULL), HIND_INVALID);
    hind_context fresh, other;
    static const hind_context none;
    EXPECT(hind_new_context(NULL), HIND_INVALID);
    EXPECT(hind_new_context(&fresh), HIND_OK);
    EXPECT(hind_new_context(&other), HIND_OK);
    HOLDS(memcmp(&fresh.trace, &none.trace, sizeof none.trace) && memcmp(&fresh.trace, &other.trace, sizeof other.trace));
    HOLDS(!memcmp(&fresh.span, &none.span, sizeof none.span) && fresh.flags == 0 && fresh.node == HIND_NO_NODE);
    EXPECT(hind_new_trace(&traces[0]), HIND_OK);
    EXPECT(pipe(ends), 0);
    if (!fork()) {
        for (int i = 0; i < MANY; i++) {
            hind_trace_id id;
            if (hind_new_trace(&id) != HIND_OK || write(ends[1], &id, sizeof id) != sizeof id) _exit(1);
        }
        _exit(0);
    }
    for (int i = 1; i < MANY; i++) EXPECT(hind_new_trace(&traces[i]), HIND_OK);
    for (int i = 0; i < MANY; i++) EXPECT(read(ends[0], &traces[MANY + i], 16), 16);
    int status = 1;
    EXPECT(wait(&status) > 0, 1);
    EXPECT(status, 0);
    for (int i = 0; i < 2 * MANY; i++) {
        EXPECT(is_zero(&traces[i], 16), 0);
        for (int j = 0; j < i; j++) EXPECT(memcmp(&traces[i], &traces[j], 16) != 0, 1);
    }
    for (int i = 0; i < MANY; i++) {
        EXPECT(hind_new_span(&spans_drawn[i]), HIND_OK);
        EXPECT(is_zero(&spans_drawn[i], 8), 0);
        for (int j = 0; j < i; j++) EXPECT(memcmp(&spans_drawn[i], &spans_drawn[j], 8) != 0, 1);
    }
}

static void answers(void) {
    EXPECT(strcmp(hind_errname(HIND_OK), "HIND_OK"), 0);
    EXPECT(strcmp(hind_errname(HIND_SYSTEM), "HIND_SYSTEM"), 0);
    EXPECT(strcmp(hind_errname(12345), "unknown code"), 0);
    EXPECT(strcmp(hind_strerror(HIND_OK), "done"), 0);
    EXPECT(strcmp(hind_strerror(-12345), "unknown code"), 0);
}

int main(void) {
    reads_traceparent();
    reads_tracestate();
    writes();
    spans();
    ids();
    answers();
    if (!failed) puts("context: ok");
    return failed != 0;
}
