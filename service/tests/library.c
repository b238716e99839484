/* Each call of the public header, as a service makes it: what it answers where all is well, and to each misuse that the header names. Expected
 * values are from the header, docs/RULES.md and docs/FORMATS.md. */
#define _GNU_SOURCE
#include "expect.h"
#include "hindsight.h"
#include <errno.h>
#include <poll.h>
#include <pthread.h>
#include <stdlib.h>
#include <string.h>

static const char text[] = "triggerid 1\ntriggerid 3 2 5 1\nauto 0 queue 3 2 5000 2\nnodes 4\nbuffers 256\nsize 256\nthreshold 64\npins 64\nclients 2\nbacklog 8\n";
/* sha256sum of "nodes 4\nsize 256\ntriggerid 1 1 10 1\ntriggerid 3 2 5 1\nauto 0 queue 3 2 5000 2\n" */
static const uint8_t digest[32] = {0x77, 0x28, 0x02, 0xa7, 0xd4, 0x90, 0xf5, 0x55, 0xe2, 0x62, 0xbe, 0xd2, 0x1c, 0xe7, 0x2b, 0xfe,
                                   0xf9, 0xb7, 0xdf, 0x82, 0xaf, 0xfb, 0xc5, 0x02, 0x63, 0xe2, 0x54, 0x5c, 0x5e, 0xe6, 0x0e, 0x45};
static const hind_trace_id none, first = {{1, 2, 3, 4, 5, 6, 7, 8, 9, 10, 11, 12, 13, 14, 15, 16}}, second = {{2}};

static hind_node *opened(hind_node_id number, uint64_t epoch, const char *name) {
    hind_node_options o = HIND_NODE_OPTIONS_INIT;
    hind_node *node = NULL;
    o.node = number;
    o.epoch = epoch;
    o.settings = text;
    o.settings_len = sizeof text - 1;
    o.name = name;
    EXPECT(hind_node_open(&o, &node), HIND_OK);
    return node;
}

static hind_hub *opened_hub(void) {
    hind_hub_options o = HIND_HUB_OPTIONS_INIT;
    hind_hub *hub = NULL;
    o.settings = text;
    o.settings_len = sizeof text - 1;
    o.is_fresh = 1;
    EXPECT(hind_hub_open(&o, &hub), HIND_OK);
    return hub;
}

/* ---- texts and options */

static void texts(void) {
    for (int code = -40; code < 40; code++) {
        int known = code >= -19 && code <= 2;
        EXPECT(strcmp(hind_errname(code), "unknown code") != 0, known);
        EXPECT(strcmp(hind_strerror(code), "unknown code") != 0, known);
        for (int other = -19; known && other < code; other++) HOLDS(strcmp(hind_errname(code), hind_errname(other)) && strcmp(hind_strerror(code), hind_strerror(other)));
    }
    EXPECT(strcmp(hind_errname(HIND_FULL), "HIND_FULL"), 0);
    EXPECT(HIND_DRY, -19);
    EXPECT(strcmp(hind_errname(HIND_DRY), "HIND_DRY"), 0);
    EXPECT(hind_version(), HIND_VERSION_NUMBER);
    EXPECT(strcmp(hind_version_string(), "0.3.0"), 0);
}

static void options(void) {
    hind_node_options o = HIND_NODE_OPTIONS_INIT, wrong;
    struct {
        hind_node_options o;
        uint64_t later;
    } newer;
    hind_node *node = (hind_node *)&o;
    char longest[66];
    memset(longest, 'n', 65);
    longest[65] = 0;
    o.settings = text;
    o.settings_len = sizeof text - 1;
    EXPECT(hind_node_open(NULL, &node), HIND_INVALID);
    HOLDS(!node);
    EXPECT(hind_node_open(&o, NULL), HIND_INVALID);
    wrong = o;
    wrong.size = 4;
    EXPECT(hind_node_open(&wrong, &node), HIND_INVALID);
    wrong = o;
    wrong.abi = HIND_ABI + 1;
    EXPECT(hind_node_open(&wrong, &node), HIND_ABI_WRONG);
    wrong = o;
    wrong.settings = NULL;
    EXPECT(hind_node_open(&wrong, &node), HIND_INVALID);
    wrong = o;
    wrong.name = longest;
    EXPECT(hind_node_open(&wrong, &node), HIND_TOOLONG);
    wrong = o;
    wrong.node = 4; /* the nodes are 0 to 3 */
    EXPECT(hind_node_open(&wrong, &node), HIND_UNDECLARED);
    HOLDS(!node);
    /* a later header's field is refused where it is set */
    memset(&newer, 0, sizeof newer);
    newer.o = o;
    newer.o.size = sizeof newer;
    newer.later = 1;
    EXPECT(hind_node_open(&newer.o, &node), HIND_ABI_WRONG);
    newer.later = 0;
    EXPECT(hind_node_open(&newer.o, &node), HIND_OK);
    EXPECT(hind_node_close(node), HIND_OK);
    /* an older header's missing fields are zero: no name */
    wrong = o;
    wrong.size = offsetof(hind_node_options, name);
    wrong.name = longest;
    EXPECT(hind_node_open(&wrong, &node), HIND_OK);
    EXPECT(hind_node_close(node), HIND_OK);
    longest[64] = 0;
    wrong = o;
    wrong.name = longest;
    EXPECT(hind_node_open(&wrong, &node), HIND_OK);
    EXPECT(hind_node_close(node), HIND_OK);
    EXPECT(hind_node_close(NULL), HIND_OK);
}

static void refused_settings(void) {
    hind_node_options o = HIND_NODE_OPTIONS_INIT;
    hind_hub_options h = HIND_HUB_OPTIONS_INIT;
    hind_node *node;
    hind_hub *hub;
    uint32_t line = 7;
    EXPECT(strcmp(hind_settings_error(&line), ""), 0);
    EXPECT(line, 0);
    o.settings = "triggerid 1\nnodes 0\n";
    o.settings_len = strlen(o.settings);
    EXPECT(hind_node_open(&o, &node), HIND_SETTINGS);
    HOLDS(strstr(hind_settings_error(&line), "below or above"));
    EXPECT(line, 2);
    h.settings = "nodes 4\nnodes 4\n";
    h.settings_len = strlen(h.settings);
    EXPECT(hind_hub_open(&h, &hub), HIND_SETTINGS);
    HOLDS(!hub && strstr(hind_settings_error(&line), "twice"));
    EXPECT(line, 2);
    o.settings = "threshold 64\nbuffers 64\n";
    o.settings_len = strlen(o.settings);
    EXPECT(hind_node_open(&o, &node), HIND_SETTINGS);
    HOLDS(strstr(hind_settings_error(&line), "no buffer"));
    EXPECT(line, 0);
    HOLDS(hind_settings_error(NULL) != NULL);
    EXPECT(hind_hub_open(NULL, &hub), HIND_INVALID);
    EXPECT(hind_hub_open(&h, NULL), HIND_INVALID);
    h.settings = NULL;
    h.settings_len = 0;
    h.spare = 1;
    EXPECT(hind_hub_open(&h, &hub), HIND_ABI_WRONG);
    h.abi = h.spare = 0;
    EXPECT(hind_hub_open(&h, &hub), HIND_ABI_WRONG);
    EXPECT(hind_hub_close(NULL), HIND_OK);
}

/* ---- NULL in place of a handle or of what is to be filled */

static void nulls(hind_node *node, hind_client *c, hind_hub *hub) {
    hind_client *got = c;
    hind_message m;
    hind_message_id id;
    hind_trace *trace;
    hind_trace_id open;
    hind_trace_info info = {.size = sizeof info};
    hind_context context = {first, {{1}}, 0, HIND_NO_NODE};
    size_t calls = 7, used = 7;
    uint64_t waits;
    EXPECT(hind_node_pass(NULL), HIND_INVALID);
    EXPECT(hind_node_next(NULL, &m), HIND_INVALID);
    EXPECT(hind_node_next(node, NULL), HIND_INVALID);
    EXPECT(hind_node_sent(NULL, 0), HIND_INVALID);
    EXPECT(hind_node_acknowledged(NULL, 0), HIND_INVALID);
    EXPECT(hind_node_again(NULL), HIND_INVALID);
    EXPECT(hind_node_deliver(NULL, "x", 1), HIND_INVALID);
    EXPECT(hind_node_deliver(node, NULL, 1), HIND_INVALID);
    EXPECT(hind_node_hello(NULL), HIND_INVALID);
    EXPECT(hind_node_get_counts(NULL, NULL), HIND_INVALID);
    EXPECT(hind_node_get_counts(node, NULL), HIND_INVALID);
    errno = 0;
    EXPECT(hind_node_fd(NULL), -1);
    EXPECT(errno, EINVAL);
    EXPECT(hind_client_get(NULL, &got), HIND_INVALID);
    HOLDS(!got);
    EXPECT(hind_client_get(node, NULL), HIND_INVALID);
    EXPECT(hind_client_open(NULL, &got), HIND_INVALID);
    EXPECT(hind_client_open(node, NULL), HIND_INVALID);
    EXPECT(hind_client_close(NULL), HIND_OK);
    EXPECT(hind_begin(NULL, &first), HIND_INVALID);
    EXPECT(hind_begin(c, NULL), HIND_INVALID);
    EXPECT(hind_begin(c, &none), HIND_INVALID);
    EXPECT(hind_begin_from(NULL, &context), HIND_INVALID);
    EXPECT(hind_begin_from(c, NULL), HIND_INVALID);
    EXPECT(hind_point(NULL, "x", 1), HIND_INVALID);
    EXPECT(hind_point(c, NULL, 1), HIND_INVALID);
    EXPECT(hind_point_at(c, 1, NULL, 1), HIND_INVALID);
    EXPECT(hind_pointv(NULL, NULL, 0), HIND_INVALID);
    EXPECT(hind_pointv(c, NULL, 1), HIND_INVALID);
    EXPECT(hind_pointv(c, &(struct iovec){NULL, 1}, 1), HIND_INVALID);
    EXPECT(hind_pointv_at(c, 1, NULL, 1), HIND_INVALID);
    EXPECT(hind_crumb(NULL, 1), HIND_INVALID);
    EXPECT(hind_crumb_of(NULL, &first, 1), HIND_INVALID);
    EXPECT(hind_crumb_of(c, NULL, 1), HIND_INVALID);
    EXPECT(hind_crumb_of(c, &none, 1), HIND_INVALID);
    EXPECT(hind_trigger(NULL, 1, &first, NULL, 0), HIND_INVALID);
    EXPECT(hind_trigger(c, 1, &none, NULL, 0), HIND_INVALID);
    EXPECT(hind_trigger(c, 1, &first, NULL, 1), HIND_INVALID);
    EXPECT(hind_trigger(c, 1, &first, &none, 1), HIND_INVALID);
    EXPECT(hind_trigger(c, 1, NULL, NULL, 0), HIND_NOTRACE);
    EXPECT(hind_sample(NULL, 0, 1), HIND_INVALID);
    EXPECT(hind_end(NULL), HIND_INVALID);
    EXPECT(hind_flush(NULL, &waits), HIND_INVALID);
    EXPECT(hind_flush(c, NULL), HIND_OK);
    EXPECT(hind_write(NULL, "E", 1, &calls, &used), HIND_INVALID);
    HOLDS(calls == 0 && used == 0);
    EXPECT(hind_write(c, NULL, 1, NULL, NULL), HIND_INVALID);
    EXPECT(hind_write(c, NULL, 0, NULL, NULL), HIND_OK);
    EXPECT(hind_client_trace(NULL, &open), HIND_INVALID);
    EXPECT(hind_client_trace(c, NULL), HIND_INVALID);
    EXPECT(hind_client_get_counts(c, NULL), HIND_INVALID);
    EXPECT(hind_hub_deliver(NULL, "x", 1), HIND_INVALID);
    EXPECT(hind_hub_deliver(hub, NULL, 1), HIND_INVALID);
    EXPECT(hind_hub_next(NULL, &m), HIND_INVALID);
    EXPECT(hind_hub_next(hub, NULL), HIND_INVALID);
    EXPECT(hind_hub_pass(NULL), HIND_INVALID);
    EXPECT(hind_hub_take(NULL, &trace), HIND_INVALID);
    EXPECT(hind_hub_take(hub, NULL), HIND_INVALID);
    EXPECT(hind_hub_saved(NULL, &first), HIND_INVALID);
    EXPECT(hind_hub_saved(hub, NULL), HIND_INVALID);
    EXPECT(hind_hub_acknowledge(NULL, &id), HIND_INVALID);
    EXPECT(hind_hub_acknowledge(hub, NULL), HIND_INVALID);
    EXPECT(hind_hub_get_counts(hub, NULL), HIND_INVALID);
    EXPECT(hind_trace_get_info(NULL, &info), HIND_INVALID);
    EXPECT(hind_trace_get_life(NULL, 0, NULL), HIND_INVALID);
    EXPECT(hind_trace_get_record(NULL, 0, NULL), HIND_INVALID);
    hind_trace_free(NULL);
}

/* ---- clients */

static void *closes(void *client) {
    EXPECT(hind_client_close(client), HIND_INVALID);
    return NULL;
}

static void clients(void) {
    hind_node *node = opened(0, 1, NULL), *other = opened(1, 1, NULL);
    hind_client *a, *b, *c, *of_other;
    pthread_t thread;
    EXPECT(hind_client_get(node, &a), HIND_OK);
    EXPECT(hind_client_get(other, &of_other), HIND_OK);
    EXPECT(hind_client_get(node, &b), HIND_OK);
    HOLDS(a == b && a != of_other && (uintptr_t)a % 128 == 0);
    EXPECT(hind_client_open(node, &b), HIND_OK);
    HOLDS(a != b && (uintptr_t)b % 128 == 0);
    EXPECT(hind_client_open(node, &c), HIND_MANY);
    HOLDS(!c);
    EXPECT(hind_begin(b, &first), HIND_OK);
    EXPECT(hind_client_close(b), HIND_OK); /* its trace is ended */
    EXPECT(hind_client_close(b), HIND_CLOSED);
    EXPECT(hind_point(b, "x", 1), HIND_CLOSED);
    EXPECT(hind_client_open(node, &b), HIND_OK);
    EXPECT(hind_end(b), HIND_NOTRACE);
    HOLDS(!pthread_create(&thread, NULL, closes, a));
    HOLDS(!pthread_join(thread, NULL));
    EXPECT(hind_point(a, "x", 1), HIND_NOTRACE); /* it stays the thread's */
    EXPECT(hind_client_close(a), HIND_OK);
    EXPECT(hind_client_get(node, &c), HIND_OK);
    HOLDS(c == a);
    EXPECT(hind_node_close(node), HIND_OK);
    EXPECT(hind_begin(b, &first), HIND_CLOSED);
    EXPECT(hind_point(b, "x", 1), HIND_CLOSED);
    EXPECT(hind_client_close(b), HIND_OK);
    EXPECT(hind_begin(of_other, &first), HIND_OK); /* another node's goes on */
    EXPECT(hind_node_close(other), HIND_OK);
}

/* What calls answer, one after the other, and what the client counts. */
static void calls(hind_client *c) {
    uint8_t payload[65536] = {0};
    hind_trace_id open, many[33];
    hind_client_counts counts = {.size = sizeof counts};
    uint64_t waits = 7;
    memset(many, 1, sizeof many);
    EXPECT(hind_client_trace(c, &open), HIND_NOTRACE);
    EXPECT(hind_point(c, payload, 3), HIND_NOTRACE);
    EXPECT(hind_crumb(c, 1), HIND_NOTRACE);
    EXPECT(hind_sample(c, 0, 1), HIND_NOTRACE);
    EXPECT(hind_end(c), HIND_NOTRACE);
    EXPECT(hind_begin(c, &first), HIND_OK);
    EXPECT(hind_client_trace(c, &open), HIND_OK);
    HOLDS(!memcmp(&open, &first, sizeof open));
    EXPECT(hind_begin(c, &second), HIND_OPEN);
    EXPECT(hind_client_trace(c, &open), HIND_OK);
    HOLDS(!memcmp(&open, &first, sizeof open));
    EXPECT(hind_point(c, NULL, 0), HIND_OK);
    EXPECT(hind_point_at(c, 2, payload, 100), HIND_OK);
    EXPECT(hind_point_at(c, 3, payload, 65536), HIND_TOOLONG);
    EXPECT(hind_crumb(c, 3), HIND_OK);
    EXPECT(hind_crumb(c, 4), HIND_UNDECLARED);
    EXPECT(hind_sample(c, 0, 9), HIND_OK);
    EXPECT(hind_sample(c, 1, 9), HIND_UNDECLARED);
    EXPECT(hind_trigger(c, 3, NULL, NULL, 0), HIND_OK);
    EXPECT(hind_end(c), HIND_OK);
    EXPECT(hind_end(c), HIND_NOTRACE);
    EXPECT(hind_crumb_of(c, &first, 2), HIND_OK);
    EXPECT(hind_crumb_of(c, &first, 4), HIND_UNDECLARED);
    EXPECT(hind_trigger(c, 1, &first, &second, 1), HIND_OK);
    EXPECT(hind_trigger(c, 2, &first, NULL, 0), HIND_UNDECLARED);
    EXPECT(hind_trigger(c, 1, &first, many, 33), HIND_INVALID);
    EXPECT(hind_trigger(c, 1, &first, many, 32), HIND_OK);
    EXPECT(hind_flush(c, &waits), HIND_OK);
    EXPECT(waits, 0);
    EXPECT(hind_client_get_counts(c, &counts), HIND_OK);
    HOLDS(counts.points == 2 && counts.stray_points == 1 && counts.long_points == 1);
    HOLDS(counts.null_pages + counts.full_points + counts.spent_points + counts.refused_crumbs + counts.refused_triggers + counts.dropped_notes == 0);
    counts.size = 3;
    EXPECT(hind_client_get_counts(c, &counts), HIND_INVALID);
    counts.size = offsetof(hind_client_counts, null_pages);
    counts.null_pages = 99;
    EXPECT(hind_client_get_counts(c, &counts), HIND_OK);
    HOLDS(counts.points == 2 && counts.null_pages == 99); /* an older header's struct is not written beyond */
}

static void pass_all(hind_node *node) {
    for (int i = 0; i < 16; i++) HOLDS(hind_node_pass(node) >= 0);
}

/* Too much waits while no pass is made; a pass makes room. */
static void full(hind_node *node, hind_client *c) {
    uint8_t payload[100] = {0};
    hind_code code;
    long done = 0;
    EXPECT(hind_begin(c, &second), HIND_OK);
    while ((code = hind_point(c, payload, sizeof payload)) == HIND_OK && done < 100000) done++;
    EXPECT(code, HIND_FULL);
    HOLDS(done > 8);
    pass_all(node);
    EXPECT(hind_point(c, payload, sizeof payload), HIND_OK);
    EXPECT(hind_end(c), HIND_OK);
}

/* A header of 24 bytes and two records of 10 beside 10 are a page of 64 bytes. There are 4 buffers: the ninth record finds none, and the tenth goes to the
 * page of the ninth. */
static void dry(void) {
    static const char few[] = "triggerid 1\nnodes 4\nbuffers 4\nsize 64\nthreshold 1\npins 1\nclients 1\nbacklog 8\n";
    static const uint8_t two_and_end[] = "P" "\0\0\0\0\0\0\0\5" "\0\12" "0123456789" "P" "\0\0\0\0\0\0\0\6" "\0\12" "0123456789" "E";
    hind_node_options o = HIND_NODE_OPTIONS_INIT;
    hind_client_counts counts = {.size = sizeof counts};
    const struct iovec halves[] = {{(void *)(uintptr_t)"01234", 5}, {(void *)(uintptr_t)"56789", 5}};
    hind_trace_id open;
    hind_node *node;
    hind_client *c;
    size_t calls, used;
    o.settings = few;
    o.settings_len = sizeof few - 1;
    EXPECT(hind_node_open(&o, &node), HIND_OK);
    EXPECT(hind_client_open(node, &c), HIND_OK);
    EXPECT(hind_begin(c, &second), HIND_OK);
    for (int i = 0; i < 8; i++) EXPECT(hind_point(c, "0123456789", 10), HIND_OK);
    EXPECT(hind_point(c, "0123456789", 10), HIND_DRY);
    EXPECT(hind_client_trace(c, &open), HIND_OK); /* the request goes on */
    EXPECT(hind_crumb(c, 2), HIND_OK);
    EXPECT(hind_point_at(c, 7, "0123456789", 10), HIND_OK);
    EXPECT(hind_pointv(c, halves, 2), HIND_DRY);
    EXPECT(hind_client_get_counts(c, &counts), HIND_OK);
    HOLDS(counts.points == 11 && counts.null_pages == 2 && counts.full_points == 0);
    /* many calls in one stop in front of the dry one, behind which they go on */
    EXPECT(hind_write(c, two_and_end, sizeof two_and_end - 1, &calls, &used), HIND_DRY);
    HOLDS(calls == 1 && used == 21);
    EXPECT(hind_write(c, two_and_end + 42, 1, &calls, &used), HIND_OK);
    EXPECT(hind_end(c), HIND_NOTRACE);
    EXPECT(hind_client_get_counts(c, &counts), HIND_OK);
    HOLDS(counts.points == 13 && counts.null_pages == 3);
    /* after passes one page is kept at most, so three buffers are free */
    pass_all(node);
    EXPECT(hind_begin(c, &first), HIND_OK);
    for (int i = 0; i < 6; i++) EXPECT(hind_point(c, "0123456789", 10), HIND_OK);
    EXPECT(hind_end(c), HIND_OK);
    EXPECT(hind_client_close(c), HIND_OK);
    EXPECT(hind_node_close(node), HIND_OK);
}

/* Pieces are one record, as long as one may be. */
static void pieces(hind_client *c) {
    static uint8_t bytes[65535];
    struct iovec all[] = {{bytes, 40000}, {NULL, 0}, {bytes, 25535}, {bytes, 0}, {bytes, 1}}, huge[] = {{bytes, SIZE_MAX}, {bytes, SIZE_MAX}};
    hind_client_counts before = {.size = sizeof before}, after = before;
    EXPECT(hind_pointv(c, all, 4), HIND_NOTRACE);
    EXPECT(hind_begin(c, &second), HIND_OK);
    EXPECT(hind_client_get_counts(c, &before), HIND_OK);
    EXPECT(hind_pointv(c, NULL, 0), HIND_OK);
    EXPECT(hind_pointv(c, all + 3, 2), HIND_OK);
    EXPECT(hind_pointv(c, all, 5), HIND_TOOLONG); /* 65,536 bytes */
    EXPECT(hind_pointv(c, huge, 2), HIND_TOOLONG);
    EXPECT(hind_pointv(c, huge + 1, 1), HIND_TOOLONG);
    EXPECT(hind_client_get_counts(c, &after), HIND_OK);
    HOLDS(after.points == before.points + 2 && after.long_points == before.long_points + 3);
    EXPECT(hind_end(c), HIND_OK);
}

static void spans(hind_client *c) {
    hind_span_id span = {{1}}, zero = {{0}};
    EXPECT(hind_span_event(c, span, "x"), HIND_NOTRACE);
    EXPECT(hind_begin(c, &second), HIND_OK);
    EXPECT(hind_span_start(c, span, zero, HIND_KIND_SERVER, "GET /"), HIND_OK);
    EXPECT(hind_span_start(c, zero, zero, HIND_KIND_SERVER, "GET /"), HIND_INVALID);
    EXPECT(hind_span_event(c, span, "x"), HIND_OK);
    EXPECT(hind_span_text(c, span, "k", "v"), HIND_OK);
    EXPECT(hind_span_int(c, span, "k", -1), HIND_OK);
    EXPECT(hind_span_double(c, span, "k", 0.5), HIND_OK);
    EXPECT(hind_span_bool(c, span, "k", 1), HIND_OK);
    EXPECT(hind_span_bool(c, span, "", 1), HIND_INVALID);
    EXPECT(hind_span_end(c, span, HIND_STATUS_OK, NULL), HIND_OK);
    EXPECT(hind_span_end(c, span, 3, NULL), HIND_INVALID);
    EXPECT(hind_end(c), HIND_OK);
}

/* ---- many calls in one */

static void writes(hind_node *node, hind_client *c) {
    static const uint8_t good[] = "B" "\0\0\0\0\0\0\0\0\0\0\0\0\0\0\0\7" /* 17 */
                                  "P" "\0\0\0\0\0\0\0\5" "\0\3" "abc"     /* 14 */
                                  "P" "\0\0\0\0\0\0\0\0" "\0\0"           /* 11 */
                                  "C" "\0\1"                              /* 3 */
                                  "K" "\0\0\0\0\0\0\0\0\0\0\0\0\0\0\0\1" "\0\2" /* 19 */
                                  "S" "\0\0\0\0" "\0\0\0\0\0\0\0\11"      /* 13 */
                                  "T" "\3" "\0\0\0\0\0\0\0\0\0\0\0\0\0\0\0\0" "\0" /* 19: the open trace */
                                  "T" "\1" "\0\0\0\0\0\0\0\0\0\0\0\0\0\0\0\1" "\1" "\0\0\0\0\0\0\0\0\0\0\0\0\0\0\0\2" /* 35 */
                                  "E";
    enum { ALL = 17 + 14 + 11 + 3 + 19 + 13 + 19 + 35 + 1 };
    static const size_t ends[] = {17, 31, 42, 45, 64, 77, 96, 131, 132};
    size_t calls, used;
    hind_client_counts before = {.size = sizeof before}, after = before;
    EXPECT(sizeof good - 1, ALL);
    EXPECT(hind_client_get_counts(c, &before), HIND_OK);
    EXPECT(hind_write(c, good, ALL, &calls, &used), HIND_OK);
    HOLDS(calls == 9 && used == ALL);
    EXPECT(hind_client_get_counts(c, &after), HIND_OK);
    EXPECT(after.points - before.points, 2);
    /* cut anywhere, it goes as far as whole calls go */
    for (size_t len = 0; len < ALL; len++) {
        size_t whole = 0;
        while (whole < 9 && ends[whole] <= len) whole++;
        if (len >= 77) continue; /* triggers have found a place often enough */
        EXPECT(hind_write(c, good, len, &calls, &used), whole && ends[whole - 1] == len ? HIND_OK : len ? HIND_REFUSED : HIND_OK);
        EXPECT(calls, whole);
        EXPECT(used, whole ? ends[whole - 1] : 0);
        if (whole) EXPECT(hind_end(c), HIND_OK);
        pass_all(node);
    }
    EXPECT(hind_write(c, "EE", 2, &calls, &used), HIND_NOTRACE);
    HOLDS(calls == 0 && used == 0);
    EXPECT(hind_write(c, "X", 1, &calls, &used), HIND_REFUSED);
    EXPECT(hind_write(c, "C\0\1", 3, &calls, &used), HIND_NOTRACE);
    EXPECT(hind_write(c, "B\0\0\0\0\0\0\0\0\0\0\0\0\0\0\0\0", 17, &calls, &used), HIND_INVALID);
}

/* ---- messages */

static void messages(void) {
    static const uint8_t front[] = {1, 1, 0, 0, 0, 0, 0, 0, 1, 2, 0, 0, 0, 0, 0, 0, 0, 0, 0, 3};
    static const uint8_t ask[44] = {1, 3, 0, 0, 0, 0, 0, 0, 0, 9, 0, 0, 0, 0, 0, 0, 0, 1, 0, 3, 0, 2, 0, 0, 0, 7, 1, 0xa1};
    uint8_t other[44];
    hind_node *node = opened(3, 258, "n3");
    hind_message m = {0}, again = {0};
    struct pollfd fd = {.fd = hind_node_fd(node), .events = POLLIN};
    HOLDS(fd.fd >= 0 && hind_node_fd(node) == fd.fd);
    EXPECT(poll(&fd, 1, 0), 1);
    /* the hello of docs/FORMATS.md, with the digest of these settings */
    EXPECT(hind_node_next(node, &m), HIND_OK);
    EXPECT(m.len, 55);
    HOLDS(!memcmp(m.bytes, front, 10) && !memcmp(m.bytes + 18, front + 18, 2) && !memcmp(m.bytes + 20, digest, 32) && !memcmp(m.bytes + 52, "\2n3", 3));
    EXPECT(m.to, HIND_NO_NODE);
    EXPECT(hind_node_next(node, &again), HIND_OK);
    HOLDS(again.number == m.number && again.len == m.len);
    EXPECT(hind_node_sent(node, m.number + 1), HIND_NOTHING);
    EXPECT(hind_node_sent(node, m.number), HIND_OK);
    EXPECT(hind_node_sent(node, m.number), HIND_NOTHING);
    EXPECT(hind_node_next(node, &again), HIND_NOTHING);
    EXPECT(poll(&fd, 1, 0), 0);
    EXPECT(hind_node_again(node), HIND_OK);
    EXPECT(poll(&fd, 1, 0), 1);
    EXPECT(hind_node_next(node, &again), HIND_OK);
    EXPECT(again.number, m.number);
    EXPECT(hind_node_sent(node, m.number), HIND_OK);
    EXPECT(hind_node_acknowledged(node, m.number), HIND_OK);
    EXPECT(hind_node_acknowledged(node, m.number), HIND_NOTHING);
    EXPECT(hind_node_again(node), HIND_OK);
    EXPECT(hind_node_next(node, &again), HIND_NOTHING);
    EXPECT(hind_node_hello(node), HIND_OK);
    EXPECT(poll(&fd, 1, 0), 1);
    EXPECT(hind_node_next(node, &m), HIND_OK);
    HOLDS(m.len == 55 && !memcmp(m.bytes + 20, digest, 32));
    EXPECT(hind_node_sent(node, m.number), HIND_OK);
    /* an ask for this node, for another one, and bytes that are none */
    EXPECT(hind_node_deliver(node, ask, sizeof ask), HIND_OK);
    memcpy(other, ask, sizeof other);
    other[19] = 2;
    EXPECT(hind_node_deliver(node, other, sizeof other), HIND_REFUSED);
    EXPECT(hind_node_deliver(node, ask, sizeof ask - 1), HIND_REFUSED);
    EXPECT(hind_node_deliver(node, NULL, 0), HIND_REFUSED);
    for (int i = 0; i < 10 && hind_node_next(node, &m) == HIND_NOTHING; i++) (void)hind_node_pass(node);
    EXPECT(hind_node_next(node, &m), HIND_OK);
    HOLDS(m.bytes[1] == 2 && m.bytes[43] == 1); /* it tells an answer */
    EXPECT(poll(&fd, 1, 0), 1);
    EXPECT(hind_node_close(node), HIND_OK);
}

/* ---- counts of a node */

static hind_node_counts counted(hind_node *node) {
    hind_node_counts counts = {.size = sizeof counts};
    EXPECT(hind_node_get_counts(node, &counts), HIND_OK);
    return counts;
}

/* What clients counted is seen from their next end or flush on, and stays when they are given back. */
static void counts_of_clients(hind_node *node) {
    hind_client *a, *b;
    uint8_t payload[65536] = {0};
    EXPECT(counted(node).clients, 2);
    EXPECT(counted(node).used_clients, 0);
    EXPECT(hind_client_open(node, &a), HIND_OK);
    EXPECT(hind_client_open(node, &b), HIND_OK);
    EXPECT(counted(node).used_clients, 2);
    EXPECT(hind_begin(a, &first), HIND_OK);
    EXPECT(hind_point(a, "x", 1), HIND_OK);
    EXPECT(hind_point(a, "y", 1), HIND_OK);
    EXPECT(hind_point(a, payload, 65536), HIND_TOOLONG);
    EXPECT(counted(node).points, 0);
    EXPECT(hind_end(a), HIND_OK);
    EXPECT(counted(node).points, 2);
    EXPECT(counted(node).long_points, 1);
    EXPECT(hind_point(b, "x", 1), HIND_NOTRACE);
    EXPECT(hind_flush(b, NULL), HIND_OK);
    EXPECT(counted(node).stray_points, 1);
    EXPECT(hind_point(b, "x", 1), HIND_NOTRACE);
    EXPECT(hind_begin(b, &second), HIND_OK);
    EXPECT(counted(node).stray_points, 1);
    EXPECT(hind_point(b, "x", 1), HIND_OK);
    EXPECT(hind_client_close(b), HIND_OK);
    EXPECT(counted(node).stray_points, 2);
    EXPECT(hind_client_close(a), HIND_OK);
    EXPECT(counted(node).points, 3);
    EXPECT(counted(node).used_clients, 0);
    HOLDS(counted(node).null_pages + counted(node).full_points + counted(node).spent_points + counted(node).refused_crumbs + counted(node).refused_triggers + counted(node).dropped_notes == 0);
}

/* Hands all out that the node says, and has all but the last `kept` acknowledged. Answers how many there were. */
static uint64_t say_all(hind_node *node, uint64_t kept) {
    uint64_t numbers[64], count = 0;
    hind_message m;
    for (int i = 0; i < 16; i++) {
        HOLDS(hind_node_pass(node) >= 0);
        while (count < 64 && hind_node_next(node, &m) == HIND_OK) {
            numbers[count++] = m.number;
            EXPECT(hind_node_sent(node, m.number), HIND_OK);
        }
    }
    for (uint64_t i = 0; i + kept < count; i++) EXPECT(hind_node_acknowledged(node, numbers[i]), HIND_OK);
    return count;
}

static void counts_of_messages(void) {
    static const uint8_t ask[44] = {1, 3, 0, 0, 0, 0, 0, 0, 0, 9, 0, 0, 0, 0, 0, 0, 0, 1, 0, 1, 0, 2, 0, 0, 0, 7, 1, 1, 2, 3, 4, 5, 6, 7, 8, 9, 10, 11, 12, 13, 14, 15, 16};
    uint8_t other[44];
    hind_node *node = opened(1, 9, "n");
    hind_node_counts c = counted(node);
    uint64_t full = 0, taken = 1;
    HOLDS(!c.messages && !c.acknowledged && !c.unacknowledged && !c.passes && !c.asks);
    counts_of_clients(node);
    EXPECT(say_all(node, 1), 1); /* the hello */
    c = counted(node);
    HOLDS(c.passes == 16 && c.messages == 1 && c.hellos == 1 && c.unacknowledged == 1 && !c.acknowledged && !c.repeats);
    EXPECT(hind_node_again(node), HIND_OK);
    EXPECT(say_all(node, 0), 1);
    c = counted(node);
    HOLDS(c.messages == 1 && c.repeats == 1 && c.acknowledged == 1 && !c.unacknowledged);
    /* an ask for trace `first`, of which the node has a page: it answers, reports and says how it stands */
    EXPECT(hind_node_deliver(node, ask, sizeof ask), HIND_OK);
    EXPECT(say_all(node, 2), 3);
    c = counted(node);
    HOLDS(c.messages == 4 && c.tells == 1 && c.reports == 1 && c.standings == 1 && c.hellos == 1 && c.acknowledged == 2 && c.unacknowledged == 2 && c.asks == 1);
    EXPECT(hind_node_deliver(node, "x", 1), HIND_REFUSED);
    /* other asks find no place before long: asks that came are not forgotten before a pass */
    memcpy(other, ask, sizeof other);
    for (uint8_t i = 8; !full && i < 250; i++) {
        other[17] = other[25] = i;
        full += hind_node_deliver(node, other, sizeof other) == HIND_FULL;
        taken += !full;
    }
    c = counted(node);
    EXPECT(full, 1);
    HOLDS(c.refused_asks == 1 && c.full_asks == 1 && c.asks == taken);
    /* an older header's struct is not written beyond */
    c = (hind_node_counts){.size = offsetof(hind_node_counts, points), .points = 77};
    EXPECT(hind_node_get_counts(node, &c), HIND_OK);
    HOLDS(c.clients == 2 && c.points == 77);
    c.size = 3;
    EXPECT(hind_node_get_counts(node, &c), HIND_INVALID);
    EXPECT(hind_node_close(node), HIND_OK);
}

/* An id has a burst of two, and no token comes back: the third trigger is taken and claims nothing. */
static void limited_triggers(void) {
    static const char two[] = "triggerid 1 1 2 0\nnodes 4\nbuffers 64\nsize 256\nthreshold 8\npins 8\nclients 1\nbacklog 8\n";
    hind_node_options o = HIND_NODE_OPTIONS_INIT;
    hind_node *node;
    hind_client *c;
    o.settings = two;
    o.settings_len = sizeof two - 1;
    EXPECT(hind_node_open(&o, &node), HIND_OK);
    EXPECT(hind_client_open(node, &c), HIND_OK);
    for (int i = 0; i < 3; i++) EXPECT(hind_trigger(c, 1, i ? &second : &first, NULL, 0), HIND_OK);
    EXPECT(hind_flush(c, NULL), HIND_OK);
    EXPECT(counted(node).limited_triggers, 0);
    EXPECT(say_all(node, 0), 5); /* the hello, and of two groups what it tells and how it stands */
    hind_node_counts n = counted(node);
    HOLDS(n.limited_triggers == 1 && n.tells == 2 && n.standings == 2 && n.refused_triggers == 0);
    /* a program that was compiled with the header of 0.2.0 */
    n = (hind_node_counts){.size = offsetof(hind_node_counts, salvaged), .limited_triggers = 77};
    EXPECT(hind_node_get_counts(node, &n), HIND_OK);
    HOLDS(n.tells == 2 && n.limited_triggers == 77);
    EXPECT(hind_client_close(c), HIND_OK);
    EXPECT(hind_node_close(node), HIND_OK);
}

/* ---- two nodes and a hub */

/* Carries messages until nobody has anything to do for a while. */
static void carry(hind_node **nodes, int count, hind_hub *hub) {
    hind_message m;
    for (int idle = 0; idle < 10; idle++) {
        for (int i = 0; i < count; i++) {
            HOLDS(hind_node_pass(nodes[i]) >= 0);
            while (hind_node_next(nodes[i], &m) == HIND_OK && hind_hub_deliver(hub, m.bytes, m.len) >= 0) {
                EXPECT(hind_node_sent(nodes[i], m.number), HIND_OK);
                EXPECT(hind_node_acknowledged(nodes[i], m.number), HIND_OK);
                idle = 0;
            }
        }
        while (hind_hub_next(hub, &m) == HIND_OK) {
            HOLDS(m.to < count);
            EXPECT(hind_node_deliver(nodes[m.to], m.bytes, m.len), HIND_OK);
            idle = 0;
        }
        EXPECT(hind_hub_pass(hub), HIND_OK);
    }
}

static int is_record(const hind_trace *trace, size_t at, hind_node_id node, uint64_t moment, const char *payload) {
    hind_record r;
    if (hind_trace_get_record(trace, at, &r)) return 0;
    return r.node == node && r.moment == moment && r.len == strlen(payload) && !memcmp(r.payload, payload, r.len);
}

static void is_line(void *closure, const char *line, size_t len) {
    int *taken = closure;
    HOLDS(len > 2 && line[0] == '{' && line[len - 1] == '\n' && !memchr(line, '\n', len - 1));
    HOLDS(memmem(line, len, "0102030405060708090a0b0c0d0e0f10", 32) && memmem(line, len, "\"front\"", 7) && memmem(line, len, "\"answers\"", 9));
    ++*taken;
}

static void a_trace(void) {
    hind_node *nodes[2] = {opened(0, 5, "front"), opened(1, 6, "back")};
    hind_hub *hub = opened_hub();
    hind_client *front, *back;
    char word[] = "saks";
    hind_context context = {first, {{1}}, 0, 0};
    hind_trace *trace, *again;
    hind_trace_info info = {.size = sizeof info};
    hind_trace_life life;
    hind_record record;
    hind_message_id id;
    hind_hub_counts counts = {.size = sizeof counts};
    EXPECT(hind_client_get(nodes[0], &front), HIND_OK);
    EXPECT(hind_client_get(nodes[1], &back), HIND_OK);
    EXPECT(hind_begin(front, &first), HIND_OK);
    struct iovec asks[] = {{word + 1, 1}, {NULL, 0}, {word, 1}, {word + 2, 2}};
    EXPECT(hind_pointv_at(front, 100, asks, 4), HIND_OK);
    word[0] = word[1] = 0; /* it was copied */
    EXPECT(hind_begin_from(back, &context), HIND_OK);
    EXPECT(hind_point_at(back, 200, "answers", 7), HIND_OK);
    EXPECT(hind_end(back), HIND_OK);
    EXPECT(hind_crumb(front, 1), HIND_OK);
    EXPECT(hind_point_at(front, 300, "got it", 6), HIND_OK);
    EXPECT(hind_end(front), HIND_OK);
    EXPECT(hind_begin(front, &second), HIND_OK); /* nobody claims it */
    EXPECT(hind_point_at(front, 400, "other", 5), HIND_OK);
    EXPECT(hind_end(front), HIND_OK);
    EXPECT(hind_hub_take(hub, &trace), HIND_NOTHING);
    HOLDS(!trace);
    EXPECT(hind_trigger(front, 1, &first, NULL, 0), HIND_OK);
    carry(nodes, 2, hub);
    EXPECT(hind_hub_take(hub, &trace), HIND_OK);
    EXPECT(hind_hub_take(hub, &again), HIND_OK); /* it was not called saved */
    EXPECT(hind_trace_get_info(trace, &info), HIND_OK);
    HOLDS(!memcmp(&info.id, &first, sizeof first) && info.part == 0 && info.trigger == 1 && info.is_whole == 1 && info.lives == 2 && info.records == 3);
    EXPECT(hind_trace_get_info(again, &info), HIND_OK);
    HOLDS(info.records == 3);
    hind_trace_free(again);
    EXPECT(hind_trace_get_life(trace, 0, &life), HIND_OK);
    HOLDS(life.node == 0 && life.epoch == 5 && !strcmp(life.name, "front") && !strncmp(life.wholeness, "whole", 5) && life.records == 2);
    EXPECT(hind_trace_get_life(trace, 1, &life), HIND_OK);
    HOLDS(life.node == 1 && life.epoch == 6 && !strcmp(life.name, "back") && life.records == 1);
    EXPECT(hind_trace_get_life(trace, 2, &life), HIND_INVALID);
    HOLDS(is_record(trace, 0, 0, 100, "asks") && is_record(trace, 1, 0, 300, "got it") && is_record(trace, 2, 1, 200, "answers"));
    EXPECT(hind_trace_get_record(trace, 3, &record), HIND_INVALID);
    int taken = 0;
    EXPECT(hind_trace_otlp(trace, is_line, &taken), HIND_OK);
    EXPECT(taken, 1);
    EXPECT(hind_trace_otlp(trace, NULL, NULL), HIND_INVALID);
    EXPECT(hind_trace_otlp(NULL, is_line, &taken), HIND_INVALID);
    info.size = 2;
    EXPECT(hind_trace_get_info(trace, &info), HIND_INVALID);
    EXPECT(hind_hub_acknowledge(hub, &id), HIND_NOTHING);
    EXPECT(hind_hub_saved(hub, &second), HIND_NOTHING);
    EXPECT(hind_hub_saved(hub, &first), HIND_OK);
    EXPECT(hind_hub_saved(hub, &first), HIND_NOTHING);
    int named = 0;
    while (hind_hub_acknowledge(hub, &id) == HIND_OK) named += (id.node == 0 && id.epoch == 5) || (id.node == 1 && id.epoch == 6);
    HOLDS(named >= 6); /* each node told, reported and said how it stands */
    EXPECT(hind_hub_take(hub, &again), HIND_NOTHING);
    EXPECT(hind_hub_get_counts(hub, &counts), HIND_OK);
    HOLDS(counts.passes > 0 && counts.groups == 1 && counts.bytes == 0 && counts.messages == 0);
    EXPECT(hind_hub_deliver(hub, "x", 1), HIND_REFUSED);
    EXPECT(hind_hub_deliver(hub, NULL, 0), HIND_REFUSED);
    EXPECT(hind_hub_close(hub), HIND_OK);
    EXPECT(hind_trace_get_life(trace, 0, &life), HIND_OK); /* it outlives its hub */
    HOLDS(!strcmp(life.name, "front"));
    hind_trace_free(trace);
    EXPECT(hind_node_close(nodes[0]), HIND_OK);
    EXPECT(hind_node_close(nodes[1]), HIND_OK);
}

/* A process starts anew under its name, and claims as many traces as before: each is followed to the other node. */
static void later_lives(void) {
    hind_node *nodes[2] = {NULL, opened(1, 6, "back")};
    hind_hub *hub = opened_hub();
    hind_client *front, *back;
    EXPECT(hind_client_open(nodes[1], &back), HIND_OK);
    for (uint8_t life = 0; life < 4; life++) {
        nodes[0] = opened(0, 5 + life, "front");
        EXPECT(hind_client_open(nodes[0], &front), HIND_OK);
        for (uint8_t t = 1; t <= 3; t++) {
            hind_trace_id id = {{9, life, t}};
            hind_trace_info info = {.size = sizeof info};
            hind_trace *trace;
            EXPECT(hind_begin(back, &id), HIND_OK);
            EXPECT(hind_point_at(back, 200, "answers", 7), HIND_OK);
            EXPECT(hind_end(back), HIND_OK);
            EXPECT(hind_begin(front, &id), HIND_OK);
            EXPECT(hind_point_at(front, 100, "asks", 4), HIND_OK);
            EXPECT(hind_crumb(front, 1), HIND_OK);
            EXPECT(hind_trigger(front, 1, &id, NULL, 0), HIND_OK);
            EXPECT(hind_end(front), HIND_OK);
            carry(nodes, 2, hub);
            EXPECT(hind_hub_take(hub, &trace), HIND_OK);
            if (!trace) continue;
            EXPECT(hind_trace_get_info(trace, &info), HIND_OK);
            HOLDS(!memcmp(&info.id, &id, sizeof id) && info.part == 0 && info.trigger == 1 && info.lives == 2 && info.records == 2);
            /* what a life before it may have lost is not known yet */
            EXPECT(info.is_whole, life == 0);
            EXPECT(hind_hub_saved(hub, &id), HIND_OK);
            hind_trace_free(trace);
        }
        EXPECT(hind_client_close(front), HIND_OK);
        EXPECT(hind_node_close(nodes[0]), HIND_OK);
    }
    EXPECT(hind_client_close(back), HIND_OK);
    EXPECT(hind_node_close(nodes[1]), HIND_OK);
    EXPECT(hind_hub_close(hub), HIND_OK);
}

int main(void) {
    texts();
    options();
    refused_settings();
    hind_node *node = opened(0, 0, "one");
    hind_hub *hub = opened_hub();
    hind_client *c;
    EXPECT(hind_client_open(node, &c), HIND_OK);
    nulls(node, c, hub);
    calls(c);
    full(node, c);
    pass_all(node);
    pieces(c);
    pass_all(node);
    spans(c);
    pass_all(node);
    writes(node, c);
    EXPECT(hind_client_close(c), HIND_OK);
    EXPECT(hind_node_close(node), HIND_OK);
    EXPECT(hind_hub_close(hub), HIND_OK);
    clients();
    dry();
    messages();
    counts_of_messages();
    limited_triggers();
    a_trace();
    later_lives();
    if (failed) fprintf(stderr, "%d failed\n", failed);
    return failed != 0;
}
