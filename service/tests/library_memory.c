/* Memory that is refused: each allocation in turn, while a node, a hub and a trace are made. Nothing is made then, and nothing is kept. No call of
 * a client takes any.
 *
 *     library_memory FOLDER      an empty folder for a pool file */
#include "expect.h"
#include "hindsight.h"
#include "refusing.h"
#include <stdlib.h>
#include <string.h>

void *__real_calloc(size_t count, size_t size);
int __real_posix_memalign(void **at, size_t alignment, size_t size);
void *__wrap_calloc(size_t count, size_t size);
int __wrap_posix_memalign(void **at, size_t alignment, size_t size);

void *__wrap_calloc(size_t count, size_t size) {
    if (is_refused()) return NULL;
    live++;
    return __real_calloc(count, size);
}

int __wrap_posix_memalign(void **at, size_t alignment, size_t size) {
    if (is_refused()) return 12; /* ENOMEM */
    live++;
    return __real_posix_memalign(at, alignment, size);
}

static const char text[] = "triggerid 1\nnodes 4\nbuffers 64\nsize 256\nthreshold 8\npins 8\nclients 2\nbacklog 8\nhold 4\ngroups 4\nbytes 65536\n";
static const hind_trace_id id = {{1}};

static hind_code open_node(hind_node **node) {
    hind_node_options o = HIND_NODE_OPTIONS_INIT;
    o.settings = text;
    o.settings_len = sizeof text - 1;
    o.name = "n";
    return hind_node_open(&o, node);
}

/* In the folder that the test was given. */
static char pool[300];

static hind_code open_with_pool(hind_node **node) {
    hind_node_options o = HIND_NODE_OPTIONS_INIT;
    o.settings = text;
    o.settings_len = sizeof text - 1;
    o.pool_file = pool;
    return hind_node_open(&o, node);
}

static hind_code open_hub(hind_hub **hub) {
    hind_hub_options o = HIND_HUB_OPTIONS_INIT;
    o.settings = text;
    o.settings_len = sizeof text - 1;
    return hind_hub_open(&o, hub);
}

/* Makes `what` while allocation after allocation is refused, until it is made. Answers how many were refused. */
#define REFUSING(what, made)                                  \
    do {                                                      \
        long before = live, tried = 0;                        \
        for (;; tried++) {                                    \
            allocations = 0;                                  \
            refused_at = tried;                               \
            hind_code code = what;                            \
            refused_at = -1;                                  \
            if (code == HIND_OK) break;                       \
            EXPECT(code, HIND_NOMEM);                         \
            EXPECT(live, before);                             \
            HOLDS(!(made));                                   \
            if (failed || tried > 100000) return failed != 0; \
        }                                                     \
        HOLDS(tried > 0);                                     \
        printf("%s: %ld allocations refused\n", #what, tried); \
    } while (0)

static void writes_take_none(hind_client *c) {
    hind_client_counts counts = {.size = sizeof counts};
    allocations = 0;
    EXPECT(hind_begin(c, &id), HIND_OK);
    EXPECT(hind_point(c, "some bytes", 10), HIND_OK);
    EXPECT(hind_pointv(c, &(struct iovec){(void *)(uintptr_t)text, 10}, 1), HIND_OK);
    EXPECT(hind_crumb(c, 0), HIND_OK);
    EXPECT(hind_trigger(c, 1, NULL, NULL, 0), HIND_OK);
    EXPECT(hind_write(c, "P\0\0\0\0\0\0\0\1\0\1x", 12, NULL, NULL), HIND_OK);
    EXPECT(hind_end(c), HIND_OK);
    EXPECT(hind_flush(c, NULL), HIND_OK);
    EXPECT(hind_client_get_counts(c, &counts), HIND_OK);
    EXPECT(allocations, 0);
}

static void count_line(void *closure, const char *line, size_t len) {
    (void)line;
    *(size_t *)closure += len;
}

/* A message that finds no memory is delivered again. */
static void carry(hind_node *node, hind_hub *hub) {
    hind_message m;
    for (int i = 0; i < 20; i++) {
        (void)hind_node_pass(node);
        while (hind_node_next(node, &m) == HIND_OK) {
            hind_code code;
            for (refused_at = 0;; refused_at++) {
                allocations = 0;
                code = hind_hub_deliver(hub, m.bytes, m.len);
                if (code != HIND_NOMEM) break;
            }
            refused_at = -1;
            HOLDS(code == HIND_OK || code == HIND_HELD);
            EXPECT(hind_node_sent(node, m.number), HIND_OK);
            EXPECT(hind_node_acknowledged(node, m.number), HIND_OK);
        }
        (void)hind_hub_pass(hub);
    }
}

static void write_some(hind_client *c, uint8_t from) {
    for (uint8_t i = 0; i < 8; i++) {
        hind_trace_id trace = {{from, i}};
        HOLDS(hind_begin(c, &trace) == HIND_OK);
        HOLDS(hind_point(c, "some bytes", 10) == HIND_OK);
        if (i % 2) HOLDS(hind_trigger(c, 1, NULL, NULL, 0) == HIND_OK);
        HOLDS(hind_end(c) == HIND_OK);
    }
}

/* One allocation of passes is refused, or all from one on: whether there was one. A node that takes nothing any more says so in each pass from then on; its clients go on,
 * and it is closed as any other. */
static int spent_at(long at, long *spent) {
    hind_node *node = NULL;
    hind_client *c = NULL;
    hind_message m;
    hind_code first = HIND_OK;
    EXPECT(open_node(&node), HIND_OK);
    EXPECT(hind_client_open(node, &c), HIND_OK);
    allocations = 0;
    refused_at = at;
    for (uint8_t i = 0; i < 12; i++) {
        hind_code code = hind_node_pass(node);
        HOLDS(first == HIND_OK ? code >= 0 || code == HIND_NOMEM : code == HIND_NOMEM);
        if (code < 0) first = code;
        else while (hind_node_next(node, &m) == HIND_OK) HOLDS(!hind_node_sent(node, m.number) && !hind_node_acknowledged(node, m.number));
        if (i < 2) write_some(c, (uint8_t)(i + 1));
    }
    refused_at = -1;
    *spent += first == HIND_NOMEM;
    EXPECT(hind_client_close(c), HIND_OK);
    EXPECT(hind_node_close(node), HIND_OK);
    return allocations > at;
}

static void refused_in_passes(int all_behind) {
    long before = live, spent = 0, at = 0;
    refuses_on = all_behind;
    while (spent_at(at, &spent) && !failed) {
        EXPECT(live, before);
        at++;
    }
    EXPECT(live, before);
    refuses_on = 0;
    printf("passes: %ld allocations refused%s, %ld nodes took nothing any more\n", at, all_behind ? ", and all behind" : "", spent);
}

/* A life that leaves a claimed trace in its pool file. */
static void leave_some(void) {
    hind_node *node = NULL;
    hind_client *c = NULL;
    hind_message m;
    EXPECT(open_with_pool(&node), HIND_OK);
    EXPECT(hind_client_open(node, &c), HIND_OK);
    EXPECT(hind_begin(c, &id), HIND_OK);
    EXPECT(hind_point(c, "some bytes", 10), HIND_OK);
    EXPECT(hind_trigger(c, 1, NULL, NULL, 0), HIND_OK);
    for (int i = 0; i < 4; i++) (void)hind_node_pass(node);
    while (hind_node_next(node, &m) == HIND_OK) EXPECT(hind_node_sent(node, m.number), HIND_OK);
    EXPECT(hind_node_close(node), HIND_OK);
    EXPECT(hind_client_close(c), HIND_OK);
}

/* Nothing of it is lost where the next life finds no memory at first. */
static int with_pool(void) {
    hind_node *node = NULL;
    hind_message m;
    long before = live;
    leave_some();
    EXPECT(live, before);
    REFUSING(open_with_pool(&node), node);
    EXPECT(hind_node_next(node, &m), HIND_OK);
    EXPECT(m.bytes[1], 2); /* what it claimed is told again, */
    EXPECT(hind_node_sent(node, m.number), HIND_OK);
    EXPECT(hind_node_next(node, &m), HIND_OK);
    EXPECT(m.bytes[1], 5); /* .. and behind it that the rest is unknown, */
    EXPECT(hind_node_sent(node, m.number), HIND_OK);
    EXPECT(hind_node_next(node, &m), HIND_OK);
    EXPECT(m.bytes[1], 4); /* .. and its page */
    EXPECT(hind_node_close(node), HIND_OK);
    EXPECT(live, before);
    return failed != 0;
}

int main(int argc, char **argv) {
    hind_node *node;
    hind_hub *hub;
    hind_client *c, *own;
    hind_trace *trace;
    hind_trace_info info = {.size = sizeof info};
    long before = live;
    REFUSING(open_node(&node), node);
    REFUSING(open_hub(&hub), hub);
    EXPECT(hind_client_open(node, &c), HIND_OK);
    EXPECT(hind_client_get(node, &own), HIND_OK);
    writes_take_none(c);
    carry(node, hub);
    /* the first refusal leaves the trace out, for which the hub keeps less than before */
    allocations = refused_at = 0;
    EXPECT(hind_hub_take(hub, &trace), HIND_NOMEM);
    refused_at = -1;
    REFUSING(hind_hub_take(hub, &trace), trace);
    EXPECT(hind_trace_get_info(trace, &info), HIND_OK);
    EXPECT(info.records, 3);
    size_t len = 0;
    REFUSING(hind_trace_otlp(trace, count_line, &len), len);
    HOLDS(len > 0);
    EXPECT(hind_hub_saved(hub, &info.id), HIND_OK);
    hind_trace_free(trace);
    EXPECT(hind_hub_close(hub), HIND_OK);
    EXPECT(hind_node_close(node), HIND_OK);
    EXPECT(hind_client_close(c), HIND_OK); /* the node's memory goes with it */
    EXPECT(live, before);
    refused_in_passes(0);
    refused_in_passes(1);
    if (argc < 2) return 2;
    snprintf(pool, sizeof pool, "%s/pool", argv[1]);
    return with_pool();
}
