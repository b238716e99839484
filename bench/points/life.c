/* A life of weeks in minutes: two nodes with a client each, and a hub, in one process. A request is written at both nodes, with a crumb
 * from each to the other. Every second request is claimed at the second node: its trace is followed by the crumb, saved, and has to be whole. The other requests fill
 * the index of each node until it lets the oldest go.
 *
 *     life CLAIMS      a line for each twentieth: points, claims, what is whole, bytes that are allocated and resident KiB
 *
 * Status 1 where something is not saved, not whole or lost, or where the bytes that are allocated are not what they were after the first fifth, or
 * resident memory is another by more than a hundredth. */
#define _POSIX_C_SOURCE 200809L
#include "hindcore.h"
#include <inttypes.h>
#include <stdio.h>
#include <stdlib.h>
#include <string.h>
#include <time.h>
#include <unistd.h>

enum {
    NODES = 2,
    CLAIMED = 20, /* points of a claimed request at each node */
    OTHERS = 5,   /* .. of any other */
    PAIRS = 8,    /* of a claimed request and another, from one pass to the next */
    QUIET = 64,   /* passes after which nothing is on its way */
    STEPS = 20,
    SHOWN = 64    /* of so many claimed traces each record of one is looked at */
};

static const char settings[] =
    "nodes 2\nclients 1\nbuffers 2048\nsize 2048\nthreshold 512\npins 256\nclaims 1024\nremember 4096\ngroups 1024\nhold 1024\ntriggerid 1 100 1000 1000000\n";

/* ---- memory: the linker has malloc, realloc and free go through here */

void *__real_malloc(size_t size);
void *__real_realloc(void *old, size_t size);
void __real_free(void *old);
void *__wrap_malloc(size_t size);
void *__wrap_realloc(void *old, size_t size);
void __wrap_free(void *old);

enum { FRONT = 16 }; /* bytes before what is allocated, which keep its size */
static size_t allocated; /* bytes that were asked for and not freed */

static void *counted(void *made, size_t size) {
    if (!made) return NULL;
    memcpy(made, &size, sizeof size);
    allocated += size;
    return (uint8_t *)made + FRONT;
}

/* What is no longer allocated, from its front. */
static void *let_go(void *old) {
    size_t size;
    void *front = (uint8_t *)old - FRONT;
    memcpy(&size, front, sizeof size);
    allocated -= size;
    return front;
}

void *__wrap_malloc(size_t size) { return counted(__real_malloc(size + FRONT), size); }

void *__wrap_realloc(void *old, size_t size) { return old ? counted(__real_realloc(let_go(old), size + FRONT), size) : __wrap_malloc(size); }

void __wrap_free(void *old) {
    if (old) __real_free(let_go(old));
}

static long resident(void) {
    long all = 0, pages = 0;
    FILE *f = fopen("/proc/self/statm", "r");
    if (!f || fscanf(f, "%ld %ld", &all, &pages) != 2) pages = 0;
    if (f) fclose(f);
    return pages * (sysconf(_SC_PAGESIZE) / 1024);
}

/* ---- nodes and hub */

static hindcore_node nodes[NODES];
static hindcore_client clients[NODES];
static hindcore_hub hub;
static uint8_t bytes[65536];
static uint64_t moment;
static unsigned long points, claims, saved, whole, wrong, messages, asks;

/* Ends the program where a call answers something else. */
static void must(const char *what, uint32_t code, uint32_t wanted) {
    if (code == wanted) return;
    fprintf(stderr, "life: %s answers %" PRIu32 "\n", what, code);
    exit(1);
}

static hindcore_trace trace_of(uint64_t number) {
    hindcore_trace trace = {{0x11}};
    memcpy(trace.bytes + 8, &number, sizeof number);
    return trace;
}

static void open_all(void) {
    hindcore_fault fault;
    must("opening a hub", hindcore_hub_open((const uint8_t *)settings, sizeof settings - 1, 1, 1, &hub, &fault), HINDCORE_DONE);
    for (uint16_t n = 0; n < NODES; n++) {
        must("opening a node", hindcore_node_open((const uint8_t *)settings, sizeof settings - 1, n, 1, &nodes[n], &fault), HINDCORE_DONE);
        must("opening a client", hindcore_node_client(&nodes[n], &clients[n]), HINDCORE_DONE);
    }
}

static void close_all(void) {
    for (unsigned n = 0; n < NODES; n++) {
        hindcore_client_free(&clients[n]);
        hindcore_node_free(&nodes[n]);
    }
    hindcore_hub_free(&hub);
}

/* ---- what is written */

static void write_at(unsigned n, const hindcore_trace *trace, int count, int is_claimed) {
    static const uint8_t payload[32] = "a record of thirty-two bytes";
    must("begin", hindcore_begin(&clients[n], trace), HINDCORE_DONE);
    for (int i = 0; i < count; i++) must("point", hindcore_point(&clients[n], ++moment, payload, sizeof payload), HINDCORE_DONE);
    points += (unsigned long)count;
    must("crumb", hindcore_crumb(&clients[n], (uint16_t)(1 - n)), HINDCORE_DONE);
    if (is_claimed) must("trigger", hindcore_trigger(&clients[n], ++moment, 1, trace, NULL, 0), HINDCORE_DONE);
    must("end", hindcore_end(&clients[n]), HINDCORE_DONE);
}

static void write_pair(uint64_t number) {
    hindcore_trace claimed = trace_of(2 * number), other = trace_of(2 * number + 1);
    for (unsigned n = 0; n < NODES; n++) {
        write_at(n, &other, OTHERS, 0);
        write_at(n, &claimed, CLAIMED, n == 1);
    }
    claims++;
}

/* ---- what becomes of it */

static void look_at_records(void) {
    hindcore_row row;
    unsigned long rows = 0;
    while (hindcore_hub_row(&hub, &row, bytes, sizeof bytes) == HINDCORE_DONE) rows += row.len == 32 && !memcmp(bytes, "a record of", 11);
    wrong += rows != NODES * CLAIMED;
}

static void save(void) {
    hindcore_trace trace;
    hindcore_message_id id;
    uint32_t is_whole;
    while (hindcore_hub_take(&hub, &trace) == HINDCORE_DONE) {
        must("whole", hindcore_hub_whole(&hub, &is_whole), HINDCORE_DONE);
        whole += is_whole;
        if (saved++ % SHOWN == 0) look_at_records();
        must("saved", hindcore_hub_saved(&hub, &trace), HINDCORE_DONE);
        while (hindcore_hub_acknowledge(&hub, &id) == HINDCORE_DONE) {}
    }
}

/* The message that a node has next goes to the hub and is acknowledged: 0 where there is none. */
static int carry(hindcore_node *node) {
    uint64_t number, len;
    uint32_t code;
    if (hindcore_node_next(node, &number, bytes, sizeof bytes, &len) != HINDCORE_DONE) return 0;
    while ((code = hindcore_hub_deliver(&hub, bytes, (size_t)len)) == HINDCORE_FULL) {
        hindcore_hub_pass(&hub);
        save();
    }
    if (code != HINDCORE_HELD) must("delivering", code, HINDCORE_DONE);
    must("sent", hindcore_node_sent(node, number), HINDCORE_DONE);
    must("acknowledged", hindcore_node_acknowledged(node, number), HINDCORE_DONE);
    messages++;
    return 1;
}

static void ask(void) {
    uint64_t len;
    hindcore_head head;
    while (hindcore_hub_next(&hub, bytes, sizeof bytes, &len) == HINDCORE_DONE) {
        must("an ask", hindcore_message_head(bytes, (size_t)len, &head), HINDCORE_DONE);
        must("delivering an ask", hindcore_node_deliver(&nodes[head.node], bytes, (size_t)len), HINDCORE_DONE);
        asks++;
    }
}

static void pass(void) {
    uint32_t says;
    uint64_t left;
    for (unsigned n = 0; n < NODES; n++) {
        must("flush", hindcore_flush(&clients[n], &left), HINDCORE_DONE);
        must("pass", hindcore_node_pass(&nodes[n], &says), HINDCORE_DONE);
        while (carry(&nodes[n])) {}
    }
    must("the hub's pass", hindcore_hub_pass(&hub), HINDCORE_DONE);
    ask();
    save();
}

static unsigned long lost(void) {
    unsigned long sum = 0;
    for (unsigned n = 0; n < NODES; n++) {
        hindcore_count c;
        must("counts", hindcore_counts(&clients[n], &c), HINDCORE_DONE);
        sum += c.null_pages + c.full_points + c.refused_crumbs + c.refused_triggers + c.dropped_notes;
    }
    return sum;
}

int main(int argc, char **argv) {
    unsigned long count = argc == 2 ? strtoul(argv[1], NULL, 10) : 0, per_step = count / STEPS, done = 0;
    size_t first_bytes = 0;
    long first_resident = 0;
    if (!per_step) return 2;
    open_all();
    printf("| points | claims | saved whole | messages | bytes allocated | resident KiB |\n|---|---|---|---|---|---|\n");
    for (int step = 1; step <= STEPS; step++) {
        for (unsigned long i = 0; i < per_step; i++) {
            write_pair(done++);
            if (done % PAIRS == 0) pass();
        }
        for (int i = 0; i < QUIET; i++) pass();
        printf("| %lu | %lu | %lu | %lu | %zu | %ld |\n", points, claims, whole, messages, allocated, resident());
        fflush(stdout);
        if (step == STEPS / 5) first_bytes = allocated, first_resident = resident();
    }
    long last_resident = resident(), off = labs(last_resident - first_resident);
    int is_flat = allocated == first_bytes && off * 100 <= first_resident, is_all = saved == claims && whole == claims && !wrong && !lost();
    printf("\n%s: %zu bytes after a fifth and %zu at the end, resident %ld and %ld KiB; %lu asks\n", is_flat ? "flat" : "NOT FLAT", first_bytes, allocated, first_resident, last_resident, asks);
    printf("%s: %lu claims, %lu saved, %lu whole, %lu with other records than were written, %lu refused or lost\n", is_all ? "all" : "NOT ALL", claims, saved, whole, wrong, lost());
    close_all();
    if (allocated) printf("NOT FREED: %zu bytes\n", allocated);
    return !is_flat || !is_all || allocated;
}
