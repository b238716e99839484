/* Two clients and the agent of a node in three threads, for minutes. Each client writes records of many lengths into traces, one in sixteen of them shared
 * with the other client, and claims each trace. The third thread makes the node's passes, carries what it says to a hub, and saves. A record carries its
 * client and its number. At the end each record has to be saved, once, but for those that the counts of the clients name.
 *
 *     threads SECONDS      a line with the sums; status 1 where they differ */
#define _POSIX_C_SOURCE 200809L
#include "hindcore.h"
#include <inttypes.h>
#include <pthread.h>
#include <sched.h>
#include <stdatomic.h>
#include <stdio.h>
#include <stdlib.h>
#include <string.h>
#include <time.h>

enum {
    CLIENTS = 2,
    MOST_POINTS = 30,  /* of a segment */
    MOST_LEN = 600,    /* of a record, in pages of 1,024 bytes */
    AHEAD = 500,       /* segments of one client before the other, at most: a node forgets claims of traces, and both claim the traces that they share */
    UNDER_WAY = 8000,  /* records that were written and not saved, at most: the pool has room for them */
    PATIENCE = 30      /* seconds in which something is saved, or nothing comes any more */
};

/* Of each client a pass takes 64 pages, and a turn reports 100 of each trigger id: one of a weight of 100 for each client, which has a token each
 * microsecond. */
static const char settings[] =
    "nodes 1\nclients 2\nbuffers 8192\nsize 1024\nthreshold 2048\npins 4096\nclaims 4096\nremember 16384\ngroups 256\nhold 1024\ntriggerid 1 100 1000 1000000\ntriggerid 2 100 1000 1000000\n";

/* What a writer did, and what was saved of it. A sum is of a mix of the numbers, so that none stands for another. */
typedef struct {
    _Alignas(128) hindcore_client client;
    unsigned number;
    uint64_t points, sum, segments, tried_again;
    hindcore_count counts;
    uint64_t saved, saved_sum;
} writer;

static writer writers[CLIENTS];
static hindcore_node node;
static hindcore_hub hub;
static _Atomic uint64_t written, saved, begun[CLIENTS]; /* records; segments */
static _Atomic int ends, writing;
static uint8_t bytes[65536];
static uint64_t traces, whole;

static void must(const char *what, uint32_t code, uint32_t wanted) {
    if (code == wanted) return;
    fprintf(stderr, "threads: %s answers %" PRIu32 "\n", what, code);
    exit(1);
}

static uint64_t mix(uint64_t n) {
    n = (n ^ n >> 30) * 0xbf58476d1ce4e5b9u;
    n = (n ^ n >> 27) * 0x94d049bb133111ebu;
    return n ^ n >> 31;
}

/* ---- a client */

/* A call is made again where its outbox is full. A dry point was done: what it lost is counted. */
#define UNTIL_DONE(w, what, call)                                                 \
    do {                                                                          \
        uint32_t code;                                                            \
        while ((code = (call)) == HINDCORE_FULL) {                                \
            (w)->tried_again++;                                                   \
            sched_yield();                                                        \
        }                                                                         \
        must(what, code == HINDCORE_DRY ? HINDCORE_DONE : code, HINDCORE_DONE);   \
    } while (0)

static uint64_t microseconds(void) {
    struct timespec t;
    clock_gettime(CLOCK_MONOTONIC, &t);
    return (uint64_t)t.tv_sec * 1000000 + (uint64_t)t.tv_nsec / 1000;
}

static void segment(writer *w, uint64_t *draws) {
    static const uint8_t fill[MOST_LEN];
    uint64_t number = w->segments++;
    hindcore_trace trace = {{0x22, number % 16 ? (uint8_t)(1 + w->number) : 0}};
    memcpy(trace.bytes + 8, &number, sizeof number);
    UNTIL_DONE(w, "begin", hindcore_begin(&w->client, &trace));
    for (unsigned count = 1 + (unsigned)(mix(++*draws) % MOST_POINTS); count; count--) {
        uint8_t payload[16 + MOST_LEN];
        uint64_t len = 16 + mix(++*draws) % MOST_LEN, which = w->number;
        memcpy(payload, &which, 8);
        memcpy(payload + 8, &w->points, 8);
        memcpy(payload + 16, fill, (size_t)len - 16);
        UNTIL_DONE(w, "point", hindcore_point(&w->client, w->points, payload, (size_t)len));
        w->sum += mix(w->points++);
        atomic_fetch_add_explicit(&written, 1, memory_order_relaxed);
    }
    if (number % 2) UNTIL_DONE(w, "trigger", hindcore_trigger(&w->client, microseconds(), (uint8_t)(1 + w->number), &trace, NULL, 0));
    UNTIL_DONE(w, "end", hindcore_end(&w->client));
    if (number % 2 == 0) UNTIL_DONE(w, "trigger", hindcore_trigger(&w->client, microseconds(), (uint8_t)(1 + w->number), &trace, NULL, 0));
}

/* Whether a client has to wait: for the other one, or until more is saved. */
static int has_to_wait(const writer *w) {
    uint64_t under_way = atomic_load_explicit(&written, memory_order_relaxed) - atomic_load_explicit(&saved, memory_order_relaxed);
    return under_way > UNDER_WAY || w->segments > atomic_load_explicit(&begun[1 - w->number], memory_order_relaxed) + AHEAD;
}

static void *writes(void *of) {
    writer *w = of;
    uint64_t draws = (uint64_t)w->number << 32, left;
    while (!atomic_load_explicit(&ends, memory_order_relaxed)) {
        segment(w, &draws);
        atomic_store_explicit(&begun[w->number], w->segments, memory_order_relaxed);
        while (has_to_wait(w)) {
            must("flush", hindcore_flush(&w->client, &left), HINDCORE_DONE);
            if (atomic_load_explicit(&ends, memory_order_relaxed)) break;
            sched_yield();
        }
    }
    do must("flush", hindcore_flush(&w->client, &left), HINDCORE_DONE);
    while (left);
    must("counts", hindcore_counts(&w->client, &w->counts), HINDCORE_DONE);
    atomic_fetch_sub(&writing, 1);
    return NULL;
}

/* ---- the agent, and a hub */

/* A record whose first bytes were gathered from its pieces is one of a writer's. */
static void count_record(const uint8_t *front) {
    uint64_t which, number;
    memcpy(&which, front, 8);
    memcpy(&number, front + 8, 8);
    must("the client of a record", which >= CLIENTS, 0);
    writers[which].saved++;
    writers[which].saved_sum += mix(number);
    atomic_fetch_add_explicit(&saved, 1, memory_order_relaxed);
}

static void count_rows(void) {
    hindcore_row row;
    uint8_t front[16];
    size_t has = sizeof front;
    while (hindcore_hub_row(&hub, &row, bytes, sizeof bytes) == HINDCORE_DONE) {
        if (!row.continues) has = 0;
        size_t more = sizeof front - has < row.len ? sizeof front - has : (size_t)row.len;
        if (!more) continue;
        memcpy(front + has, bytes, more);
        has += more;
        if (has == sizeof front) count_record(front);
    }
}

static void save(void) {
    hindcore_trace trace;
    hindcore_message_id id;
    uint32_t is_whole;
    while (hindcore_hub_take(&hub, &trace) == HINDCORE_DONE) {
        must("whole", hindcore_hub_whole(&hub, &is_whole), HINDCORE_DONE);
        whole += is_whole;
        traces++;
        count_rows();
        must("saved", hindcore_hub_saved(&hub, &trace), HINDCORE_DONE);
        while (hindcore_hub_acknowledge(&hub, &id) == HINDCORE_DONE) {}
    }
}

static void carry(void) {
    uint64_t number, len;
    uint32_t code;
    while (hindcore_node_next(&node, &number, bytes, sizeof bytes, &len) == HINDCORE_DONE) {
        while ((code = hindcore_hub_deliver(&hub, bytes, (size_t)len)) == HINDCORE_FULL) {
            hindcore_hub_pass(&hub);
            save();
        }
        if (code != HINDCORE_HELD) must("delivering", code, HINDCORE_DONE);
        must("sent", hindcore_node_sent(&node, number), HINDCORE_DONE);
        must("acknowledged", hindcore_node_acknowledged(&node, number), HINDCORE_DONE);
    }
}

static void pass(void) {
    uint32_t says;
    must("pass", hindcore_node_pass(&node, &says), HINDCORE_DONE);
    carry();
    must("the hub's pass", hindcore_hub_pass(&hub), HINDCORE_DONE);
    save();
}

static time_t now(void) {
    struct timespec t;
    clock_gettime(CLOCK_MONOTONIC, &t);
    return t.tv_sec;
}

static void until_all_is_saved(void) {
    time_t last = now();
    uint64_t before = 0;
    while (now() - last < PATIENCE) {
        pass();
        if (atomic_load(&saved) != before) before = atomic_load(&saved), last = now();
        if (!atomic_load(&writing) && atomic_load(&saved) == atomic_load(&written)) return;
    }
}

/* Whether each record of a writer was saved once, or is lost with a cause that is counted. */
static int adds_up(const writer *w) {
    int counted = w->counts.null_pages || w->counts.dropped_notes, all = w->saved == w->points && w->saved_sum == w->sum;
    printf("client %u: %" PRIu64 " records in %" PRIu64 " segments, %" PRIu64 " saved, %" PRIu64 " null pages, %" PRIu64 " calls made again\n", w->number, w->points, w->segments,
           w->saved, w->counts.null_pages, w->tried_again);
    return w->counts.points == w->points && (all || (counted && w->saved < w->points));
}

int main(int argc, char **argv) {
    time_t seconds = argc == 2 ? (time_t)strtol(argv[1], NULL, 10) : 0, began = now();
    pthread_t threads[CLIENTS];
    hindcore_fault fault;
    int right = 1;
    if (seconds <= 0) return 2;
    must("opening a hub", hindcore_hub_open((const uint8_t *)settings, sizeof settings - 1, 1, 1, &hub, &fault), HINDCORE_DONE);
    must("opening a node", hindcore_node_open((const uint8_t *)settings, sizeof settings - 1, 0, 1, &node, &fault), HINDCORE_DONE);
    atomic_store(&writing, CLIENTS);
    for (unsigned i = 0; i < CLIENTS; i++) {
        writers[i].number = i;
        must("opening a client", hindcore_node_client(&node, &writers[i].client), HINDCORE_DONE);
        must("a thread", (uint32_t)pthread_create(&threads[i], NULL, writes, &writers[i]), 0);
    }
    while (now() - began < seconds) pass();
    atomic_store(&ends, 1);
    until_all_is_saved();
    for (unsigned i = 0; i < CLIENTS; i++) {
        pthread_join(threads[i], NULL);
        right &= adds_up(&writers[i]);
        hindcore_client_free(&writers[i].client);
    }
    printf("%s: %" PRIu64 " records in %ld s, %" PRIu64 " parts of traces, %" PRIu64 " of them whole\n", right ? "all" : "NOT ALL", atomic_load(&saved), (long)seconds, traces, whole);
    hindcore_node_free(&node);
    hindcore_hub_free(&hub);
    return !right;
}
