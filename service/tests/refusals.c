/* A node whose allocations are refused, over many steps: each of them in one of some lives, alone or with the nine that come next. The node is not
 * spent, it reports the same pages as one that is never refused, and as many buffers are free at the end.
 *
 *     refusals STEPS */
#include "expect.h"
#include "hindcore.h"
#include <inttypes.h>
#include <stdlib.h>
#include <string.h>

void *__real_malloc(size_t size);
void *__real_realloc(void *old, size_t size);
void *__wrap_malloc(size_t size);
void *__wrap_realloc(void *old, size_t size);
void __real_free(void *old);
void __wrap_free(void *old);

static unsigned in_a_row;            /* how many allocations are refused together */
static long until = -1, to_refuse;   /* how many are granted before that, or -1: all; how many are still refused */
static unsigned long refused, all_refused;

static int is_refused(void) {
    if (until < 0) return 0;
    if (until > 0 || !to_refuse) {
        until -= until > 0;
        return 0;
    }
    to_refuse--;
    refused++;
    return 1;
}

void *__wrap_malloc(size_t size) { return is_refused() ? NULL : __real_malloc(size); }
void *__wrap_realloc(void *old, size_t size) { return is_refused() ? NULL : __real_realloc(old, size); }
void __wrap_free(void *old) { __real_free(old); }

static const char settings[] =
    "nodes 4\nclients 1\nbacklog 600\nbuffers 512\nsize 256\nthreshold 128\npins 64\nclaims 64\nremember 1024\ntriggerid 1 100 1000 1000000\ntriggerid 2 3 1000 1000000\n";

enum { ROUNDS = 4, MOST = 16 /* allocations of a step */, KEPT = 20 /* traces that a trigger may name */ };

typedef struct {
    unsigned long reported;
    uint64_t sum; /* of what was reported, whatever its order */
    unsigned free_buffers;
} outcome;

static hindcore_node node;
static hindcore_client client;
static uint64_t seed, moment;
static outcome came;

static unsigned below(unsigned n) {
    seed = seed * 6364136223846793005u + 1442695040888963407u;
    return (unsigned)(seed >> 33) % n;
}

static hindcore_trace trace_of(unsigned long number) {
    hindcore_trace trace = {{0x22}};
    for (int i = 0; i < 8; i++) trace.bytes[8 + i] = (uint8_t)(number >> (56 - 8 * i));
    return trace;
}

/* Of bytes, by FNV-1a. */
static uint64_t sum_of(const uint8_t *bytes, size_t len) {
    uint64_t sum = 0xcbf29ce484222325u;
    for (size_t i = 0; i < len; i++) sum = (sum ^ bytes[i]) * 0x100000001b3u;
    return sum;
}

/* Takes what the node says. A report's client, core and page stand behind 43 bytes with its front and its group: a trigger that found no memory comes
 * behind an ask of the same pass, and then a trace that both name goes to the other one. */
static void take_messages(void) {
    static uint8_t bytes[65536];
    uint64_t number, len;
    while (hindcore_node_next(&node, &number, bytes, sizeof bytes, &len) == HINDCORE_DONE) {
        came.reported += bytes[1] == 4;
        if (bytes[1] == 4) came.sum += sum_of(bytes + 43, (size_t)len - 43);
        EXPECT(hindcore_node_sent(&node, number), HINDCORE_DONE);
        EXPECT(hindcore_node_acknowledged(&node, number), HINDCORE_DONE);
    }
}

static void pass(void) {
    uint64_t waits;
    uint32_t says;
    EXPECT(hindcore_flush(&client, &waits), HINDCORE_DONE);
    EXPECT(hindcore_node_pass(&node, &says), HINDCORE_DONE);
    take_messages();
}

/* Passes after a step. The allocation of this number, of those that they ask for, is refused, and those that come with it. */
static void settle(long number) {
    until = in_a_row ? number : -1;
    to_refuse = (long)in_a_row;
    /* what was missed for want of memory is not asked for again, so fewer may be refused */
    for (unsigned i = 0; i < ROUNDS + in_a_row && to_refuse; i++) pass();
    until = -1;
    for (int i = 0; i < ROUNDS; i++) pass();
}

static uint8_t *put(uint8_t *at, uint64_t number, int bytes) {
    for (int i = bytes - 1; i >= 0; i--) *at++ = (uint8_t)(number >> 8 * i);
    return at;
}

/* The hub asks for a trace that node 3 claims: docs/FORMATS.md, "Messages of a service". */
static void ask(unsigned long trace, unsigned long number) {
    uint8_t bytes[64], *at = bytes;
    hindcore_trace lead = trace_of(trace);
    at = put(at, 1, 1);
    at = put(at, 3, 1);
    at = put(at, 1, 8); /* the hub's epoch */
    at = put(at, number, 8);
    at = put(at, 0, 2); /* who is asked */
    at = put(at, 3, 2); /* the group: its node, its number there, its trigger id */
    at = put(at, number, 4);
    at = put(at, 2, 1);
    memcpy(at, lead.bytes, 16);
    at = put(at + 16, 0, 1); /* no laterals */
    EXPECT(hindcore_node_deliver(&node, bytes, (size_t)(at - bytes)), HINDCORE_DONE);
}

static void step(unsigned long number, unsigned long first) {
    hindcore_trace trace = trace_of(number), laterals[2];
    uint8_t payload[100];
    memset(payload, (int)number, sizeof payload);
    EXPECT(hindcore_begin(&client, &trace), HINDCORE_DONE);
    EXPECT(hindcore_point(&client, ++moment, payload, below(sizeof payload)), HINDCORE_DONE);
    if (!below(3)) EXPECT(hindcore_crumb(&client, (uint16_t)below(4)), HINDCORE_DONE);
    if (!below(5)) {
        unsigned count = below(3);
        for (unsigned i = 0; i < count; i++) laterals[i] = trace_of(number - below(KEPT));
        EXPECT(hindcore_trigger(&client, ++moment, (uint8_t)(1 + below(2)), &trace, laterals, count), HINDCORE_DONE);
    }
    EXPECT(hindcore_end(&client), HINDCORE_DONE);
    laterals[0] = trace_of(number - below(KEPT));
    if (!below(7)) EXPECT(hindcore_crumb_of(&client, &laterals[0], (uint16_t)below(4)), HINDCORE_DONE);
    if (!below(11)) ask(number - below(KEPT), number);
    settle((long)((number + first) % MOST));
}

/* How many buffers a client finds, one page each, before a page is null. */
static unsigned draw_all(void) {
    uint8_t payload[200] = {0};
    hindcore_count counts;
    hindcore_trace trace = trace_of(0);
    unsigned drawn = 0;
    EXPECT(hindcore_counts(&client, &counts), HINDCORE_DONE);
    uint64_t before = counts.null_pages;
    EXPECT(hindcore_begin(&client, &trace), HINDCORE_DONE);
    for (; counts.null_pages == before && drawn < 1000 && !failed; drawn++) {
        uint64_t waits;
        (void)hindcore_point(&client, ++moment, payload, sizeof payload);
        EXPECT(hindcore_flush(&client, &waits), HINDCORE_DONE);
        EXPECT(hindcore_counts(&client, &counts), HINDCORE_DONE);
    }
    return drawn;
}

static outcome live(unsigned long steps, unsigned refusals, unsigned long first) {
    hindcore_fault fault;
    hindcore_count counts;
    came = (outcome){0};
    seed = 1;
    moment = 0;
    in_a_row = refusals;
    refused = 0;
    EXPECT(hindcore_node_open((const uint8_t *)settings, sizeof settings - 1, 0, 1, &node, &fault), HINDCORE_DONE);
    EXPECT(hindcore_node_client(&node, &client), HINDCORE_DONE);
    if (failed) return came;
    for (unsigned long i = 0; i < steps && !failed; i++) step(KEPT + i, first);
    in_a_row = 0;
    settle(0);
    EXPECT(hindcore_counts(&client, &counts), HINDCORE_DONE);
    EXPECT(counts.null_pages + counts.full_points + counts.refused_crumbs + counts.refused_triggers, 0);
    came.free_buffers = draw_all();
    EXPECT(hindcore_client_free(&client), HINDCORE_DONE);
    EXPECT(hindcore_node_free(&node), HINDCORE_DONE);
    all_refused += refused;
    return came;
}

static void must_be_alike(const outcome *plain, const outcome *other) {
    EXPECT(other->reported, plain->reported);
    EXPECT(other->sum, plain->sum);
    EXPECT(other->free_buffers, plain->free_buffers);
}

int main(int argc, char **argv) {
    static const unsigned rows[] = {1, 10};
    unsigned long steps = argc == 2 ? strtoul(argv[1], NULL, 10) : 0;
    if (!steps) return 2;
    outcome plain = live(steps, 0, 0);
    printf("%lu steps: %lu pages reported, %u buffers free\n", steps, plain.reported, plain.free_buffers);
    HOLDS(plain.reported > steps / 10);
    HOLDS(plain.free_buffers > 0 && plain.free_buffers < 512);
    for (size_t i = 0; i < sizeof rows / sizeof *rows && !failed; i++) {
        all_refused = 0;
        for (unsigned long first = 0; first < MOST && !failed; first++) {
            outcome other = live(steps, rows[i], first);
            must_be_alike(&plain, &other);
        }
        printf("%u in a row: %lu allocations refused in %d lives\n", rows[i], all_refused, MOST);
        HOLDS(all_refused >= steps);
    }
    return failed != 0;
}
