/* What a broker that is away costs a service's clients: a node that claims traces, and whose messages are handed out and never acknowledged, beside one
 * without triggers whose pool is smaller by `pins`. Both are given the same requests, in bursts that empty the pool now and then.
 *
 *     unacknowledged POINTS
 *
 * Status 1 where the first has more null pages or more records that found no buffer than the second, where the second had none, or where what is claimed
 * and not acknowledged did not fill the node, so that triggers found no place. */
#include "hindcore.h"
#include <inttypes.h>
#include <stdio.h>
#include <stdlib.h>
#include <string.h>

enum { BUFFERS = 512, PINS = 64, BURST = 56 /* the most requests between two passes */, BEHIND = 8 /* requests: a trigger names one of the last */ };

typedef struct {
    uint64_t points, dry, null_pages, triggers, refused, reported;
} outcome;

static hindcore_node node;
static hindcore_client client;
static uint64_t seed, moment;
static outcome came;

/* Ends the program where a call answers something else. */
static void must(const char *what, uint32_t code, uint32_t wanted) {
    if (code == wanted) return;
    fprintf(stderr, "unacknowledged: %s answers %" PRIu32 "\n", what, code);
    exit(1);
}

static unsigned below(unsigned n) {
    seed = seed * 6364136223846793005u + 1442695040888963407u;
    return (unsigned)(seed >> 33) % n;
}

static hindcore_trace trace_of(uint64_t number) {
    hindcore_trace trace = {{0x33}};
    memcpy(trace.bytes + 8, &number, sizeof number);
    return trace;
}

static void request(uint64_t number, int is_claimed) {
    static const uint8_t payload[100] = "a record of up to a hundred bytes";
    hindcore_trace trace = trace_of(number), earlier = trace_of(number - below(BEHIND));
    unsigned points = 1 + below(40), claims = !below(5);
    must("begin", hindcore_begin(&client, &trace), HINDCORE_DONE);
    for (unsigned i = 0; i < points; i++) {
        uint32_t answer = hindcore_point(&client, ++moment, payload, below(sizeof payload));
        if (answer == HINDCORE_DRY) came.dry++;
        else must("point", answer, HINDCORE_DONE);
    }
    came.points += points;
    if (claims && is_claimed) {
        uint32_t answer = hindcore_trigger(&client, ++moment, 1, &earlier, NULL, 0);
        if (answer == HINDCORE_FULL) came.refused++;
        else must("trigger", answer, HINDCORE_DONE);
        came.triggers++;
    }
    must("end", hindcore_end(&client), HINDCORE_DONE);
}

/* A pass, whose messages are handed out, as to a broker that never says that it has one. */
static void pass(void) {
    static uint8_t bytes[65536];
    uint64_t number, len, waits;
    uint32_t says;
    must("flush", hindcore_flush(&client, &waits), HINDCORE_DONE);
    must("pass", hindcore_node_pass(&node, &says), HINDCORE_DONE);
    while (hindcore_node_next(&node, &number, bytes, sizeof bytes, &len) == HINDCORE_DONE) {
        came.reported += bytes[1] == 4;
        must("sent", hindcore_node_sent(&node, number), HINDCORE_DONE);
    }
}

static outcome live(const char *settings, int is_claimed, uint64_t points) {
    hindcore_fault fault;
    hindcore_count counts;
    came = (outcome){0};
    seed = 7;
    moment = 0;
    must("opening", hindcore_node_open((const uint8_t *)settings, strlen(settings), 0, 1, &node, &fault), HINDCORE_DONE);
    must("a client", hindcore_node_client(&node, &client), HINDCORE_DONE);
    for (uint64_t number = BEHIND; came.points < points;) {
        for (unsigned i = below(BURST); i--; number++) request(number, is_claimed);
        pass();
    }
    must("counts", hindcore_counts(&client, &counts), HINDCORE_DONE);
    came.null_pages = counts.null_pages;
    hindcore_client_free(&client);
    hindcore_node_free(&node);
    return came;
}

static void tell(const char *which, const outcome *o) {
    printf("%s: %" PRIu64 " points, %" PRIu64 " triggers, %" PRIu64 " of them without a place, %" PRIu64 " pages reported, %" PRIu64 " null pages, %" PRIu64 " records that found no buffer\n", which, o->points, o->triggers, o->refused, o->reported, o->null_pages, o->dry);
}

int main(int argc, char **argv) {
    static const char form[] = "nodes 1\nclients 1\nbacklog 600\nbuffers %u\nsize 512\nthreshold 128\npins %u\nclaims 64\nremember 1024\ntriggerid 1 100 1000 1000000\n";
    char with[sizeof form + 16], without[sizeof form + 16];
    uint64_t points = argc == 2 ? strtoull(argv[1], NULL, 10) : 0;
    if (!points) return 2;
    snprintf(with, sizeof with, form, BUFFERS, PINS);
    snprintf(without, sizeof without, form, BUFFERS - PINS, PINS);
    outcome claiming = live(with, 1, points), smaller = live(without, 0, points);
    tell("claiming, never acknowledged", &claiming);
    tell("without triggers, fewer buffers", &smaller);
    return !(claiming.null_pages <= smaller.null_pages && claiming.dry <= smaller.dry && smaller.null_pages && claiming.reported && claiming.refused);
}
