/* What a hub costs and how much memory it keeps over many messages. Each trace has a Told, three pages of ten records and a Standing of one node, and of
 * seven traces in eight a Told, four pages and a Standing of a second node, which is asked: 10.25 messages a trace. So many traces are under way at
 * once. What may go is saved behind every sixteenth trace, and where a message is answered Full, which then comes again: so each limit is reached.
 *
 *     hub TRACES UNDER_WAY GROUPS HOLD BYTES      a line for each tenth: traces, nanoseconds a message, resident KiB */
#define _POSIX_C_SOURCE 200809L
#include "hindcore.h"
#include "messages.h"
#include <stdio.h>
#include <stdlib.h>
#include <time.h>
#include <unistd.h>

enum { SAVED_EVERY = 16 };

static hindcore_hub hub;
static uint8_t bytes[8192], page[4096], out[65536];
static uint64_t numbers[2];
static unsigned long messages, full, named, given, whole;

static double now(void) {
    struct timespec t;
    clock_gettime(CLOCK_PROCESS_CPUTIME_ID, &t);
    return (double)t.tv_sec * 1e9 + (double)t.tv_nsec;
}

static long resident(void) {
    long all = 0, pages = 0;
    FILE *f = fopen("/proc/self/statm", "r");
    if (!f || fscanf(f, "%ld %ld", &all, &pages) != 2) pages = 0;
    if (f) fclose(f);
    return pages * (sysconf(_SC_PAGESIZE) / 1024);
}

static void save(void) {
    hindcore_trace trace;
    hindcore_row row;
    hindcore_message_id id;
    uint32_t is_whole = 0;
    while (hindcore_hub_take(&hub, &trace) == HINDCORE_DONE) {
        while (hindcore_hub_row(&hub, &row, out, sizeof out) == HINDCORE_DONE) {}
        hindcore_hub_whole(&hub, &is_whole);
        whole += is_whole;
        given++;
        hindcore_hub_saved(&hub, &trace);
        while (hindcore_hub_acknowledge(&hub, &id) == HINDCORE_DONE) named++;
    }
}

static void send_asks(void) {
    uint64_t len;
    while (hindcore_hub_next(&hub, out, sizeof out, &len) == HINDCORE_DONE) {}
}

static void deliver(const writing *w) {
    for (int tries = 0; tries < 100000; tries++) {
        uint32_t code = hindcore_hub_deliver(&hub, w->bytes, w->len);
        if (code == HINDCORE_HELD || code == HINDCORE_DONE) {
            messages++;
            return;
        }
        if (code != HINDCORE_FULL) break;
        full++;
        send_asks();
        hindcore_hub_pass(&hub);
        save();
    }
    fprintf(stderr, "hub: a message is never taken\n");
    exit(1);
}

static void report(uint16_t node, const group_id *group, uint32_t number) {
    writing w = {bytes, 0}, p = {page, 0};
    begin_page(&p, group->lead, node, 0, number, 10 * number);
    for (int r = 0; r < 10; r++) put_piece(&p, number, out, 90);
    end_page(&p, 10);
    put_reported(&w, 1, numbers[node]++, node, group, 0, 0, p.bytes, p.len);
    deliver(&w);
}

static void tell(uint16_t node, uint64_t t, uint8_t why) {
    uint32_t pages = node ? 4 : 3;
    uint8_t trace[16] = {0};
    memcpy(trace + 1, &t, sizeof t);
    group_id group = {0, (uint32_t)t, 1, trace};
    writing w = {bytes, 0};
    put_told(&w, 1, numbers[node]++, node, &group, why, UINT64_C(1) << (1 - node), NULL, 0);
    deliver(&w);
    for (uint32_t i = 0; i < pages; i++) report(node, &group, (uint32_t)t * pages + i);
    w.len = 0;
    put_standing(&w, 1, numbers[node]++, node, trace, &group, SAYS_WHOLE, 0, 0, pages, UINT64_C(1) << (1 - node), 0);
    deliver(&w);
}

int main(int argc, char **argv) {
    static const uint8_t digest[32]; /* the core does not look at it */
    char settings[200];
    hindcore_fault fault;
    if (argc != 6) return 2;
    uint64_t traces = strtoull(argv[1], NULL, 10), under = strtoull(argv[2], NULL, 10);
    int used = snprintf(settings, sizeof settings, "triggerid 1\nnodes 2\ngroups %s\nhold %s\nbytes %s\n", argv[3], argv[4], argv[5]);
    if (hindcore_hub_open((const uint8_t *)settings, (size_t)used, 1, 1, &hub, &fault)) return 1;
    for (uint16_t node = 0; node < 2; node++) {
        writing w = {bytes, 0};
        put_hello(&w, 1, numbers[node]++, node, digest, node ? "back" : "front");
        if (hindcore_hub_deliver(&hub, w.bytes, w.len) != HINDCORE_DONE) return 1;
    }
    double from = now();
    unsigned long before = 0;
    for (uint64_t t = 0; t < traces + under; t++) {
        if (t < traces) {
            tell(0, t, 0);
            send_asks();
        }
        if (t >= under && (t - under) % 8) tell(1, t - under, 1);
        hindcore_hub_pass(&hub);
        if (t % SAVED_EVERY == 0) save();
        if ((t + 1) % (traces / 10) == 0) {
            printf("%lu traces: %.0f ns a message, %ld KiB\n", (unsigned long)(t + 1), (now() - from) / (double)(messages - before), resident());
            fflush(stdout);
            from = now();
            before = messages;
        }
    }
    for (int passes = 0; passes < 1000; passes++) {
        hindcore_hub_pass(&hub);
        save();
    }
    hindcore_hub_count counts;
    hindcore_hub_counts(&hub, &counts);
    printf("%lu messages, %lu times full, %lu named, %lu given out, %lu whole; left %lu messages, %lu bytes\n", messages, full, named, given, whole,
           (unsigned long)counts.messages, (unsigned long)counts.bytes);
    return counts.messages || counts.bytes || named != messages;
}
