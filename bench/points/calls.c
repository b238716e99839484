/* One call of the core, so many times, for callgrind, which counts what is done inside of it.
 *
 *     calls WHAT BYTES COUNT      WHAT: point, segment, crumb, trigger, sample */
#include "hindcore.h"
#include <stdio.h>
#include <stdlib.h>
#include <string.h>

static const char settings[] = "triggerid 1\nauto 0 queue 1 2 5000 2\nnodes 4\nbuffers 1024\nsize 32768\nclients 1\nbacklog 64\n";

static hindcore_client client;
static hindcore_port port;
static uint8_t payload[8192];

static void must(uint32_t code, const char *what) {
    if (code == HINDCORE_DONE) return;
    fprintf(stderr, "calls: %s answered %u\n", what, code);
    exit(1);
}

/* What waits is taken now and then, so that no call finds an outbox full. */
static void take(void) {
    while (hindcore_take(&port, 0) == HINDCORE_DONE) continue;
    for (int i = 0; i < 64; i++) hindcore_take_notes(&port, 0);
}

static void loop(const char *what, size_t bytes, unsigned count) {
    const hindcore_trace trace = {{1}};
    for (unsigned i = 0; i < count; i++) {
        if (*what == 'p') must(hindcore_point(&client, i, payload, bytes), "point");
        else if (*what == 's' && what[1] == 'e') {
            must(hindcore_begin(&client, &trace), "begin");
            must(hindcore_end(&client), "end");
        } else if (*what == 'c') must(hindcore_crumb(&client, 1), "crumb");
        else if (*what == 't') must(hindcore_trigger(&client, i, 1, &trace, NULL, 0), "trigger");
        else if (*what == 's') must(hindcore_sample(&client, i, 0, i), "sample");
    }
}

int main(int argc, char **argv) {
    hindcore_fault fault;
    const hindcore_trace trace = {{1}};
    if (argc != 4) return 2;
    must(hindcore_open((const uint8_t *)settings, sizeof settings - 1, 0, &port, &fault), "open");
    must(hindcore_client_open(&port, &client), "client_open");
    unsigned count = (unsigned)atoi(argv[3]);
    size_t bytes = (size_t)atoi(argv[2]);
    if (bytes > sizeof payload) return 2;
    if (strcmp(argv[1], "segment")) must(hindcore_begin(&client, &trace), "begin");
    must(strcmp(argv[1], "point") ? HINDCORE_DONE : hindcore_point(&client, 0, payload, 1), "point");
    for (unsigned done = 0; done < count; done += 20) {
        loop(argv[1], bytes, 20);
        take();
    }
    return 0;
}
