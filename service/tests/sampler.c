/* A tail sampler for bench/experiment: takes all that services ship, and knows of each trace which of three services' parts came and whether a trigger claims
 * it. What ship.c says comes by ship.says; by ship.otlp come spans of the second service in OTLP's protobuf, and one that failed claims its trace. At its end
 * it writes a line for each trace: its id, the services as a sum of 1, 2 and 4, and 1 where it is claimed; a line with the word bytes and how many bytes all
 * messages had; and one with the word spans and how many came in OTLP.
 *
 *     sampler URL FILE */
#define _POSIX_C_SOURCE 200809L
#include <nats/nats.h>
#include <signal.h>
#include <stdint.h>
#include <stdio.h>
#include <stdlib.h>
#include <string.h>

typedef struct {
    uint8_t id[16];
    uint8_t services, is_claimed, is_there;
} trace;

static trace *traces;
static size_t mask = 1023, count;
static unsigned long long all, spans;

static trace *place_of(const uint8_t *id) {
    uint64_t hash;
    memcpy(&hash, id, 8);
    size_t at = (size_t)hash & mask;
    while (traces[at].is_there && memcmp(traces[at].id, id, 16)) at = (at + 1) & mask;
    return &traces[at];
}

static void grow(void) {
    trace *old = traces;
    size_t places = mask + 1;
    mask = 2 * mask + 1;
    traces = calloc(mask + 1, sizeof *traces);
    for (size_t i = 0; i < places; i++)
        if (old[i].is_there) *place_of(old[i].id) = old[i];
    free(old);
}

static void note(const uint8_t *id, unsigned service, int is_claimed) {
    if (2 * count > mask) grow();
    trace *t = place_of(id);
    if (!t->is_there) {
        memcpy(t->id, id, 16);
        t->is_there = 1;
        count++;
    }
    t->services |= (uint8_t)(1 << service);
    t->is_claimed |= is_claimed != 0;
}

/* ---- OTLP's protobuf (opentelemetry/proto/trace/v1/trace.proto) */

enum { MIDDLE = 1, RESOURCE_SPANS = 1, SCOPE_SPANS = 2, SPAN = 2, TRACE_ID = 1, STATUS = 15, CODE = 3, ERROR = 2 };

typedef struct {
    const uint8_t *at, *end;
} part;

static uint64_t varint(part *p) {
    uint64_t value = 0;
    for (int shift = 0; p->at < p->end && shift < 64; shift += 7) {
        value |= (uint64_t)(*p->at & 127) << shift;
        if (*p->at++ < 128) break;
    }
    return value;
}

/* The number of the field that comes next, and its value in `of`; 0 at the end, or where there is none. */
static unsigned field(part *p, part *of) {
    uint64_t key = varint(p), len;
    of->at = p->at;
    switch (key & 7) {
    case 0: len = (uint64_t)(varint(p), p->at - of->at); break;
    case 1: len = 8; break;
    case 2: len = varint(p); break;
    case 5: len = 4; break;
    default: return 0;
    }
    if ((key & 7) != 0) of->at = p->at;
    if (len > (uint64_t)(p->end - of->at)) return 0;
    p->at = of->end = of->at + len;
    return (unsigned)(key >> 3);
}

static int failed(part status) {
    part value;
    for (unsigned number; (number = field(&status, &value));)
        if (number == CODE) return varint(&value) == ERROR;
    return 0;
}

static void take_span(part span) {
    const uint8_t *id = NULL;
    int is_claimed = 0;
    part value;
    for (unsigned number; (number = field(&span, &value));) {
        if (number == TRACE_ID && value.end - value.at == 16) id = value.at;
        if (number == STATUS) is_claimed = failed(value);
    }
    if (!id || span.at != span.end) return;
    note(id, MIDDLE, is_claimed);
    spans++;
}

static void take_otlp(part request) {
    part resource, scope, span;
    while (field(&request, &resource) == RESOURCE_SPANS)
        for (unsigned number; (number = field(&resource, &scope));)
            for (unsigned inner; number == SCOPE_SPANS && (inner = field(&scope, &span));)
                if (inner == SPAN) take_span(span);
}

static void take(const char *subject, const uint8_t *bytes, int len) {
    all += (unsigned long long)len;
    if (!strcmp(subject, "ship.otlp")) take_otlp((part){bytes, bytes + len});
    else if (len >= 19) note(bytes + 3, bytes[1], bytes[2]);
}

static volatile sig_atomic_t ends;

static void end(int number) {
    (void)number;
    ends = 1;
}

int main(int argc, char **argv) {
    natsConnection *connection;
    natsSubscription *subscription;
    if (argc != 3 || natsConnection_ConnectTo(&connection, argv[1]) != NATS_OK) return 1;
    struct sigaction action = {.sa_handler = end};
    sigaction(SIGTERM, &action, NULL);
    traces = calloc(mask + 1, sizeof *traces);
    if (natsConnection_SubscribeSync(&subscription, connection, "ship.*") != NATS_OK) return 1;
    natsSubscription_SetPendingLimits(subscription, -1, -1);
    while (!ends) {
        natsMsg *message;
        if (natsSubscription_NextMsg(&message, subscription, 100) != NATS_OK) continue;
        take(natsMsg_GetSubject(message), (const uint8_t *)natsMsg_GetData(message), natsMsg_GetDataLength(message));
        natsMsg_Destroy(message);
    }
    FILE *file = fopen(argv[2], "w");
    for (size_t i = 0; file && i <= mask; i++) {
        if (!traces[i].is_there) continue;
        for (int j = 0; j < 16; j++) fprintf(file, "%02x", traces[i].id[j]);
        fprintf(file, " %u %u\n", traces[i].services, traces[i].is_claimed);
    }
    if (file) fprintf(file, "bytes %llu\nspans %llu\n", all, spans);
    return !file || fclose(file);
}
