#define _GNU_SOURCE
#include "carrier.h"
#include "lease.h"
#include <pthread.h>
#include <stdio.h>
#include <stdlib.h>
#include <string.h>
#include <time.h>

enum {
    MOST_UNDER_WAY = 256, /* messages that are published and not acknowledged */
    MOST_TAKEN = 64,      /* of each kind in one turn of the loop */
    QUIET = 16,           /* turns at the end in which the node has nothing to say: a claim takes some passes to be told */
    LEAST_PATIENCE = 1000, MOST_PATIENCE = 30000 /* milliseconds without an acknowledgement before all is handed out anew */
};

struct carrier {
    broker broker;
    lease lease;
    unsigned length;
    natsSubscription *answers, *asks;
    char inbox[64]; /* the broker answers a publish at this subject, with the message's number behind it */
    carried node;
    pthread_t thread;
    int has_thread;
    atomic_uint stop_within; /* milliseconds; 0: go on */
    /* of the thread alone */
    uint32_t under_way;
    unsigned patience, pause;
    int64_t heard, renewed; /* milliseconds of a steady clock */
    unsigned long returns;
    /* of the thread, and read by others */
    atomic_ulong published, acknowledged, refused, repeats, asked, now_under_way;
    atomic_int lost, drained;
};

static int64_t milliseconds(void) {
    struct timespec t;
    clock_gettime(CLOCK_MONOTONIC, &t);
    return (int64_t)t.tv_sec * 1000 + t.tv_nsec / 1000000;
}

static void add(atomic_ulong *count) {
    atomic_fetch_add_explicit(count, 1, memory_order_relaxed);
}

/* ---- opening */

static carrier_answer refused(carrier_answer answer, char *fault, size_t room) {
    static const char *const why[] = {"", "another process has this name", "each number of a node has another name", "a name has from 1 to 64 bytes",
                                      "the broker does not answer: is JetStream on?", "memory is wanting"};
    if (answer != CARRIER_DONE) snprintf(fault, room, "%s", why[answer]);
    return answer;
}

/* Where the broker answers, and where the node is asked. */
static natsStatus subscribe(carrier *c) {
    char subject[BROKER_MOST_SUBJECT];
    natsInbox *fresh = NULL;
    natsStatus s = natsInbox_Create(&fresh);
    if (s != NATS_OK) return s;
    snprintf(c->inbox, sizeof c->inbox, "%s", fresh);
    natsInbox_Destroy(fresh);
    snprintf(subject, sizeof subject, "%s.*", c->inbox);
    s = natsConnection_SubscribeSync(&c->answers, c->broker.connection, subject);
    if (s != NATS_OK) return s;
    broker_subject(&c->broker, "asks", c->lease.node, subject);
    s = natsConnection_SubscribeSync(&c->asks, c->broker.connection, subject);
    /* the broker has to know of both before the node is asked */
    return s == NATS_OK ? natsConnection_FlushTimeout(c->broker.connection, 2000) : s;
}

carrier_answer carrier_open(const carrier_options *options, carrier **made, char *fault, size_t room) {
    *made = NULL;
    carrier *c = calloc(1, sizeof *c);
    if (!c) return refused(CARRIER_MEMORY, fault, room);
    if (broker_open(&c->broker, options->url, options->prefix, options->wait, fault, room)) {
        free(c);
        return CARRIER_BROKER;
    }
    c->length = options->lease ? options->lease : 15000;
    c->pause = options->pause ? options->pause : 1;
    /* the stream may be made by whoever comes first; a broker that cannot make it now is asked again by the hub */
    broker_keep_stream(&c->broker);
    carrier_answer answer = (carrier_answer)lease_take(&c->lease, &c->broker, options->name, options->nodes, c->length);
    if (answer == CARRIER_DONE && subscribe(c) != NATS_OK) {
        lease_free(&c->lease);
        answer = CARRIER_BROKER;
    }
    if (answer != CARRIER_DONE) {
        carrier_close(c);
        return refused(answer, fault, room);
    }
    *made = c;
    return CARRIER_DONE;
}

uint16_t carrier_node(const carrier *c) {
    return c->lease.node;
}

uint64_t carrier_epoch(const carrier *c) {
    return c->lease.epoch;
}

/* ---- the thread */

/* The broker keeps what it was sent: {"stream":..,"seq":..}. An error is {"error":..}, and where no stream takes the subject nobody responds. */
static int is_kept(natsMsg *answer) {
    if (natsMsg_IsNoResponders(answer)) return 0;
    int len = natsMsg_GetDataLength(answer);
    const char *bytes = natsMsg_GetData(answer);
    return len > 0 && !memmem(bytes, (size_t)len, "\"error\"", 7) && memmem(bytes, (size_t)len, "\"seq\"", 5);
}

static int take_answer(carrier *c, int64_t wait) {
    natsMsg *answer = NULL;
    if (natsSubscription_NextMsg(&answer, c->answers, wait) != NATS_OK) return 0;
    uint64_t number = strtoull(natsMsg_GetSubject(answer) + strlen(c->inbox) + 1, NULL, 10);
    if (is_kept(answer)) {
        if (c->node.acknowledged(c->node.node, number) && c->under_way) c->under_way--;
        c->patience = LEAST_PATIENCE;
        c->heard = milliseconds();
        add(&c->acknowledged);
    } else {
        add(&c->refused);
    }
    natsMsg_Destroy(answer);
    return 1;
}

static int take_ask(carrier *c) {
    natsMsg *ask = NULL;
    if (natsSubscription_NextMsg(&ask, c->asks, 0) != NATS_OK) return 0;
    c->node.deliver(c->node.node, (const uint8_t *)natsMsg_GetData(ask), (size_t)natsMsg_GetDataLength(ask));
    add(&c->asked);
    natsMsg_Destroy(ask);
    return 1;
}

static int publish_next(carrier *c) {
    char subject[BROKER_MOST_SUBJECT], reply[96];
    uint64_t number;
    const uint8_t *bytes;
    size_t len;
    if (c->under_way >= MOST_UNDER_WAY || !c->node.next(c->node.node, &number, &bytes, &len)) return 0;
    broker_subject(&c->broker, "says", c->lease.node, subject);
    snprintf(reply, sizeof reply, "%s.%llu", c->inbox, (unsigned long long)number);
    if (natsConnection_PublishRequest(c->broker.connection, subject, reply, bytes, (int)len) != NATS_OK) return 0;
    if (!c->under_way) c->heard = milliseconds();
    c->node.sent(c->node.node, number);
    c->under_way++;
    add(&c->published);
    return 1;
}

/* All that was not acknowledged is handed out anew, and longer is waited for the next time. */
static void hand_out_anew(carrier *c) {
    c->node.again(c->node.node);
    c->under_way = 0;
    c->heard = milliseconds();
    c->patience = c->patience >= MOST_PATIENCE / 2 ? MOST_PATIENCE : 2 * c->patience;
    add(&c->repeats);
}

static void watch(carrier *c) {
    unsigned long returns = atomic_load(&c->broker.returns);
    int64_t now = milliseconds();
    if (c->under_way && (returns != c->returns || now - c->heard > c->patience)) hand_out_anew(c);
    c->returns = returns;
    if (now - c->renewed > c->length / 3) {
        c->renewed = now;
        if (lease_renew(&c->lease) == LEASE_LOST) atomic_store(&c->lost, 1);
    }
}

/* One turn of the loop: whether there was something to do. */
static int turn(carrier *c) {
    int busy = c->node.pass(c->node.node);
    if (!broker_is_there(&c->broker)) return busy;
    watch(c);
    if (atomic_load(&c->lost)) return busy;
    for (int n = 0; n < MOST_TAKEN && take_answer(c, 0); n++) busy = 1;
    for (int n = 0; n < MOST_TAKEN && take_ask(c); n++) busy = 1;
    for (int n = 0; n < MOST_TAKEN && publish_next(c); n++) busy = 1;
    atomic_store_explicit(&c->now_under_way, c->under_way, memory_order_relaxed);
    return busy;
}

/* Whether all that the node has to say was acknowledged. */
static int is_drained(carrier *c) {
    uint64_t number;
    const uint8_t *bytes;
    size_t len;
    return !c->under_way && !c->node.next(c->node.node, &number, &bytes, &len);
}

static void *carries(void *arg) {
    carrier *c = arg;
    int64_t end = 0;
    int quiet = 0;
    for (;;) {
        int busy = turn(c);
        unsigned within = atomic_load(&c->stop_within);
        quiet = end && !busy && is_drained(c) ? quiet + 1 : 0;
        if (within && !end) end = milliseconds() + within;
        if (quiet >= QUIET) {
            atomic_store(&c->drained, 1);
            return NULL;
        }
        if (end && milliseconds() >= end) return NULL;
        /* an acknowledgement ends the pause early */
        if (!busy && !take_answer(c, c->pause) && !broker_is_there(&c->broker)) nanosleep(&(struct timespec){.tv_sec = c->pause / 1000, .tv_nsec = (long)(c->pause % 1000) * 1000000}, NULL);
    }
}

carrier_answer carrier_start(carrier *c, const carried *node) {
    if (c->has_thread) return CARRIER_RUNS;
    c->node = *node;
    c->patience = LEAST_PATIENCE;
    c->renewed = milliseconds();
    c->returns = atomic_load(&c->broker.returns);
    if (pthread_create(&c->thread, NULL, carries, c)) return CARRIER_MEMORY;
    c->has_thread = 1;
    return CARRIER_DONE;
}

void carrier_count(const carrier *c, carrier_counts *counts) {
    carrier *of = (carrier *)c; /* atomic_load of older compilers takes no const */
    *counts = (carrier_counts){
        .published = atomic_load(&of->published),
        .acknowledged = atomic_load(&of->acknowledged),
        .refused = atomic_load(&of->refused),
        .repeats = atomic_load(&of->repeats),
        .asks = atomic_load(&of->asked),
        .returns = atomic_load(&of->broker.returns),
        .under_way = (uint32_t)atomic_load(&of->now_under_way),
        .is_there = broker_is_there(&of->broker),
        .is_lost = atomic_load(&of->lost),
    };
}

int carrier_stop(carrier *c, unsigned wait) {
    if (!c->has_thread) return 1;
    atomic_store(&c->stop_within, wait ? wait : 1);
    pthread_join(c->thread, NULL);
    c->has_thread = 0;
    return atomic_load(&c->drained);
}

void carrier_close(carrier *c) {
    if (!c) return;
    natsSubscription_Destroy(c->answers);
    natsSubscription_Destroy(c->asks);
    lease_free(&c->lease);
    broker_close(&c->broker);
    free(c);
}
