/* What a hub does, apart from how messages reach it: it takes them, gives whole traces out to a store, and says which messages may be
 * acknowledged once that store has them on the disk. */
#ifndef HUBWORK_H
#define HUBWORK_H
#include "store.h"

typedef struct hubwork hubwork;

typedef struct {
    const char *settings; /* text of the service's settings */
    size_t settings_len;
    uint64_t epoch;       /* of this life of the hub; above those of the lives before */
    store_options store;
    /* A message may be acknowledged: what it serves is saved. */
    void (*acknowledge)(void *closure, uint16_t node, uint64_t epoch, uint64_t number);
    void *closure;
    /* A node runs with other shared settings than the hub: what this life of it says is refused. Said once of a life. NULL: to nobody. */
    void (*foreign)(void *closure, uint16_t node, const char *name);
} hubwork_options;

typedef struct {
    uint64_t done, held, refused, full; /* messages, by what became of them */
    uint64_t foreign;       /* .. refused since their node runs with other settings */
    uint64_t asks, acknowledged, traces, whole, faults;
    uint64_t received;      /* bytes of all messages */
    uint64_t last_fault;    /* 1 where the last try to save a trace failed */
    uint64_t foreign_nodes; /* whose last life runs with other settings: now */
    uint64_t groups, waiting_traces, bytes, standings, waiting_messages, passes; /* now */
} hubwork_counts;

/* A message's fate. */
enum { HUBWORK_NOW = 0, HUBWORK_HELD = 1, HUBWORK_LATER = 2 };

/* NULL where that failed: `fault` says why. */
hubwork *hubwork_open(const hubwork_options *options, char *fault, size_t room);
void hubwork_close(hubwork *h);

/* NOW: it may be acknowledged at once. HELD: when `acknowledge` is called. LATER: it is to be delivered again. */
int hubwork_deliver(hubwork *h, const uint8_t *bytes, size_t len);
/* Somebody else says which life of a node is the latest, and how the node is called: heard as a hello. A fresh hub, which is sure of the first life that it
 * hears of, does not listen. */
void hubwork_hear(hubwork *h, uint16_t node, uint64_t epoch, const char *name);
/* The next ask, for this node: 1, or 0 where there is none. Its bytes stand until the next call. */
int hubwork_next_ask(hubwork *h, uint16_t *node, const uint8_t **bytes, size_t *len);
/* A pass goes by; some ten a second suit the times that settings name. */
void hubwork_pass(hubwork *h);
/* Saves the traces that may go, at most so many: how many these were, or -1 where the store failed (`hubwork_fault`): then it is tried again by the next
 * call. */
long hubwork_save(hubwork *h, long most);
const char *hubwork_fault(const hubwork *h);
void hubwork_count(hubwork *h, hubwork_counts *counts);

#endif
