/* What carries a node's messages over NATS: one thread that makes the node's passes, publishes what it says to a stream that keeps it, and
 * brings it what it is asked. What was published and not acknowledged in time is published again. */
#ifndef CARRIER_H
#define CARRIER_H
#include <stddef.h>
#include <stdint.h>

/* A node, as its carrier sees it. The carrier's thread alone makes these calls. */
typedef struct {
    void *node;
    int (*pass)(void *node); /* whether there was something to do */
    int (*next)(void *node, uint64_t *number, const uint8_t **bytes, size_t *len); /* the next message to hand out: whether there is one */
    void (*sent)(void *node, uint64_t number);
    int (*acknowledged)(void *node, uint64_t number); /* whether that message waited for it */
    void (*again)(void *node); /* all that was not acknowledged is handed out anew */
    void (*deliver)(void *node, const uint8_t *bytes, size_t len);
} carried;

typedef struct {
    const char *url;     /* of the broker; NULL: nats://localhost:4222 */
    const char *prefix;  /* of its subjects and buckets; NULL: hindsight */
    const char *name;    /* of the node: at most 64 bytes. One process at a time has it */
    uint16_t nodes;      /* numbers of nodes are below this, as in the settings */
    unsigned lease;      /* milliseconds after which the name of a process that was killed is free again; 0: 15,000 */
    unsigned wait;       /* milliseconds for which `carrier_open` seeks the broker */
    unsigned pause;      /* milliseconds from one pass to the next while nothing comes; 0: 1 */
} carrier_options;

typedef enum {
    CARRIER_DONE = 0,
    CARRIER_LIVE = 1,   /* another process has this name */
    CARRIER_MANY = 2,   /* each number has another name */
    CARRIER_NAME = 3,   /* the name has no byte, or more than 64 */
    CARRIER_BROKER = 4, /* the broker is not there, or does not answer as it should */
    CARRIER_MEMORY = 5, /* memory or a thread is wanting */
    CARRIER_RUNS = 6    /* it was started before */
} carrier_answer;

typedef struct {
    uint64_t published, acknowledged, refused; /* messages; refused: the broker answered that it did not keep it */
    uint64_t repeats;  /* how often all that was not acknowledged was handed out anew */
    uint64_t asks;     /* that came for the node */
    uint64_t returns;  /* of a lost connection */
    uint32_t under_way; /* published, and not acknowledged yet */
    int is_there;      /* whether the broker is */
    int is_lost;       /* whether a later life has the name: nothing is published then */
} carrier_counts;

typedef struct carrier carrier;

/* Connects and takes the name's lease. On any answer but DONE `*made` is NULL; `fault` has a sentence. */
carrier_answer carrier_open(const carrier_options *options, carrier **made, char *fault, size_t room);
uint16_t carrier_node(const carrier *c);
uint64_t carrier_epoch(const carrier *c);

/* Starts the thread. The node has to outlive it. */
carrier_answer carrier_start(carrier *c, const carried *node);
/* From any thread. */
void carrier_count(const carrier *c, carrier_counts *counts);
/* Ends the thread, after at most so many milliseconds in which all that the node has to say may still be acknowledged. Answers whether it was. */
int carrier_stop(carrier *c, unsigned wait);
/* Gives the name back. The thread was stopped, or was never started. */
void carrier_close(carrier *c);

#endif
