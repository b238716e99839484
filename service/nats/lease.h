/* The lease of a node's name: a number below the count of nodes, and the epoch of this life (docs/FORMATS.md, "Subjects and buckets"). */
#ifndef LEASE_H
#define LEASE_H
#include "broker.h"

enum { LEASE_MOST_NAME = 64 };

typedef enum {
    LEASE_HELD = 0,
    LEASE_LIVE = 1,   /* another process has this name, and was heard of within its lease */
    LEASE_MANY = 2,   /* each number has another name */
    LEASE_NAME = 3,   /* the name has no byte, or more than 64 */
    LEASE_BROKER = 4, /* the broker did not answer as it should */
    LEASE_LOST = 5    /* a later life has the name */
} lease_answer;

typedef struct {
    broker *broker;
    kvStore *lives, *nodes;
    char key[3 * LEASE_MOST_NAME + 8];
    char name[LEASE_MOST_NAME + 1];
    char life[24]; /* tells this life from others of the name */
    uint16_t node;
    uint64_t epoch;
    uint64_t revision; /* of the lease */
} lease;

/* Takes a name for so many milliseconds from its last renewal on. After any answer but HELD nothing is held, and nothing stays open. */
lease_answer lease_take(lease *l, broker *b, const char *name, uint16_t nodes, unsigned length);
/* Renews it: HELD, LOST, or BROKER, and then it may be tried again. A lease that ran out while no later life took the name is held again. */
lease_answer lease_renew(lease *l);
/* Gives the name back, so that it may be taken at once. */
void lease_free(lease *l);

/* Says of each number that was given to a name which name that is, and the epoch of its latest life. */
void lease_each(broker *b, void (*say)(void *closure, uint16_t node, uint64_t epoch, const char *name), void *closure);

#endif
