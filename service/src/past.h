/* What earlier lives of a node left in their pool files, and the messages in which a later life hands it out (docs/RULES.md, "What a process left"). */
#ifndef PAST_H
#define PAST_H
#include "pool.h"

#pragma GCC visibility push(hidden)

/* The numbers by which the messages are known to whoever carries them begin here. */
#define PAST_FIRST ((uint64_t)1 << 63)

typedef struct past past;

/* Opens what earlier lives of the pool's node left. What they told of groups is handed out at once: *made is NULL where there is nothing. OK, NOMEM. */
hind_code past_open(const hindlib_pool *pool, past **made);
void past_close(past *p);

/* A message that the node tells of a group: the pages of its traces are handed out, each once. */
void past_name(past *p, const uint8_t *told, size_t len);
/* The next message, at the front of `out`, which has HINDLIB_MESSAGE bytes: its length, or 0 where there is none. */
size_t past_next(past *p, uint64_t *number, uint8_t *out);
/* Whether there is one. */
int past_has_next(past *p);
/* As of a node: whether the message was the next one, or waited. */
int past_sent(past *p, uint64_t number);
int past_acknowledged(past *p, uint64_t number);
void past_again(past *p);

/* Pages that were handed out, each once; those that do not read; messages that are kept. */
typedef struct {
    uint64_t pages, torn, unacknowledged;
} past_counts;
past_counts past_count(const past *p);

#pragma GCC visibility pop
#endif
