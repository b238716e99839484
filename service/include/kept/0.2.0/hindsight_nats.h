/* hindsight_nats.h: a node whose messages a NATS server carries, in one call. The server needs JetStream; the hub at the other end is the program
 * hindsight-hub.
 *
 * Link: cc service.c $(pkg-config --cflags --libs hindsight_nats) */
#ifndef HINDSIGHT_NATS_H
#define HINDSIGHT_NATS_H 1
#include "hindsight.h"

#ifdef __cplusplus
extern "C" {
#endif

typedef struct hind_nats hind_nats;

typedef struct {
    size_t size;          /* sizeof(hind_nats_options) */
    uint32_t abi;         /* HIND_ABI */
    const char *url;      /* of the server. NULL: nats://127.0.0.1:4222 */
    const char *prefix;   /* of its subjects and buckets, as the hub's: 1 to 32 letters, digits and '-'. NULL: hindsight */
    const char *name;     /* of the node, 1 to 64 bytes: one process at a time has it, and it stands where records are shown */
    const char *settings; /* docs/FORMATS.md, "Settings of a service" */
    size_t settings_len;
    uint32_t lease_ms;    /* after which the name of a process that was killed is free again. 0: 15,000 */
    uint32_t wait_ms;     /* for which hind_nats_start seeks the server */
    uint32_t pass_ms;     /* from one pass to the next while nothing comes, at most 1,000. 0: 1. A pass looks at each client of the settings, and takes some two
                           * microseconds for it; what clients write meanwhile has to find a place in `backlog` */
} hind_nats_options;
#define HIND_NATS_OPTIONS_INIT { sizeof(hind_nats_options), HIND_ABI, NULL, NULL, NULL, NULL, 0, 0, 0, 0 }

/* Takes the name, opens its node, and starts the thread that makes the node's passes and carries its messages. The server gives the node its number
 * and its epoch. OK, INVALID, ABI_WRONG, TOOLONG (the name), TAKEN, MANY (each number of the settings has another name), AWAY, SETTINGS, NOMEM. *nats
 * is NULL on any answer but OK. */
HIND_API HIND_CHECK hind_code hind_nats_start(const hind_nats_options *options, hind_nats **nats);
/* Why the last hind_nats_start of this thread failed, in a sentence: "" before the first that did. */
HIND_API const char *hind_nats_error(void);
/* The node, for hind_client_get, hind_client_open and hind_node_get_counts; NULL of NULL. Its other calls are the thread's. It goes with hind_nats_stop. */
HIND_API hind_node *hind_nats_node(hind_nats *nats);
/* Close clients first, or flush them: what waits in one is not taken. Ends the thread, after at most so many milliseconds in which the server may acknowledge what the node has to say, closes the node and gives the
 * name back. OK, also for NULL; AWAY where something was not acknowledged: it is lost; FORKED. */
HIND_API hind_code hind_nats_stop(hind_nats *nats, uint32_t wait_ms);

typedef struct {
    size_t size;  /* sizeof(hind_nats_counts), set by the caller */
    uint64_t published, acknowledged;
    uint64_t refused;    /* the server answered that it did not keep it */
    uint64_t repeats;    /* how often all that was not acknowledged was handed out anew */
    uint64_t asks;       /* that came for the node */
    uint64_t returns;    /* of a lost connection */
    uint64_t under_way;  /* published, and not acknowledged yet */
    int is_there;        /* whether the server is */
    int is_lost;         /* whether a later life has the name: nothing is published any more */
    int is_spent;        /* whether memory was refused, and the node takes nothing any more: stop, and start anew */
} hind_nats_counts;
HIND_API hind_code hind_nats_get_counts(hind_nats *nats, hind_nats_counts *counts);

/* The number that the server gave the node, for hind_context_write; HIND_NO_NODE of NULL. */
HIND_API hind_node_id hind_nats_number(const hind_nats *nats);
/* The same counts and the node's as text for a page /metrics, in Prometheus' form (docs/SERVICE.md, "Operate"), with a final 0. *len is how many bytes
 * the text has without it. OK; TOOLONG: the room, which 8,192 bytes always are, holds its front alone; INVALID. */
HIND_API hind_code hind_nats_metrics(hind_nats *nats, char *text, size_t room, size_t *len);

#ifdef __cplusplus
}
#endif
#endif
