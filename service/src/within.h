/* What the library's sources share, and services do not see. */
#ifndef WITHIN_H
#define WITHIN_H
#include "hindcore.h"
#include "hindsight.h"
#include <pthread.h>

enum { HINDLIB_APART = 128 /* bytes between what two threads write */, HINDLIB_NAME = 64, HINDLIB_DIGEST = 32, HINDLIB_MESSAGE = 32831, HINDLIB_PAYLOAD = 65535, HINDLIB_ASK = 1024 /* no ask is so long */ };

#pragma GCC visibility push(hidden)

/* How many forks led to this process since the library was first told to count them. */
extern unsigned hindlib_forks;
void hindlib_count_forks(void);

/* What a client's or a node's call answers, by what the core did. */
hind_code hindlib_code(uint32_t answer);
/* Keeps for hind_settings_error why settings were refused. */
void hindlib_note_fault(const hindcore_fault *fault);

/* Reads a struct of options that begins with its size and its ABI into one of `size` bytes, with zeros for what an older header had not. */
hind_code hindlib_read_options(void *own, size_t size, const void *given);
/* Writes a struct that begins with its size into one whose size the caller has set. */
hind_code hindlib_give(void *to, const void *own, size_t size);

uint64_t hindlib_nanoseconds(void);  /* since 1970 */
uint64_t hindlib_microseconds(void); /* of a steady clock */

/* The first number that a node's groups have on their way in the life of this epoch. */
uint32_t hindlib_first_group(uint64_t epoch);
/* Adds to the number of the group that a message speaks of, where the group is the node's. Bytes that are no message stay so. */
void hindlib_number_group(uint8_t *bytes, size_t len, uint16_t node, uint32_t add);

/* The number behind a word that stands at most once in settings that are none that are refused; `otherwise` where it stands nowhere. */
uint32_t hindlib_setting(const char *settings, size_t len, const char *word, uint32_t otherwise);
/* The digest of the lines that all nodes and hubs share. */
void hindlib_digest(const char *settings, size_t len, uint8_t digest[HINDLIB_DIGEST]);

typedef struct {
    uint32_t state[8];
    uint64_t len;
    uint8_t block[64];
} hindlib_sha;
void hindlib_sha_begin(hindlib_sha *s);
void hindlib_sha_add(hindlib_sha *s, const void *bytes, size_t len);
void hindlib_sha_end(hindlib_sha *s, uint8_t digest[HINDLIB_DIGEST]);

/* Who has a client. */
enum { HINDLIB_NOBODY = 0, HINDLIB_ANYBODY = 1, HINDLIB_THREAD = 2 };

struct hind_client {
    hindcore_client core;
    /* what its thread and a signal handler in it read and write; `is_closed` is also written by whoever closes the node */
    unsigned forks; /* of the process that opened the node */
    int is_busy, is_closed, is_open, owner;
    hind_trace_id trace; /* that is open */
    hind_node *node;
    uint8_t *pieces;     /* HINDLIB_PAYLOAD + 1 bytes, where pieces are put together */
    hind_client *next;   /* among those that nobody has, or those of a thread */
    int is_unsettled;    /* nobody has it, and its trace is open or something waits */
    hindcore_count counts __attribute__((aligned(HINDLIB_APART))); /* as they were shown last, which other threads read */
} __attribute__((aligned(HINDLIB_APART)));

/* Shows the client's counts to other threads. Whoever has the client calls it. */
uint32_t hindlib_show(hind_client *c);
/* Adds what was shown to `sum`. */
void hindlib_add_shown(const hind_client *c, hindcore_count *sum);
/* A client that nobody has, for this owner. */
hind_code hindlib_take(hind_node *n, int owner, hind_client **client);
/* Gives a client back. The node goes with the last one where it was closed. */
void hindlib_give_back(hind_client *c);
/* Gives those of the calling thread back whose node was closed. */
void hindlib_sweep(void);

#pragma GCC visibility pop

#define hindlib_load(place) __atomic_load_n(place, __ATOMIC_RELAXED)
#define hindlib_store(place, value) __atomic_store_n(place, value, __ATOMIC_RELAXED)

#endif
