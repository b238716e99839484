/* A node's pool in a file, which outlives the process (docs/FORMATS.md, "The pool file"). */
#ifndef POOL_H
#define POOL_H
#include "heap.h"
#include "within.h"

enum { POOL_FRONT = 4096, POOL_NOTES = 256, POOL_NOTE = 640, POOL_NOTE_FRONT = 16 };

/* What a note of the file says: nothing; what the node told of a group; that the broker has it; that a later life has handed out what it names. */
enum { POOL_EMPTY = 0, POOL_TOLD = 1, POOL_KEPT = 2, POOL_SERVED = 3 };

#pragma GCC visibility push(hidden)

/* What the front of a pool file says. */
typedef struct {
    uint32_t block, stride, count; /* bytes of a buffer, bytes from one to the next, buffers */
    uint64_t first;                /* place of the first buffer */
    uint64_t epoch;
    uint16_t node;
    char name[HINDLIB_NAME + 1];
    uint32_t process;
    uint64_t opened, steady; /* nanoseconds since 1970, microseconds of the steady clock */
    uint8_t boot[16], digest[HINDLIB_DIGEST];
    uint64_t settings, settings_len;
    uint64_t notes;
    uint32_t note_count, note_bytes;
} pool_front;

/* A pool file in memory. */
typedef struct {
    int fd;
    uint8_t *bytes;
    size_t len;
    pool_front front;
} pool_file;

const uint8_t *pool_buffer(const pool_file *f, size_t at);
uint8_t *pool_note(const pool_file *f, size_t at);

/* Numbers with their high byte first. */
uint64_t pool_number(const uint8_t *at, size_t bytes);
void pool_put(uint8_t *at, size_t bytes, uint64_t number);

/* Opens a file and maps it, to read it, or `for_node` to write its notes too: OK; NOTHING (there is none); INVALID (it is no pool file); TAKEN (a
 * process has it); NOMEM, SYSTEM. A file that is opened for a node is the node's until it is closed. */
hind_code pool_open(const char *path, int for_node, pool_file *f);
void pool_close(pool_file *f);

/* A pool of a node that lives. */
typedef struct hindlib_pool hindlib_pool;

/* Takes the path for this process, and makes a file beside it that becomes the pool's when it is settled. The options were read, and the digest is that
 * of the settings. OK, INVALID (what lies there is no pool file), TAKEN, NOMEM, MANY (as many pools as one process may have), SYSTEM. */
hind_code hindlib_pool_make(const hind_node_options *o, const uint8_t digest[HINDLIB_DIGEST], hindlib_pool **pool);
/* Where the core's buffers go. */
hindheap_places *hindlib_pool_places(hindlib_pool *pool);
/* The core has its buffers: what lay at the path is set aside, unless it shows no page, and at most so many files of earlier lives are kept. OK, SYSTEM. */
hind_code hindlib_pool_settle(hindlib_pool *pool);
/* Opens the files of earlier lives of this node that were set aside, the latest first, and answers how many it opened. */
size_t hindlib_pool_earlier(const hindlib_pool *pool, pool_file *files, size_t most);
/* Keeps in the file what the node tells of a group, and that the broker has it. */
void hindlib_pool_told(hindlib_pool *pool, uint64_t number, const uint8_t *message, size_t len);
void hindlib_pool_kept(hindlib_pool *pool, uint64_t number);
/* Nothing is written any more but by calls that are under way: the next life may have the file. NULL is none. */
void hindlib_pool_end(hindlib_pool *pool);
/* The core and its clients are freed, or were never made. What the file has stays, where it was settled. */
void hindlib_pool_free(hindlib_pool *pool);

#pragma GCC visibility pop
#endif
