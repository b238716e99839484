/* Messages of a service and pages, written from the tables of docs/FORMATS.md, for tests that stand in for nodes. */
#ifndef MESSAGES_H
#define MESSAGES_H
#include <stdint.h>
#include <string.h>

/* Bytes with a place to write at. The caller sees to it that there is room. */
typedef struct {
    uint8_t *bytes;
    size_t len;
} writing;

static void put_number(writing *w, uint64_t n, int bytes) {
    for (int i = bytes - 1; i >= 0; i--) w->bytes[w->len++] = (uint8_t)(n >> 8 * i);
}

static void put_bytes(writing *w, const void *bytes, size_t len) {
    if (len) memcpy(w->bytes + w->len, bytes, len);
    w->len += len;
}

typedef struct {
    uint16_t node;
    uint32_t number;
    uint8_t trigger;
    const uint8_t *lead; /* 16 bytes, as each trace */
} group_id;

static void put_head(writing *w, uint8_t kind, uint64_t epoch, uint64_t number, uint16_t node) {
    put_number(w, 1, 1);
    put_number(w, kind, 1);
    put_number(w, epoch, 8);
    put_number(w, number, 8);
    put_number(w, node, 2);
}

static void put_group(writing *w, const group_id *g) {
    put_number(w, g->node, 2);
    put_number(w, g->number, 4);
    put_number(w, g->trigger, 1);
    put_bytes(w, g->lead, 16);
}

static void put_hello(writing *w, uint64_t epoch, uint64_t number, uint16_t node, const uint8_t digest[32], const char *name) {
    put_head(w, 1, epoch, number, node);
    put_bytes(w, digest, 32);
    put_number(w, strlen(name), 1);
    put_bytes(w, name, strlen(name));
}

/* Why: 0 fired, 1 answer, 2 late. Crumbs lead to the nodes of the bits of `low`, from node 0 on. */
static void put_told(writing *w, uint64_t epoch, uint64_t number, uint16_t node, const group_id *g, uint8_t why, uint64_t low, const uint8_t *laterals, uint8_t count) {
    put_head(w, 2, epoch, number, node);
    put_group(w, g);
    put_number(w, why, 1);
    put_number(w, 0, 8);
    put_number(w, low, 8);
    put_number(w, count, 1);
    put_bytes(w, laterals, 16 * (size_t)count);
}

static void put_reported(writing *w, uint64_t epoch, uint64_t number, uint16_t node, const group_id *g, uint16_t client, uint64_t core, const uint8_t *page, size_t len) {
    put_head(w, 4, epoch, number, node);
    put_group(w, g);
    put_number(w, client, 2);
    put_number(w, core, 8);
    put_number(w, len, 2);
    put_bytes(w, page, len);
}

enum { SAYS_WHOLE = 0, SAYS_LOST = 1, SAYS_UNHEARD = 2, SAYS_UNKNOWN = 3, SAYS_OPEN = 4 };

/* Crumbs of the trace led to the nodes of the bits of `low`, from node 0 on. */
static void put_standing(writing *w, uint64_t epoch, uint64_t number, uint16_t node, const uint8_t *trace, const group_id *g, uint8_t says, uint32_t open, uint64_t horizon,
                         uint64_t pages, uint64_t low, uint64_t evicted) {
    put_head(w, 5, epoch, number, node);
    put_bytes(w, trace, 16);
    put_number(w, g->node, 2);
    put_number(w, g->number, 4);
    put_number(w, says, 1);
    put_number(w, open, 4);
    put_number(w, horizon, 8);
    put_number(w, pages, 8);
    put_number(w, 0, 8);
    put_number(w, low, 8);
    for (int cause = 0; cause < 9; cause++) put_number(w, cause == 7 ? evicted : 0, 8);
}

/* A page is begun, gets pieces, and is ended. */
static void begin_page(writing *w, const uint8_t *trace, uint16_t node, uint16_t client, uint32_t number, uint32_t first) {
    put_bytes(w, trace, 16);
    put_number(w, node, 2);
    put_number(w, client, 2);
    put_number(w, number, 4);
    put_number(w, first, 4);
    put_number(w, 0, 4);
}

static void put_piece(writing *w, uint64_t moment, const void *payload, size_t len) {
    put_number(w, len, 2);
    put_number(w, moment, 8);
    put_bytes(w, payload, len);
}

static void end_page(writing *w, unsigned pieces) {
    writing counts = {w->bytes, 28};
    put_number(&counts, pieces, 2);
    put_number(&counts, w->len - 8, 2);
}

#endif
