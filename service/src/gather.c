#include "gather.h"
#include <inttypes.h>
#include <stdio.h>
#include <stdlib.h>
#include <string.h>

enum { MOST_PAYLOAD = 65535, MOST_WORDS = 256 };

/* Places that grow by doubling. */
typedef struct {
    void *at;
    size_t count, room;
} list;

/* Room for so many more of this size: 1, or 0 where memory is wanting. */
static int grow(list *l, size_t more, size_t size) {
    size_t room = l->room ? l->room : 16;
    if (l->room - l->count >= more) return 1;
    while (room - l->count < more) room *= 2;
    void *at = realloc(l->at, room * size);
    if (!at) return 0;
    l->at = at;
    l->room = room;
    return 1;
}

/* What is being gathered. Payloads and words are named by their place until all are there. */
typedef struct {
    list parts, records, payloads, words;
    list places; /* where each record's payload begins */
    list said;   /* where each part's words begin */
} heap;

static int add_bytes(list *to, const void *bytes, size_t len) {
    if (!grow(to, len, 1)) return 0;
    if (len) memcpy((uint8_t *)to->at + to->count, bytes, len);
    to->count += len;
    return 1;
}

static int add_place(list *to, size_t place) {
    if (!grow(to, 1, sizeof place)) return 0;
    ((size_t *)to->at)[to->count++] = place;
    return 1;
}

/* ---- words on a life */

static void add_loss(char *words, size_t room, uint64_t count, const char *what) {
    size_t len = strlen(words);
    if (count) snprintf(words + len, room - len, "%s%" PRIu64 " %s", len > 5 ? ", " : " ", count, what);
}

static void say_losses(const hindcore_life *l, char *words, size_t room) {
    snprintf(words, room, "lost:");
    add_loss(words, room, l->null_pages, "null pages");
    add_loss(words, room, l->full_points, "points refused, full");
    add_loss(words, room, l->dry_points, "points refused, dry");
    add_loss(words, room, l->long_points, "points refused, too long");
    add_loss(words, room, l->refused_crumbs, "crumbs refused");
    add_loss(words, room, l->evicted_crumbs, "crumbs evicted");
    add_loss(words, room, l->forgotten_crumbs, "crumbs forgotten");
    add_loss(words, room, l->evicted_pages, "pages evicted");
    add_loss(words, room, l->abandoned_pages, "pages abandoned");
}

static void say_life(const hindcore_life *l, char *words, size_t room) {
    switch (l->word) {
    case HINDCORE_WHOLE: snprintf(words, room, "whole since %" PRIu64, l->horizon); break;
    case HINDCORE_LOST: say_losses(l, words, room); break;
    case HINDCORE_UNHEARD: snprintf(words, room, "unheard since %" PRIu64, l->horizon); break;
    case HINDCORE_UNENDED: snprintf(words, room, "open: %" PRIu32 " segments", l->open_segments); break;
    case HINDCORE_MUTE: snprintf(words, room, "silent"); break;
    default: snprintf(words, room, "unknown"); break;
    }
}

/* ---- parts */

static int add_part(heap *h, uint16_t node, uint64_t epoch, const char *name, const char *words) {
    if (!grow(&h->parts, 1, sizeof(otlp_part))) return 0;
    ((otlp_part *)h->parts.at)[h->parts.count++] = (otlp_part){.node = node, .epoch = epoch, .service = name};
    return add_place(&h->said, h->words.count) && add_bytes(&h->words, words, strlen(words) + 1);
}

static int add_life(heap *h, hindcore_hub *hub, uint16_t node, uint64_t epoch, const char *name) {
    hindcore_life life = {.word = HINDCORE_MUTE};
    char words[MOST_WORDS];
    hindcore_hub_life(hub, node, epoch, &life);
    say_life(&life, words, sizeof words);
    return add_part(h, node, epoch, name, words);
}

static int has_part(const heap *h, uint16_t node, uint64_t epoch) {
    const otlp_part *parts = h->parts.at;
    for (size_t i = 0; i < h->parts.count; i++)
        if (parts[i].node == node && parts[i].epoch == epoch) return 1;
    return 0;
}

/* Rows of one life come together. */
static int is_last_part(const heap *h, uint16_t node, uint64_t epoch) {
    if (!h->parts.count) return 0;
    const otlp_part *last = (const otlp_part *)h->parts.at + h->parts.count - 1;
    return last->node == node && last->epoch == epoch;
}

static int has_node(const heap *h, uint16_t node) {
    const otlp_part *parts = h->parts.at;
    for (size_t i = 0; i < h->parts.count; i++)
        if (parts[i].node == node) return 1;
    return 0;
}

/* Lives that spoke and wrote nothing that came, and nodes that were asked and of which nothing is known. */
static int add_others(heap *h, hindcore_hub *hub, uint16_t nodes, const char *(*name_of)(void *, uint16_t), void *closure) {
    hindcore_life_id life;
    for (uint32_t at = 0; hindcore_hub_life_at(hub, at, &life) == HINDCORE_DONE; at++)
        if (!has_part(h, life.node, life.epoch) && !add_life(h, hub, life.node, life.epoch, name_of(closure, life.node))) return 0;
    for (uint16_t node = 0; node < nodes; node++) {
        uint32_t word = HINDCORE_NOT_ASKED;
        hindcore_hub_node(hub, node, &word);
        if (word == HINDCORE_NOT_ASKED || has_node(h, node)) continue;
        if (!add_part(h, node, 0, name_of(closure, node), word == HINDCORE_SILENT ? "not answered" : "silent")) return 0;
    }
    return 1;
}

/* ---- records */

/* The last part has a row of a page that its process left: that is what is said of it. */
static int say_salvaged(heap *h) {
    static const char words[] = "salvaged";
    size_t *said = (size_t *)h->said.at + h->said.count - 1;
    if (!strcmp((const char *)h->words.at + *said, words)) return 1;
    *said = h->words.count;
    return add_bytes(&h->words, words, sizeof words);
}

static int add_record(heap *h, const hindcore_row *row, uint64_t missing, const uint8_t *payload) {
    if (!grow(&h->records, 1, sizeof(otlp_record))) return 0;
    ((otlp_record *)h->records.at)[h->records.count++] = (otlp_record){
        .client = row->client, .core = row->core, .number = row->number, .missing = missing, .moment = row->moment, .len = row->len};
    ((otlp_part *)h->parts.at)[h->parts.count - 1].count++;
    /* no page says which core wrote it (docs/FORMATS.md, "Messages of a service") */
    if (row->core == UINT64_MAX && !say_salvaged(h)) return 0;
    return add_place(&h->places, h->payloads.count) && add_bytes(&h->payloads, payload, row->len);
}

/* The record before loses its place: a piece of it is missing. */
static void drop_record(heap *h) {
    ((otlp_part *)h->parts.at)[h->parts.count - 1].count--;
    h->records.count--;
    h->payloads.count = ((size_t *)h->places.at)[--h->places.count];
}

static int join(heap *h, const hindcore_row *row, const uint8_t *payload) {
    ((otlp_record *)h->records.at)[h->records.count - 1].len += row->len;
    return add_bytes(&h->payloads, payload, row->len);
}

/* All rows of the trace, joined. */
static int add_rows(heap *h, hindcore_hub *hub, uint8_t *payload, const char *(*name_of)(void *, uint16_t), void *closure) {
    hindcore_row row;
    uint64_t torn = 0; /* records without a middle piece, in front of the next one */
    int is_torn = 0;   /* whether the record before is one */
    while (hindcore_hub_row(hub, &row, payload, MOST_PAYLOAD) == HINDCORE_DONE) {
        if (!is_last_part(h, row.node, row.epoch)) {
            if (!add_life(h, hub, row.node, row.epoch, name_of(closure, row.node))) return 0;
            torn = 0;
            is_torn = 0;
        }
        if (row.continues && (is_torn || row.missing_pages)) {
            if (!is_torn) {
                torn += 1 + ((otlp_record *)h->records.at)[h->records.count - 1].missing;
                drop_record(h);
            }
            is_torn = 1;
            continue;
        }
        if (row.continues) {
            if (!join(h, &row, payload)) return 0;
            continue;
        }
        if (!add_record(h, &row, row.missing_records + torn, payload)) return 0;
        torn = 0;
        is_torn = 0;
    }
    return 1;
}

static uint8_t trigger_of(hindcore_hub *hub) {
    hindcore_claim claim = {.trigger = 0};
    hindcore_hub_claim(hub, 0, &claim);
    return (uint8_t)claim.trigger;
}

/* What was gathered is to be freed with `g`, also where memory came to an end midway. */
static void hand_over(const heap *h, gathered *g) {
    g->parts = h->parts.at;
    g->records = h->records.at;
    g->payloads = h->payloads.at;
    g->words = h->words.at;
}

/* Pointers in place of places. */
static void settle(const heap *h, gathered *g) {
    size_t first = 0;
    for (size_t i = 0; i < h->parts.count; i++) {
        g->parts[i].wholeness = g->words + ((size_t *)h->said.at)[i];
        g->parts[i].records = g->records + first;
        first += g->parts[i].count;
    }
    for (size_t i = 0; i < h->records.count; i++) g->records[i].payload = g->payloads + ((size_t *)h->places.at)[i];
    g->trace.parts = g->parts;
    g->trace.count = h->parts.count;
}

int gather(hindcore_hub *hub, const hindcore_trace *id, uint16_t nodes, const char *(*name_of)(void *closure, uint16_t node), void *closure, gathered *g) {
    heap h = {0};
    uint32_t part = 0, whole = 0;
    uint8_t *payload = malloc(MOST_PAYLOAD);
    memset(g, 0, sizeof *g);
    memcpy(g->trace.id.bytes, id->bytes, 16);
    /* an empty list has a place too, so that no pointer is NULL */
    int done = payload && grow(&h.payloads, 1, 1) && grow(&h.records, 1, sizeof(otlp_record)) && add_rows(&h, hub, payload, name_of, closure)
               && add_others(&h, hub, nodes, name_of, closure) && hindcore_hub_whole(hub, &whole) == HINDCORE_DONE;
    hindcore_hub_part(hub, &part);
    g->trace.part = part;
    g->trace.trigger = trigger_of(hub);
    g->trace.is_whole = (int)whole;
    hand_over(&h, g);
    if (done) settle(&h, g);
    free(payload);
    free(h.places.at);
    free(h.said.at);
    return done;
}

void gathered_free(gathered *g) {
    free(g->parts);
    free(g->records);
    free(g->payloads);
    free(g->words);
    memset(g, 0, sizeof *g);
}
