/* Which records of a life of a node speak of which span. */
#include "spanlist.h"
#include <stdlib.h>
#include <string.h>

static int same_id(hind_span_id a, hind_span_id b) { return !memcmp(&a, &b, sizeof a); }

static uint64_t mixed(uint64_t x) {
    x ^= x >> 33;
    x *= 0xff51afd7ed558ccdu;
    x ^= x >> 33;
    x *= 0xc4ceb9fe1a85ec53u;
    return x ^ x >> 33;
}

static hind_span_id id_of(uint64_t number) {
    hind_span_id id;
    for (int i = 0; i < 8; i++) id.bytes[i] = (uint8_t)(number >> (56 - 8 * i));
    return id;
}

static uint64_t number_of(hind_span_id id) {
    uint64_t number = 0;
    for (int i = 0; i < 8; i++) number = number << 8 | id.bytes[i];
    return number;
}

/* The span of this id, which is new if no record spoke of it so far. There is a place for it. */
static span *span_of(span_list *s, hind_span_id id) {
    size_t at = (size_t)mixed(number_of(id)) & s->mask;
    while (s->table[at] >= 0 && !same_id(s->spans[s->table[at]].id, id)) at = (at + 1) & s->mask;
    if (s->table[at] < 0) {
        span fresh = {id, NO_RECORD, NO_RECORD, NO_RECORD, NO_RECORD};
        s->table[at] = s->count;
        s->spans[s->count++] = fresh;
    }
    return &s->spans[s->table[at]];
}

/* The span of what a client wrote before it started any: an id of its own, the same each time. */
static hind_span_id loose_span(const otlp_part *part, const otlp_record *r) {
    uint64_t number = mixed(mixed(mixed(part->epoch) ^ part->node) ^ ((uint64_t)r->client << 48 ^ r->core));
    return id_of(number ? number : 1);
}

static void add(span_list *s, span *to, long record) {
    s->next[record] = NO_RECORD;
    if (to->first == NO_RECORD) to->first = record;
    else s->next[to->last] = record;
    to->last = record;
}

/* Gives each record to its span: one of the profile to the one that it names, any other to the one that its client started last. */
static void sort(span_list *s) {
    const otlp_part *part = s->part;
    hind_span_id latest = {{0}};
    for (size_t i = 0; i < part->count; i++) {
        const otlp_record *r = &part->records[i];
        hind_span_record said;
        if (!i || r->client != r[-1].client || r->core != r[-1].core) latest = loose_span(part, r);
        int is_said = hind_read_span(r->payload, r->len, &said);
        span *to = span_of(s, is_said ? said.span : latest);
        if (is_said && said.what == HIND_SPAN_START) {
            latest = said.span;
            if (to->start == NO_RECORD) to->start = (long)i;
        }
        if (is_said && said.what == HIND_SPAN_END) to->end = (long)i;
        add(s, to, (long)i);
    }
}

int span_list_make(span_list *s, const otlp_part *part) {
    size_t places = 4;
    memset(s, 0, sizeof *s);
    s->part = part;
    while (places < 2 * part->count) places *= 2;
    s->mask = places - 1;
    s->spans = malloc((part->count + 1) * sizeof *s->spans);
    s->next = malloc((part->count + 1) * sizeof *s->next);
    s->table = malloc(places * sizeof *s->table);
    if (!s->spans || !s->next || !s->table) return 0;
    for (size_t i = 0; i < places; i++) s->table[i] = -1;
    sort(s);
    return 1;
}

void span_list_free(span_list *s) {
    free(s->spans);
    free(s->next);
    free(s->table);
}
