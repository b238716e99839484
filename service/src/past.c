/* What earlier lives of a node left. Their pages are looked up by trace, and leave as messages of these lives. A file is read where it lies. */
#include "past.h"
#include <stdlib.h>
#include <string.h>

enum {
    MOST_FILES = 64, TOLD = 2, REPORTED = 4, STANDING = 5, UNKNOWN = 3,
    /* docs/FORMATS.md, "Messages of a service" */
    GROUP = 20, GROUP_BYTES = 23, LEAD = 27, LATERALS = 60, TRACE_BYTES = 16, REPORTED_FRONT = 55, STANDING_BYTES = 151,
    /* .. "The pool file" and "The page" */
    LIVES = 240, PAGE_CLIENT = 18, PAGE_NUMBER = 20, PAGE_USED = 30
};

/* A buffer that shows a page, as far as its front says. */
typedef struct {
    uint8_t trace[TRACE_BYTES];
    uint32_t client, number, buffer;
    enum { UNNAMED, NAMED, UNREAD } state;
} shown;

typedef struct {
    pool_file file;
    shown *all; /* by trace, client and number */
    size_t count;
    uint64_t numbers, said; /* the messages of this file have the numbers from `numbers` on; how many have one */
} life;

/* What was told of a group. */
typedef struct {
    uint8_t group[GROUP_BYTES];
    uint8_t *note;    /* of a file, or NULL */
    size_t unserved;  /* messages of it that are not acknowledged */
} naming;

typedef struct {
    enum { WAITS, SENT, GONE } state;
    uint8_t kind;
    uint32_t life, at; /* `at`: of a page or a standing, among those that are shown */
    uint32_t pages;    /* of a standing */
    uint32_t len;      /* of a page */
    size_t naming;
    uint64_t number;   /* in its life */
} message;

struct past {
    life lives[MOST_FILES];
    size_t count;
    naming *namings;
    size_t named, named_room;
    message *messages;
    size_t said, said_room, next; /* none in front of `next` waits */
    int is_short;                 /* memory was wanting for some of it */
    past_counts counts;
};

/* ---- files */

static int in_order(const void *a, const void *b) {
    const shown *x = a, *y = b;
    int order = memcmp(x->trace, y->trace, TRACE_BYTES);
    if (order) return order;
    if (x->client != y->client) return x->client < y->client ? -1 : 1;
    return x->number < y->number ? -1 : x->number > y->number;
}

static int look(life *l) {
    size_t count = 0;
    for (size_t i = 0; i < l->file.front.count; i++) count += pool_number(pool_buffer(&l->file, i) + PAGE_USED, 2) != 0;
    l->all = malloc((count + 1) * sizeof *l->all);
    for (size_t i = 0; l->all && i < l->file.front.count; i++) {
        const uint8_t *b = pool_buffer(&l->file, i);
        shown *s = &l->all[l->count];
        if (!pool_number(b + PAGE_USED, 2)) continue;
        *s = (shown){.client = (uint32_t)pool_number(b + PAGE_CLIENT, 2), .number = (uint32_t)pool_number(b + PAGE_NUMBER, 4), .buffer = (uint32_t)i};
        memcpy(s->trace, b, TRACE_BYTES);
        l->count++;
    }
    if (l->all) qsort(l->all, l->count, sizeof *l->all, in_order);
    return l->all != NULL;
}

/* The numbers of its messages are above all that the life gave, and each later life has its own. */
static void take_numbers(life *l) {
    uint64_t lives = pool_number(l->file.bytes + LIVES, 4);
    pool_put(l->file.bytes + LIVES, 4, lives + 1);
    l->numbers = PAST_FIRST | (lives & 0x7fffff) << 40;
}

/* ---- naming */

/* Places that grow by doubling: where the next one is, or NULL. */
static void *next_place(past *p, void **all, size_t count, size_t *room, size_t size) {
    if (count == *room) {
        void *more = realloc(*all, (*room ? 2 * *room : 16) * size);
        if (!more) {
            p->is_short = 1;
            return NULL;
        }
        *all = more;
        *room = *room ? 2 * *room : 16;
    }
    return (uint8_t *)*all + count * size;
}

static int add(past *p, message m) {
    message *place = next_place(p, (void **)&p->messages, p->said, &p->said_room, sizeof m);
    if (!place) return 0;
    *place = m;
    p->said++;
    p->namings[m.naming].unserved++;
    return 1;
}

static uint64_t next_number(life *l) { return l->numbers + l->said++; }

/* How many bytes it has, where it is a page of the life's and has a record; else 0. */
static uint32_t reads(past *p, const life *l, shown *s) {
    hindcore_page page;
    hindcore_piece none;
    uint32_t answer = hindcore_page_read(pool_buffer(&l->file, s->buffer), l->file.front.block, &page, &none, 0);
    if (answer == HINDCORE_DONE && page.pieces && page.node == l->file.front.node) return (uint32_t)page.len;
    p->is_short |= answer == HINDCORE_MEMORY;
    p->counts.torn += answer == HINDCORE_TORN;
    if (answer != HINDCORE_MEMORY) s->state = UNREAD;
    return 0;
}

static size_t first_of(const life *l, const uint8_t *trace) {
    size_t from = 0, to = l->count;
    while (from < to) {
        size_t middle = from + (to - from) / 2;
        if (memcmp(l->all[middle].trace, trace, TRACE_BYTES) < 0) from = middle + 1;
        else to = middle;
    }
    return from;
}

/* That nobody knows what else the life had of a trace, and then its pages in the file, each once: in this order, so that no hub takes such a page for
 * one that the life itself said it had handed out. */
static void name_in(past *p, uint32_t at, size_t naming, const uint8_t *trace) {
    life *l = &p->lives[at];
    uint32_t pages = 0;
    size_t i = first_of(l, trace), standing = p->said;
    if (i == l->count || memcmp(l->all[i].trace, trace, TRACE_BYTES)) return;
    if (!add(p, (message){.kind = STANDING, .life = at, .at = (uint32_t)i, .naming = naming, .number = next_number(l)})) return;
    for (; i < l->count && !memcmp(l->all[i].trace, trace, TRACE_BYTES); i++) {
        shown *s = &l->all[i];
        uint32_t len = s->state == UNNAMED ? reads(p, l, s) : 0;
        if (!len || !add(p, (message){.kind = REPORTED, .life = at, .at = (uint32_t)i, .len = len, .naming = naming, .number = next_number(l)})) continue;
        s->state = NAMED;
        pages++;
    }
    p->messages[standing].pages = pages;
    if (pages) return;
    p->said--;
    p->namings[naming].unserved--;
}

static void name_trace(past *p, size_t naming, const uint8_t *trace) {
    for (uint32_t at = 0; at < p->count; at++) name_in(p, at, naming, trace);
}

static int begin_naming(past *p, const uint8_t *told, uint8_t *note) {
    naming *n = next_place(p, (void **)&p->namings, p->named, &p->named_room, sizeof *n);
    if (!n) return 0;
    memset(n, 0, sizeof *n);
    memcpy(n->group, told + GROUP, GROUP_BYTES);
    n->note = note;
    p->named++;
    return 1;
}

static void name_traces(past *p, const uint8_t *told, size_t len) {
    size_t laterals = told[LATERALS];
    name_trace(p, p->named - 1, told + LEAD);
    for (size_t i = 0; i < laterals && LATERALS + 1 + (i + 1) * TRACE_BYTES <= len; i++) name_trace(p, p->named - 1, told + LATERALS + 1 + i * TRACE_BYTES);
}

void past_name(past *p, const uint8_t *told, size_t len) {
    if (!p || len <= LATERALS || told[1] != TOLD || !begin_naming(p, told, NULL)) return;
    name_traces(p, told, len);
    if (!p->namings[p->named - 1].unserved) p->named--;
}

/* What the life told of a group is told again, where the broker may not have it. */
static void name_note(past *p, uint32_t at, uint8_t *note) {
    const pool_front *f = &p->lives[at].file.front;
    const uint8_t *told = note + POOL_NOTE_FRONT;
    size_t len = (size_t)pool_number(note + 4, 4);
    hindcore_head head;
    if ((*note != POOL_TOLD && *note != POOL_KEPT) || len > POOL_NOTE - POOL_NOTE_FRONT) return;
    if (hindcore_message_head(told, len, &head) != HINDCORE_DONE || head.kind != TOLD || head.node != f->node || head.epoch != f->epoch) return;
    if (!begin_naming(p, told, note)) return;
    if (*note == POOL_TOLD) (void)add(p, (message){.kind = TOLD, .life = at, .naming = p->named - 1});
    name_traces(p, told, len);
    if (p->namings[p->named - 1].unserved) return;
    *note = POOL_SERVED;
    p->named--;
}

hind_code past_open(const hindlib_pool *pool, past **made) {
    pool_file files[MOST_FILES];
    past *p = calloc(1, sizeof *p);
    int is_enough = p != NULL;
    *made = NULL;
    if (!p) return HIND_NOMEM;
    p->count = hindlib_pool_earlier(pool, files, MOST_FILES);
    for (size_t i = 0; i < p->count; i++) {
        p->lives[i].file = files[i];
        take_numbers(&p->lives[i]);
        is_enough = is_enough && look(&p->lives[i]);
    }
    for (uint32_t i = 0; is_enough && i < p->count; i++)
        for (size_t note = 0; note < p->lives[i].file.front.note_count; note++) name_note(p, i, pool_note(&p->lives[i].file, note));
    is_enough = is_enough && !p->is_short;
    if (is_enough && p->count) *made = p;
    else past_close(p);
    return is_enough ? HIND_OK : HIND_NOMEM;
}

void past_close(past *p) {
    if (!p) return;
    for (size_t i = 0; i < p->count; i++) {
        free(p->lives[i].all);
        pool_close(&p->lives[i].file);
    }
    free(p->namings);
    free(p->messages);
    free(p);
}

/* ---- messages */

static void write_head(uint8_t *out, const life *l, const message *m) {
    out[0] = 1;
    out[1] = m->kind;
    pool_put(out + 2, 8, l->file.front.epoch);
    pool_put(out + 10, 8, m->number);
    pool_put(out + 18, 2, l->file.front.node);
}

/* The page as it lies in its buffer. No page says which core wrote it: the greatest number stands for that. */
static size_t write_page(uint8_t *out, const past *p, const message *m) {
    const life *l = &p->lives[m->life];
    write_head(out, l, m);
    memcpy(out + GROUP, p->namings[m->naming].group, GROUP_BYTES);
    pool_put(out + 43, 2, l->all[m->at].client);
    pool_put(out + 45, 8, UINT64_MAX);
    pool_put(out + 53, 2, m->len);
    memcpy(out + REPORTED_FRONT, pool_buffer(&l->file, l->all[m->at].buffer), m->len);
    return REPORTED_FRONT + m->len;
}

static size_t write_standing(uint8_t *out, const past *p, const message *m) {
    const life *l = &p->lives[m->life];
    memset(out, 0, STANDING_BYTES);
    write_head(out, l, m);
    memcpy(out + 20, l->all[m->at].trace, TRACE_BYTES);
    memcpy(out + 36, p->namings[m->naming].group, 6);
    out[42] = UNKNOWN;
    pool_put(out + 55, 8, m->pages);
    return STANDING_BYTES;
}

static size_t write_told(uint8_t *out, const past *p, const message *m) {
    const uint8_t *note = p->namings[m->naming].note;
    size_t len = (size_t)pool_number(note + 4, 4);
    memcpy(out, note + POOL_NOTE_FRONT, len);
    return len;
}

static const message *next_of(const past *p) {
    size_t at = p ? p->next : 0;
    while (p && at < p->said && p->messages[at].state != WAITS) at++;
    return p && at < p->said ? &p->messages[at] : NULL;
}

int past_has_next(past *p) { return next_of(p) != NULL; }

size_t past_next(past *p, uint64_t *number, uint8_t *out) {
    const message *m = next_of(p);
    if (!m) return 0;
    p->next = (size_t)(m - p->messages);
    *number = PAST_FIRST + p->next;
    return m->kind == REPORTED ? write_page(out, p, m) : m->kind == STANDING ? write_standing(out, p, m) : write_told(out, p, m);
}

static message *of_number(past *p, uint64_t number) { return p && number >= PAST_FIRST && number - PAST_FIRST < p->said ? &p->messages[number - PAST_FIRST] : NULL; }

int past_sent(past *p, uint64_t number) {
    message *m = of_number(p, number);
    if (!m || m != next_of(p)) return 0;
    m->state = SENT;
    p->next = (size_t)(m - p->messages) + 1;
    p->counts.unacknowledged++;
    return 1;
}

int past_acknowledged(past *p, uint64_t number) {
    message *m = of_number(p, number);
    if (!m || m->state == GONE) return 0;
    p->counts.unacknowledged -= m->state == SENT;
    p->counts.pages += m->kind == REPORTED;
    m->state = GONE;
    naming *n = &p->namings[m->naming];
    if (!--n->unserved && n->note) *n->note = POOL_SERVED;
    return 1;
}

void past_again(past *p) {
    for (size_t i = 0; p && i < p->said; i++)
        if (p->messages[i].state == SENT) p->messages[i].state = WAITS;
    if (p) p->next = 0;
    if (p) p->counts.unacknowledged = 0;
}

past_counts past_count(const past *p) { return p ? p->counts : (past_counts){0, 0, 0}; }
