/* Random lives of a node against a plain model: what its clients wrote, what was lost of it, what the node was asked, and what it said.
 *
 *     lives FIRST COUNT          lives of the seeds from FIRST on, of 5,000 calls each; --loud as a third word prints each
 *     lives long SEED            a life of a million calls without an acknowledgement
 *
 * One thread makes all calls, the node's between the clients'. In each life:
 *
 *   1. Each call answers what the model says. FULL alone is learned: it may come only where a call asks for a place, and nothing changes but the
 *      count of what was refused. No call of a client allocates. All counts of a client are the model's.
 *   2. A page that is reported is, byte for byte, what its client wrote; it was sent, had a buffer, and is reported once. Those of a client and a
 *      trace come in their order. Its group was told before and names its trace, and it is the group that claimed the trace first.
 *   3. Numbers of messages rise by one, and next, sent, acknowledged and again answer as a list does. Groups that fired have rising numbers. Each is
 *      a trigger that was done; where buckets refuse nothing all of these fire, and where there is one client those fire that the buckets of the
 *      model let through. The node counts each trigger that was done and that did not fire. Each ask that was taken is answered once, in order, and
 *      what is no ask is refused. Crumbs that are told were left; where nothing is evicted, all that were left of a claimed trace are told.
 *   4. A standing is news of its claim. Where no note was dropped, no memory refused and no page taken before its segment was heard, it
 *      counts the pages that were handed out before it. Where the node then heard all that was written, it says exactly what is open, what was lost by
 *      each cause that a client counts, and how whole the trace is. Once all is acknowledged each claim has one, and what was sent of the trace is
 *      what was reported, evicted and abandoned. Where a node says whole and counts each page that was reported of the trace, then of each segment that has a
 *      page out all pages are, nothing of it was refused, and each of its crumbs was told: whatever notes were late, dropped or found no memory. Where it heard all, so it is
 *      of each segment behind its horizon, and where it says whole or unheard each crumb of the trace was told, also those outside of segments.
 *   5. In the end no buffer is lost, and none is there twice: the index filled, as many pages have a buffer as it does not keep, and the next one has
 *      none. The groups that claimed first are forgotten, as many as claims are too many: a further page of a trace that one of these alone named is
 *      not reported, and that of another group's is. All that was allocated is freed.
 *
 * In a quarter of the lives allocations are refused: opening then answers MEMORY and leaves nothing allocated, and 1 to 3 and 5 hold as ever. In the
 * long life the number of allocations and their bytes stay flat, pages go on having buffers, and what waited comes once there is room.
 *
 * What it does not tell: which pages are evicted or abandoned (their number alone); the order among groups in which pages are reported, and the
 * share of each trigger id; buckets where several clients fire; standings of a node that dropped a note, found no memory for one, or has no room for each trace,
 * and the horizon there. More than a link's places of notes wait in their client's outbox: then how whole a trace is is looked at where it is called whole alone.
 * No life is spent, none reaches the end of numbers, and no core is renewed but in
 * the long life, whose pages are not read. Two threads at once are not tried. */
#include "hindcore.h"
#include "messages.h"
#include "refusing.h"
#include <inttypes.h>
#include <malloc.h>
#include <stdio.h>
#include <stdlib.h>

enum {
    CALLS = 5000,
    LONG_CALLS = 1000000,
    MOST_CLIENTS = 4,
    MOST_NODES = 8,
    MOST_TRACES = 16384,
    MOST_PAGES = 1 << 16,
    ARENA = 1 << 24,
    MOST_SEGMENTS = 1 << 14,
    MOST_TRIGGERS = 1 << 13,
    MOST_GROUPS = 1 << 13,
    MOST_ASKS = 1 << 12,
    MOST_MESSAGES = 1 << 18,
    MOST_LATERALS = 32,
    MOST_BYTES = 32831,
    CLAIMS_MORE = 2112, /* docs/RULES.md, "A node's pass" */
    ASK_PLACES = 64,
    MOST_PAYLOAD = 65535,
    MOST_LOOKS = 64,     /* traces that are looked at for one that may be forgotten */
    DECLARED = 3
};

static uint64_t seed, state;
static long step;

static uint64_t next_random(void) {
    uint64_t z = state += 0x9e3779b97f4a7c15u;
    z = (z ^ z >> 30) * 0xbf58476d1ce4e5b9u;
    z = (z ^ z >> 27) * 0x94d049bb133111ebu;
    return z ^ z >> 31;
}

static unsigned below(unsigned n) { return (unsigned)(next_random() % n); }
static int one_in(unsigned n) { return n && !below(n); }

static void wrong(const char *what, uint64_t wanted, uint64_t got) {
    fprintf(stderr, "lives: seed %" PRIu64 ", step %ld: %s: wanted %" PRIu64 ", got %" PRIu64 "\n", seed, step, what, wanted, got);
    exit(1);
}

static void must_be(const char *what, uint64_t wanted, uint64_t got) {
    if (wanted != got) wrong(what, wanted, got);
}

static void must(const char *what, int holds) { must_be(what, 1, !!holds); }

static uint64_t number_at(const uint8_t *bytes, int len) {
    uint64_t n = 0;
    for (int i = 0; i < len; i++) n = n << 8 | bytes[i];
    return n;
}

/* ---- what a life is like */

static struct {
    unsigned nodes, clients, buffers, size, threshold, traces, pins, backlog, claims, remember;
    unsigned pool;        /* so many traces are in use */
    unsigned me;          /* the node */
    uint64_t epoch;
    unsigned bursts[DECLARED], rates[DECLARED];
    unsigned window, share, laterals; /* of autotrigger 1 */
    unsigned refused;     /* one allocation in so many, or 0 */
    unsigned acknowledge; /* one step in so many, or 0 */
    unsigned pass;        /* one step in so many */
    int is_roomy;         /* nothing is evicted or abandoned, and no page is null */
    int is_generous;      /* buckets refuse nothing */
    int flushes;          /* clients flush before each pass */
    int is_greedy;        /* groups have many laterals, so that claims run out of places */
    int repeats;          /* groups are asked for more than once */
    int is_prompt;        /* all that a pass says is handed out at once */
} life;

static const uint8_t ids[DECLARED] = {1, 9, 64};
static char text[1024];

static void trace_id(unsigned t, uint8_t id[16]) {
    memset(id, 0, 16);
    id[t & 1 ? 2 : 12] = 0x51;
    id[14] = (uint8_t)(t >> 8);
    id[15] = (uint8_t)t;
}

static unsigned trace_in(const uint8_t *id) {
    uint8_t same[16];
    unsigned t = (unsigned)number_at(id + 14, 2);
    trace_id(t, same);
    if (memcmp(same, id, 16) || t >= MOST_TRACES) wrong("a trace that nobody named", 0, t);
    return t;
}

/* ---- what was written */

typedef struct {
    unsigned trace, client, segment;
    uint8_t *bytes;
    size_t len;
    unsigned pieces;
    int is_null, is_sent, is_reported;
} page;

static page pages[MOST_PAGES];
static unsigned page_count;
static uint8_t arena[ARENA];
static size_t arena_used;

typedef struct {
    unsigned trace, pages, nulls, fulls, longs, crumbs, out; /* crumbs that were refused; out: of the pages, those that were reported */
    uint64_t led;   /* nodes to which its crumbs were done */
    uint64_t heard; /* which of all segments that were heard, from 1 */
    int is_closed;
} segment;

static segment segments[MOST_SEGMENTS];
static unsigned segment_count;

typedef struct {
    hindcore_client handle;
    int open;          /* a segment, or -1 */
    int page;          /* or -1: the one that is being written */
    uint32_t numbers[MOST_PAGES / MOST_CLIENTS]; /* its pages, by number */
    uint32_t page_numbers, records;
    unsigned made[MOST_SEGMENTS / MOST_CLIENTS]; /* its segments */
    unsigned made_count, heard_count;
    hindcore_count counts;
    uint64_t samples;
    uint64_t values[1024];
    unsigned sampled[1024]; /* traces */
} client;

static client clients[MOST_CLIENTS];

static struct {
    unsigned segments, sent, nulls, fulls, longs, crumbs_refused; /* of closed segments */
    unsigned reported;
    uint64_t crumbs;   /* nodes to which it was done */
    uint64_t told;     /* nodes that were told for a group that names it */
    int claimer;       /* a group, or -1 */
    int last[MOST_CLIENTS]; /* page that was reported last of a client */
} of[MOST_TRACES];

typedef struct {
    uint8_t id;
    unsigned lead, count, laterals[MOST_LATERALS];
    unsigned client;
    int is_used, is_let;
} trigger;

static trigger triggers[MOST_TRIGGERS];
static unsigned trigger_count, trigger_first, triggers_used;
static uint64_t levels[DECLARED], moments[DECLARED];
static unsigned tries[DECLARED];

/* What a standing says behind trace and group: so many bytes, and of these the places of the nodes to which crumbs led and of the losses. */
enum { SAID = 109, CRUMBS = 21, LOST = 37 };

typedef struct {
    unsigned node;
    uint32_t number;
    uint8_t id;
    unsigned lead, count, laterals[MOST_LATERALS];
    unsigned traces[MOST_LATERALS + 1], trace_count;
    uint64_t told, crumbs;
    uint8_t said[MOST_LATERALS + 1][SAID];
    uint8_t has_said[MOST_LATERALS + 1];
} group;

static group groups[MOST_GROUPS];
static unsigned group_count, fired;
static int own[MOST_GROUPS], foreign[MOST_NODES][64];
static unsigned claims_total; /* of all groups that were told */
static unsigned claims_most;  /* of all that may come to be */

typedef struct {
    unsigned node;
    uint32_t number;
    uint8_t id;
    unsigned lead, count, laterals[MOST_LATERALS];
} ask;

static ask asks[MOST_ASKS];
static uint32_t asked[MOST_NODES]; /* the number of the next group of a node, where none is asked for twice */
static unsigned ask_count, answered, delivered_since_pass;

/* ---- what was said */

enum { UNSEEN = 0, WAITS = 1, GONE = 2 };
static uint8_t states[MOST_MESSAGES];
static uint64_t hashes[MOST_MESSAGES];
static uint64_t seen, handed, oldest;
static unsigned hellos, hellos_seen;
static int is_blind; /* a message was let go that nobody saw */
static int is_spent;
static int is_told_again; /* a group was answered for twice: if it was forgotten between, it claims anew */
static int has_refused;
static int is_behind; /* a pass may have taken pages of which it had not heard */
static unsigned notes_since_pass[MOST_CLIENTS];

/* What is said is of the last pass, and nothing was written since: then the node heard all that was written. */
static int all_seen, is_of_pass, is_touched;
static uint64_t heard; /* segments, in the order in which passes heard them */
static int is_fresh(void) { return is_of_pass && !is_touched; }

static uint64_t total_reported, total_told, total_standings, total_whole, total_whole_checked, total_exact, total_claims_checked, total_filled, total_partial, total_spent, total_lost, total_refused, total_whole_since, total_forgotten, total_kept, total_untold, total_crumbs_told;

static int drops_notes(void) {
    for (unsigned c = 0; c < life.clients; c++)
        if (clients[c].counts.dropped_notes) return 1;
    return 0;
}

static int misses_nothing(void) { return !has_refused && !is_blind && life.remember >= MOST_TRACES && !drops_notes(); }
static int notes_are_exact(void) { return misses_nothing() && !is_behind; }

/* Each trace finds a place (docs/RULES.md, "How whole a node's part is"), so that no note is missed though traces are forgotten. */
static int horizon_is_exact(void) {
    return !has_refused && !is_blind && !is_behind && !drops_notes() && life.remember > life.buffers + life.clients && life.remember <= MOST_LOOKS;
}

static int forgets(void) { return claims_total > life.claims; }

/* ---- the node, with memory refused where the life says so */

static hindcore_node node;

static void refuse(void) { refused_at = life.refused ? allocations + (long)below(life.refused) : -1; }

static void refuse_nothing(void) {
    has_refused |= refused_at >= 0 && allocations > refused_at;
    refused_at = -1;
}

/* ---- what is said, as it is seen first */

static group *group_of(unsigned from, uint64_t number) {
    int at = -1;
    if (from == life.me) {
        if (number < MOST_GROUPS) at = own[number];
    } else if (from < MOST_NODES && number < 64) {
        at = foreign[from][number];
    }
    return at < 0 ? NULL : &groups[at];
}

static int has_trace(const group *g, unsigned t) {
    for (unsigned i = 0; i < g->trace_count; i++)
        if (g->traces[i] == t) return (int)i;
    return -1;
}

static void add_trace(group *g, unsigned t) {
    if (has_trace(g, t) < 0) g->traces[g->trace_count++] = t;
}

static group *add_group(unsigned from, uint32_t number, uint8_t id, unsigned lead, unsigned count, const unsigned *laterals, uint64_t told) {
    must("groups have room", group_count < MOST_GROUPS);
    group *g = &groups[group_count];
    g->node = from, g->number = number, g->id = id, g->lead = lead, g->count = count, g->told = told, g->crumbs = 0, g->trace_count = 0;
    for (unsigned i = 0; i < count; i++) g->laterals[i] = laterals[i];
    add_trace(g, lead);
    for (unsigned i = 0; i < count; i++) add_trace(g, laterals[i]);
    memset(g->has_said, 0, sizeof g->has_said);
    claims_total += g->trace_count;
    for (unsigned i = 0; i < g->trace_count; i++)
        if (of[g->traces[i]].claimer < 0) of[g->traces[i]].claimer = (int)group_count;
    if (from == life.me) own[number] = (int)group_count;
    else foreign[from][number] = (int)group_count;
    group_count++;
    return g;
}

static int says_this(const trigger *t, uint8_t id, unsigned lead, unsigned count, const unsigned *laterals) {
    return t->id == id && t->lead == lead && t->count == count && !memcmp(t->laterals, laterals, count * sizeof *laterals);
}

static int triggers_are_exact(void) { return (life.is_generous || life.clients == 1) && claims_most + MOST_LATERALS + 1 <= life.claims + CLAIMS_MORE && !is_blind; }

static void learn_fired(uint32_t number, uint8_t id, unsigned lead, unsigned count, const unsigned *laterals, uint64_t told) {
    if (!is_blind) must_be("number of the group that fired", fired, number);
    fired = number + 1;
    while (trigger_first < trigger_count && triggers[trigger_first].is_used) trigger_first++;
    unsigned i = trigger_first;
    int is_exact = triggers_are_exact(); /* else some went by unseen, for want of places for claims, and took nothing out of a bucket */
    while (i < trigger_count && (triggers[i].is_used || (is_exact && !triggers[i].is_let) || !says_this(&triggers[i], id, lead, count, laterals))) {
        if (life.clients == 1 && is_exact && triggers[i].is_let && !triggers[i].is_used) wrong("a trigger was passed over", i, number);
        i++;
    }
    must("what fired is a trigger that was done", i < trigger_count);
    triggers[i].is_used = 1;
    triggers_used++;
    add_group(life.me, number, id, lead, count, laterals, told);
}

static void learn_answer(unsigned from, uint32_t number, uint8_t id, unsigned lead, unsigned count, const unsigned *laterals, uint64_t told) {
    if (is_blind) {
        while (answered < ask_count && !(asks[answered].node == from && asks[answered].number == number)) answered++;
    }
    must("an answer has an ask", answered < ask_count);
    ask *a = &asks[answered++];
    must_be("node of the group that is answered", a->node, from);
    must_be("number of the group that is answered", a->number, number);
    must_be("trigger id of the answer", a->id, id);
    must_be("lead of the answer", a->lead, lead);
    must_be("laterals of the answer", a->count, count);
    must("laterals of the answer are those of the ask", !memcmp(a->laterals, laterals, count * sizeof *laterals));
    is_told_again |= group_of(from, number) != NULL;
    if (!group_of(from, number)) add_group(from, number, id, lead, count, laterals, told);
}

static void learn_told(const uint8_t *m, size_t len, uint64_t at) {
    unsigned laterals[MOST_LATERALS];
    must("a told has its fixed part", len >= 61);
    unsigned count = m[60];
    must("laterals are few", count <= MOST_LATERALS);
    must_be("length of a told", 61 + 16 * count, len);
    for (unsigned i = 0; i < count; i++) laterals[i] = trace_in(m + 61 + 16 * i);
    unsigned from = (unsigned)number_at(m + 20, 2), lead = trace_in(m + 27);
    uint32_t number = (uint32_t)number_at(m + 22, 4);
    uint8_t id = m[26], why = m[43];
    must_be("nodes of crumbs above the settings'", 0, number_at(m + 44, 8));
    uint64_t nodes = number_at(m + 52, 8);
    total_told++;
    if (why == 0) {
        must_be("node of what fired", life.me, from);
        learn_fired(number, id, lead, count, laterals, at);
    } else if (why == 1) {
        learn_answer(from, number, id, lead, count, laterals, at);
    } else {
        must_be("why a told is told", 2, why);
    }
    group *g = group_of(from, number);
    if (!g && is_blind) return;
    must("a told is of a group that is known", g != NULL);
    must("it names the group as before", g->lead == lead && g->id == id && g->count == count && !memcmp(g->laterals, laterals, count * sizeof *laterals));
    uint64_t left = 0;
    for (unsigned i = 0; i < g->trace_count; i++) left |= of[g->traces[i]].crumbs;
    must_be("crumbs that are told and were not left", 0, nodes & ~left);
    if (why == 2) must("a late told leads to one node", nodes && !(nodes & (nodes - 1)));
    g->crumbs |= nodes;
    for (unsigned i = 0; i < g->trace_count; i++) of[g->traces[i]].told |= nodes;
}

static void learn_reported(const uint8_t *m, size_t len, uint64_t at) {
    must("a reported has its fixed part", len >= 55 + 32 + 10);
    size_t page_len = (size_t)number_at(m + 53, 2);
    must_be("length of a reported", 55 + page_len, len);
    unsigned c = (unsigned)number_at(m + 43, 2), t = trace_in(m + 55);
    must("a page is of a client", c < life.clients);
    must_be("core", 0, number_at(m + 45, 8));
    uint64_t number = number_at(m + 55 + 20, 4);
    must("a page was written", number < clients[c].page_numbers);
    page *p = &pages[clients[c].numbers[number]];
    must("a page had a buffer", !p->is_null);
    must("a page was sent", p->is_sent);
    must("a page is reported once", !p->is_reported);
    must_be("length of the page", p->len, page_len);
    must("the page is what was written", !memcmp(p->bytes, m + 55, page_len));
    must("pages of a client and a trace come in order", of[t].last[c] < (int)number);
    of[t].last[c] = (int)number;
    p->is_reported = 1;
    segments[p->segment].out++;
    of[t].reported++;
    total_reported++;
    group *g = group_of((unsigned)number_at(m + 20, 2), number_at(m + 22, 4));
    if (!g && is_blind) return;
    must("a page is of a group that was told", g && g->told < at);
    must("a page has its group's id and lead", g->id == m[26] && g->lead == trace_in(m + 27));
    must("a page is of a trace that its group names", has_trace(g, t) >= 0);
    if (!forgets() && !is_blind) must_be("a page is of the group that claimed first", (uint64_t)of[t].claimer, (uint64_t)(g - groups));
}

/* Whole, and each page that is out is counted: of each segment that has a page out all are, nothing else was lost of it, and its crumbs were told. Where all notes were heard of
 * and none is behind the horizon, no segment of a client is out behind one that is not. */
static void check_whole(unsigned t, int all_heard) {
    for (unsigned c = 0; c < life.clients; c++) {
        int is_over = 0;
        for (unsigned i = 0; i < clients[c].made_count; i++) {
            const segment *s = &segments[clients[c].made[i]];
            if (s->trace != t || !s->pages) continue;
            if (s->out == 0) {
                is_over = all_heard;
                continue;
            }
            must("no segment of what is whole is out behind one that is not", !is_over);
            must("what is whole is closed", s->is_closed);
            must_be("pages of a segment of what is whole", s->pages, s->out);
            must("nothing was lost of what is whole", !s->nulls && !s->fulls && !s->longs && !s->crumbs);
            must_be("crumbs of what is whole that were not told", 0, s->led & ~of[t].told);
        }
    }
    total_whole_checked++;
}

/* Whole since a horizon, where the node heard all segments by now: of each that it heard behind the horizon everything is out, and its crumbs were told. */
static void check_whole_since(unsigned t, uint64_t horizon) {
    for (unsigned n = 0; n < segment_count; n++) {
        const segment *s = &segments[n];
        if (s->trace != t || s->heard <= horizon) continue;
        must("what is whole is closed", s->is_closed);
        must("nothing was lost of what is whole since", !s->nulls && !s->fulls && !s->longs && !s->crumbs);
        must_be("pages of a segment of what is whole since", s->pages, s->out);
        must_be("crumbs of what is whole since that were not told", 0, s->led & ~of[t].told);
    }
    total_whole_since++;
}

/* How a node stands to a trace that has heard all that was written, and whose memory has no end. Where a crumb was not told, be it on its way, let go by the
 * index or gone with a forgotten group, it says neither whole nor unheard. What was told for a group that was forgotten may count no more. */
static void check_standing(unsigned t, const uint8_t *s) {
    uint64_t evicted = number_at(s + LOST + 56, 8), abandoned = number_at(s + LOST + 64, 8), lost = 0, left = of[t].reported + evicted + abandoned;
    unsigned open = 0, here = 0;
    for (unsigned c = 0; c < life.clients; c++)
        if (clients[c].open >= 0 && segments[clients[c].open].trace == t) open++, here += segments[clients[c].open].pages - segments[clients[c].open].nulls;
    for (int n = 0; n < 9; n++) lost += number_at(s + LOST + 8 * n, 8);
    must_be("open segments", open, number_at(s + 1, 4));
    must_be("horizon", 0, number_at(s + 5, 8));
    must_be("pages", of[t].reported, number_at(s + 13, 8));
    must_be("null pages", of[t].nulls, number_at(s + LOST, 8));
    must_be("points refused for want of places", of[t].fulls, number_at(s + LOST + 8, 8));
    must_be("dry points", 0, number_at(s + LOST + 16, 8));
    must_be("long points", of[t].longs, number_at(s + LOST + 24, 8));
    must_be("refused crumbs", of[t].crumbs_refused, number_at(s + LOST + 32, 8));
    if (!open) must_be("nodes to which crumbs led", of[t].crumbs, number_at(s + CRUMBS + 8, 8));
    must("no more pages left than were sent", left <= of[t].sent + here);
    unsigned is = open ? SAYS_OPEN : !of[t].segments && !of[t].crumbs_refused ? SAYS_UNHEARD : lost ? SAYS_LOST : of[t].sent == of[t].reported ? SAYS_WHOLE : SAYS_UNKNOWN;
    if (is == SAYS_UNHEARD || is == SAYS_WHOLE) {
        if (of[t].crumbs & ~of[t].told || (of[t].crumbs && forgets() && s[0] == SAYS_UNKNOWN)) is = SAYS_UNKNOWN, total_untold++;
        else total_crumbs_told += of[t].crumbs != 0;
    }
    must_be("how whole", is, s[0]);
    total_claims_checked++;
}

static void learn_standing(const uint8_t *m, size_t len) {
    must_be("length of a standing", 42 + SAID, len);
    unsigned t = trace_in(m + 20);
    total_standings++;
    group *g = group_of((unsigned)number_at(m + 36, 2), number_at(m + 38, 4));
    if (!g && is_blind) return;
    must("a standing is of a group that was told", g != NULL);
    int at = has_trace(g, t);
    must("a standing is of a trace that its group names", at >= 0);
    const uint8_t *said = m + 42;
    must("how whole is a word", said[0] <= 4);
    if (g->has_said[at] && !forgets() && !is_blind)
        must("a standing is news", memcmp(g->said[at], said, 5) || memcmp(g->said[at] + 13, said + 13, SAID - 13));
    if (g->has_said[at] && !forgets() && !is_blind && said[0] == SAYS_UNHEARD) must("a trace that was forgotten is no news", number_at(said + CRUMBS, 8) || number_at(said + CRUMBS + 8, 8));
    memcpy(g->said[at], said, SAID);
    g->has_said[at] = 1;
    uint64_t out = number_at(m + 55, 8);
    must("no more pages are counted than were handed out", is_blind || out <= of[t].reported);
    if (misses_nothing() && !is_behind) must_be("pages that a standing counts", of[t].reported, out);
    int is_open = number_at(m + 43, 4) != 0;
    must_be("open is said where a segment is open", is_open, said[0] == 4);
    uint64_t lost = 0;
    for (int i = 0; i < 9; i++) lost += number_at(said + LOST + 8 * i, 8);
    if (said[0] == SAYS_WHOLE) {
        must_be("losses of what is whole", 0, lost);
        total_whole++;
        if (!is_blind && out == of[t].reported) check_whole(t, !number_at(m + 47, 8) && !is_behind && !drops_notes() && !has_refused);
        if (is_fresh() && (notes_are_exact() || horizon_is_exact())) check_whole_since(t, number_at(m + 47, 8));
    }
    if (is_fresh() && notes_are_exact()) check_standing(t, said);
    must_be("nodes beyond those of the settings to which crumbs led", 0, number_at(said + CRUMBS, 8));
    must_be("crumbs that were not left", 0, number_at(said + CRUMBS + 8, 8) & ~of[t].crumbs);
    if (said[0] == SAYS_UNHEARD) must("nothing is counted of what was not heard", !lost && !out);
    total_lost += said[0] == SAYS_LOST;
}

static void learn(const uint8_t *m, size_t len, uint64_t number) {
    hindcore_head head;
    must_be("a message reads", HINDCORE_DONE, hindcore_message_head(m, len, &head));
    must("a message has its head", len >= 20 && m[0] == 1);
    must_be("epoch", life.epoch, number_at(m + 2, 8));
    must_be("number of a message", number, number_at(m + 10, 8));
    must_be("node of a message", life.me, number_at(m + 18, 2));
    switch (m[1]) {
    case 1: hellos_seen++; break;
    case 2: learn_told(m, len, number); break;
    case 4: learn_reported(m, len, number); break;
    case 5: learn_standing(m, len); break;
    default: wrong("kind of a message", 0, m[1]);
    }
}

/* ---- the list of messages */

static uint8_t out[MOST_BYTES + 1];

static uint64_t hash_of(const uint8_t *bytes, uint64_t len) {
    uint64_t h = 0xcbf29ce484222325u ^ len;
    for (uint64_t i = 0; i < len; i++) h = (h ^ bytes[i]) * 0x100000001b3u;
    return h;
}

/* The next message as the list has it: 1 and its number, or 0 where nothing that was seen is to be handed out. */
static int listed(uint64_t *number) {
    while (oldest < seen && states[oldest] != WAITS) oldest++;
    uint64_t n = handed > oldest ? handed : oldest;
    while (n < seen && states[n] != WAITS) n++;
    *number = n;
    return n < seen;
}

/* Asks for the next message and learns it where it is new: 1, and its number. */
static int look(uint64_t *number) {
    uint64_t wanted, len = 0, got = 77;
    int is_known = listed(&wanted);
    uint32_t code = hindcore_node_next(&node, &got, out, sizeof out, &len);
    if (code == HINDCORE_NOTHING) {
        must_be("a message waits", 0, (uint64_t)is_known);
        all_seen = 1;
        return 0;
    }
    must_be("next", HINDCORE_DONE, code);
    if (one_in(64)) {
        uint64_t other = 5, len2 = 0;
        must_be("next in too little room", HINDCORE_SHORT, hindcore_node_next(&node, &other, out + sizeof out - len + 1, (size_t)len - 1, &len2));
        must_be("length of a message that is too long", len, len2);
        must_be("its number", 5, other);
        must_be("next again", HINDCORE_DONE, hindcore_node_next(&node, &other, out, (size_t)len, &len2));
    }
    if (!is_known) {
        wanted = seen;
        while (states[wanted] == GONE) wanted++;
    }
    must_be("number of the next message", wanted, got);
    must("messages have room", got + 8 < MOST_MESSAGES);
    uint64_t hash = hash_of(out, len);
    if (is_known) {
        must("a message stays as it was", hashes[got] == hash);
    } else {
        states[got] = WAITS;
        hashes[got] = hash;
        seen = got + 1;
        learn(out, (size_t)len, got);
    }
    *number = got;
    return 1;
}

static void send_one(uint64_t number) {
    must_be("sent", HINDCORE_DONE, hindcore_node_sent(&node, number));
    handed = number + 1;
}

static void do_next(void) {
    uint64_t number = 0;
    int is_there = look(&number);
    if (one_in(8)) {
        uint64_t other = one_in(2) ? number + 1 + below(3) : number ? number - 1 : 9;
        must_be("another was sent", HINDCORE_NOTHING, hindcore_node_sent(&node, other));
    }
    if (is_there && !one_in(8)) send_one(number);
    if (!is_there) must_be("nothing was sent", HINDCORE_NOTHING, hindcore_node_sent(&node, handed));
}

static void acknowledge(uint64_t number) {
    uint32_t code = hindcore_node_acknowledged(&node, number);
    if (number < seen) {
        must_be("acknowledged", states[number] == WAITS ? HINDCORE_DONE : HINDCORE_NOTHING, code);
        states[number] = GONE;
    } else if (number >= MOST_MESSAGES || states[number] == GONE) {
        must_be("acknowledged what is not there", HINDCORE_NOTHING, code);
    } else if (code == HINDCORE_DONE) {
        states[number] = GONE;
        is_blind = 1;
    } else {
        must_be("acknowledged what nobody saw", HINDCORE_NOTHING, code);
    }
}

static int may_go_blind;

static void do_acknowledge(void) {
    if (one_in(16)) acknowledge(MOST_MESSAGES + next_random() % 1000000);
    else if (may_go_blind && one_in(64)) acknowledge(seen + below(4));
    else if (seen && one_in(4)) acknowledge(next_random() % seen);
    else
        for (unsigned k = 1 + below(16); k && seen; k--) {
            uint64_t n = oldest + next_random() % (seen - oldest + (seen == oldest));
            if (n < seen) acknowledge(n);
        }
}

static void do_again(void) {
    must_be("again", HINDCORE_DONE, hindcore_node_again(&node));
    handed = 0;
}

static uint64_t do_flush(client *c);

/* A pass hears the notes of a client that came, and then takes its pages. As many notes as the backlog has places come at once; more may wait, and are not
 * heard before the pages of their segments. */
static void catch_up(void) {
    for (unsigned c = 0; c < life.clients; c++) {
        if (life.flushes) do_flush(&clients[c]);
        if (notes_since_pass[c] > life.backlog) is_behind = 1;
        notes_since_pass[c] = 0;
        while (clients[c].heard_count < clients[c].made_count) segments[clients[c].made[clients[c].heard_count++]].heard = ++heard;
    }
    is_of_pass = all_seen;
    all_seen = 0;
    is_touched = 0;
}

static void do_pass(void) {
    uint32_t says = 9;
    uint64_t wanted;
    catch_up();
    refuse();
    uint32_t code = hindcore_node_pass(&node, &says);
    refuse_nothing();
    delivered_since_pass = 0;
    if (code == HINDCORE_SPENT) {
        must("it is spent for want of memory", has_refused);
        is_spent = 1;
    } else {
        must_be("pass", HINDCORE_DONE, code);
        must("what is spent stays so", !is_spent);
    }
    must("what a pass says is a flag", says <= 1);
    if (listed(&wanted)) must_be("a pass says that a message waits", 1, says);
    if (!says) must_be("no message waits", HINDCORE_NOTHING, hindcore_node_next(&node, &wanted, out, sizeof out, &wanted));
}

/* ---- what is asked */

static unsigned some_trace(void) { return one_in(3) ? below(life.pool) : below(life.pool < 8 ? life.pool : 8); }

static unsigned some_laterals(unsigned *laterals) {
    unsigned count = life.is_greedy ? 20 + below(13) : one_in(3) ? 1 + below(3) : one_in(40) ? below(MOST_LATERALS + 1) : 0;
    for (unsigned i = 0; i < count; i++) laterals[i] = some_trace();
    return count;
}

/* Whether these bytes ask this node for a group of a declared id, by the tables. */
static int is_ask(const uint8_t *m, size_t len) {
    if (len < 44 || m[0] != 1 || m[1] != 3 || number_at(m + 18, 2) != life.me || number_at(m + 20, 2) >= 128) return 0;
    if (m[43] > MOST_LATERALS || len != 44 + 16u * m[43]) return 0;
    for (int i = 0; i < DECLARED; i++)
        if (m[26] == ids[i]) return 1;
    return 0;
}

static void do_deliver(void) {
    uint8_t bytes[44 + 16 * (MOST_LATERALS + 1)], id[16];
    writing w = {bytes, 0};
    ask a;
    memset(&a, 0, sizeof a);
    if (ask_count && life.repeats && one_in(4)) {
        a = asks[below(ask_count)]; /* once more */
    } else {
        do a.node = below(MOST_NODES);
        while (a.node == life.me);
        a.number = life.repeats ? below(64) : asked[a.node];
        if (a.number == 64) return;
        /* the same group is always asked for with the same words */
        uint64_t kept = state;
        state = seed * 1000003u + a.node * 64 + a.number;
        a.id = ids[below(DECLARED)];
        a.lead = some_trace();
        a.count = some_laterals(a.laterals);
        state = kept;
    }
    trace_id(a.lead, id);
    group_id g = {(uint16_t)a.node, a.number, a.id, id};
    put_head(&w, 3, next_random(), next_random(), (uint16_t)life.me);
    put_group(&w, &g);
    put_number(&w, a.count, 1);
    for (unsigned i = 0; i < a.count; i++) {
        uint8_t lateral[16];
        trace_id(a.laterals[i], lateral);
        put_bytes(&w, lateral, 16);
    }
    int is_foul = one_in(4);
    if (is_foul) {
        switch (below(5)) {
        case 0: bytes[19] = (uint8_t)(bytes[19] + 1 + below(5)); break;  /* for another node */
        case 1: bytes[26] = (uint8_t)(2 + below(6)); break;              /* of an id that is not declared */
        case 2: w.len = below((unsigned)w.len); break;                   /* too short */
        case 3: w.len += 1; bytes[w.len - 1] = 0; break;                 /* too long */
        default: {
            static const uint8_t places[] = {0, 1, 18, 20, 43};
            bytes[places[below(5)]] ^= (uint8_t)(1 << (7 - below(2)));
        }
        }
    }
    int is_taken = is_ask(bytes, w.len);
    if (is_foul && is_taken) return;
    uint32_t code = hindcore_node_deliver(&node, bytes, w.len);
    if (!is_taken) {
        must_be("what is no ask is delivered", HINDCORE_NO_MESSAGE, code);
    } else if (code == HINDCORE_FULL) {
        must("asks have places", is_blind || ask_count - answered >= ASK_PLACES || is_spent);
    } else {
        must_be("an ask is delivered", HINDCORE_DONE, code);
        must("there are places for no more asks", ++delivered_since_pass <= ASK_PLACES);
        must("asks have room", ask_count < MOST_ASKS);
        asks[ask_count++] = a;
        asked[a.node] = a.number + 1;
        claims_most += 1 + a.count;
    }
}

/* ---- clients */

/* Sees to it that what a client counts is what the model counts. Null pages and dropped notes are learned: the answers say how many more. */
static void compare_counts(client *c, unsigned new_pages, int may_drop, unsigned *nulls, int *drops) {
    hindcore_count got;
    must_be("counts", HINDCORE_DONE, hindcore_counts(&c->handle, &got));
    hindcore_count *k = &c->counts;
    must_be("points that are counted", k->points, got.points);
    must_be("stray points", k->stray_points, got.stray_points);
    must_be("points for want of places", k->full_points, got.full_points);
    must_be("long points", k->long_points, got.long_points);
    must_be("points since numbers ended", 0, got.spent_points);
    must_be("crumbs that are refused", k->refused_crumbs, got.refused_crumbs);
    must_be("triggers that are refused", k->refused_triggers, got.refused_triggers);
    uint64_t null_pages = got.null_pages - k->null_pages, dropped = got.dropped_notes - k->dropped_notes;
    must("as many pages are null as began at most", null_pages <= new_pages);
    must("one note is dropped at most", dropped <= (uint64_t)may_drop);
    *nulls = (unsigned)null_pages;
    *drops = (int)dropped;
    k->null_pages = got.null_pages;
    k->dropped_notes = got.dropped_notes;
}

static void compare(client *c) {
    unsigned nulls;
    int drops;
    compare_counts(c, 0, 0, &nulls, &drops);
}

static void do_begin(client *c, unsigned t) {
    hindcore_trace trace;
    is_touched = 1;
    trace_id(t, trace.bytes);
    uint32_t code = hindcore_begin(&c->handle, &trace);
    if (c->open >= 0) {
        must_be("begin in an open trace", HINDCORE_OPEN, code);
        compare(c);
        return;
    }
    must_be("begin", HINDCORE_DONE, code);
    unsigned nulls;
    int drops;
    compare_counts(c, 0, 1, &nulls, &drops);
    must("segments have room", segment_count < MOST_SEGMENTS && c->made_count < MOST_SEGMENTS / MOST_CLIENTS);
    segment *s = &segments[segment_count];
    memset(s, 0, sizeof *s);
    s->trace = t;
    c->made[c->made_count++] = segment_count;
    c->open = (int)segment_count++;
    c->page = -1;
    notes_since_pass[c - clients]++;
}

static void close_page(client *c) {
    if (c->page < 0) return;
    pages[c->page].is_sent = 1;
    c->page = -1;
}

/* Writes a piece on the open page, or on a new one. */
static void write_piece(client *c, unsigned number, uint64_t moment, const uint8_t *payload, size_t len) {
    if (c->page >= 0 && pages[c->page].len - 8 + 10 + len > life.size) close_page(c);
    if (c->page < 0) {
        must("pages have room", page_count < MOST_PAGES && c->page_numbers < MOST_PAGES / MOST_CLIENTS && arena_used + life.size + 8 <= ARENA);
        page *p = &pages[page_count];
        memset(p, 0, sizeof *p);
        p->segment = (unsigned)c->open;
        p->trace = segments[c->open].trace;
        p->client = (unsigned)(c - clients);
        p->bytes = arena + arena_used;
        arena_used += life.size + 8;
        uint8_t id[16];
        trace_id(p->trace, id);
        writing w = {p->bytes, 0};
        begin_page(&w, id, (uint16_t)life.me, (uint16_t)p->client, c->page_numbers, number);
        p->len = w.len;
        c->numbers[c->page_numbers++] = page_count;
        c->page = (int)page_count++;
        segments[c->open].pages++;
    }
    page *p = &pages[c->page];
    writing w = {p->bytes, p->len};
    put_piece(&w, moment, payload, len);
    p->len = w.len;
    end_page(&w, ++p->pieces);
}

static int fits_open_page(const client *c, size_t len) { return c->page >= 0 && pages[c->page].len - 8 + 10 + len <= life.size; }

static uint8_t payload[MOST_PAYLOAD + 64];

static uint32_t write_point(client *c, uint64_t moment, size_t len) {
    for (size_t i = 0; i < len && i < 8; i++) payload[i] = (uint8_t)next_random();
    is_touched = 1;
    uint32_t code = hindcore_point(&c->handle, moment, payload, len);
    unsigned began = 0, nulls;
    int drops, is_done = 0;
    if (c->open < 0) {
        must_be("point without a trace", HINDCORE_NO_TRACE, code);
        c->counts.stray_points++;
    } else if (len > MOST_PAYLOAD) {
        must_be("point that is too long", HINDCORE_TOO_WIDE, code);
        c->counts.long_points++;
        segments[c->open].longs++;
    } else if (code == HINDCORE_FULL) {
        must("a point that fits the page asks for no place", !fits_open_page(c, len));
        c->counts.full_points++;
        segments[c->open].fulls++;
    } else {
        must("a point", code == HINDCORE_DONE || code == HINDCORE_DRY);
        is_done = 1;
        c->counts.points++;
        unsigned before = page_count;
        size_t most = life.size - 34, from = 0;
        do {
            size_t part = len - from < most ? len - from : most;
            write_piece(c, c->records, moment, payload + from, part);
            from += part;
        } while (from < len);
        c->records++;
        began = page_count - before;
    }
    compare_counts(c, began, 0, &nulls, &drops);
    /* nothing is given back within a call: the last of its pages are null */
    for (unsigned k = 0; k < nulls; k++) pages[page_count - 1 - k].is_null = 1;
    if (nulls) segments[c->open].nulls += nulls;
    if (life.is_roomy) must_be("null pages where there is room", 0, nulls);
    if (is_done) must_be("point, which is dry where a page of it is null", nulls ? HINDCORE_DRY : HINDCORE_DONE, code);
    return is_done ? HINDCORE_DONE : code;
}

static void do_point(client *c) {
    size_t len = one_in(500) ? MOST_PAYLOAD + 1 + below(8) : one_in(200) ? below(one_in(2) ? 3000 : 20000) : one_in(5) ? below(3 * life.size) : below(life.size / 2);
    write_point(c, next_random() >> below(64), len);
}

static uint32_t do_end(client *c) {
    is_touched = 1;
    uint32_t code = hindcore_end(&c->handle);
    if (c->open < 0) {
        must_be("end without a trace", HINDCORE_NO_TRACE, code);
        compare(c);
        return code;
    }
    if (code == HINDCORE_FULL) {
        compare(c);
        return code;
    }
    must_be("end", HINDCORE_DONE, code);
    unsigned nulls;
    int drops;
    compare_counts(c, 0, 1, &nulls, &drops);
    close_page(c);
    segment *s = &segments[c->open];
    s->is_closed = 1;
    of[s->trace].segments++;
    of[s->trace].sent += s->pages - s->nulls;
    of[s->trace].nulls += s->nulls;
    of[s->trace].fulls += s->fulls;
    of[s->trace].longs += s->longs;
    of[s->trace].crumbs_refused += s->crumbs;
    c->open = -1;
    notes_since_pass[c - clients]++;
    return code;
}

/* A crumb of a trace that need not be open was done or refused: a note says so, which may be dropped as any. */
static void note_crumb(client *c, unsigned t, int is_refused) {
    unsigned nulls;
    int drops;
    c->counts.refused_crumbs += (unsigned)is_refused;
    of[t].crumbs_refused += (unsigned)is_refused;
    compare_counts(c, 0, 1, &nulls, &drops);
    notes_since_pass[c - clients]++;
}

static void do_crumb(client *c) {
    unsigned n = below(life.nodes + 1);
    uint32_t code;
    is_touched = 1;
    int is_open = c->open >= 0;
    unsigned t = is_open ? segments[c->open].trace : 0;
    if (one_in(3)) {
        hindcore_trace trace;
        t = some_trace();
        trace_id(t, trace.bytes);
        code = hindcore_crumb_of(&c->handle, &trace, (uint16_t)n);
        if (n >= life.nodes) must_be("crumb to no node", HINDCORE_UNKNOWN, code);
        else if (code == HINDCORE_FULL) note_crumb(c, t, 1);
        else must_be("crumb of a trace", HINDCORE_DONE, code), note_crumb(c, t, 0);
    } else {
        code = hindcore_crumb(&c->handle, (uint16_t)n);
        if (n >= life.nodes) must_be("crumb to no node", HINDCORE_UNKNOWN, code);
        else if (!is_open) must_be("crumb without a trace", HINDCORE_NO_TRACE, code);
        else if (code == HINDCORE_FULL) c->counts.refused_crumbs++, segments[c->open].crumbs++;
        else must_be("crumb", HINDCORE_DONE, code), segments[c->open].led |= 1u << n;
    }
    if (code == HINDCORE_DONE) of[t].crumbs |= 1u << n;
    compare(c);
}

/* Puts a trigger to the bucket of its id. */
static int is_let_through(unsigned i, uint64_t moment) {
    uint64_t full = (uint64_t)life.bursts[i] * 1000000;
    if (moment > moments[i]) {
        uint64_t level = (moment - moments[i]) * life.rates[i] + levels[i];
        levels[i] = level > full ? full : level;
        moments[i] = moment;
    }
    if (levels[i] < 1000000) return 0;
    levels[i] -= 1000000;
    return 1;
}

static void note_trigger(client *c, unsigned i, uint64_t moment, unsigned lead, unsigned count, const unsigned *laterals) {
    must("triggers have room", trigger_count < MOST_TRIGGERS);
    trigger *t = &triggers[trigger_count++];
    t->id = ids[i], t->lead = lead, t->count = count, t->client = (unsigned)(c - clients), t->is_used = 0;
    for (unsigned k = 0; k < count; k++) t->laterals[k] = laterals[k];
    t->is_let = life.clients > 1 || is_let_through(i, moment);
    claims_most += 1 + count;
}

static uint64_t clock_now;

static uint64_t some_moment(void) {
    clock_now += below(2000);
    return one_in(10) && clock_now > 5000 ? clock_now - below(5000) : clock_now;
}

static void do_trigger(client *c) {
    hindcore_trace lead, laterals[MOST_LATERALS + 1];
    unsigned t = c->open >= 0 && one_in(2) ? segments[c->open].trace : some_trace(), others[MOST_LATERALS], count = some_laterals(others), i = below(DECLARED);
    trace_id(t, lead.bytes);
    for (unsigned k = 0; k < count; k++) trace_id(others[k], laterals[k].bytes);
    uint64_t moment = some_moment();
    if (one_in(50)) {
        trace_id(1, laterals[MOST_LATERALS].bytes);
        for (unsigned k = 0; k < MOST_LATERALS; k++) trace_id(2, laterals[k].bytes);
        must_be("too many laterals", HINDCORE_UNFIT, hindcore_trigger(&c->handle, moment, ids[i], &lead, laterals, MOST_LATERALS + 1));
    } else if (one_in(50)) {
        must_be("trigger of no id", HINDCORE_UNKNOWN, hindcore_trigger(&c->handle, moment, (uint8_t)(one_in(2) ? 2 + below(7) : 65 + below(191)), &lead, laterals, count));
    } else if (life.is_generous && tries[i] >= 900) {
        return;
    } else {
        uint32_t code = hindcore_trigger(&c->handle, moment, ids[i], &lead, laterals, count);
        if (code == HINDCORE_FULL) {
            c->counts.refused_triggers++;
        } else {
            must_be("trigger", HINDCORE_DONE, code);
            tries[i]++;
            note_trigger(c, i, moment, t, count, others);
        }
    }
    compare(c);
}

/* Autotrigger 0 fires id 1 for each value but 0, and 1 fires id 9 for a high one, with the traces before. */
static void do_sample(client *c) {
    unsigned a = below(3), others[MOST_LATERALS], count = 0;
    uint64_t moment = some_moment(), value = a ? below(40) : below(12) / 11;
    if (life.is_generous && (tries[0] >= 900 || tries[1] >= 900)) return;
    uint32_t code = hindcore_sample(&c->handle, moment, a, value);
    if (a == 2) {
        must_be("sample of no autotrigger", HINDCORE_UNKNOWN, code);
    } else if (c->open < 0) {
        must_be("sample without a trace", HINDCORE_NO_TRACE, code);
    } else if (code == HINDCORE_FULL) {
        c->counts.refused_triggers++;
    } else {
        must_be("sample", HINDCORE_DONE, code);
        unsigned t = segments[c->open].trace;
        int fires = a == 0 && value;
        if (a == 1) {
            uint64_t less = 0;
            for (unsigned k = 1; k <= life.window && k <= c->samples; k++) less += c->values[(c->samples - k) % 1024] < value;
            fires = c->samples >= life.window && less * 10000 >= (uint64_t)life.share * life.window;
            for (unsigned k = 1; k <= life.laterals && k <= c->samples; k++) {
                unsigned other = c->sampled[(c->samples - k) % 1024];
                int is_new = other != t;
                for (unsigned j = 0; j < count; j++) is_new &= others[j] != other;
                if (is_new) others[count++] = other;
            }
            c->values[c->samples % 1024] = value;
            c->sampled[c->samples % 1024] = t;
            c->samples++;
        }
        if (fires) {
            tries[a]++;
            note_trigger(c, a, moment, t, count, others);
        }
    }
    compare(c);
}

static uint64_t do_flush(client *c) {
    uint64_t waits = 99999999;
    must_be("flush", HINDCORE_DONE, hindcore_flush(&c->handle, &waits));
    must("no more waits than has places", waits <= 5ull * life.backlog);
    compare(c);
    return waits;
}

static void client_call(void) {
    client *c = &clients[below(life.clients)];
    long before = allocations;
    unsigned r = below(100);
    if (one_in(2000))
        for (unsigned k = 3 * life.backlog; k; k--) do_crumb(c); /* more than have places */
    if (c->open < 0 ? r < 60 : r < 1) do_begin(c, some_trace());
    else if (r < 60) do_point(c);
    else if (r < 70) do_crumb(c);
    else if (r < 75) do_trigger(c);
    else if (r < 85) do_sample(c);
    else if (r < 95) do_end(c);
    else do_flush(c);
    must_be("allocations of a client's call", (uint64_t)before, (uint64_t)allocations);
}

/* ---- the whole life */

static void settings_by_seed(void) {
    state = seed;
    memset(&life, 0, sizeof life);
    life.is_roomy = one_in(4);
    life.is_generous = one_in(2);
    life.nodes = 1 + below(MOST_NODES);
    life.me = below(life.nodes);
    life.clients = 1 + below(MOST_CLIENTS);
    life.size = 64 + below(one_in(2) ? 200 : 30);
    life.epoch = next_random();
    if (life.is_roomy) {
        life.buffers = 24000, life.threshold = 16000, life.pins = 7000, life.traces = 20000;
        life.claims = 60000;
    } else {
        life.pins = below(12);
        life.threshold = below(60);
        life.buffers = life.clients + life.pins + life.threshold + 1 + below(one_in(3) ? 8 : 250);
        life.traces = 1 + below(40);
        life.claims = one_in(3) ? 1 + below(60) : 60000;
    }
    life.backlog = one_in(4) ? 1 + below(8) : 64 + below(200);
    life.pool = 2 + below(one_in(3) ? 12 : one_in(2) ? 200 : 2000);
    life.remember = one_in(5) ? 1 + below(life.pool) : 20000;
    if (one_in(6)) {
        /* traces are forgotten, and each note finds a place */
        life.pins = below(10), life.threshold = below(16), life.is_roomy = 0, life.traces = 1 + below(40);
        life.buffers = life.clients + life.pins + life.threshold + 4 + below(20);
        life.remember = life.buffers + life.clients + 1;
        life.pool = 100 + below(200);
    }
    for (int i = 0; i < DECLARED; i++) {
        life.bursts[i] = life.is_generous ? 1000 : 1 + below(5);
        life.rates[i] = life.is_generous ? 1000000 : below(3) ? 1 + below(400) : 0;
    }
    life.window = 2 + below(12);
    life.share = 5000 + below(4999);
    life.laterals = 1 + below(5);
    life.refused = one_in(4) ? 1 + below(one_in(2) ? 10 : 100) : 0;
    life.acknowledge = one_in(4) ? 0 : 2 + below(30);
    life.pass = 4 + below(one_in(4) ? 200 : 30);
    life.flushes = one_in(2);
    life.is_prompt = one_in(2);
    life.repeats = one_in(2);
    if (one_in(10)) {
        life.is_greedy = 1, life.acknowledge = 0;
        life.claims = 1 + below(60), life.pool = 100 + below(200);
    }
    may_go_blind = one_in(10);
    snprintf(text, sizeof text,
             "nodes %u\nclients %u\nbuffers %u\nsize %u\nthreshold %u\ntraces %u\npins %u\nbacklog %u\nclaims %u\nremember %u\n"
             "triggerid 1 3 %u %u\ntriggerid 9 1 %u %u\ntriggerid 64 100 %u %u\nauto 0 exception 1\nauto 1 queue 9 %u %u %u\n",
             life.nodes, life.clients, life.buffers, life.size, life.threshold, life.traces, life.pins, life.backlog, life.claims, life.remember, life.bursts[0], life.rates[0],
             life.bursts[1], life.rates[1], life.bursts[2], life.rates[2], life.window, life.share, life.laterals);
}

static void forget_all(void) {
    page_count = 0, arena_used = 0, segment_count = 0, trigger_count = 0, trigger_first = 0, triggers_used = 0, group_count = 0, fired = 0;
    claims_total = 0, claims_most = 0, ask_count = 0, answered = 0, delivered_since_pass = 0, hellos = 0, hellos_seen = 0;
    memset(states, 0, (size_t)seen + 16 < MOST_MESSAGES ? (size_t)seen + 16 : MOST_MESSAGES);
    seen = 0, handed = 0, oldest = 0, is_blind = 0, is_spent = 0, is_told_again = 0, is_behind = 0, all_seen = 1, is_of_pass = 0, is_touched = 0, heard = 0, has_refused = 0, clock_now = 0;
    memset(of, 0, sizeof of);
    for (int t = 0; t < MOST_TRACES; t++) {
        of[t].claimer = -1;
        for (int c = 0; c < MOST_CLIENTS; c++) of[t].last[c] = -1;
    }
    for (int i = 0; i < MOST_GROUPS; i++) own[i] = -1;
    memset(foreign, -1, sizeof foreign);
    memset(notes_since_pass, 0, sizeof notes_since_pass);
    memset(asked, 0, sizeof asked);
    for (int i = 0; i < DECLARED; i++) levels[i] = (uint64_t)life.bursts[i] * 1000000, moments[i] = 0, tries[i] = 0;
    for (int c = 0; c < MOST_CLIENTS; c++) {
        client *k = &clients[c];
        memset(&k->handle, 0, sizeof k->handle);
        memset(&k->counts, 0, sizeof k->counts);
        k->open = -1, k->page = -1, k->page_numbers = 0, k->records = 0, k->made_count = 0, k->heard_count = 0, k->samples = 0;
    }
}

static void open_node(void) {
    hindcore_fault fault;
    memset(&node, 0, sizeof node);
    must_be("what is allocated before a life", 0, (uint64_t)live);
    for (int k = 0;; k++) {
        refused_at = life.refused && k < 3 ? allocations + (long)below(40) : -1;
        uint32_t code = hindcore_node_open((const uint8_t *)text, strlen(text), (uint16_t)life.me, life.epoch, &node, &fault);
        int is_refused = refused_at >= 0 && allocations > refused_at;
        refused_at = -1;
        if (code == HINDCORE_DONE) break;
        if (code == HINDCORE_SETTINGS) wrong(text, 0, fault.line * 100 + fault.reason);
        must_be("open", HINDCORE_MEMORY, code);
        must("memory was refused", is_refused);
        must_be("what a refused opening leaves", 0, (uint64_t)live);
        must_be("a refused node is vacant", HINDCORE_VACANT, hindcore_node_again(&node));
    }
    /* the last one comes first */
    for (unsigned c = life.clients; c-- > 0;) must_be("client", HINDCORE_DONE, hindcore_node_client(&node, &clients[c].handle));
    hindcore_client more = {{NULL}, 0, {0}};
    must_be("one client more", HINDCORE_NOTHING, hindcore_node_client(&node, &more));
}

static void hello(void) {
    hindcore_digest digest = {{1}};
    uint32_t code = hindcore_node_hello(&node, &digest, (const uint8_t *)"n", 1);
    if (code == HINDCORE_FULL) return;
    must_be("hello", HINDCORE_DONE, code);
    hellos++;
}

static void see_all(void) {
    uint64_t number;
    while (look(&number)) send_one(number);
}

static void one_step(void) {
    client_call();
    if (one_in(life.pass)) {
        do_pass();
        if (life.is_prompt) see_all();
    }
    if (one_in(6)) do_next();
    if (one_in(life.acknowledge)) do_acknowledge();
    if (one_in(300)) do_again();
    if (one_in(100)) do_deliver();
    if (one_in(1000))
        for (int k = 0; k < 70; k++) do_deliver();
    if (one_in(1000)) hello();
}

/* Hands out and acknowledges all that waits: whether there was anything. */
static int drain(void) {
    uint64_t number;
    int any = 0;
    while (look(&number)) {
        send_one(number);
        any = 1;
    }
    do_again();
    while (listed(&number)) acknowledge(number), any = 1;
    return any;
}

/* Passes until nothing moves any more. */
static void settle(void) {
    unsigned quiet = 0, rounds = 0, most = claims_most / 64 + life.buffers / 64 + 8;
    /* each draw of an empty pool makes a give miss, and a pass gives as often as the hand is long, which may be once */
    for (unsigned c = 0; c < life.clients; c++) most += (unsigned)clients[c].counts.null_pages;
    while (quiet < most) {
        must("a node comes to rest", ++rounds < 100000);
        int any = 0;
        for (unsigned c = 0; c < life.clients; c++) any |= do_flush(&clients[c]) != 0;
        do_pass();
        any |= drain();
        quiet = any ? 0 : quiet + 1;
        if (is_spent) return;
    }
}

static void end_all(void) {
    for (unsigned c = 0; c < life.clients; c++)
        for (unsigned k = 0; clients[c].open >= 0; k++) {
            must("a segment ends at last", k < 10000);
            if (do_end(&clients[c]) == HINDCORE_FULL) {
                do_pass();
                drain();
                if (is_spent) return;
            }
        }
}

/* ---- at the end */

static void check_claims(void) {
    int are_exact = notes_are_exact() && !forgets();
    uint64_t all_pages = page_count;
    for (unsigned i = 0; i < group_count && !forgets() && !is_blind; i++) {
        group *g = &groups[i];
        for (unsigned k = 0; k < g->trace_count; k++) {
            unsigned t = g->traces[k];
            must("each claim is spoken of", g->has_said[k]);
            if (life.is_roomy && of[t].claimer == (int)i) must_be("crumbs of a claimed trace that are not told", 0, of[t].crumbs & ~g->crumbs);
            if (!are_exact) continue;
            const uint8_t *s = g->said[k];
            uint64_t evicted = number_at(s + LOST + 56, 8), abandoned = number_at(s + LOST + 64, 8);
            check_standing(t, s);
            must_be("pages that left", of[t].sent, of[t].reported + evicted + abandoned);
            if (all_pages <= life.threshold && life.is_roomy) must_be("evicted pages where there is room", 0, evicted);
            if (all_pages <= life.pins) must_be("abandoned pages where there is room", 0, abandoned);
        }
    }
    total_exact += are_exact;
    if (is_blind) return;
    must_be("hellos", hellos, hellos_seen);
    must_be("asks that are answered", ask_count, answered);
    uint64_t limited;
    must_be("how many triggers are limited", HINDCORE_DONE, hindcore_node_limited(&node, &limited));
    must_be("triggers that are limited", trigger_count - triggers_used, limited);
    if (triggers_are_exact())
        for (unsigned i = 0; i < trigger_count; i++) must_be("a trigger that is let through fires", (uint64_t)triggers[i].is_let, (uint64_t)triggers[i].is_used);
}

/* A segment of one page, of a trace that nobody claims. */
static int write_page(client *c, unsigned t) {
    do_begin(c, t);
    for (int k = 0; k < 1000; k++) {
        if (write_point(c, 1, 1) == HINDCORE_DONE) return 1;
        if (k == 0) do_flush(c);
    }
    return 0;
}

/* The only group that names a trace, or -1. */
static int only_group(unsigned t) {
    int only = -1;
    for (unsigned i = 0; i < group_count; i++)
        if (has_trace(&groups[i], t) >= 0) {
            if (only >= 0) return -1;
            only = (int)i;
        }
    return only;
}

static int was_abandoned(const group *g) {
    for (unsigned k = 0; k < g->trace_count; k++)
        if (!g->has_said[k] || number_at(g->said[k] + LOST + 64, 8)) return 1;
    return 0;
}

/* The groups that claimed first are forgotten until no more claims are left than are kept: a further page of a trace that one of these alone named is not
 * reported, and one of a trace that another one claims is. */
static void check_forgotten(void) {
    unsigned kept = 0, first = group_count;
    if (is_blind || is_told_again) return;
    while (first > 0 && kept + groups[first - 1].trace_count <= life.claims) kept += groups[--first].trace_count;
    for (unsigned k = 0, looks = 0; k < 4 && looks < 30; looks++) {
        unsigned t = below(life.pool), before = of[t].reported;
        int g = only_group(t);
        if (g < 0) continue;
        k++;
        int is_plain = notes_are_exact() && life.pins && !was_abandoned(&groups[g]);
        if (!write_page(&clients[0], t)) continue;
        int is_null = pages[page_count - 1].is_null;
        end_all();
        settle();
        if (is_spent) return;
        if (is_null) continue;
        if (g < (int)first) must_be("pages of a trace whose group is forgotten", before, of[t].reported);
        else if (is_plain) must_be("pages of a trace whose group is not forgotten", before + 1, of[t].reported);
        total_forgotten += g < (int)first;
        total_kept += g >= (int)first && is_plain;
    }
}

static void check_buffers(void) {
    unsigned kept = life.threshold < life.traces ? life.threshold : life.traces, fresh = life.pool, c = 0, drawn = 0;
    if (life.is_roomy) return; /* too many to fill */
    for (unsigned k = 0; k < kept + 2; k++) {
        must("there is a place after a pass", write_page(&clients[0], fresh++));
        must_be("null pages while the index has room", 0, (uint64_t)pages[page_count - 1].is_null);
        while (do_end(&clients[0]) == HINDCORE_FULL) do_pass(), drain();
        do_flush(&clients[0]);
        do_pass();
        drain();
    }
    settle();
    if (is_spent) return;
    unsigned most = life.buffers - kept;
    int stuck[MOST_CLIENTS] = {0}, is_partial = 0;
    while (drawn < most) {
        unsigned tried = 0;
        while (tried < life.clients && stuck[c % life.clients]) c++, tried++;
        if (tried == life.clients) {
            is_partial = 1;
            break;
        }
        client *k = &clients[c++ % life.clients];
        if (k->open >= 0 && do_end(k) == HINDCORE_FULL) {
            stuck[k - clients] = 1;
            continue;
        }
        do_begin(k, fresh++);
        if (write_point(k, 1, 1) != HINDCORE_DONE) {
            stuck[k - clients] = 1;
            continue;
        }
        must_be("a buffer is missing", 0, (uint64_t)pages[page_count - 1].is_null);
        drawn++;
    }
    if (!is_partial) {
        for (unsigned n = 0; n < life.clients; n++) {
            client *k = &clients[n];
            if (k->open >= 0 && do_end(k) == HINDCORE_FULL) continue;
            do_begin(k, fresh++);
            if (write_point(k, 1, 1) != HINDCORE_DONE) continue;
            must_be("there is a buffer too many", 1, (uint64_t)pages[page_count - 1].is_null);
            break;
        }
    }
    total_filled += !is_partial;
    total_partial += is_partial;
}

static void free_all(void) {
    int first = one_in(2);
    if (first) must_be("free the node", HINDCORE_DONE, hindcore_node_free(&node));
    if (first)
        for (int k = 0; k < 20; k++) {
            client *c = &clients[below(life.clients)];
            if (c->open < 0) do_begin(c, 0);
            else if (one_in(2)) do_point(c);
            else do_end(c);
        }
    for (unsigned c = 0; c < life.clients; c++) must_be("free a client", HINDCORE_DONE, hindcore_client_free(&clients[c].handle));
    if (!first) must_be("free the node", HINDCORE_DONE, hindcore_node_free(&node));
    must_be("what stays allocated", 0, (uint64_t)live);
}

static void live_once(void) {
    settings_by_seed();
    forget_all();
    step = 0;
    open_node();
    for (step = 1; step <= CALLS; step++) one_step();
    life.refused = 0;
    end_all();
    if (!is_spent) settle();
    if (is_spent) {
        uint32_t says;
        drain();
        must_be("what is spent stays so", HINDCORE_SPENT, hindcore_node_pass(&node, &says));
        total_spent++;
    } else {
        check_claims();
        check_forgotten();
        check_buffers();
    }
    free_all();
    total_refused += (uint64_t)has_refused;
}

/* ---- a long life without an acknowledgement */

static size_t bytes_in_use(void) { return mallinfo2().uordblks; }

/* The most that was in use in the quarter of the life that ends now. */
typedef struct {
    long allocations;
    size_t bytes;
    uint64_t null_pages;
} use;

static void note_use(use *u) {
    if (live > u->allocations) u->allocations = live;
    if (bytes_in_use() > u->bytes) u->bytes = bytes_in_use();
}

static void long_call(hindcore_client *c, int *is_open) {
    hindcore_trace lead, lateral;
    trace_id(below(3000), lead.bytes);
    trace_id(below(3000), lateral.bytes);
    unsigned r = below(100);
    if (!*is_open) *is_open = hindcore_begin(c, &lead) == HINDCORE_DONE;
    else if (r < 60) hindcore_point(c, 1, payload, below(200));
    else if (r < 65) hindcore_crumb(c, (uint16_t)below(4));
    else if (r < 70) hindcore_crumb_of(c, &lateral, (uint16_t)below(4));
    else if (r < 75) hindcore_trigger(c, some_moment(), 1, &lead, &lateral, below(2));
    else if (r < 95) *is_open = hindcore_end(c) != HINDCORE_DONE;
    else hindcore_sample(c, some_moment(), 0, below(4) == 0);
}

static void live_long(void) {
    static const char settings[] = "nodes 4\nclients 2\nbuffers 400\nsize 128\nthreshold 100\ntraces 200\npins 20\nclaims 100\nremember 1000\ntriggerid 1 1 1000 1000000\nauto 0 exception 1\n";
    hindcore_fault fault;
    use uses[4];
    int is_open[2] = {0};
    state = seed;
    memset(&node, 0, sizeof node);
    memset(uses, 0, sizeof uses);
    must_be("open", HINDCORE_DONE, hindcore_node_open((const uint8_t *)settings, strlen(settings), 1, seed, &node, &fault));
    for (int c = 0; c < 2; c++) must_be("client", HINDCORE_DONE, hindcore_node_client(&node, &clients[c].handle));
    uint64_t number, len, messages = 0;
    uint32_t says;
    for (step = 0; step < LONG_CALLS; step++) {
        int c = (int)below(2);
        long_call(&clients[c].handle, &is_open[c]);
        use *u = &uses[step / (LONG_CALLS / 4)];
        if (step % 20 == 0) {
            must_be("pass", HINDCORE_DONE, hindcore_node_pass(&node, &says));
            note_use(u);
        }
        if (step % 8 == 0 && hindcore_node_next(&node, &number, out, sizeof out, &len) == HINDCORE_DONE) {
            must_be("sent", HINDCORE_DONE, hindcore_node_sent(&node, number));
            if (number >= messages) messages = number + 1;
        }
        if (step % 10000 == 0) must_be("again", HINDCORE_DONE, hindcore_node_again(&node));
        if (step % (LONG_CALLS / 4) == LONG_CALLS / 4 - 1)
            for (c = 0; c < 2; c++) {
                hindcore_count counts;
                hindcore_counts(&clients[c].handle, &counts);
                u->null_pages += counts.null_pages;
            }
    }
    must("no more messages wait than have places", messages <= 1024 + 20);
    must_be("null pages in a life without acknowledgements", 0, uses[3].null_pages);
    must("as many allocations at the end as before", uses[3].allocations <= uses[1].allocations + uses[1].allocations / 20);
    must("as many bytes at the end as before", uses[3].bytes <= uses[1].bytes + uses[1].bytes / 20);
    /* what waited comes once there is room */
    uint64_t told = 0;
    for (int k = 0; k < 5000; k++) {
        hindcore_node_pass(&node, &says);
        while (hindcore_node_next(&node, &number, out, sizeof out, &len) == HINDCORE_DONE) {
            told += number >= messages;
            hindcore_node_sent(&node, number);
        }
        hindcore_node_again(&node);
        while (hindcore_node_next(&node, &number, out, sizeof out, &len) == HINDCORE_DONE) {
            hindcore_node_sent(&node, number);
            must_be("acknowledged", HINDCORE_DONE, hindcore_node_acknowledged(&node, number));
        }
    }
    must("what waited is said", told);
    for (int c = 0; c < 2; c++) must_be("free a client", HINDCORE_DONE, hindcore_client_free(&clients[c].handle));
    must_be("free the node", HINDCORE_DONE, hindcore_node_free(&node));
    must_be("what stays allocated", 0, (uint64_t)live);
    printf("lives: a long life of %d calls: %ld allocations and %zu bytes at most in its second quarter, %ld and %zu in its last; %" PRIu64 " messages without an acknowledgement, %" PRIu64 " then\n",
           LONG_CALLS, uses[1].allocations, uses[1].bytes, uses[3].allocations, uses[3].bytes, messages, told);
}

/* ---- a crumb that was let go */

/* The last word on a trace of the messages that wait. */
static int word_on(const hindcore_trace *trace) {
    uint64_t number, len;
    int word = -1;
    while (hindcore_node_next(&node, &number, out, sizeof out, &len) == HINDCORE_DONE) {
        if (out[1] == 5 && !memcmp(out + 20, trace->bytes, sizeof trace->bytes)) word = out[42];
        must_be("sent", HINDCORE_DONE, hindcore_node_sent(&node, number));
    }
    return word;
}

/* The index has room for one trace. Where a crumb of another one comes, the first goes, and its crumb to node 3 with it: the message of its group does not name
 * that node, so it is unknown. Where none comes it is whole. */
static void let_go(int is_let_go) {
    static const char settings[] = "nodes 4\nclients 1\nbuffers 64\nthreshold 32\npins 8\ntraces 1\nsize 64\ntriggerid 1\n";
    hindcore_fault fault;
    hindcore_client *c = &clients[0].handle;
    hindcore_trace one = {{1}}, other = {{2}};
    uint32_t says;
    memset(&node, 0, sizeof node);
    memset(c, 0, sizeof *c);
    must_be("open", HINDCORE_DONE, hindcore_node_open((const uint8_t *)settings, strlen(settings), 0, 1, &node, &fault));
    must_be("client", HINDCORE_DONE, hindcore_node_client(&node, c));
    must_be("begin", HINDCORE_DONE, hindcore_begin(c, &one));
    must_be("crumb", HINDCORE_DONE, hindcore_crumb(c, 3));
    must_be("end", HINDCORE_DONE, hindcore_end(c));
    must_be("pass", HINDCORE_DONE, hindcore_node_pass(&node, &says));
    if (is_let_go) must_be("crumb of another trace", HINDCORE_DONE, hindcore_crumb_of(c, &other, 2));
    must_be("pass", HINDCORE_DONE, hindcore_node_pass(&node, &says));
    must_be("begin", HINDCORE_DONE, hindcore_begin(c, &one));
    must_be("point", HINDCORE_DONE, hindcore_point(c, 1, one.bytes, 8));
    must_be("trigger", HINDCORE_DONE, hindcore_trigger(c, 1, 1, &one, NULL, 0));
    must_be("end", HINDCORE_DONE, hindcore_end(c));
    for (int k = 0; k < 3; k++) must_be("pass", HINDCORE_DONE, hindcore_node_pass(&node, &says));
    must_be("how whole a trace is whose crumb was let go, or told", is_let_go ? SAYS_UNKNOWN : SAYS_WHOLE, (uint64_t)word_on(&one));
    must_be("free a client", HINDCORE_DONE, hindcore_client_free(c));
    must_be("free the node", HINDCORE_DONE, hindcore_node_free(&node));
}

int main(int count, char **words) {
    (void)put_hello, (void)put_told, (void)put_reported, (void)put_standing;
    if (count < 3) {
        fprintf(stderr, "lives FIRST COUNT [--loud]\n");
        return 2;
    }
    if (!strcmp(words[1], "long")) {
        seed = strtoull(words[2], NULL, 10);
        live_long();
        return 0;
    }
    uint64_t first = strtoull(words[1], NULL, 10), lives = strtoull(words[2], NULL, 10);
    let_go(0);
    let_go(1);
    for (seed = first; seed < first + lives; seed++) {
        live_once();
        if (count > 3 && !strcmp(words[3], "--loud"))
            printf("seed %" PRIu64 ": %u pages, %u groups, %" PRIu64 " messages%s\n", seed, page_count, group_count, seen, is_spent ? ", spent" : "");
    }
    printf("lives: %" PRIu64 " lives, %" PRIu64 " pages reported, %" PRIu64 " told, %" PRIu64 " standings, %" PRIu64 " whole, %" PRIu64 " of these looked at, %" PRIu64
           " lost; %" PRIu64 " lives exact, %" PRIu64 " standings compared, %" PRIu64 " with crumbs that were told, %" PRIu64 " with one that was not; %" PRIu64 " groups looked at that are forgotten, %" PRIu64 " that are kept; memory refused in %" PRIu64 ", %" PRIu64 " spent; all buffers drawn in %" PRIu64 ", some in %" PRIu64 "\n",
           lives, total_reported, total_told, total_standings, total_whole, total_whole_checked + total_whole_since, total_lost, total_exact, total_claims_checked, total_crumbs_told, total_untold, total_forgotten, total_kept, total_refused, total_spent, total_filled,
           total_partial);
    return 0;
}
