/* A hub and up to 64 nodes under a network that loses, repeats, delays and reorders, where nodes, the broker and the hub stop and start anew, against a
 * plain model: what each node wrote, and what the store was given.
 *
 *     simulate FIRST COUNT [WORDS]   runs of the seeds from FIRST on
 *     simulate rows [WORDS]          runs of the seeds that found something, which stand in a table below
 *
 *     --loud        prints each run
 *     --nodes N     has so many nodes in each run; without it there are 64 in every fourth one, and fewer in the others
 *     --forget      has nodes forget traces that nobody claimed, and leave crumbs late, while a segment of the trace is open
 *     --from-zero   has each life number its groups from 0 on their way too: such runs have to fail
 *     --disk PATH   saves to a store of service/src/store.c at this path beside the model's, and reads each row back; compiled with ON_DISK alone
 *
 * In each run: no record is saved that was not written, none stands twice in what is given out, nothing is acknowledged that is not saved, no page is
 * acknowledged at once, and no trace is called whole of which a record is missing in what was saved by then. At the end, with all back, each page that a
 * node reported is saved, nothing that is claimed was kept back, and each node that crumbs lead to has claimed. Where nothing died, nothing was evicted
 * and the hub had room, each trace that one group claimed was called whole. Two things no hub knows or does (docs/RULES.md, "The hub"): records may be
 * missing of a whole trace where its first record was older than AGE passes when its first message came; and where a hub with little room died, a node
 * that crumbs lead to may not have been asked. Model nodes number the groups of each life from 0, and what they say and are asked goes through
 * service/src/groups.c, as that of a service's node does: with --from-zero nodes that crumbs lead to are not asked. */
#include "hubwork.h"
#include "messages.h"
#include "within.h"
#include <inttypes.h>
#include <stdio.h>
#include <stdlib.h>
#ifdef ON_DISK
#include <sqlite3.h>
#endif

enum {
    MOST_NODES = 64,
    MOST_TRACES = 24,
    MOST_GROUPS = MOST_TRACES,
    MOST_KNOWN = 2 * MOST_TRACES,
    MOST_HOPS = 8,
    MOST_RECORDS = 8192,
    MOST_PAGES = 4096,
    MOST_OUT = 2048,
    MOST_KEPT = 16384,
    MOST_ASKS = 4096,
    CLIENTS = 2,
    ACTIVE = 1500, /* steps in which things happen */
    CALM = 6000,   /* at most, until all is quiet */
    AGE = 300,     /* passes; a hub makes one in each step */
    LATER = 3      /* steps until a message that was too much comes again, as from service/nats/hub.c */
};

static int is_loud, is_from_zero, forgets, nodes_of_each; /* words of the call */
static uint64_t seed, state;
static long step;

static int comes_again(int n, int t);

static uint64_t next_random(void) {
    uint64_t z = state += 0x9e3779b97f4a7c15u;
    z = (z ^ z >> 30) * 0xbf58476d1ce4e5b9u;
    z = (z ^ z >> 27) * 0x94d049bb133111ebu;
    return z ^ z >> 31;
}

static unsigned below(unsigned n) { return (unsigned)(next_random() % n); }
static int one_in(unsigned n) { return n && !below(n); }

/* Draws of --forget alone, so that the others stay as they are without it. */
static uint64_t state_apart;

static int one_in_apart(unsigned n) {
    uint64_t kept = state;
    state = state_apart;
    int is = one_in(n);
    state_apart = state;
    state = kept;
    return is;
}

static void wrong(const char *what) {
    fprintf(stderr, "simulate: seed %" PRIu64 ", step %ld: %s\n", seed, step, what);
    exit(1);
}

/* ---- what was written: the truth */

typedef struct {
    int trace, node, client;
    uint64_t epoch;
    uint32_t number;
    int saved, put;
} record;

static record records[MOST_RECORDS];
static unsigned record_count;

static void trace_id(int t, uint8_t id[16]) {
    memset(id, 0, 16);
    id[3] = 0x51;
    id[15] = (uint8_t)t;
}

/* ---- nodes */

typedef struct {
    int trace, client;
    uint32_t number, first;
    unsigned records[4], count;
    enum { HELD, EVICTED, REPORTED } state;
} page;

typedef struct {
    uint8_t *bytes;
    size_t len;
    uint64_t number;
    int page; /* or -1 */
    uint32_t traces; /* that it serves, by bits */
} message;

/* A group, as messages name it. */
typedef struct {
    int node, lead, laterals[2], lateral_count;
    uint32_t number; /* on its way between node and hub; at a node, as its core has it */
    uint64_t epoch;  /* of the life that fired */
    int is_fired;
} group;

/* One life of a node. */
typedef struct {
    int is_up;
    long down_until;
    uint64_t epoch, messages;
    uint32_t fired; /* groups; each has the next number */
    group known[MOST_KNOWN];
    unsigned known_count;
    page pages[MOST_PAGES / MOST_NODES * 4];
    unsigned page_count;
    uint32_t next_page[CLIENTS], next_record[CLIENTS];
    int heard[MOST_TRACES];
    uint64_t crumbs[MOST_TRACES];
    unsigned out_pages[MOST_TRACES], evicted[MOST_TRACES], open[MOST_TRACES]; /* open: segments */
    uint64_t horizon;                        /* segments heard before those that are remembered */
    int claimed[MOST_TRACES];                /* by this one of those known, and one more; 0: by none */
    char said[MOST_TRACES][80];              /* what was said last */
    message out[MOST_OUT];
    unsigned out_count;
} node;

static node nodes[MOST_NODES];
static int node_count;

static group groups[MOST_GROUPS]; /* that fire in this run */
static int group_count;
static int trace_count;

static unsigned odds_of_deaths; /* of nodes, in this run */

/* The steps in which a trace's first record was written and its first message came to this hub, or -1. */
static long began[MOST_TRACES], came[MOST_TRACES];

static struct {
    unsigned loss, repeat, reorder, node_kill, hub_kill, broker_away, evict, store_fault, late_kill, slow, forget, late;
} odds;

/* ---- the broker: keeps what it was sent until it is acknowledged */

typedef struct {
    message m;
    int node;
    uint64_t epoch;
    enum { QUEUED, TAKEN, GONE } state;
    long due; /* the step from which on it may be delivered */
} kept;

static kept queue[MOST_KEPT];
static unsigned kept_count, kept_first;
static long away_until; /* the step until which nobody reaches it */

static int is_away(void) { return step < away_until; }

typedef struct {
    int node;
    long due;
    uint8_t bytes[128];
    size_t len;
} asking;

static asking asks[MOST_ASKS];
static unsigned ask_count;
static int lost_in_row[MOST_NODES];

static hubwork *hub;
static const char roomy[] = "triggerid 1\nnodes 64\ngroups 32\nhold 32\nbytes 10000000\n", tight[] = "triggerid 1\nnodes 64\ngroups 6\nhold 3\nbytes 65536\n";
static const char *settings; /* of this run */
static uint8_t digest[HINDLIB_DIGEST]; /* of either: they share the lines that count */
static int hub_dies; /* between a save and its acknowledgements */
static unsigned there; /* messages at the broker when the hub started, */
static int has_heard;  /* .. and whether it has read them and was told who lives */

/* The number on its way of the first group of this life of a node, as service/src/node.c has it. */
static uint32_t first_group(int n) { return is_from_zero ? 0 : hindlib_first_group(nodes[n].epoch); }

static void put_out(int n, const writing *w, int of_page, uint32_t traces) {
    node *l = &nodes[n];
    if (l->out_count == MOST_OUT) wrong("the model has too few places");
    message *m = &l->out[l->out_count++];
    *m = (message){malloc(w->len), w->len, l->messages++, of_page, traces};
    if (!m->bytes) wrong("no memory");
    memcpy(m->bytes, w->bytes, w->len);
    hindlib_number_group(m->bytes, m->len, (uint16_t)n, first_group(n));
}

static group_id id_of(const group *g, uint8_t lead[16]) {
    trace_id(g->lead, lead);
    return (group_id){(uint16_t)g->node, g->number, 1, lead};
}

/* The node tells of a group, with all crumbs of its traces. */
static void tell(int n, const group *g, uint8_t why) {
    uint8_t bytes[256], lead[16], laterals[32];
    writing w = {bytes, 0};
    group_id id = id_of(g, lead);
    uint64_t crumbs = nodes[n].crumbs[g->lead];
    uint32_t traces = UINT32_C(1) << g->lead;
    for (int i = 0; i < g->lateral_count; i++) {
        traces |= UINT32_C(1) << g->laterals[i];
        trace_id(g->laterals[i], laterals + 16 * i);
        crumbs |= nodes[n].crumbs[g->laterals[i]];
    }
    put_told(&w, nodes[n].epoch, nodes[n].messages, (uint16_t)n, &id, why, crumbs, laterals, (uint8_t)g->lateral_count);
    put_out(n, &w, -1, traces);
}

/* The place of a group among those that this life knows, and one more. */
static int known(node *l, const group *g) {
    for (unsigned i = 0; i < l->known_count; i++)
        if (l->known[i].node == g->node && l->known[i].number == g->number && l->known[i].lead == g->lead) return (int)i + 1;
    if (l->known_count == MOST_KNOWN) wrong("the model has too few places for groups");
    l->known[l->known_count++] = *g;
    return (int)l->known_count;
}

/* The traces of a group that no other has claimed here are this one's. */
static void claim(int n, const group *g) {
    node *l = &nodes[n];
    int place = known(l, g);
    if (!l->claimed[g->lead]) l->claimed[g->lead] = place;
    for (int i = 0; i < g->lateral_count; i++)
        if (!l->claimed[g->laterals[i]]) l->claimed[g->laterals[i]] = place;
}

static void start_life(int n) {
    node *l = &nodes[n];
    uint8_t bytes[128];
    uint64_t epoch = l->epoch + 1 + below(3);
    char name[16];
    for (unsigned i = 0; i < l->out_count; i++) free(l->out[i].bytes);
    memset(l, 0, sizeof *l);
    l->is_up = 1;
    l->epoch = epoch;
    snprintf(name, sizeof name, "node %d", n);
    writing w = {bytes, 0};
    put_hello(&w, epoch, l->messages, (uint16_t)n, digest, name);
    put_out(n, &w, -1, 0);
}

/* A segment of a trace: some records on some pages. */
static void visit(int n, int t) {
    node *l = &nodes[n];
    int client = (int)below(CLIENTS);
    l->heard[t]++;
    if (began[t] < 0) began[t] = step;
    for (unsigned pages = 1 + below(3); pages; pages--) {
        if (l->page_count == sizeof l->pages / sizeof *l->pages) return;
        page *p = &l->pages[l->page_count++];
        *p = (page){.trace = t, .client = client, .number = l->next_page[client]++, .first = l->next_record[client], .count = 1 + below(4)};
        for (unsigned r = 0; r < p->count; r++) {
            if (record_count == MOST_RECORDS) wrong("the model has too few records");
            records[record_count] = (record){t, n, client, l->epoch, l->next_record[client]++, 0, 0};
            p->records[r] = record_count++;
        }
    }
}

static void report(int n, page *p, const group *g) {
    uint8_t bytes[512], of_page[256], lead[16], trace[16];
    writing w = {bytes, 0}, at = {of_page, 0};
    group_id id = id_of(g, lead);
    trace_id(p->trace, trace);
    begin_page(&at, trace, (uint16_t)n, (uint16_t)p->client, p->number, p->first);
    for (unsigned r = 0; r < p->count; r++) {
        uint32_t payload = p->records[r] ^ 0xabcd1234u;
        put_piece(&at, p->records[r], &payload, sizeof payload);
    }
    end_page(&at, p->count);
    put_reported(&w, nodes[n].epoch, nodes[n].messages, (uint16_t)n, &id, (uint16_t)p->client, 0, at.bytes, at.len);
    put_out(n, &w, (int)(p - nodes[n].pages), UINT32_C(1) << p->trace);
    p->state = REPORTED;
    nodes[n].out_pages[p->trace]++;
}

static page *held_page(node *l, int t) {
    for (unsigned i = 0; i < l->page_count; i++)
        if (l->pages[i].trace == t && l->pages[i].state == HELD) return &l->pages[i];
    return NULL;
}

/* What a node says of a claimed trace of which it has nothing left to report. */
static void say(int n, int t, const group *g) {
    node *l = &nodes[n];
    uint8_t bytes[256], lead[16], trace[16];
    char saying[80];
    uint8_t word = l->open[t] ? SAYS_OPEN : l->evicted[t] ? SAYS_LOST : l->heard[t] ? SAYS_WHOLE : SAYS_UNHEARD;
    snprintf(saying, sizeof saying, "%d %u %u %u %" PRIx64, word, l->open[t], l->out_pages[t], l->evicted[t], l->crumbs[t]);
    if (!strcmp(saying, l->said[t])) return;
    strcpy(l->said[t], saying);
    writing w = {bytes, 0};
    group_id id = id_of(g, lead);
    trace_id(t, trace);
    put_standing(&w, l->epoch, l->messages, (uint16_t)n, trace, &id, word, l->open[t], l->horizon, l->out_pages[t], l->crumbs[t], l->evicted[t]);
    put_out(n, &w, -1, UINT32_C(1) << t);
}

/* A node remembers so many traces, and lets the oldest one go. */
static void forget(node *l, int t) {
    l->horizon += (uint64_t)l->heard[t];
    l->heard[t] = 0;
    l->crumbs[t] = 0;
    l->evicted[t] = 0;
}

static void work(int n) {
    node *l = &nodes[n];
    for (int t = 0; t < MOST_TRACES; t++) {
        page *p = l->claimed[t] || odds.evict ? held_page(l, t) : NULL;
        if (!l->claimed[t]) {
            if (p && one_in(odds.evict)) {
                p->state = EVICTED;
                l->evicted[t]++;
            }
            if (!p && l->heard[t] && !l->open[t] && one_in_apart(odds.forget) && !comes_again(n, t)) forget(l, t);
            continue;
        }
        if (p) report(n, p, &l->known[l->claimed[t] - 1]);
        else say(n, t, &l->known[l->claimed[t] - 1]);
    }
}

/* What waits goes to the broker, or is lost on the way; its acknowledgement may be, too. */
static void publish(int n) {
    node *l = &nodes[n];
    unsigned left = 0;
    if (is_away()) return;
    for (unsigned i = 0; i < l->out_count; i++) {
        message m = l->out[i];
        if (i < 4 && !one_in(odds.loss)) {
            if (kept_count == MOST_KEPT) wrong("the model's broker has too few places");
            kept *k = &queue[kept_count++];
            *k = (kept){m, n, l->epoch, QUEUED, 0};
            k->m.bytes = malloc(m.len);
            if (!k->m.bytes) wrong("no memory");
            memcpy(k->m.bytes, m.bytes, m.len);
            if (!one_in(odds.loss)) {
                free(m.bytes);
                continue;
            }
        }
        l->out[left++] = m;
    }
    l->out_count = left;
}

/* ---- a store on the disk, beside the model's */

#ifdef ON_DISK
/* service/src/store.c, whose calls were renamed where it was compiled */
store *disk_open(const store_options *options, char *fault, size_t room);
int disk_put(store *s, const otlp_trace *trace);
int disk_save(store *s);
const char *disk_fault(const store *s);
void disk_close(store *s);

static const char *disk_path;
static store *disk;

static void open_disk(void) {
    char fault[200];
    store_options options = {disk_path, 0, 0};
    disk = disk_path ? disk_open(&options, fault, sizeof fault) : NULL;
    if (disk_path && !disk) wrong(fault);
}

static void put_on_disk(const otlp_trace *trace) {
    if (disk && disk_put(disk, trace)) wrong(disk_fault(disk));
}

static void save_disk(void) {
    if (disk && disk_save(disk)) wrong(disk_fault(disk));
}

static void close_disk(void) {
    if (disk) disk_close(disk);
    disk = NULL;
}

static record *written(const uint8_t *payload, size_t len, uint64_t moment);

/* Each row is of a record that was saved, and there are as many rows as such records. Then the store is emptied for the next run. */
static void read_disk(void) {
    char path[1024];
    sqlite3 *db;
    sqlite3_stmt *rows;
    unsigned long count = 0, saved = 0;
    if (!disk_path) return;
    snprintf(path, sizeof path, "%s/traces.db", disk_path);
    if (sqlite3_open(path, &db) || sqlite3_prepare_v2(db, "SELECT trace, node, epoch, client, core, number, moment, payload FROM records", -1, &rows, NULL)) wrong("the store cannot be read");
    while (sqlite3_step(rows) == SQLITE_ROW) {
        const uint8_t *trace = sqlite3_column_blob(rows, 0);
        const record *of = written(sqlite3_column_blob(rows, 7), (size_t)sqlite3_column_bytes(rows, 7), (uint64_t)sqlite3_column_int64(rows, 6));
        if (!of->saved || of->trace != trace[15] || of->node != sqlite3_column_int(rows, 1) || of->epoch != (uint64_t)sqlite3_column_int64(rows, 2)
            || of->client != sqlite3_column_int(rows, 3) || sqlite3_column_int(rows, 4) || of->number != (uint32_t)sqlite3_column_int64(rows, 5)) wrong("a row of the store is none of a record");
        count++;
    }
    sqlite3_finalize(rows);
    for (unsigned i = 0; i < record_count; i++) saved += records[i].saved != 0;
    if (count != saved) wrong("a row is missing in the store, or stands twice");
    if (sqlite3_exec(db, "DELETE FROM records; DELETE FROM lives; DELETE FROM traces", NULL, NULL, NULL)) wrong("the store cannot be emptied");
    sqlite3_close(db);
}
#else
static void open_disk(void) {}
static void put_on_disk(const otlp_trace *trace) { (void)trace; }
static void save_disk(void) {}
static void close_disk(void) {}
static void read_disk(void) {}
#endif

/* ---- the store, in place of service/src/store.c */

struct model_store {
    char fault[32];
};

static struct model_store the_store;
static int store_is_made;
static uint32_t called_whole; /* traces, by bits */
static unsigned long saved_traces, whole_traces, whole_with_deaths, too_old, rows_again;

store *store_open(const store_options *options, char *fault, size_t room) {
    (void)options;
    (void)fault;
    (void)room;
    store_is_made = 1;
    open_disk();
    return (store *)&the_store;
}

int store_is_there(const store_options *options) {
    (void)options;
    return store_is_made;
}

/* The record of a row. */
static record *written(const uint8_t *payload, size_t len, uint64_t moment) {
    uint32_t place;
    if (len != sizeof place) wrong("a record of another length was saved");
    memcpy(&place, payload, sizeof place);
    place ^= 0xabcd1234u;
    if (place >= record_count || moment != place) wrong("a record that was never written was saved");
    return &records[place];
}

static void put_row(int t, const otlp_part *p, const otlp_record *r) {
    record *of = written(r->payload, r->len, r->moment);
    if (of->trace != t || of->node != p->node || of->epoch != p->epoch || of->client != r->client || of->number != r->number || r->core) wrong("a record was saved as another's");
    if (of->put) wrong("a row stands twice in what was given out");
    of->put = 1;
    rows_again += of->saved != 0;
}

int store_put(store *s, const otlp_trace *trace) {
    (void)s;
    int t = trace->id.bytes[15];
    for (size_t i = 0; i < trace->count; i++)
        for (size_t j = 0; j < trace->parts[i].count; j++) put_row(t, &trace->parts[i], &trace->parts[i].records[j]);
    put_on_disk(trace);
    if (trace->is_whole) {
        called_whole |= UINT32_C(1) << t;
        whole_traces++;
        whole_with_deaths += odds_of_deaths != 0;
        for (unsigned i = 0; i < record_count; i++) {
            if (records[i].trace != t || records[i].saved || records[i].put) continue;
            if (came[t] - began[t] <= AGE) wrong("a trace was called whole of which a record is missing");
            too_old++;
        }
    }
    return 0;
}

int store_save(store *s) {
    (void)s;
    int fails = hub_dies || one_in(odds.store_fault); /* who is dead saves nothing */
    for (unsigned i = 0; i < record_count; i++) {
        if (records[i].put && !fails) records[i].saved = 1;
        records[i].put = 0;
    }
    snprintf(the_store.fault, sizeof the_store.fault, "%s", fails ? "the disk is full" : "");
    if (!fails) save_disk();
    saved_traces += !fails;
    hub_dies = hub_dies || (!fails && one_in(odds.late_kill));
    return fails ? -1 : 0;
}

const char *store_fault(const store *s) {
    (void)s;
    return the_store.fault;
}

void store_close(store *s) {
    (void)s;
    close_disk();
}

/* ---- the hub */

/* Whether what a message says of records is saved. */
static int is_saved(const kept *k) {
    size_t at = 55 + 32 + 10; /* the payload of a page's first piece */
    uint32_t payload;
    if (k->m.bytes[1] != 4) return 1;
    memcpy(&payload, k->m.bytes + at, sizeof payload);
    return records[payload ^ 0xabcd1234u].saved;
}

static void acknowledged(void *closure, uint16_t n, uint64_t epoch, uint64_t number) {
    (void)closure;
    if (hub_dies || is_away()) return;
    for (unsigned i = kept_first; i < kept_count; i++) {
        kept *k = &queue[i];
        if (k->state == GONE || k->node != n || k->epoch != epoch || k->m.number != number) continue;
        if (!is_saved(k)) wrong("a page was acknowledged that is not saved");
        k->state = GONE;
    }
}

static void start_hub(uint64_t epoch) {
    char fault[200];
    hubwork_options options = {settings, strlen(settings), epoch, {NULL, 0, 0}, acknowledged, NULL, NULL};
    for (int t = 0; t < MOST_TRACES; t++) came[t] = -1;
    there = kept_count;
    has_heard = 0;
    hub = hubwork_open(&options, fault, sizeof fault);
    if (!hub) wrong(fault);
}

/* What was not acknowledged comes again. */
static void queue_anew(void) {
    for (unsigned i = kept_first; i < kept_count; i++)
        if (queue[i].state == TAKEN) queue[i].state = QUEUED;
}

static void kill_hub(void) {
    hubwork_close(hub);
    hub = NULL;
    hub_dies = 0;
    queue_anew();
}

/* Whether the hub took it. */
static int hand_to_hub(kept *k) {
    switch (hubwork_deliver(hub, k->m.bytes, k->m.len)) {
    case HUBWORK_NOW:
        if (k->m.bytes[1] == 4) wrong("a page was acknowledged at once");
        k->state = GONE;
        return 1;
    case HUBWORK_HELD:
        k->state = TAKEN;
        for (int t = 0; t < trace_count; t++)
            if (came[t] < 0 && (k->m.traces >> t & 1)) came[t] = step;
        return 1;
    default: k->due = step + LATER; return 0;
    }
}

static void take_messages(void) {
    while (kept_first < kept_count && queue[kept_first].state == GONE) free(queue[kept_first++].m.bytes);
    unsigned waits = kept_count - kept_first, given = 0;
    for (unsigned i = kept_first; i < kept_count && given < 16; i++) {
        kept *k = &queue[i];
        if (waits && one_in(odds.reorder)) k = &queue[kept_first + below(waits)];
        int is_first = k->state == QUEUED && k->due <= step;
        if (is_first || (k->state == TAKEN && one_in(odds.repeat))) given += (unsigned)(hand_to_hub(k) && is_first);
    }
}

static void send_asks(void) {
    uint16_t n;
    const uint8_t *bytes;
    size_t len;
    while (hubwork_next_ask(hub, &n, &bytes, &len)) {
        /* an ask is sent so often, and no more (docs/RULES.md, "The hub"): the network loses fewer in a row */
        int copies = one_in(odds.loss) && lost_in_row[n] < 4 ? 0 : one_in(odds.repeat) ? 2 : 1;
        lost_in_row[n] = copies ? 0 : lost_in_row[n] + 1;
        for (; copies; copies--) {
            if (ask_count == MOST_ASKS || len > sizeof asks->bytes) wrong("the model has too few places for asks");
            asking *a = &asks[ask_count++];
            *a = (asking){.node = n, .due = step + below(one_in(odds.reorder) ? 40 : 3), .len = len};
            memcpy(a->bytes, bytes, len);
        }
    }
}

/* What service/nats/hub.c learns from the bucket of the nodes. */
static void hear_lives(void) {
    for (unsigned i = kept_first; i < there; i++)
        if (queue[i].state == QUEUED) return;
    for (int n = 0; n < node_count && !has_heard; n++) hubwork_hear(hub, (uint16_t)n, nodes[n].epoch, "node");
    has_heard = 1;
}

/* A hub that does not reach the broker goes on with passes and saves, and keeps its asks (service/nats/hub.c). */
static void work_of_hub(void) {
    if (!is_away()) {
        take_messages();
        hear_lives();
        send_asks();
    }
    hubwork_pass(hub);
    hubwork_save(hub, 4);
    if (hub_dies) kill_hub();
}

/* The group that an ask names at its place in docs/FORMATS.md, "Messages of a service". */
static group asked_for(const uint8_t *ask) {
    group g = {.node = ask[20] << 8 | ask[21], .number = (uint32_t)ask[22] << 24 | (uint32_t)ask[23] << 16 | (uint32_t)ask[24] << 8 | ask[25], .lead = ask[42], .lateral_count = ask[43]};
    for (int i = 0; i < g.lateral_count && i < 2; i++) g.laterals[i] = ask[44 + 16 * i + 15];
    return g;
}

static void check_ask(const group *asked) {
    for (int j = 0; j < group_count; j++) {
        const group *g = &groups[j];
        if (g->is_fired && g->node == asked->node && g->number == asked->number && g->lead == asked->lead && g->lateral_count == asked->lateral_count
            && !memcmp(g->laterals, asked->laterals, (size_t)g->lateral_count * sizeof *g->laterals)) return;
    }
    wrong("a node was asked for a group that was never fired");
}

static void answer(int n, uint8_t *ask, size_t len) {
    group g = asked_for(ask);
    check_ask(&g);
    hindlib_number_group(ask, len, (uint16_t)n, 0 - first_group(n));
    g = asked_for(ask);
    claim(n, &g);
    tell(n, &g, 1);
}

static void take_asks(void) {
    unsigned left = 0;
    for (unsigned i = 0; i < ask_count; i++) {
        asking a = asks[i];
        if (a.due > step) {
            asks[left++] = a;
            continue;
        }
        if (nodes[a.node].is_up && !is_away()) answer(a.node, a.bytes, a.len);
    }
    ask_count = left;
}

/* ---- a run */

typedef struct {
    int hops[MOST_HOPS], count, at;
    long due;
    int group; /* or -1 */
} script;

static script scripts[MOST_TRACES];

static void make_scripts(void) {
    trace_count = 1 + (int)below(MOST_TRACES);
    group_count = 0;
    for (int t = 0; t < trace_count; t++) {
        script *s = &scripts[t];
        began[t] = -1;
        *s = (script){.count = 1 + (int)below(MOST_HOPS), .due = 350 + (long)below(ACTIVE - 400), .group = -1};
        for (int i = 0; i < s->count; i++) s->hops[i] = (int)below((unsigned)node_count);
        if (one_in(4)) continue; /* nothing claims it */
        group *g = &groups[group_count];
        *g = (group){.lead = t};
        for (int i = 0; i < 2 && t && one_in(3); i++) {
            int other = (int)below((unsigned)t);
            if (g->lateral_count && g->laterals[0] == other) break;
            g->laterals[g->lateral_count++] = other;
        }
        s->group = group_count++;
    }
}

/* The core numbers the groups of a life from 0. */
static void fire(int n, group *g) {
    node *l = &nodes[n];
    g->node = n;
    g->epoch = l->epoch;
    g->is_fired = 1;
    g->number = l->fired++;
    claim(n, g);
    tell(n, g, 0);
    g->number += first_group(n);
}

/* Whether a request is still to come to a node: what it wrote of a trace behind its horizon is all that a node speaks of. */
static int comes_again(int n, int t) {
    for (int i = scripts[t].at; i < scripts[t].count; i++)
        if (scripts[t].hops[i] == n) return 1;
    return 0;
}

/* Crumbs that are left late, each while a segment of its trace is open at its node. */
typedef struct {
    int from, to, trace;
    uint64_t epoch;
} late_crumb;

static late_crumb lates[MOST_TRACES * MOST_HOPS];
static unsigned late_count;

static void leave_crumb(int from, int to, int t) {
    node *l = &nodes[from];
    if (one_in_apart(odds.late)) {
        lates[late_count++] = (late_crumb){from, to, t, l->epoch};
        l->open[t]++;
    } else {
        l->crumbs[t] |= UINT64_C(1) << to;
    }
}

/* A crumb of a trace that is claimed is told by itself, as soon as it is left. */
static void leave_late_crumbs(void) {
    unsigned left = 0;
    for (unsigned i = 0; i < late_count; i++) {
        late_crumb c = lates[i];
        node *l = &nodes[c.from];
        if (!l->is_up || l->epoch != c.epoch) continue;
        if (!one_in_apart(20)) {
            lates[left++] = c;
            continue;
        }
        l->crumbs[c.trace] |= UINT64_C(1) << c.to;
        l->open[c.trace]--;
        if (l->claimed[c.trace]) tell(c.from, &l->known[l->claimed[c.trace] - 1], 2);
    }
    late_count = left;
}

/* The next hop of each trace that is due, with crumbs both ways; behind the last one its trigger. */
static void play_scripts(void) {
    for (int t = 0; t < trace_count; t++) {
        script *s = &scripts[t];
        if (step < s->due) continue;
        if (s->at < s->count) {
            int n = s->hops[s->at];
            s->due = step + 1 + (long)below(one_in(odds.slow) ? 100 : 4);
            if (!nodes[n].is_up) continue; /* the request waits for the service to be back */
            visit(n, t);
            if (s->at) {
                int from = s->hops[s->at - 1];
                nodes[n].crumbs[t] |= UINT64_C(1) << from;
                if (nodes[from].is_up) leave_crumb(from, n, t);
            }
            s->at++;
        } else if (s->group >= 0 && !groups[s->group].is_fired) {
            group *g = &groups[s->group];
            int n = s->hops[below((unsigned)s->count)];
            for (int i = 0; i < g->lateral_count; i++)
                if (scripts[g->laterals[i]].at < scripts[g->laterals[i]].count) return;
            if (nodes[n].is_up) fire(n, g);
        }
    }
}

static void trouble(void) {
    for (int n = 0; n < node_count; n++) {
        node *l = &nodes[n];
        if (l->is_up && one_in(odds.node_kill * (unsigned)node_count)) {
            l->is_up = 0;
            l->down_until = step + (long)below(60);
        } else if (!l->is_up && step >= l->down_until) {
            start_life(n);
        }
    }
    if (!is_away() && step >= 100 && one_in(odds.broker_away)) {
        away_until = step + 1 + (long)below(150);
        queue_anew();
    }
    if (hub && one_in(odds.hub_kill)) kill_hub();
    if (!hub && one_in(20)) start_hub(1000 + (uint64_t)step);
}

static void one_step(void) {
    play_scripts();
    leave_late_crumbs();
    for (int n = 0; n < node_count; n++)
        if (nodes[n].is_up) {
            work(n);
            publish(n);
        }
    if (hub) work_of_hub();
    take_asks();
}

static int is_quiet(void) {
    if (is_away() || late_count) return 0;
    for (int n = 0; n < node_count; n++) {
        if (nodes[n].out_count) return 0;
        for (int t = 0; t < trace_count; t++)
            if (nodes[n].claimed[t] && held_page(&nodes[n], t)) return 0;
    }
    for (unsigned i = kept_first; i < kept_count; i++)
        if (queue[i].state != GONE) return 0;
    return !ask_count;
}

/* Each living node that crumbs lead to from where a group fired, by nodes that live, has claimed its traces. */
static void check_claims(void) {
    for (int j = 0; j < group_count; j++) {
        const group *g = &groups[j];
        if (!g->is_fired || nodes[g->node].epoch != g->epoch) continue;
        uint64_t reached = UINT64_C(1) << g->node, looked = 0;
        while (reached != looked) {
            looked = reached;
            for (int n = 0; n < node_count; n++) {
                if (!(reached >> n & 1)) continue;
                reached |= nodes[n].crumbs[g->lead];
                for (int i = 0; i < g->lateral_count; i++) reached |= nodes[n].crumbs[g->laterals[i]];
                if (nodes[n].heard[g->lead] && !nodes[n].claimed[g->lead]) wrong("a node that crumbs lead to was not asked");
                for (int i = 0; i < g->lateral_count; i++)
                    if (nodes[n].heard[g->laterals[i]] && !nodes[n].claimed[g->laterals[i]]) wrong("a node that crumbs lead to was not asked for a lateral");
            }
        }
    }
}

/* What one group claims is called whole. What a second one claims may go before the first was heard: nothing more is to come then of the second. */
static void check_whole(void) {
    uint32_t laterals = 0;
    for (int j = 0; j < group_count; j++)
        for (int i = 0; i < groups[j].lateral_count; i++) laterals |= UINT32_C(1) << groups[j].laterals[i];
    for (int j = 0; j < group_count; j++)
        if (groups[j].is_fired && !((called_whole | laterals) >> groups[j].lead & 1)) wrong("a trace that is whole was not called so");
}

static unsigned either(unsigned n) { return one_in(2) ? n : 0; }

static void run(void) {
    state = seed * 0x2545f4914f6cdd1du + 1;
    step = 0;
    record_count = kept_count = kept_first = ask_count = late_count = 0;
    saved_traces = whole_traces = 0;
    called_whole = 0;
    away_until = 0;
    hub_dies = 0;
    memset(lost_in_row, 0, sizeof lost_in_row);
    node_count = one_in(4) ? MOST_NODES : 2 + (int)below(8);
    if (nodes_of_each) node_count = nodes_of_each;
    memset(&odds, 0, sizeof odds);
    for (int n = 0; n < MOST_NODES; n++) nodes[n].epoch = below(100);
    for (int n = 0; n < node_count; n++) start_life(n);
    make_scripts();
    odds.loss = either(5);
    odds.repeat = either(10);
    odds.reorder = either(4);
    odds.node_kill = either(200);
    odds.hub_kill = either(300);
    odds.late_kill = either(10);
    odds.evict = either(200);
    odds.store_fault = either(5);
    odds.slow = either(3);
    odds.broker_away = either(400);
    state_apart = seed * 0x9e3779b97f4a7c15u + 1;
    if (forgets) {
        odds.late = one_in_apart(2) ? 2 : 0;
        odds.forget = one_in_apart(2) ? 20 : 0;
        if (odds.forget) odds.evict = 20;
    }
    settings = one_in(3) ? tight : roomy;
    store_is_made = one_in(4); /* a hub was before this one */
    unsigned hub_kills = odds.hub_kill | odds.late_kill;
    odds_of_deaths = odds.node_kill;
    start_hub(1);
    for (; step < ACTIVE; step++) {
        trouble();
        one_step();
    }
    odds.node_kill = odds.hub_kill = odds.late_kill = odds.loss = odds.store_fault = 0;
    away_until = 0;
    for (int n = 0; n < node_count; n++)
        if (!nodes[n].is_up) start_life(n);
    if (!hub) start_hub(1000 + ACTIVE);
    for (; step < ACTIVE + CALM && !(is_quiet() && step > ACTIVE + 400); step++) {
        one_step();
        if (!hub) start_hub(2000 + (uint64_t)step);
    }
    if (!is_quiet()) wrong("all is back, and something still waits");
    /* what is cut short at a limit may be saved and acknowledged before each node has answered: then a hub that starts anew asks no more */
    if (settings == roomy || !hub_kills) check_claims();
    if (!odds_of_deaths && !hub_kills && !odds.evict && settings == roomy) check_whole();
    for (unsigned i = 0; i < kept_count; i++)
        if (queue[i].state != GONE) wrong("a message was not acknowledged");
    /* each page that a living node reported is saved */
    for (int n = 0; n < node_count; n++)
        for (unsigned i = 0; i < nodes[n].page_count; i++)
            for (unsigned r = 0; nodes[n].pages[i].state == REPORTED && r < nodes[n].pages[i].count; r++)
                if (!records[nodes[n].pages[i].records[r]].saved) wrong("a page that was reported is not saved");
    if (is_loud)
        printf("seed %" PRIu64 ": %d nodes, %d traces, %d claimed, %u records, %lu parts saved, %lu whole, %ld steps%s%s%s\n", seed, node_count, trace_count, group_count,
               record_count, saved_traces, whole_traces, step, hub_kills ? ", hub killed" : "", odds_of_deaths ? ", nodes killed" : "", settings == tight ? ", little room" : "");
    hubwork_close(hub);
    hub = NULL;
    read_disk();
    for (unsigned i = kept_first; i < kept_count; i++) free(queue[i].m.bytes);
    for (int n = 0; n < node_count; n++) {
        for (unsigned i = 0; i < nodes[n].out_count; i++) free(nodes[n].out[i].bytes);
        nodes[n].out_count = 0;
    }
}

/* Seeds that found a fault: each is the first that fails where this fault is in what it runs. */
static const struct {
    uint64_t seed;
    const char *found;
    int forgets;
} rows[] = {
    {18, "two lives of a node number their groups alike", 0},
    {2, "a life of a node is sure once it is heard; an answer counts for another group", 0},
    {228, "a life of a node is sure after half the age", 0},
    {67, "a hub that is not the first is sure of the first life that it hears", 0},
    {44, "a trace is called whole while a node is silent", 0},
    {120, "a trace is called whole before all its pages came", 0},
    {15, "a trace is called whole where no group has reached a node that wrote of it, or a life that wrote of it does not say that its part is whole", 0},
    {16, "a trace without a page is called whole; a node that is reached late is not asked again", 0},
    {3, "what is told again waits for what was saved", 0},
    {1, "a page that comes again is acknowledged at once", 0},
    {30, "a page is dropped at a limit", 0},
    {197, "what is told is dropped at a limit", 0},
    {29, "a node to which a crumb led says that it heard nothing, and has forgotten the trace", 1},
    {40, "a crumb is told behind what its node says of the trace", 1},
};

static uint64_t runs;
static unsigned long parts, whole;

static void run_of(uint64_t of) {
    seed = of;
    run();
    runs++;
    parts += saved_traces;
    whole += whole_traces;
}

static int usage(void) {
    fputs("usage: simulate FIRST COUNT | rows  [--loud] [--nodes N] [--forget] [--from-zero] [--disk PATH]\n", stderr);
    return 2;
}

int main(int argc, char **argv) {
    int has_rows = argc > 1 && !strcmp(argv[1], "rows");
    if (argc < 3 - has_rows) return usage();
    for (int i = 3 - has_rows; i < argc; i++) {
        if (!strcmp(argv[i], "--loud")) is_loud = 1;
        else if (!strcmp(argv[i], "--forget")) forgets = 1;
        else if (!strcmp(argv[i], "--from-zero")) is_from_zero = 1;
        else if (!strcmp(argv[i], "--nodes") && ++i < argc) nodes_of_each = atoi(argv[i]);
#ifdef ON_DISK
        else if (!strcmp(argv[i], "--disk") && ++i < argc) disk_path = argv[i];
#endif
        else return usage();
    }
    if (nodes_of_each < 0 || nodes_of_each > MOST_NODES) return usage();
    hindlib_digest(roomy, strlen(roomy), digest);
    if (has_rows) {
        for (size_t i = 0; i < sizeof rows / sizeof *rows; i++) {
            if (is_loud) printf("%s: ", rows[i].found);
            forgets = rows[i].forgets;
            run_of(rows[i].seed);
        }
    } else {
        uint64_t first = strtoull(argv[1], NULL, 10), count = strtoull(argv[2], NULL, 10);
        for (uint64_t of = first; of < first + count; of++) run_of(of);
    }
    printf("simulate: %" PRIu64 " runs, %lu parts saved, %lu called whole, %lu of them where nodes died; %lu rows came again; %lu records of old traces are missing\n", runs, parts, whole,
           whole_with_deaths, rows_again, too_old);
    return 0;
}
