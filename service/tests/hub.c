/* A hub over a real store: two nodes, one of which was killed, tell of a group; what is said, what is saved, and what is acknowledged when.
 *
 *     hub FOLDER      FOLDER is empty */
#include "expect.h"
#include "hubwork.h"
#include "messages.h"
#include "within.h"
#include <sqlite3.h>
#include <stdio.h>
#include <stdlib.h>

static const char settings[] = "triggerid 1\nnodes 4\ngroups 8\nhold 8\nbytes 1000000\n";
static const uint8_t trace[16] = {0, 0, 0, 0, 0, 0, 0, 0, 0, 0, 0, 0, 0, 0, 0xa1, 0xb0};
static const group_id group = {0, 7, 1, trace};

static unsigned acknowledged;
static uint64_t last_number;

static void note_acknowledged(void *closure, uint16_t node, uint64_t epoch, uint64_t number) {
    (void)closure;
    (void)node;
    (void)epoch;
    acknowledged++;
    last_number = number;
}

static char foreign[65]; /* the name of the node that was last said to have other settings */
static unsigned foreigns;

static void note_foreign(void *closure, uint16_t node, const char *name) {
    (void)closure;
    EXPECT(node, 3);
    snprintf(foreign, sizeof foreign, "%s", name);
    foreigns++;
}

static uint8_t bytes[40000], page[33000], digest[HINDLIB_DIGEST];

static int deliver(hubwork *h, const writing *w) { return hubwork_deliver(h, w->bytes, w->len); }

/* A page of two records, the second of which has this text. */
static writing page_of(uint16_t node, uint16_t client, uint32_t number, uint32_t first, const char *text) {
    writing p = {page, 0};
    begin_page(&p, trace, node, client, number, first);
    put_piece(&p, 1000 + first, "one", 3);
    put_piece(&p, 2000 + first, text, strlen(text));
    end_page(&p, 2);
    return p;
}

static long one_number(const char *folder, const char *query) {
    char path[300];
    sqlite3 *db = NULL;
    sqlite3_stmt *statement = NULL;
    snprintf(path, sizeof path, "%s/traces.db", folder);
    HOLDS(sqlite3_open(path, &db) == SQLITE_OK);
    HOLDS(sqlite3_prepare_v2(db, query, -1, &statement, NULL) == SQLITE_OK);
    long n = sqlite3_step(statement) == SQLITE_ROW ? (long)sqlite3_column_int64(statement, 0) : -1;
    sqlite3_finalize(statement);
    sqlite3_close(db);
    return n;
}

static hubwork *opened(const char *folder, const char *text) {
    char fault[200] = "";
    hubwork_options options = {text, strlen(text), 5, {folder, 0, 0}, note_acknowledged, NULL, note_foreign};
    hubwork *h = hubwork_open(&options, fault, sizeof fault);
    if (!h) {
        fprintf(stderr, "hub: %s\n", fault);
        exit(1);
    }
    return h;
}

static void a_whole_trace(const char *folder) {
    hubwork *h = opened(folder, settings);
    hubwork_counts counts;
    writing w = {bytes, 0};
    uint16_t node;
    const uint8_t *ask;
    size_t len;
    put_hello(&w, 3, 0, 0, digest, "front");
    EXPECT(deliver(h, &w), HUBWORK_NOW);
    w.len = 0;
    put_hello(&w, 9, 0, 2, digest, "stock");
    EXPECT(deliver(h, &w), HUBWORK_NOW);
    EXPECT(hubwork_next_ask(h, &node, &ask, &len), 0);
    /* node 0 fires; a crumb leads to node 2, which is asked */
    w.len = 0;
    put_told(&w, 3, 1, 0, &group, 0, 1 << 2, NULL, 0);
    EXPECT(deliver(h, &w), HUBWORK_HELD);
    EXPECT(hubwork_next_ask(h, &node, &ask, &len), 1);
    EXPECT(node, 2);
    EXPECT(len, 44);
    HOLDS(len == 44 && ask[1] == 3 && !memcmp(ask + 27, trace, 16));
    EXPECT(hubwork_next_ask(h, &node, &ask, &len), 0);
    writing p = page_of(0, 4, 0, 0, "two");
    w.len = 0;
    put_reported(&w, 3, 2, 0, &group, 4, 0, p.bytes, p.len);
    EXPECT(deliver(h, &w), HUBWORK_HELD);
    EXPECT(deliver(h, &w), HUBWORK_HELD); /* a repeat waits with its page */
    w.len = 0;
    put_standing(&w, 3, 3, 0, trace, &group, SAYS_WHOLE, 0, 0, 1, 1 << 2, 0);
    EXPECT(deliver(h, &w), HUBWORK_HELD);
    EXPECT(hubwork_save(h, 10), 0); /* node 2 has not answered */
    w.len = 0;
    put_told(&w, 9, 1, 2, &group, 1, 1 << 0, NULL, 0);
    EXPECT(deliver(h, &w), HUBWORK_HELD);
    w.len = 0;
    put_standing(&w, 9, 3, 2, trace, &group, SAYS_WHOLE, 0, 0, 1, 1 << 0, 0);
    EXPECT(deliver(h, &w), HUBWORK_HELD);
    EXPECT(hubwork_save(h, 10), 0); /* its page has not come */
    p = page_of(2, 0, 5, 11, "a longer text");
    w.len = 0;
    put_reported(&w, 9, 2, 2, &group, 0, 1, p.bytes, p.len);
    EXPECT(deliver(h, &w), HUBWORK_HELD);
    EXPECT(acknowledged, 0);
    EXPECT(hubwork_save(h, 10), 1);
    EXPECT(acknowledged, 6);
    hubwork_count(h, &counts);
    EXPECT(counts.traces, 1);
    EXPECT(counts.whole, 1);
    EXPECT(counts.waiting_messages, 0);
    EXPECT(counts.bytes, 0);
    EXPECT(one_number(folder, "SELECT count(*) FROM records"), 4);
    EXPECT(one_number(folder, "SELECT whole FROM traces"), 1);
    EXPECT(one_number(folder, "SELECT trigger FROM traces"), 1);
    EXPECT(one_number(folder, "SELECT count(*) FROM lives WHERE service = 'stock' AND node = 2 AND epoch = 9 AND wholeness = 'whole since 0'"), 1);
    EXPECT(one_number(folder, "SELECT moment FROM records WHERE node = 2 AND client = 0 AND core = 1 AND number = 12"), 2011);
    EXPECT(one_number(folder, "SELECT missing FROM records WHERE node = 2 AND number = 11"), 11);
    /* no message */
    w.len = 5;
    EXPECT(deliver(h, &w), HUBWORK_NOW);
    hubwork_count(h, &counts);
    EXPECT(counts.refused, 1);
    hubwork_close(h);
}

/* The node tells of a trace in this life, reports a page of it, and says that this is whole. */
static void one_trace(hubwork *h, const char *folder, uint64_t epoch, uint8_t last, long is_whole) {
    const uint8_t id[16] = {[15] = last};
    const group_id of = {0, last, 1, id};
    char query[100];
    writing w = {bytes, 0}, p = {page, 0};
    put_told(&w, epoch, 4u * last, 0, &of, 0, 0, NULL, 0);
    EXPECT(deliver(h, &w), HUBWORK_HELD);
    begin_page(&p, id, 0, 4, last, last);
    put_piece(&p, 1000, "one", 3);
    end_page(&p, 1);
    w.len = 0;
    put_reported(&w, epoch, 4u * last + 1, 0, &of, 4, 0, p.bytes, p.len);
    EXPECT(deliver(h, &w), HUBWORK_HELD);
    w.len = 0;
    put_standing(&w, epoch, 4u * last + 2, 0, id, &of, SAYS_WHOLE, 0, 0, 1, 0, 0);
    EXPECT(deliver(h, &w), HUBWORK_HELD);
    EXPECT(hubwork_save(h, 10), 1);
    snprintf(query, sizeof query, "SELECT whole FROM traces WHERE substr(trace, 16) = x'%02x'", last);
    EXPECT(one_number(folder, query), is_whole);
}

/* A hub that starts anew over a store is sure of no life before half a minute went by, and so it is with each life of a node that starts anew. */
static void young_lives(const char *folder) {
    hubwork *h = opened(folder, settings);
    one_trace(h, folder, 3, 0xc1, 0);
    for (int passes = 0; passes < 299; passes++) hubwork_pass(h);
    one_trace(h, folder, 3, 0xc2, 0);
    hubwork_pass(h);
    one_trace(h, folder, 3, 0xc3, 1);
    one_trace(h, folder, 4, 0xc4, 0);
    for (int passes = 0; passes < 300; passes++) hubwork_pass(h);
    one_trace(h, folder, 4, 0xc5, 1);
    hubwork_close(h);
}

/* A trace of which a node is silent is given out by age, and is not called whole; what comes later is a later part. */
static void a_partial_trace(const char *folder) {
    hubwork *h = opened(folder, settings);
    hubwork_counts counts;
    writing w = {bytes, 0};
    acknowledged = 0;
    put_told(&w, 4, 1, 0, &group, 0, 1 << 1 | 1 << 3, NULL, 0);
    EXPECT(deliver(h, &w), HUBWORK_HELD);
    writing p = page_of(0, 1, 0, 0, "late");
    w.len = 0;
    put_reported(&w, 4, 2, 0, &group, 1, 0, p.bytes, p.len);
    EXPECT(deliver(h, &w), HUBWORK_HELD);
    w.len = 0;
    put_standing(&w, 4, 3, 0, trace, &group, SAYS_LOST, 0, 0, 1, 1 << 1 | 1 << 3, 2);
    EXPECT(deliver(h, &w), HUBWORK_HELD);
    long passes = 0;
    while (!hubwork_save(h, 1) && passes < 10000) {
        hubwork_pass(h);
        passes++;
    }
    HOLDS(passes > 10 && passes < 10000);
    EXPECT(acknowledged, 3);
    hubwork_count(h, &counts);
    EXPECT(counts.whole, 0);
    EXPECT(one_number(folder, "SELECT count(*) FROM lives WHERE node = 0 AND epoch = 4 AND wholeness = 'lost: 2 pages evicted'"), 1);
    EXPECT(one_number(folder, "SELECT count(*) FROM lives WHERE node IN (1, 3) AND epoch = 0 AND wholeness = 'not answered'"), 2);
    w.len = 0;
    p = page_of(0, 1, 1, 2, "later");
    put_reported(&w, 4, 4, 0, &group, 1, 0, p.bytes, p.len);
    EXPECT(deliver(h, &w), HUBWORK_HELD);
    for (passes = 0; !hubwork_save(h, 1) && passes < 10000; passes++) hubwork_pass(h);
    EXPECT(acknowledged, 4);
    EXPECT(last_number, 4);
    EXPECT(one_number(folder, "SELECT count(*) FROM traces WHERE part = 1 AND whole = 0"), 1);
    EXPECT(one_number(folder, "SELECT count(*) FROM lives WHERE node = 0 AND epoch = 4 AND wholeness = 'lost: 2 pages evicted'"), 1);
    hubwork_close(h);
}

/* A node with other settings: what that life says is refused, and what a later life with the same settings says is taken. */
static void other_settings(const char *folder) {
    hubwork *h = opened(folder, settings);
    hubwork_counts counts;
    uint8_t other[HINDLIB_DIGEST];
    writing w = {bytes, 0};
    hindlib_digest("triggerid 1\nnodes 5\n", 20, other);
    put_hello(&w, 6, 0, 3, other, "till");
    EXPECT(deliver(h, &w), HUBWORK_NOW);
    EXPECT(deliver(h, &w), HUBWORK_NOW);
    HOLDS(!strcmp(foreign, "till"));
    EXPECT(foreigns, 1); /* it is said once of a life */
    w.len = 0;
    put_told(&w, 6, 1, 3, &group, 0, 0, NULL, 0);
    EXPECT(deliver(h, &w), HUBWORK_NOW);
    hubwork_count(h, &counts);
    EXPECT(counts.foreign, 3);
    EXPECT(counts.foreign_nodes, 1);
    EXPECT(counts.groups, 0);
    /* another life of the node, and other nodes, are not meant */
    w.len = 0;
    put_told(&w, 5, 1, 3, &group, 0, 0, NULL, 0);
    EXPECT(deliver(h, &w), HUBWORK_HELD);
    w.len = 0;
    put_hello(&w, 7, 0, 3, digest, "till");
    EXPECT(deliver(h, &w), HUBWORK_NOW);
    hubwork_count(h, &counts);
    EXPECT(counts.foreign, 3);
    EXPECT(counts.foreign_nodes, 0);
    hubwork_close(h);
}

int main(int argc, char **argv) {
    if (argc != 2) return 2;
    hindlib_digest(settings, sizeof settings - 1, digest);
    char fault[200];
    hubwork_options wrong = {"nodes 0\n", 8, 5, {argv[1], 0, 0}, note_acknowledged, NULL, NULL};
    HOLDS(!hubwork_open(&wrong, fault, sizeof fault) && !strncmp(fault, "settings, line 1", 16));
    hubwork_options nowhere = {settings, sizeof settings - 1, 5, {"/nowhere/at/all", 0, 0}, note_acknowledged, NULL, NULL};
    HOLDS(!hubwork_open(&nowhere, fault, sizeof fault) && fault[0]);
    a_whole_trace(argv[1]);
    a_partial_trace(argv[1]);
    other_settings(argv[1]);
    young_lives(argv[1]);
    if (!failed) puts("hub: ok");
    return failed != 0;
}
