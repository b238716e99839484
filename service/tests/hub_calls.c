/* Each call of a hub, as C makes it: what it answers where all is well, what it answers to each misuse that it tests for, and what is left where
 * memory is refused. Expected values are from docs/RULES.md, docs/FORMATS.md and the header. */
#include "expect.h"
#include "hindcore.h"
#include "messages.h"
#include "refusing.h"
#include <stdlib.h>

static const char text[] = "triggerid 1\nnodes 4\ngroups 4\nhold 4\nbytes 100000\n";
static const uint8_t lead[16] = {0, 0, 0, 0, 0, 0, 0, 0, 0, 0, 0, 0, 0, 0, 0xa1, 0xb0}, lateral[16] = {9};
static const group_id group = {0, 7, 1, lead};

static hindcore_hub hub;
static hindcore_fault fault;
static uint8_t bytes[4096], page[1024], out[65535];

static uint32_t open_with(const char *settings) { return hindcore_hub_open((const uint8_t *)settings, strlen(settings), 9, 1, &hub, &fault); }

static void vacant_handles(void) {
    hindcore_hub none;
    hindcore_trace trace = {{3}};
    hindcore_message_id message = {1, 2, 3};
    hindcore_hub_count counts = {.passes = 5};
    hindcore_row row = {.node = 5};
    hindcore_claim claim = {.node = 5};
    hindcore_life life = {.word = 5};
    hindcore_life_id id = {.node = 5};
    uint32_t number = 5;
    uint64_t len = 5;
    memset(&none, 0, sizeof none);
    EXPECT(hindcore_hub_deliver(&none, bytes, 4), HINDCORE_VACANT);
    EXPECT(hindcore_hub_next(&none, out, sizeof out, &len), HINDCORE_VACANT);
    EXPECT(hindcore_hub_pass(&none), HINDCORE_VACANT);
    EXPECT(hindcore_hub_take(&none, &trace), HINDCORE_VACANT);
    EXPECT(hindcore_hub_saved(&none, &trace), HINDCORE_VACANT);
    EXPECT(hindcore_hub_acknowledge(&none, &message), HINDCORE_VACANT);
    EXPECT(hindcore_hub_counts(&none, &counts), HINDCORE_VACANT);
    EXPECT(hindcore_hub_row(&none, &row, out, sizeof out), HINDCORE_VACANT);
    EXPECT(hindcore_hub_whole(&none, &number), HINDCORE_VACANT);
    EXPECT(hindcore_hub_part(&none, &number), HINDCORE_VACANT);
    EXPECT(hindcore_hub_claim(&none, 0, &claim), HINDCORE_VACANT);
    EXPECT(hindcore_hub_lateral(&none, 0, 0, &trace), HINDCORE_VACANT);
    EXPECT(hindcore_hub_node(&none, 0, &number), HINDCORE_VACANT);
    EXPECT(hindcore_hub_life(&none, 0, 0, &life), HINDCORE_VACANT);
    EXPECT(hindcore_hub_life_at(&none, 0, &id), HINDCORE_VACANT);
    EXPECT(hindcore_hub_free(&none), HINDCORE_VACANT);
    /* nothing was written */
    HOLDS(trace.bytes[0] == 3 && message.number == 3 && counts.passes == 5 && row.node == 5 && claim.node == 5 && life.word == 5 && id.node == 5);
    HOLDS(number == 5 && len == 5);
}

static void refused_settings(void) {
    EXPECT(open_with("nodes 4\nnodes 4\n"), HINDCORE_SETTINGS);
    EXPECT(fault.line, 2);
    EXPECT(fault.reason, 5);
    EXPECT(open_with("buffers 1\n"), HINDCORE_SETTINGS);
    EXPECT(fault.line, 0);
    EXPECT(fault.reason, 11);
    EXPECT(open_with(text), HINDCORE_DONE);
    EXPECT(open_with(text), HINDCORE_BUSY);
    EXPECT(hindcore_hub_free(&hub), HINDCORE_DONE);
    EXPECT(hindcore_hub_free(&hub), HINDCORE_VACANT);
}

static uint32_t deliver(const writing *w) {
    uint32_t code;
    hindcore_hub_count before, after;
    hindcore_hub_counts(&hub, &before);
    while ((code = hindcore_hub_deliver(&hub, w->bytes, w->len)) == HINDCORE_MEMORY) {
        hindcore_hub_counts(&hub, &after);
        HOLDS(!memcmp(&before, &after, sizeof before)); /* nothing changed */
    }
    return code;
}

/* A group is told of with a lateral, one node is asked and answers, its page of two pieces comes, and all is saved. */
static void a_life(void) {
    static const uint8_t digest[32] = {1}; /* the core compares none */
    writing w = {bytes, 0}, p = {page, 0};
    hindcore_trace trace;
    hindcore_message_id message;
    hindcore_hub_count counts;
    hindcore_row row;
    hindcore_claim claim;
    hindcore_life life;
    hindcore_life_id id;
    hindcore_head head;
    uint32_t number;
    uint64_t len = 0;
    put_hello(&w, 3, 0, 0, digest, "front");
    EXPECT(deliver(&w), HINDCORE_DONE);
    EXPECT(deliver(&w), HINDCORE_DONE);
    EXPECT(hindcore_hub_deliver(&hub, bytes, 3), HINDCORE_NO_MESSAGE);
    EXPECT(hindcore_hub_next(&hub, out, sizeof out, &len), HINDCORE_NOTHING);
    EXPECT(hindcore_hub_take(&hub, &trace), HINDCORE_NOTHING);
    EXPECT(hindcore_hub_saved(&hub, &trace), HINDCORE_NOTHING);
    EXPECT(hindcore_hub_acknowledge(&hub, &message), HINDCORE_NOTHING);
    EXPECT(hindcore_hub_part(&hub, &number), HINDCORE_NOTHING);
    EXPECT(hindcore_hub_node(&hub, 0, &number), HINDCORE_NOTHING);
    EXPECT(hindcore_hub_life(&hub, 0, 3, &life), HINDCORE_NOTHING);
    EXPECT(hindcore_hub_row(&hub, &row, out, sizeof out), HINDCORE_NOTHING);

    w.len = 0;
    put_told(&w, 3, 1, 0, &group, 0, 1 << 2, lateral, 1);
    EXPECT(deliver(&w), HINDCORE_HELD);
    EXPECT(hindcore_hub_next(&hub, out, 59, &len), HINDCORE_SHORT);
    EXPECT(len, 60); /* 44 and one lateral */
    EXPECT(hindcore_hub_next(&hub, out, 60, &len), HINDCORE_DONE);
    EXPECT(len, 60);
    EXPECT(hindcore_message_head(out, 60, &head), HINDCORE_DONE);
    HOLDS(head.kind == 3 && head.node == 2 && head.epoch == 9 && head.number == 0);
    EXPECT(hindcore_hub_next(&hub, out, sizeof out, &len), HINDCORE_NOTHING);

    w.len = 0;
    put_told(&w, 5, 0, 2, &group, 1, 1 << 0, lateral, 1);
    EXPECT(deliver(&w), HINDCORE_HELD);
    begin_page(&p, lead, 2, 1, 6, 20);
    put_piece(&p, 100, "abc", 3);
    put_piece(&p, 200, "", 0);
    end_page(&p, 2);
    w.len = 0;
    put_reported(&w, 5, 1, 2, &group, 1, 4, p.bytes, p.len);
    EXPECT(deliver(&w), HINDCORE_HELD);
    w.len = 0;
    put_standing(&w, 5, 2, 2, lead, &group, SAYS_WHOLE, 0, 8, 1, 1 << 0, 0);
    EXPECT(deliver(&w), HINDCORE_HELD);
    w.len = 0;
    put_standing(&w, 3, 2, 0, lead, &group, SAYS_OPEN, 3, 0, 0, 0, 0);
    EXPECT(deliver(&w), HINDCORE_HELD);
    EXPECT(hindcore_hub_take(&hub, &trace), HINDCORE_NOTHING); /* node 0 has open segments */
    w.len = 0;
    put_standing(&w, 3, 3, 0, lead, &group, SAYS_UNHEARD, 0, 70, 0, 0, 0);
    EXPECT(deliver(&w), HINDCORE_HELD);
    EXPECT(hindcore_hub_counts(&hub, &counts), HINDCORE_DONE);
    HOLDS(counts.groups == 1 && counts.traces == 1 && counts.bytes == p.len && counts.standings == 2);
    EXPECT(counts.messages, 8); /* two told wait for two traces each */

    EXPECT(hindcore_hub_take(&hub, &trace), HINDCORE_DONE);
    HOLDS(!memcmp(trace.bytes, lead, 16));
    EXPECT(hindcore_hub_part(&hub, &number), HINDCORE_DONE);
    EXPECT(number, 0);
    EXPECT(hindcore_hub_claim(&hub, 0, &claim), HINDCORE_DONE);
    HOLDS(!memcmp(claim.lead.bytes, lead, 16) && claim.number == 7 && claim.trigger == 1 && claim.node == 0 && claim.laterals == 1);
    EXPECT(hindcore_hub_claim(&hub, 1, &claim), HINDCORE_NOTHING);
    EXPECT(hindcore_hub_lateral(&hub, 0, 0, &trace), HINDCORE_DONE);
    HOLDS(!memcmp(trace.bytes, lateral, 16));
    EXPECT(hindcore_hub_lateral(&hub, 0, 1, &trace), HINDCORE_NOTHING);
    for (uint16_t node = 0; node < 4; node++) {
        EXPECT(hindcore_hub_node(&hub, node, &number), HINDCORE_DONE);
        EXPECT(number, node % 2 ? HINDCORE_NOT_ASKED : HINDCORE_ANSWERED);
    }
    EXPECT(hindcore_hub_life_at(&hub, 0, &id), HINDCORE_DONE);
    HOLDS(id.node == 2 && id.epoch == 5);
    EXPECT(hindcore_hub_life_at(&hub, 1, &id), HINDCORE_DONE);
    HOLDS(id.node == 0 && id.epoch == 3);
    EXPECT(hindcore_hub_life_at(&hub, 2, &id), HINDCORE_NOTHING);
    EXPECT(hindcore_hub_life(&hub, 2, 5, &life), HINDCORE_DONE);
    HOLDS(life.word == HINDCORE_WHOLE && life.horizon == 8);
    EXPECT(hindcore_hub_life(&hub, 0, 3, &life), HINDCORE_DONE);
    HOLDS(life.word == HINDCORE_UNHEARD && life.horizon == 70);
    EXPECT(hindcore_hub_life(&hub, 0, 4, &life), HINDCORE_DONE);
    EXPECT(life.word, HINDCORE_MUTE);
    for (int again = 0; again < 2; again++) {
        EXPECT(hindcore_hub_row(&hub, &row, out, 2), HINDCORE_DONE); /* two bytes of three */
        HOLDS(row.node == 2 && row.client == 1 && row.page == 6 && row.epoch == 5 && row.core == 4 && row.number == 20 && row.moment == 100 && row.len == 3);
        HOLDS(row.missing_pages == 6 && row.missing_records == 20 && row.continues == 0 && !memcmp(out, "ab", 2));
        EXPECT(hindcore_hub_row(&hub, &row, out, sizeof out), HINDCORE_DONE);
        HOLDS(row.number == 21 && row.moment == 200 && row.len == 0 && row.missing_pages == 0 && row.missing_records == 0);
        EXPECT(hindcore_hub_row(&hub, &row, out, sizeof out), HINDCORE_NOTHING);
        EXPECT(hindcore_hub_take(&hub, &trace), HINDCORE_NOTHING); /* from the first on again */
    }
    number = 7;
    while (hindcore_hub_whole(&hub, &number) == HINDCORE_MEMORY) EXPECT(number, 7);
    EXPECT(number, 0); /* node 0, to which a crumb led, may have forgotten the trace */
    EXPECT(hindcore_hub_acknowledge(&hub, &message), HINDCORE_NOTHING);
    EXPECT(hindcore_hub_saved(&hub, &trace), HINDCORE_DONE);
    HOLDS(!memcmp(trace.bytes, lead, 16));
    /* the page and the standings of the lead; what was told waits for the lateral too */
    int named = 0;
    while (hindcore_hub_acknowledge(&hub, &message) == HINDCORE_DONE) {
        HOLDS((message.node == 2 && message.epoch == 5 && (message.number == 1 || message.number == 2)) || (message.node == 0 && message.epoch == 3 && message.number >= 2));
        named++;
    }
    EXPECT(named, 4);
    EXPECT(hindcore_hub_pass(&hub), HINDCORE_DONE);
    EXPECT(hindcore_hub_counts(&hub, &counts), HINDCORE_DONE);
    HOLDS(counts.passes == 1 && counts.bytes == 0 && counts.messages == 2);
}

static void full(void) {
    writing w = {bytes, 0};
    uint32_t code = HINDCORE_HELD;
    hindcore_hub_count before, after;
    EXPECT(open_with(text), HINDCORE_DONE);
    for (uint32_t n = 0; n < 1000 && code == HINDCORE_HELD; n++) {
        uint8_t trace[16] = {(uint8_t)n, (uint8_t)(n >> 8), 1};
        group_id another = {1, n, 1, trace};
        w.len = 0;
        put_told(&w, 3, n, 1, &another, 0, 1 << 2, NULL, 0);
        hindcore_hub_counts(&hub, &before);
        code = hindcore_hub_deliver(&hub, w.bytes, w.len);
    }
    EXPECT(code, HINDCORE_FULL);
    hindcore_hub_counts(&hub, &after);
    HOLDS(!memcmp(&before, &after, sizeof before) && after.groups >= 4);
    EXPECT(hindcore_hub_free(&hub), HINDCORE_DONE);
}

/* Each allocation is refused in turn: nothing changes then, and a second try has the same outcome. */
static void refused_memory(void) {
    long tried = 0, made = 0;
    for (;; tried++) {
        allocations = 0;
        refused_at = tried;
        uint32_t code = open_with(text);
        if (code == HINDCORE_DONE) break;
        EXPECT(code, HINDCORE_MEMORY);
        EXPECT(live, 0);
    }
    made = allocations;
    refused_at = -1;
    EXPECT(hindcore_hub_free(&hub), HINDCORE_DONE);
    EXPECT(live, 0);
    for (long all = made + 1; tried < all; tried++) {
        EXPECT(open_with(text), HINDCORE_DONE);
        allocations = made;
        refused_at = tried;
        a_life();
        all = allocations;
        refused_at = -1;
        EXPECT(hindcore_hub_free(&hub), HINDCORE_DONE);
        EXPECT(live, 0);
    }
    printf("%ld allocations refused, %ld of making\n", tried, made);
}

int main(void) {
    vacant_handles();
    refused_settings();
    EXPECT(open_with(text), HINDCORE_DONE);
    a_life();
    EXPECT(hindcore_hub_free(&hub), HINDCORE_DONE);
    full();
    refused_memory();
    if (failed) fprintf(stderr, "%d failed\n", failed);
    return failed != 0;
}
