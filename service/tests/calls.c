/* Each call of the core, as C makes it: what it answers where all is well, what it answers to each misuse that it tests for, and what is left
 * where memory is refused. Expected values are from docs/RULES.md, docs/FORMATS.md and the header. */
#include "expect.h"
#include "hindcore.h"
#include "refusing.h"
#include <stdio.h>
#include <stdlib.h>
#include <string.h>

/* ---- a node with two clients */

static const char text[] = "triggerid 1\ntriggerid 3 2 5 1\nauto 0 queue 3 2 5000 2\nnodes 4\nbuffers 64\nsize 256\nthreshold 8\npins 8\nclients 2\nbacklog 8\n";
static const uint8_t bytes[200];
static hindcore_client clients[2];
static hindcore_port port;
static hindcore_fault fault;
static const hindcore_trace first = {{0, 0, 0, 0, 0, 0, 0, 0, 0, 0, 0, 0, 0, 0, 0, 1}}, second = {{2}};

static uint32_t open_with(const char *settings, uint16_t node) { return hindcore_open((const uint8_t *)settings, strlen(settings), node, &port, &fault); }

static void open_all(uint16_t node) {
    EXPECT(open_with(text, node), HINDCORE_DONE);
    /* the last client is handed out first */
    EXPECT(hindcore_client_open(&port, &clients[1]), HINDCORE_DONE);
    EXPECT(hindcore_client_open(&port, &clients[0]), HINDCORE_DONE);
}

static void close_all(void) {
    EXPECT(hindcore_client_free(&clients[0]), HINDCORE_DONE);
    EXPECT(hindcore_client_free(&clients[1]), HINDCORE_DONE);
    EXPECT(hindcore_port_free(&port), HINDCORE_DONE);
}

static void vacant_handles(void) {
    hindcore_client none;
    hindcore_port nowhere;
    hindcore_count counts;
    uint64_t waits = 7;
    memset(&none, 0, sizeof none);
    memset(&nowhere, 0, sizeof nowhere);
    EXPECT(hindcore_client_open(&nowhere, &none), HINDCORE_VACANT);
    EXPECT(hindcore_begin(&none, &first), HINDCORE_VACANT);
    EXPECT(hindcore_point(&none, 1, bytes, 3), HINDCORE_VACANT);
    EXPECT(hindcore_crumb(&none, 1), HINDCORE_VACANT);
    EXPECT(hindcore_crumb_of(&none, &first, 1), HINDCORE_VACANT);
    EXPECT(hindcore_trigger(&none, 1, 1, &first, NULL, 0), HINDCORE_VACANT);
    EXPECT(hindcore_sample(&none, 1, 0, 1), HINDCORE_VACANT);
    EXPECT(hindcore_end(&none), HINDCORE_VACANT);
    EXPECT(hindcore_flush(&none, &waits), HINDCORE_VACANT);
    EXPECT(waits, 7);
    EXPECT(hindcore_counts(&none, &counts), HINDCORE_VACANT);
    EXPECT(hindcore_client_free(&none), HINDCORE_VACANT);
    EXPECT(hindcore_take(&nowhere, 0), HINDCORE_VACANT);
    EXPECT(hindcore_take_notes(&nowhere, 0), HINDCORE_VACANT);
    EXPECT(hindcore_port_free(&nowhere), HINDCORE_VACANT);
    hindcore_node nobody;
    memset(&nobody, 0, sizeof nobody);
    EXPECT(hindcore_node_limited(&nobody, &waits), HINDCORE_VACANT);
    EXPECT(waits, 7);
}

static void refused_settings(void) {
    EXPECT(open_with("triggerid 1\nnodes 0\n", 0), HINDCORE_SETTINGS);
    EXPECT(fault.line, 2);
    EXPECT(fault.reason, 8);
    EXPECT(open_with("triggerid 1\nnodes 4", 0), HINDCORE_SETTINGS);
    EXPECT(fault.line, 2);
    EXPECT(fault.reason, 1);
    EXPECT(open_with("triggerid 1\nbuffers 64\nthreshold 64\n", 0), HINDCORE_SETTINGS);
    EXPECT(fault.line, 0);
    EXPECT(fault.reason, 11);
    EXPECT(open_with(text, 4), HINDCORE_UNFIT); /* the nodes are 0 to 3 */
    EXPECT(port.live, 0);
}

static void a_life(void) {
    uint8_t payload[65536] = {0};
    uint64_t waits;
    hindcore_count counts;
    hindcore_client *c = &clients[0], more;
    open_all(0);
    EXPECT(open_with(text, 0), HINDCORE_BUSY);
    EXPECT(hindcore_client_open(&port, c), HINDCORE_BUSY);
    memset(&more, 0, sizeof more);
    EXPECT(hindcore_client_open(&port, &more), HINDCORE_NOTHING);
    EXPECT(more.live, 0);
    /* no trace is open */
    EXPECT(hindcore_point(c, 1, payload, 3), HINDCORE_NO_TRACE);
    EXPECT(hindcore_crumb(c, 1), HINDCORE_NO_TRACE);
    EXPECT(hindcore_sample(c, 1, 0, 1), HINDCORE_NO_TRACE);
    EXPECT(hindcore_end(c), HINDCORE_NO_TRACE);
    /* a trace */
    EXPECT(hindcore_begin(c, &first), HINDCORE_DONE);
    EXPECT(hindcore_begin(c, &second), HINDCORE_OPEN);
    EXPECT(hindcore_point(c, 1, payload, 0), HINDCORE_DONE);
    EXPECT(hindcore_point(c, 2, payload, 100), HINDCORE_DONE);
    EXPECT(hindcore_point(c, 3, payload, 65536), HINDCORE_TOO_WIDE);
    EXPECT(hindcore_crumb(c, 3), HINDCORE_DONE);
    EXPECT(hindcore_crumb(c, 4), HINDCORE_UNKNOWN);
    EXPECT(hindcore_sample(c, 4, 0, 9), HINDCORE_DONE);
    EXPECT(hindcore_sample(c, 4, 1, 9), HINDCORE_UNKNOWN);
    EXPECT(hindcore_end(c), HINDCORE_DONE);
    EXPECT(hindcore_end(c), HINDCORE_NO_TRACE);
    /* what needs none */
    EXPECT(hindcore_crumb_of(c, &first, 2), HINDCORE_DONE);
    EXPECT(hindcore_crumb_of(c, &first, 4), HINDCORE_UNKNOWN);
    EXPECT(hindcore_trigger(c, 5, 1, &first, &second, 1), HINDCORE_DONE);
    EXPECT(hindcore_trigger(c, 5, 2, &first, NULL, 0), HINDCORE_UNKNOWN);
    hindcore_trace many[33];
    memset(many, 1, sizeof many);
    EXPECT(hindcore_trigger(c, 5, 1, &first, many, 33), HINDCORE_UNFIT);
    EXPECT(hindcore_trigger(c, 5, 1, &first, many, 32), HINDCORE_DONE);
    EXPECT(hindcore_flush(c, &waits), HINDCORE_DONE);
    EXPECT(waits, 0);
    EXPECT(hindcore_counts(c, &counts), HINDCORE_DONE);
    EXPECT(counts.points, 2);
    EXPECT(counts.null_pages, 0);
    EXPECT(counts.stray_points, 1);
    EXPECT(counts.long_points, 1);
    EXPECT(counts.full_points + counts.spent_points + counts.refused_crumbs + counts.refused_triggers + counts.dropped_notes, 0);
    /* the agent's side: one chunk came of client 0, none of client 1, and there is no client 2 */
    EXPECT(hindcore_take(&port, 0), HINDCORE_DONE);
    EXPECT(hindcore_take(&port, 0), HINDCORE_NOTHING);
    EXPECT(hindcore_take(&port, 1), HINDCORE_NOTHING);
    EXPECT(hindcore_take(&port, 2), HINDCORE_UNKNOWN);
    EXPECT(hindcore_take_notes(&port, 0), HINDCORE_DONE);
    close_all();
    EXPECT(hindcore_client_free(c), HINDCORE_VACANT);
}

/* Pages of 256 bytes have room for two records of 100, and 8 places wait beside a ring of 8: the nineteenth page finds no place. */
static void a_full_outbox(void) {
    uint8_t payload[100] = {0};
    hindcore_count counts;
    open_all(1);
    EXPECT(hindcore_begin(&clients[1], &first), HINDCORE_DONE);
    uint32_t code = HINDCORE_DONE;
    long done = 0;
    while ((code = hindcore_point(&clients[1], 1, payload, sizeof payload)) == HINDCORE_DONE) done++;
    EXPECT(code, HINDCORE_FULL);
    EXPECT(done, 34); /* 17 pages: 8 in the ring, 8 in the outbox, and the open one */
    EXPECT(hindcore_end(&clients[1]), HINDCORE_FULL);
    EXPECT(hindcore_take(&port, 1), HINDCORE_DONE);
    EXPECT(hindcore_end(&clients[1]), HINDCORE_DONE);
    EXPECT(hindcore_counts(&clients[1], &counts), HINDCORE_DONE);
    EXPECT(counts.points, 34);
    EXPECT(counts.full_points, 1);
    close_all();
}

/* A header of 24 bytes and two records of 10 beside 10 are a page of 64 bytes. There are 4 buffers: the ninth record begins the fifth page and finds none.
 * The tenth goes to the page of the ninth. */
static void an_empty_pool(void) {
    static const char few[] = "triggerid 1\nnodes 4\nbuffers 4\nsize 64\nthreshold 1\npins 1\nclients 1\nbacklog 8\n";
    hindcore_count counts;
    hindcore_client *c = &clients[0];
    uint64_t waits;
    EXPECT(open_with(few, 0), HINDCORE_DONE);
    EXPECT(hindcore_client_open(&port, c), HINDCORE_DONE);
    EXPECT(hindcore_begin(c, &first), HINDCORE_DONE);
    for (int i = 1; i <= 8; i++) EXPECT(hindcore_point(c, 1, bytes, 10), HINDCORE_DONE);
    EXPECT(hindcore_point(c, 9, bytes, 10), HINDCORE_DRY);
    EXPECT(hindcore_point(c, 10, bytes, 10), HINDCORE_DONE);
    EXPECT(hindcore_point(c, 11, bytes, 10), HINDCORE_DRY);
    EXPECT(hindcore_counts(c, &counts), HINDCORE_DONE);
    EXPECT(counts.points, 11);
    EXPECT(counts.null_pages, 2);
    /* what is no point is as ever, and so is a point that is refused */
    EXPECT(hindcore_crumb(c, 1), HINDCORE_DONE);
    EXPECT(hindcore_trigger(c, 5, 1, &first, NULL, 0), HINDCORE_DONE);
    static const uint8_t wide[65536];
    EXPECT(hindcore_point(c, 12, wide, sizeof wide), HINDCORE_TOO_WIDE);
    EXPECT(hindcore_end(c), HINDCORE_DONE);
    EXPECT(hindcore_point(c, 13, bytes, 10), HINDCORE_NO_TRACE);
    /* Two buffers come back. A record of 61 bytes has pieces of 30, 30 and 1, each on a page of its own: the last finds no buffer. */
    EXPECT(hindcore_take(&port, 0), HINDCORE_DONE);
    EXPECT(hindcore_take(&port, 0), HINDCORE_DONE);
    EXPECT(hindcore_begin(c, &second), HINDCORE_DONE);
    EXPECT(hindcore_point(c, 14, bytes, 61), HINDCORE_DRY);
    EXPECT(hindcore_end(c), HINDCORE_DONE);
    EXPECT(hindcore_flush(c, &waits), HINDCORE_DONE);
    for (int i = 0; i < 4; i++) EXPECT(hindcore_take(&port, 0), HINDCORE_DONE);
    EXPECT(hindcore_take(&port, 0), HINDCORE_NOTHING);
    /* all four are free */
    EXPECT(hindcore_begin(c, &first), HINDCORE_DONE);
    for (int i = 1; i <= 8; i++) EXPECT(hindcore_point(c, 15, bytes, 10), HINDCORE_DONE);
    EXPECT(hindcore_point(c, 16, bytes, 10), HINDCORE_DRY);
    EXPECT(hindcore_counts(c, &counts), HINDCORE_DONE);
    EXPECT(counts.points, 21);
    EXPECT(counts.null_pages, 4);
    EXPECT(hindcore_client_free(c), HINDCORE_DONE);
    EXPECT(hindcore_port_free(&port), HINDCORE_DONE);
}

/* Of 16 clients each has 524,287 of the 2^23 - 1 draws that all may make before they look at the counts of the pool again. A page of 64 bytes has room
 * for one record of 30. The client that is handed out first has the number 15. */
static void more_draws_than_a_share(void) {
    static const char many[] = "triggerid 1\nnodes 4\nbuffers 20\nsize 64\nthreshold 1\npins 1\nclients 16\nbacklog 16\n";
    hindcore_client *c = &clients[0];
    hindcore_count counts;
    EXPECT(open_with(many, 0), HINDCORE_DONE);
    EXPECT(hindcore_client_open(&port, c), HINDCORE_DONE);
    for (int i = 0; i < 600000 && !failed; i++) {
        EXPECT(hindcore_begin(c, &first), HINDCORE_DONE);
        EXPECT(hindcore_point(c, 1, bytes, 30), HINDCORE_DONE);
        EXPECT(hindcore_end(c), HINDCORE_DONE);
        EXPECT(hindcore_take(&port, 15), HINDCORE_DONE);
    }
    /* one segment of as many pages: the page of each record is sent when the next one comes */
    EXPECT(hindcore_begin(c, &second), HINDCORE_DONE);
    EXPECT(hindcore_point(c, 2, bytes, 30), HINDCORE_DONE);
    for (int i = 0; i < 600000 && !failed; i++) {
        EXPECT(hindcore_point(c, 2, bytes, 30), HINDCORE_DONE);
        EXPECT(hindcore_take(&port, 15), HINDCORE_DONE);
    }
    EXPECT(hindcore_end(c), HINDCORE_DONE);
    EXPECT(hindcore_take(&port, 15), HINDCORE_DONE);
    EXPECT(hindcore_counts(c, &counts), HINDCORE_DONE);
    EXPECT(counts.null_pages, 0);
    EXPECT(hindcore_client_free(c), HINDCORE_DONE);
    EXPECT(hindcore_port_free(&port), HINDCORE_DONE);
    /* Nobody takes: twenty pages get a buffer, and no other draw of the share does. Then numbers that are void stand out, and no look makes the share whole. */
    unsigned long dry = 0;
    uint32_t code;
    EXPECT(open_with(many, 0), HINDCORE_DONE);
    EXPECT(hindcore_client_open(&port, c), HINDCORE_DONE);
    EXPECT(hindcore_begin(c, &first), HINDCORE_DONE);
    for (int i = 0; i < 20; i++) EXPECT(hindcore_point(c, 3, bytes, 30), HINDCORE_DONE);
    while ((code = hindcore_point(c, 3, bytes, 30)) == HINDCORE_DRY && dry < 1000000) dry++;
    EXPECT(code, HINDCORE_SPENT);
    EXPECT(dry, 524267);
    EXPECT(hindcore_counts(c, &counts), HINDCORE_DONE);
    EXPECT(counts.null_pages, 524267);
    EXPECT(counts.spent_points, 1);
    /* each give misses once for each of them, and then the pool has its buffers again */
    for (int i = 0; i < 16; i++) EXPECT(hindcore_take(&port, 15), HINDCORE_DONE);
    EXPECT(hindcore_take(&port, 15), HINDCORE_NOTHING);
    for (int i = 0; i < 16; i++) EXPECT(hindcore_point(c, 4, bytes, 30), HINDCORE_DONE);
    EXPECT(hindcore_point(c, 4, bytes, 30), HINDCORE_DRY);
    EXPECT(hindcore_end(c), HINDCORE_DONE);
    EXPECT(hindcore_client_free(c), HINDCORE_DONE);
    EXPECT(hindcore_port_free(&port), HINDCORE_DONE);
}

/* Each allocation of making is refused in turn: nothing is made, and nothing is kept. */
static void refused_memory(void) {
    long before = live, tried = 0;
    for (;; tried++) {
        allocations = 0;
        refused_at = tried;
        uint32_t code = open_with(text, 0);
        refused_at = -1;
        if (code == HINDCORE_DONE) break;
        EXPECT(code, HINDCORE_MEMORY);
        EXPECT(live, before);
        EXPECT(port.live, 0);
        if (failed || tried > 100000) return;
    }
    EXPECT(tried > 20, 1);
    /* no call of a client takes memory */
    allocations = 0;
    EXPECT(hindcore_client_open(&port, &clients[1]), HINDCORE_DONE);
    EXPECT(hindcore_client_open(&port, &clients[0]), HINDCORE_DONE);
    EXPECT(hindcore_begin(&clients[0], &first), HINDCORE_DONE);
    EXPECT(hindcore_point(&clients[0], 1, bytes, sizeof bytes), HINDCORE_DONE);
    EXPECT(hindcore_trigger(&clients[0], 1, 1, &first, &second, 1), HINDCORE_DONE);
    EXPECT(hindcore_end(&clients[0]), HINDCORE_DONE);
    EXPECT(hindcore_take(&port, 0), HINDCORE_DONE);
    EXPECT(allocations, 0);
    close_all();
    EXPECT(live, before);
    printf("%ld allocations refused\n", tried);
}

static uint64_t limited_of(hindcore_node *node) {
    uint64_t limited = 7;
    EXPECT(hindcore_node_limited(node, &limited), HINDCORE_DONE);
    return limited;
}

/* An id has a burst of one, and one token comes back in a second: the second of three triggers comes a microsecond too early. What is refused at the
 * client comes to no node, and is not counted. */
static void limited_triggers(void) {
    static const char one[] = "triggerid 1 1 1 1\nnodes 4\nbuffers 64\nsize 64\nthreshold 8\npins 8\nclients 1\n";
    static hindcore_node node;
    hindcore_client *c = &clients[0];
    uint32_t says;
    EXPECT(hindcore_node_open((const uint8_t *)one, sizeof one - 1, 0, 1, &node, &fault), HINDCORE_DONE);
    EXPECT(hindcore_node_client(&node, c), HINDCORE_DONE);
    EXPECT(hindcore_trigger(c, 5, 1, &first, NULL, 0), HINDCORE_DONE);
    EXPECT(hindcore_trigger(c, 1000004, 1, &second, NULL, 0), HINDCORE_DONE);
    EXPECT(hindcore_trigger(c, 1000005, 1, &second, NULL, 0), HINDCORE_DONE);
    EXPECT(hindcore_trigger(c, 1000006, 2, &second, NULL, 0), HINDCORE_UNKNOWN);
    EXPECT(limited_of(&node), 0);
    EXPECT(hindcore_node_pass(&node, &says), HINDCORE_DONE);
    EXPECT(limited_of(&node), 1);
    EXPECT(hindcore_node_pass(&node, &says), HINDCORE_DONE);
    EXPECT(limited_of(&node), 1);
    EXPECT(hindcore_client_free(c), HINDCORE_DONE);
    EXPECT(hindcore_node_free(&node), HINDCORE_DONE);
    EXPECT(live, 0);
}

/* ---- pages as they lie in buffers (docs/FORMATS.md, "The page") ---- */

/* the worked page there: trace 1, node 0, client 0, page 0, record 0, and a piece of one byte at moment 5 */
static const uint8_t worked[43] = {
    0, 0, 0, 0, 0, 0, 0, 0, 0, 0, 0, 0, 0, 0, 0, 1, 0, 0, 0, 0, 0, 0, 0, 0, 0, 0, 0, 0, 0x00, 0x01, 0x00, 0x23, /* one piece, 35 used bytes */
    0x00, 0x01, 0, 0, 0, 0, 0, 0, 0, 5, 0xaa,
};

/* Each field has a value of its own. The pieces cost 12, 10 and 13, so 59 bytes are used and the page has 67. Two bytes behind it are no part of it. */
static const uint8_t three[69] = {
    1, 2, 3, 4, 5, 6, 7, 8, 9, 10, 11, 12, 13, 14, 15, 16,      /* trace */
    0x21, 0x22, 0x23, 0x24,                                     /* node, client */
    0x31, 0x32, 0x33, 0x34, 0x41, 0x42, 0x43, 0x44,             /* page, record */
    0x00, 0x03, 0x00, 0x3b,                                     /* three pieces, 59 used bytes */
    0x00, 0x02, 0, 0, 0, 0, 0, 0, 0x01, 0x00, 7, 8,             /* two bytes at moment 256 */
    0x00, 0x00, 0, 0, 0, 0, 0, 0, 0, 9,                         /* none at moment 9 */
    0x00, 0x03, 0x01, 0, 0, 0, 0, 0, 0, 0x02, 0xaa, 0xbb, 0xcc, /* three at moment 2^56 + 2 */
    0xee, 0xee,
};

static hindcore_page page;
static hindcore_piece pieces[4];

static int is_blank(const void *at, size_t size) {
    const uint8_t *byte = at;
    for (size_t i = 0; i < size; i++)
        if (byte[i] != 0x55) return 0;
    return 1;
}

/* Reads bytes with room for so many pieces. Any answer but DONE writes nothing, and none writes behind the room. */
static uint32_t read_page(const uint8_t *at, size_t len, size_t room) {
    memset(&page, 0x55, sizeof page);
    memset(pieces, 0x55, sizeof pieces);
    uint32_t code = hindcore_page_read(at, len, &page, pieces, room);
    HOLDS(is_blank(pieces + room, sizeof pieces - room * sizeof *pieces));
    if (code != HINDCORE_DONE) HOLDS(is_blank(&page, sizeof page) && is_blank(pieces, sizeof pieces));
    return code;
}

/* The same of a buffer that ends where the bytes end. */
static uint32_t read_copy(const uint8_t *from, size_t len, size_t room) {
    uint8_t *copy = malloc(len + !len);
    if (!copy) abort();
    memcpy(copy, from, len);
    uint32_t code = read_page(copy, len, room);
    free(copy);
    return code;
}

/* The worked page with other counts. */
static uint32_t read_counts(uint16_t count, uint16_t used, size_t len) {
    uint8_t copy[sizeof worked + 1] = {0};
    memcpy(copy, worked, sizeof worked);
    copy[28] = (uint8_t)(count >> 8);
    copy[29] = (uint8_t)count;
    copy[30] = (uint8_t)(used >> 8);
    copy[31] = (uint8_t)used;
    return read_copy(copy, len, 4);
}

static void pages_in_buffers(void) {
    static const uint8_t one[16] = {0, 0, 0, 0, 0, 0, 0, 0, 0, 0, 0, 0, 0, 0, 0, 1};
    EXPECT(read_copy(worked, sizeof worked, 4), HINDCORE_DONE);
    HOLDS(memcmp(page.trace.bytes, one, sizeof one) == 0);
    EXPECT(page.page, 0);
    EXPECT(page.record, 0);
    EXPECT(page.node, 0);
    EXPECT(page.client, 0);
    EXPECT(page.pieces, 1);
    EXPECT(page.len, 43);
    EXPECT(pieces[0].moment, 5);
    EXPECT(pieces[0].len, 1);
    HOLDS(is_blank(pieces + 1, 3 * sizeof *pieces));
    /* more pieces than there is room for, as many, and fewer */
    for (size_t room = 0; room <= 4; room++) {
        EXPECT(read_copy(three, sizeof three, room), HINDCORE_DONE);
        HOLDS(memcmp(page.trace.bytes, three, sizeof page.trace.bytes) == 0);
        EXPECT(page.page, 0x31323334);
        EXPECT(page.record, 0x41424344);
        EXPECT(page.node, 0x2122);
        EXPECT(page.client, 0x2324);
        EXPECT(page.pieces, 3);
        EXPECT(page.len, 67);
        if (room > 0) EXPECT(pieces[0].moment, 256);
        if (room > 0) EXPECT(pieces[0].len, 2);
        if (room > 1) EXPECT(pieces[1].moment, 9);
        if (room > 1) EXPECT(pieces[1].len, 0);
        if (room > 2) EXPECT(pieces[2].moment, (UINT64_C(1) << 56) + 2);
        if (room > 2) EXPECT(pieces[2].len, 3);
        HOLDS(is_blank(pieces + 3, sizeof *pieces));
    }
    /* the counts show a page without pieces, though the bytes of one stand behind it already */
    EXPECT(read_counts(0, 24, sizeof worked), HINDCORE_DONE);
    EXPECT(page.pieces, 0);
    EXPECT(page.len, 32);
    HOLDS(is_blank(pieces, sizeof pieces));
    EXPECT(read_counts(0, 24, 32), HINDCORE_DONE);
    /* no room for a header, whatever the counts say */
    for (size_t len = 0; len < 32; len++) EXPECT(read_copy(three, len, 4), HINDCORE_SHORT);
    EXPECT(read_counts(0, 0, 31), HINDCORE_SHORT);
    /* no byte is used */
    EXPECT(read_counts(0, 0, sizeof worked), HINDCORE_NOTHING);
    EXPECT(read_counts(1, 0, sizeof worked), HINDCORE_NOTHING);
    EXPECT(read_counts(0, 0, 32), HINDCORE_NOTHING);
    /* counts and pieces that do not go together */
    EXPECT(read_counts(0, 35, sizeof worked), HINDCORE_TORN);
    EXPECT(read_counts(2, 35, sizeof worked), HINDCORE_TORN);
    EXPECT(read_counts(1, 34, sizeof worked), HINDCORE_TORN);
    EXPECT(read_counts(1, 36, sizeof worked + 1), HINDCORE_TORN);
    EXPECT(read_counts(1, 24, sizeof worked), HINDCORE_TORN);
    EXPECT(read_counts(0, 23, sizeof worked), HINDCORE_TORN);
    EXPECT(read_counts(1, 65535, sizeof worked), HINDCORE_TORN);
    /* the page goes beyond the bytes */
    for (size_t len = 32; len < 67; len++) EXPECT(read_copy(three, len, 4), HINDCORE_TORN);
    /* each allocation is refused in turn: nothing is written, and nothing is kept */
    long before = live, tried = 0;
    for (;; tried++) {
        allocations = 0;
        refused_at = tried;
        uint32_t code = read_page(three, sizeof three, 4);
        refused_at = -1;
        EXPECT(live, before);
        if (code == HINDCORE_DONE) break;
        EXPECT(code, HINDCORE_MEMORY);
        if (failed || tried > 1000) return;
    }
    HOLDS(tried > 0);
    /* nothing but a page takes memory */
    allocations = 0;
    EXPECT(read_page(three, 31, 4), HINDCORE_SHORT);
    EXPECT(read_page(three, 66, 4), HINDCORE_TORN);
    EXPECT(allocations, 0);
}

int main(void) {
    vacant_handles();
    refused_settings();
    a_life();
    a_full_outbox();
    an_empty_pool();
    more_draws_than_a_share();
    refused_memory();
    limited_triggers();
    pages_in_buffers();
    if (failed) fprintf(stderr, "%d failed\n", failed);
    return failed != 0;
}
