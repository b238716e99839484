/* Pool files of any bytes behind a front with the right digest: what they show is held against a second reader, which was written from the tables of
 * docs/FORMATS.md ("The pool file", "The page"), and all that a later life makes of them spells messages. */
#define _GNU_SOURCE
#include "pool.h"
#include <fcntl.h>
#include <stdio.h>
#include <stdlib.h>
#include <string.h>
#include <unistd.h>

enum { BUFFERS = 12, BLOCK = 136, NOTES = 4, NOTES_AT = 4096, FIRST = NOTES_AT + NOTES * POOL_NOTE, FILE_BYTES = FIRST + BUFFERS * BLOCK };

unsigned long long fuzz_taken;

size_t LLVMFuzzerMutate(uint8_t *bytes, size_t len, size_t most);
size_t LLVMFuzzerCustomMutator(uint8_t *bytes, size_t len, size_t most, unsigned seed);
int LLVMFuzzerTestOneInput(const uint8_t *bytes, size_t len);

static const char settings[] = "nodes 2\nclients 1\nbuffers 12\nsize 128\nthreshold 4\npins 4\nbacklog 16\nremember 8\nclaims 4\ntriggerid 1 100 1000 1000000\n";
static char path[64], aside[96];

static void wrong(const char *why) {
    fprintf(stderr, "%s\n", why);
    abort();
}

static void digest(uint8_t *front) {
    hindlib_sha s;
    hindlib_sha_begin(&s);
    hindlib_sha_add(&s, front, 208);
    hindlib_sha_end(&s, front + 208);
}

/* ---- a file to begin with: some of what a life left */

static hind_node *open_node(uint64_t epoch) {
    hind_node_options o = HIND_NODE_OPTIONS_INIT;
    hind_node *node;
    o.epoch = epoch;
    o.settings = settings;
    o.settings_len = sizeof settings - 1;
    o.name = "n";
    o.pool_file = path;
    o.pool_kept = 1;
    return hind_node_open(&o, &node) == HIND_OK ? node : NULL;
}

static void live(void) {
    hind_node *node = open_node(7);
    hind_client *c;
    hind_message m;
    if (!node || hind_client_open(node, &c)) wrong("no node");
    for (uint8_t t = 1; t < 9; t++) {
        hind_trace_id id = {{1 + t % 4}};
        if (hind_begin(c, &id)) wrong("no trace");
        for (int i = 0; i < 4; i++) (void)hind_point_at(c, t, "some bytes and others", (size_t)(5 * i));
        if (t % 2) (void)hind_trigger(c, 1, NULL, NULL, 0);
        if (t < 8) (void)hind_end(c);
        (void)hind_node_pass(node);
        while (hind_node_next(node, &m) == HIND_OK) (void)hind_node_sent(node, m.number);
    }
    (void)hind_node_close(node);
    (void)hind_client_close(c);
}

/* The same with four notes, and no text of settings. */
static void shorten(const uint8_t *of, uint8_t *to) {
    memcpy(to, of, 4096);
    pool_put(to + 176, 8, 4096);
    pool_put(to + 184, 8, 0);
    pool_put(to + 16, 4, BLOCK);
    pool_put(to + 24, 8, FIRST);
    pool_put(to + 192, 8, NOTES_AT);
    pool_put(to + 200, 4, NOTES);
    memcpy(to + NOTES_AT, of + pool_number(of + 192, 8), NOTES * POOL_NOTE);
    for (size_t i = 0; i < BUFFERS; i++) memcpy(to + FIRST + i * BLOCK, of + pool_number(of + 24, 8) + i * pool_number(of + 16, 4), BLOCK);
    digest(to);
}

static const uint8_t *start(void) {
    static uint8_t first[FILE_BYTES], of[400000];
    if (*path) return first;
    snprintf(path, sizeof path, "/dev/shm/hindsight-fuzz-%ld", (long)getpid());
    live();
    FILE *f = fopen(path, "r");
    if (!f || !fread(of, 1, sizeof of, f)) wrong("no file");
    fclose(f);
    shorten(of, first);
    return first;
}

size_t LLVMFuzzerCustomMutator(uint8_t *bytes, size_t len, size_t most, unsigned seed) {
    const uint8_t *first = start();
    static const size_t parts[] = {0, 208, NOTES_AT, FIRST, FILE_BYTES};
    if (most < FILE_BYTES) return len;
    if (len < FILE_BYTES || seed % 64 == 0) memcpy(bytes, first, FILE_BYTES);
    size_t part = seed % 8 == 0 ? 0 : seed % 3 ? 3 : 2;
    (void)LLVMFuzzerMutate(bytes + parts[part], parts[part + 1] - parts[part], parts[part + 1] - parts[part]);
    if (seed % 16) digest(bytes);
    return FILE_BYTES;
}

/* ---- the second reader */

/* How many records a buffer shows; -1 where it is torn, -2 where it shows nothing. */
static int records_of(const uint8_t *b, size_t block) {
    size_t used = (size_t)b[30] << 8 | b[31], count = (size_t)b[28] << 8 | b[29], at = 32;
    if (!used) return -2;
    if (used < 24 || used + 8 > block) return -1;
    for (size_t i = 0; i < count; i++) {
        if (at + 10 > used + 8) return -1;
        at += 10 + ((size_t)b[at] << 8 | b[at + 1]);
    }
    return at == used + 8 ? (int)count : -1;
}

/* The sum of all bytes of the payloads of a page that reads. */
static uint64_t sum_of(const uint8_t *b, int records) {
    uint64_t sum = 0;
    for (const uint8_t *at = b + 32; records-- > 0; at += 10 + ((size_t)at[0] << 8 | at[1]))
        for (size_t i = 0; i < ((size_t)at[0] << 8 | at[1]); i++) sum += at[10 + i];
    return sum;
}

static void compare(const uint8_t *bytes, hind_salvage *s) {
    hind_salvage_info info = {.size = sizeof info};
    hind_salvaged_page page;
    hind_record r;
    size_t pages = 0, torn = 0, records = 0;
    uint64_t sum = 0;
    size_t block = pool_number(bytes + 12, 4), stride = pool_number(bytes + 16, 4), count = pool_number(bytes + 20, 4), first = pool_number(bytes + 24, 8);
    for (size_t i = 0; i < count; i++) {
        int found = records_of(bytes + first + i * stride, block);
        torn += found == -1;
        pages += found > 0;
        records += found > 0 ? (size_t)found : 0;
        sum += sum_of(bytes + first + i * stride, found);
    }
    if (hind_salvage_get_info(s, &info)) wrong("no info");
    if (info.pages != pages || info.torn != torn || info.buffers != count) wrong("another count of pages");
    for (size_t p = 0; hind_salvage_get_page(s, p, &page) == HIND_OK; p++)
        for (size_t at = 0; hind_salvage_get_record(s, p, at, &r) == HIND_OK; at++, records--)
            for (size_t i = 0; i < r.len; i++) sum -= r.payload[i];
    if (records || sum) wrong("other records");
}

/* What a later life hands out spells messages, of the life before or its own. */
static void salvage(void) {
    hind_node *node = open_node(UINT64_MAX);
    hind_message m;
    hindcore_head head;
    size_t count = 0;
    if (!node) return;
    while (hind_node_next(node, &m) == HIND_OK) {
        if (hindcore_message_head(m.bytes, m.len, &head) != HINDCORE_DONE) wrong("a message that spells none");
        if (hind_node_sent(node, m.number) || hind_node_acknowledged(node, m.number) || count++ > 1000) wrong("a message that stays");
    }
    (void)hind_node_close(node);
}

int LLVMFuzzerTestOneInput(const uint8_t *bytes, size_t len) {
    hind_salvage *s;
    (void)start();
    int fd = open(path, O_RDWR | O_CREAT | O_TRUNC, 0600);
    if (fd < 0 || write(fd, bytes, len) != (ssize_t)len) wrong("no file");
    close(fd);
    if (hind_salvage_open(path, &s) == HIND_OK) {
        fuzz_taken++;
        compare(bytes, s);
        hind_salvage_close(s);
        snprintf(aside, sizeof aside, "%s.%016llx", path, (unsigned long long)pool_number(bytes + 32, 8));
        salvage();
        (void)unlink(aside);
    }
    (void)unlink(path);
    return 0;
}
