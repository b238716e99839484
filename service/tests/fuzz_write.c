/* Bytes of any kind as many calls in one, as a message for a node, and as a message for a hub. How many calls are done is held against a second
 * reader, which was written from the table of docs/FORMATS.md, "Many calls in one". */
#include "hindsight.h"
#include <stdio.h>
#include <stdlib.h>
#include <string.h>

unsigned long long fuzz_taken;

size_t LLVMFuzzerMutate(uint8_t *bytes, size_t len, size_t most);
size_t LLVMFuzzerCustomMutator(uint8_t *bytes, size_t len, size_t most, unsigned seed);
int LLVMFuzzerTestOneInput(const uint8_t *bytes, size_t len);

static hind_node *node;
static hind_hub *hub;
static hind_client *client;

static void wrong(const char *why) {
    fprintf(stderr, "%s\n", why);
    abort();
}

static void start(void) {
    static const char text[] = "triggerid 1\nauto 0 exception 1\nnodes 4\nbuffers 256\nsize 256\nthreshold 64\npins 32\nclients 1\nbacklog 8\nhold 4\ngroups 4\nbytes 65536\n";
    hind_node_options for_node = HIND_NODE_OPTIONS_INIT;
    hind_hub_options for_hub = HIND_HUB_OPTIONS_INIT;
    for_node.settings = for_hub.settings = text;
    for_node.settings_len = for_hub.settings_len = sizeof text - 1;
    for_node.epoch = for_hub.epoch = 1;
    if (hind_node_open(&for_node, &node) || hind_hub_open(&for_hub, &hub) || hind_client_open(node, &client)) wrong("not opened");
}

/* Where whole calls end, at most: the second reader. */
static size_t spelled(const uint8_t *b, size_t len) {
    size_t at = 0;
    for (;;) {
        size_t left = len - at, one = 0;
        if (!left) return at;
        if (b[at] == 'B') one = 1 + 16;
        if (b[at] == 'P' && left >= 11) one = 1 + 8 + 2 + (size_t)(b[at + 9] * 256 + b[at + 10]);
        if (b[at] == 'C') one = 1 + 2;
        if (b[at] == 'K') one = 1 + 16 + 2;
        if (b[at] == 'T' && left >= 19) one = 1 + 1 + 16 + 1 + 16 * (size_t)b[at + 18];
        if (b[at] == 'S') one = 1 + 4 + 8;
        if (b[at] == 'E') one = 1;
        if (!one || one > left) return at;
        at += one;
    }
}

/* Messages go nowhere. */
static void drain(void) {
    hind_message m;
    (void)hind_node_pass(node);
    while (hind_node_next(node, &m) == HIND_OK) {
        (void)hind_hub_deliver(hub, m.bytes, m.len);
        if (hind_node_sent(node, m.number) || hind_node_acknowledged(node, m.number)) wrong("a message cannot be sent");
    }
}

static void write_all(const uint8_t *bytes, size_t len) {
    size_t calls, used, most = spelled(bytes, len);
    hind_code code = hind_write(client, bytes, len, &calls, &used);
    if (used > most || calls > used) wrong("more was done than is spelled");
    if (code == HIND_OK && used != len) wrong("not all was done");
    if (code == HIND_REFUSED && used != most) wrong("a call was refused");
    if (spelled(bytes, used) != used) wrong("it ended inside a call");
    fuzz_taken += calls > 0;
}

/* The same bytes as one record of pieces, which are as long as the bytes say. */
static void point_pieces(const uint8_t *bytes, size_t len) {
    struct iovec pieces[8];
    size_t at = 0, count = len % 9;
    for (size_t i = 0; i < count; i++) {
        size_t one = i + 1 < count ? bytes[i % len] * (size_t)(bytes[(i + 1) % len] % 4) : len - at;
        if (one > len - at) one = len - at;
        pieces[i] = (struct iovec){(void *)(uintptr_t)(bytes + at), one};
        at += one;
    }
    hind_code code = hind_pointv(client, pieces, count);
    if (code != HIND_OK && code != HIND_NOTRACE && code != HIND_FULL) wrong(hind_errname(code));
    /* a length that no record has is answered before a byte is read */
    if (count && (code = hind_pointv(client, &(struct iovec){(void *)(uintptr_t)bytes, SIZE_MAX - len}, 1)) != HIND_TOOLONG && code != HIND_NOTRACE) wrong(hind_errname(code));
}

int LLVMFuzzerTestOneInput(const uint8_t *bytes, size_t len) {
    const hind_trace_id id = {{1}};
    if (!node) start();
    if (len % 4) (void)hind_begin(client, &id);
    else (void)hind_end(client);
    write_all(bytes, len);
    point_pieces(bytes, len);
    (void)hind_node_deliver(node, bytes, len);
    (void)hind_hub_deliver(hub, bytes, len);
    drain();
    return 0;
}

/* Calls of some kind are put together; now and then bytes are changed, an ask takes their place, or it begins anew. */
size_t LLVMFuzzerCustomMutator(uint8_t *bytes, size_t len, size_t most, unsigned seed) {
    static const uint8_t lens[] = {17, 14, 3, 19, 19, 13, 1};
    static const uint8_t ask[44] = {1, 3, 0, 0, 0, 0, 0, 0, 0, 9, 0, 0, 0, 0, 0, 0, 0, 1, 0, 0, 0, 2, 0, 0, 0, 7, 1, 0xa1};
    size_t kind = seed / 16 % 7;
    if (seed % 16 == 0) {
        memcpy(bytes, ask, sizeof ask);
        bytes[25] = (uint8_t)(seed >> 8);
        return sizeof ask;
    }
    if (seed % 16 < 4) return LLVMFuzzerMutate(bytes, len, most);
    if (seed % 16 < 8 || len > 200 || len + lens[kind] > most) len = 0;
    memset(bytes + len, 0, lens[kind]);
    bytes[len] = (uint8_t)"BPCKTSE"[kind];
    if (kind == 1) bytes[len + 10] = 3;
    if (kind == 4) bytes[len + 1] = 1;
    if (kind == 0 || kind == 3) bytes[len + 1] = (uint8_t)(1 + (seed >> 8) % 4);
    return len + lens[kind];
}
