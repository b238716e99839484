/* Bytes of any kind, read as a message by the core and by a second reader, which was written from the tables of docs/FORMATS.md,
 * "Messages of a service". Both have to agree on which bytes are a message and on how it begins, and what the core copies has to be what it
 * read. libFuzzer mutates the bytes; half of its mutations change a field of a message and keep the rest. */
#include "hindcore.h"
#include <stdio.h>
#include <stdlib.h>
#include <string.h>

enum { MOST_NODES = 128, MOST_LATERALS = 32, MOST_NAME = 64, MOST_PAGE = 32776, FRONT = 20, MOST = FRONT + 35 + MOST_PAGE };

static uint64_t number(const uint8_t *at, int bytes) {
    uint64_t n = 0;
    for (int i = 0; i < bytes; i++) n = n << 8 | at[i];
    return n;
}

/* ---- the second reader: each answers the place behind what stands at a place, or 0 */

static size_t skip(size_t at, size_t bytes, size_t len) { return at && len - at >= bytes ? at + bytes : 0; }

static size_t node(const uint8_t *b, size_t at, size_t len) {
    size_t end = skip(at, 2, len);
    return end && number(b + at, 2) < MOST_NODES ? end : 0;
}

static size_t byte_up_to(const uint8_t *b, size_t at, unsigned most, size_t len) {
    size_t end = skip(at, 1, len);
    return end && b[at] <= most ? end : 0;
}

static size_t group(const uint8_t *b, size_t at, size_t len) { return skip(node(b, at, len), 4 + 1 + 16, len); }

static size_t laterals(const uint8_t *b, size_t at, size_t len) {
    size_t end = byte_up_to(b, at, MOST_LATERALS, len);
    return end ? skip(end, 16 * (size_t)b[at], len) : 0;
}

static size_t hello(const uint8_t *b, size_t len) {
    size_t at = skip(FRONT, 32, len), end = at ? byte_up_to(b, at, MOST_NAME, len) : 0;
    return end ? skip(end, b[at], len) : 0;
}

static size_t told(const uint8_t *b, size_t len) {
    size_t at = group(b, FRONT, len);
    at = at ? byte_up_to(b, at, 2, len) : 0;
    at = skip(at, 16, len);
    return at ? laterals(b, at, len) : 0;
}

static size_t ask(const uint8_t *b, size_t len) {
    size_t at = group(b, FRONT, len);
    return at ? laterals(b, at, len) : 0;
}

static size_t reported(const uint8_t *b, size_t len) {
    size_t at = skip(group(b, FRONT, len), 2 + 8, len), end = skip(at, 2, len);
    return end && number(b + at, 2) <= MOST_PAGE ? skip(end, (size_t)number(b + at, 2), len) : 0;
}

static size_t standing(const uint8_t *b, size_t len) {
    size_t at = skip(FRONT, 16, len);
    at = at ? node(b, at, len) : 0;
    at = skip(at, 4, len);
    at = at ? byte_up_to(b, at, 4, len) : 0;
    return skip(at, 4 + 8 + 8 + 16 + 9 * 8, len);
}

static int spells(const uint8_t *b, size_t len) {
    if (len < FRONT || b[0] != 1 || number(b + 18, 2) >= MOST_NODES) return 0;
    size_t end = 0;
    switch (b[1]) {
    case 1: end = hello(b, len); break;
    case 2: end = told(b, len); break;
    case 3: end = ask(b, len); break;
    case 4: end = reported(b, len); break;
    case 5: end = standing(b, len); break;
    default: return 0;
    }
    return end == len;
}

/* ---- both readers */

static void must(int holds, const char *what) {
    if (holds) return;
    fprintf(stderr, "fuzz_messages: %s\n", what);
    abort();
}

unsigned long long fuzz_taken;

int LLVMFuzzerTestOneInput(const uint8_t *bytes, size_t len);
int LLVMFuzzerTestOneInput(const uint8_t *bytes, size_t len) {
    static uint8_t out[MOST + 1];
    const hindcore_head before = {9, 9, 9, 9};
    hindcore_head head = before;
    uint32_t code = hindcore_message_head(bytes, len, &head);
    if (!spells(bytes, len)) {
        must(code == HINDCORE_NO_MESSAGE, "what spells no message was read as one");
        must(!memcmp(&head, &before, sizeof head), "a head was written for no message");
        must(hindcore_message_copy(bytes, len, out, sizeof out) == HINDCORE_NO_MESSAGE, "what spells no message was copied");
        return 0;
    }
    fuzz_taken++;
    must(code == HINDCORE_DONE, "a message was not read");
    must(head.kind == bytes[1] && head.epoch == number(bytes + 2, 8) && head.number == number(bytes + 10, 8) && head.node == number(bytes + 18, 2),
         "a message's head is another");
    out[len] = 0xa5;
    must(hindcore_message_copy(bytes, len, out, sizeof out) == HINDCORE_DONE, "a message was not copied");
    must(!memcmp(out, bytes, len) && out[len] == 0xa5, "a copy is another");
    must(hindcore_message_copy(bytes, len, out, len - 1) == HINDCORE_SHORT, "a copy went into too short a slice");
    return 0;
}

/* ---- mutations that keep most of a message */

size_t LLVMFuzzerMutate(uint8_t *bytes, size_t len, size_t most);

static uint32_t drawn(uint32_t *seed) { return *seed = *seed * 1664525u + 1013904223u, *seed >> 8; }

static size_t made(uint8_t *b, size_t most, uint32_t *seed) {
    static const size_t fronts[] = {0, 33, 41, 24, 35, 115};
    unsigned kind = 1 + drawn(seed) % 5, count = 0;
    size_t len = FRONT + fronts[kind];
    if (most < len + 600) return 0;
    for (size_t i = 0; i < len + 600; i++) b[i] = (uint8_t)drawn(seed);
    b[0] = 1;
    b[1] = (uint8_t)kind;
    b[18] = 0;
    b[19] &= 127;
    if (kind == 5) {
        b[36] = 0;
        b[37] &= 127;
        b[42] = (uint8_t)(drawn(seed) % 5);
        return len;
    }
    if (kind != 1) {
        b[20] = 0;
        b[21] &= 127;
    }
    if (kind == 2) b[43] = (uint8_t)(drawn(seed) % 3);
    count = drawn(seed) % (kind == 1 ? MOST_NAME + 1 : kind == 4 ? 500 : MOST_LATERALS + 1);
    if (kind == 4) b[53] = (uint8_t)(count >> 8);
    b[len - 1] = (uint8_t)count;
    return len + (kind == 2 || kind == 3 ? 16 * (size_t)count : count);
}

size_t LLVMFuzzerCustomMutator(uint8_t *bytes, size_t len, size_t most, unsigned seed);
size_t LLVMFuzzerCustomMutator(uint8_t *bytes, size_t len, size_t most, unsigned seed) {
    uint32_t draws = seed;
    switch (drawn(&draws) % 4) {
    case 0: { /* a message of its own */
        size_t end = made(bytes, most, &draws);
        return end ? end : LLVMFuzzerMutate(bytes, len, most);
    }
    case 1: /* a byte of the fields in front */
        if (len) bytes[drawn(&draws) % (len < 64 ? len : 64)] = (uint8_t)drawn(&draws);
        return len;
    case 2: /* a byte more or less at the end */
        if (drawn(&draws) % 2 && len < most) bytes[len++] = (uint8_t)drawn(&draws);
        else if (len) len--;
        return len;
    default: return LLVMFuzzerMutate(bytes, len, most);
    }
}
