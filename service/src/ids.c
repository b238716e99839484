/* Fresh ids. */
#define _GNU_SOURCE
#include "within.h"
#include <string.h>
#include <sys/random.h>

/* ---- random ids: the system's random bytes begin a generator in each thread, and in a child anew, or it would draw its parent's ids */

static __thread uint64_t state[2];
static __thread unsigned seeded_in;

static int seed(void) {
    hindlib_count_forks();
    if ((state[0] | state[1]) && seeded_in == hindlib_forks) return 1;
    do {
        if (getrandom(state, sizeof state, 0) != (ssize_t)sizeof state) return 0;
    } while (!(state[0] | state[1]));
    seeded_in = hindlib_forks;
    return 1;
}

static uint64_t rotated(uint64_t x, int by) { return x << by | x >> (64 - by); }

/* xoroshiro128++ */
static uint64_t drawn(void) {
    uint64_t a = state[0], b = state[1], result = rotated(a + b, 17) + a;
    b ^= a;
    state[0] = rotated(a, 49) ^ b ^ (b << 21);
    state[1] = rotated(b, 28);
    return result;
}

static hind_code new_id(uint8_t *bytes, size_t words) {
    uint64_t drawn_words[2] = {0, 0};
    memset(bytes, 0, 8 * words);
    if (!seed()) return HIND_SYSTEM;
    while (!(drawn_words[0] | drawn_words[1]))
        for (size_t i = 0; i < words; i++) drawn_words[i] = drawn();
    memcpy(bytes, drawn_words, 8 * words);
    return HIND_OK;
}

hind_code hind_new_trace(hind_trace_id *id) { return id ? new_id(id->bytes, 2) : HIND_INVALID; }
hind_code hind_new_span(hind_span_id *id) { return id ? new_id(id->bytes, 1) : HIND_INVALID; }

hind_code hind_new_context(hind_context *context) {
    if (!context) return HIND_INVALID;
    memset(context, 0, sizeof *context);
    context->node = HIND_NO_NODE;
    return hind_new_trace(&context->trace);
}
