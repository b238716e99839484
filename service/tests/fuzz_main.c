/* Runs what is fuzzed without libFuzzer: so many inputs, each mutated from one before, the same ones on every machine.
 *
 *     PROGRAM COUNT SEED      status 1 where fewer than one input in a hundred is taken: then the mutations have lost their way */
#include <stdint.h>
#include <stdio.h>
#include <stdlib.h>
#include <string.h>

enum { MOST = 33000, KEPT = 64 };

int LLVMFuzzerTestOneInput(const uint8_t *bytes, size_t len);
size_t LLVMFuzzerCustomMutator(uint8_t *bytes, size_t len, size_t most, unsigned seed);
size_t LLVMFuzzerMutate(uint8_t *bytes, size_t len, size_t most);

/* how many inputs were what the program takes */
extern unsigned long long fuzz_taken;

static uint64_t state;

static uint32_t drawn(void) { return (uint32_t)((state = state * 6364136223846793005u + 1442695040888963407u) >> 32); }

/* Changes, inserts or removes a byte, or copies one run of bytes over another. */
size_t LLVMFuzzerMutate(uint8_t *bytes, size_t len, size_t most) {
    size_t at = len ? drawn() % len : 0, run = len ? drawn() % (len - at) : 0;
    switch (drawn() % 4) {
    case 0:
        if (len) bytes[at] ^= (uint8_t)(1u << drawn() % 8);
        return len;
    case 1:
        if (len >= most) return len;
        memmove(bytes + at + 1, bytes + at, len - at);
        bytes[at] = (uint8_t)drawn();
        return len + 1;
    case 2:
        if (!len) return len;
        memmove(bytes + at, bytes + at + 1, len - at - 1);
        return len - 1;
    default:
        if (len) memmove(bytes + drawn() % (len - run), bytes + at, run);
        return len;
    }
}

int main(int argc, char **argv) {
    static uint8_t kept[KEPT][MOST];
    static size_t lens[KEPT];
    if (argc != 3) return 2;
    state = strtoull(argv[2], NULL, 10);
    unsigned long long count = strtoull(argv[1], NULL, 10);
    for (unsigned long long i = 0; i < count; i++) {
        unsigned at = drawn() % KEPT;
        /* most inputs are short: the longest messages come now and then */
        lens[at] = LLVMFuzzerCustomMutator(kept[at], lens[at], drawn() % 100 ? 1500 : MOST, drawn());
        LLVMFuzzerTestOneInput(kept[at], lens[at]);
    }
    printf("%llu inputs, %llu of them taken\n", count, fuzz_taken);
    return fuzz_taken < count / 100;
}
