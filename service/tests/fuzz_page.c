/* Any bytes as a request of the page of numbers: what is answered is one of four replies, and its length is what it says. */
#include "page.h"
#include <stdint.h>
#include <stdio.h>
#include <stdlib.h>
#include <string.h>

int LLVMFuzzerTestOneInput(const uint8_t *bytes, size_t len);
size_t LLVMFuzzerCustomMutator(uint8_t *bytes, size_t len, size_t most, unsigned seed);
size_t LLVMFuzzerMutate(uint8_t *bytes, size_t len, size_t most);

unsigned long long fuzz_taken;

static void holds(int what, const char *words) {
    if (what) return;
    fprintf(stderr, "fuzz_page: %s\n", words);
    abort();
}

int LLVMFuzzerTestOneInput(const uint8_t *bytes, size_t len) {
    static char reply[PAGE_REPLY + 1];
    static const char text[] = "a 1\n";
    unsigned status = 0;
    size_t content = 0, size = page_answer((const char *)bytes, len, text, sizeof text - 1, reply);
    reply[size] = 0;
    holds(size < PAGE_REPLY && sscanf(reply, "HTTP/1.1 %u", &status) == 1, "no status");
    const char *length = strstr(reply, "Content-Length: "), *body = strstr(reply, "\r\n\r\n");
    holds(length && body && sscanf(length, "Content-Length: %zu", &content) == 1, "no length");
    holds(strlen(body + 4) == content, "another length");
    holds(content == (status == 200 ? sizeof text - 1 : 0), "a body");
    int ends = 0;
    for (size_t i = 0; i + 4 <= len; i++) ends |= !memcmp(bytes + i, "\r\n\r\n", 4);
    holds(ends == (status != 400), "an end");
    fuzz_taken += status == 200;
    return 0;
}

/* Most inputs begin and end as a request does. */
size_t LLVMFuzzerCustomMutator(uint8_t *bytes, size_t len, size_t most, unsigned seed) {
    static const char request[] = "GET /metrics HTTP/1.1\r\nHost: a\r\n\r\n";
    if (seed % 4 == 0 || len < sizeof request - 1) {
        len = sizeof request - 1;
        memcpy(bytes, request, len);
    }
    return seed % 3 ? LLVMFuzzerMutate(bytes, len, most) : len;
}
