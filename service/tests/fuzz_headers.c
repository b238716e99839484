/* Two lines of any bytes, read as the headers of a request by the library and by a second reader, which is made of regular expressions from the
 * grammar of W3C's Trace Context. What is written is read back: it has the same trace and node, and of the entries that came it keeps some, in
 * their order, or all where they fit. */
#define _GNU_SOURCE
#include "hindsight.h"
#include <regex.h>
#include <stdio.h>
#include <stdlib.h>
#include <string.h>

unsigned long long fuzz_taken;

static regex_t parent_form, entry_form, own_form;

static void compile(regex_t *form, const char *text) {
    if (regcomp(form, text, REG_EXTENDED)) abort();
}

static int fits(const regex_t *form, const char *text) { return !regexec(form, text, 0, NULL, 0); }

static void wrong(const char *why, const char *parent, const char *state) {
    fprintf(stderr, "%s\n%s\n%s\n", why, parent, state);
    abort();
}

/* ---- the second reader */

/* What it answers of traceparent. */
static int is_parent(const char *text) {
    if (!fits(&parent_form, text)) return 0;
    if (!strncmp(text, "ff", 2) || (!strncmp(text, "00", 2) && strlen(text) != 55)) return 0;
    return strncmp(text + 3, "00000000000000000000000000000000", 32) && strncmp(text + 36, "0000000000000000", 16);
}

typedef struct {
    int count; /* -1 where the list is invalid */
    int ours;  /* the place of the first entry of ours, or -1 */
    char entries[600][520];
} list;

static int is_printable(const char *text) {
    while (*text >= ' ' && *text <= '~') text++;
    return !*text;
}

static void read_list(const char *text, list *found) {
    char *copy = strdup(text), *rest = copy, *part;
    found->count = 0;
    found->ours = -1;
    while ((part = strsep(&rest, ","))) {
        size_t end = strlen(part), key;
        while (end && strchr(" \t", part[end - 1])) part[--end] = 0;
        part += strspn(part, " \t");
        if (!*part) continue;
        key = strcspn(part, "=");
        if (!fits(&entry_form, part) || !is_printable(part) || key > 256 || strlen(part) > key + 257 || found->count == 32) {
            found->count = -1;
            break;
        }
        if (found->ours < 0 && key == 4 && !strncmp(part, "hind", 4)) found->ours = found->count;
        memcpy(found->entries[found->count++], part, strlen(part) + 1); /* at most 514 bytes, and a zero */
    }
    free(copy);
}

static int is_own(const char *entry) { return !strncmp(entry, "hind=", 5); }

/* ---- what is written */

static void check_written(const hind_context *context, const list *came, const char *parent, const char *state) {
    static list written;
    char again[HIND_TRACEPARENT_SIZE], out[HIND_TRACESTATE_SIZE];
    hind_context back;
    size_t others = 0, bytes = 0;
    int at = 0, first = context->node != HIND_NO_NODE;
    if (hind_context_write(context, state, again, out) != HIND_OK) wrong("not written", parent, state);
    if (hind_context_read(again, out, &back) != HIND_OK || memcmp(&back.trace, &context->trace, 16) || memcmp(&back.span, &context->span, 8) || back.flags != context->flags || back.node != context->node)
        wrong("another one is read back", parent, out);
    read_list(out, &written);
    if (written.count < 0 || strlen(out) > 512) wrong("what is written is invalid", state, out);
    if (first && (written.ours != 0 || !fits(&own_form, written.entries[0]))) wrong("ours is not in front", state, out);
    for (int i = first; i < written.count; i++) {
        if (is_own(written.entries[i])) wrong("an older one of ours stays", state, out);
        while (at < came->count && strcmp(came->entries[at], written.entries[i])) at++;
        if (at++ == came->count) wrong("an entry did not come so", state, out);
    }
    for (int i = 0; i < came->count; i++)
        if (!is_own(came->entries[i])) others++, bytes += strlen(came->entries[i]) + 1;
    bytes += first ? 11 : 0;
    if (!first && others) bytes--;
    if (came->count >= 0 && others + (size_t)first <= 32 && bytes <= 512 && written.count != (int)others + first) wrong("an entry that fits is gone", state, out);
}

int LLVMFuzzerTestOneInput(const uint8_t *bytes, size_t len) {
    static list came;
    static int is_ready;
    hind_context context;
    hind_node_id node = HIND_NO_NODE;
    char *text = malloc(len + 2), *state;
    if (!is_ready) {
        compile(&parent_form, "^[0-9a-f][0-9a-f]-[0-9a-f]{32}-[0-9a-f]{16}-[0-9a-f][0-9a-f](-.*)?$");
        compile(&entry_form, "^[a-z0-9][a-z0-9_*/@-]*=[^,=]*[^,= ]$");
        compile(&own_form, "^hind=1-[0-9a-f]{4}$");
        is_ready = 1;
    }
    for (size_t i = 0; i < len; i++) text[i] = bytes[i] ? (char)bytes[i] : 'z';
    text[len] = text[len + 1] = 0;
    state = strchrnul(text, '\n');
    if (*state) *state++ = 0;
    int is_read = hind_context_read(text, state, &context) == HIND_OK;
    if (is_read != is_parent(text)) wrong("one reads it and the other does not", text, state);
    if (is_read) {
        fuzz_taken++;
        read_list(state, &came);
        if (came.count >= 0 && came.ours >= 0 && fits(&own_form, came.entries[came.ours])) node = (hind_node_id)strtol(came.entries[came.ours] + 7, NULL, 16);
        if (context.node != node) wrong("another node", text, state);
        check_written(&context, &came, text, state);
        context.node = (hind_node_id)(context.span.bytes[7] << 8 | 3);
        check_written(&context, &came, text, state);
    }
    free(text);
    return 0;
}

size_t LLVMFuzzerMutate(uint8_t *bytes, size_t len, size_t most);
size_t LLVMFuzzerCustomMutator(uint8_t *bytes, size_t len, size_t most, unsigned seed);

/* Half of the mutations begin anew with headers that read, and add an entry here and there. */
size_t LLVMFuzzerCustomMutator(uint8_t *bytes, size_t len, size_t most, unsigned seed) {
    static const char *const entries[] = {"hind=1-00a3", "a=1", "k@v=x y", "hind=2-0001", " b=2 ", "", "long=vvvvvvvvvvvvvvvvvvvvvvvvvvvvvvvvvvvvvvvvvvvvvvvvvvvvvvvvvvvvvvvvvvvvvvvvvvvvvvvvvvvvvvvvvvvvvvvvvvvvvvvvvvvvvvvvvvvvvvvvvvvvvvvvvvvvvvv"};
    if (seed & 1 || most < 1500) return LLVMFuzzerMutate(bytes, len, most);
    len = (size_t)snprintf((char *)bytes, most, "00-%032x-%016x-%02x\n", seed | 2, seed | 4, seed >> 3 & 255);
    for (unsigned n = seed >> 5 & 31; n && len + 200 < 1500; n--) len += (size_t)snprintf((char *)bytes + len, most - len, "%s,", entries[(seed = seed * 1664525u + 1013904223u) >> 16 & 0xffff ? (seed >> 20) % 7 : 0]);
    return seed & 2 ? len : LLVMFuzzerMutate(bytes, len, most);
}
