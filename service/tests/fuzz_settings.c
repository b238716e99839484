/* Texts of any kind as the settings of a node and of a hub. What is taken and what is not is held against what docs/FORMATS.md, "Settings of a service",
 * says of every line; how many clients there are, and the digest that the node tells, against a second reader of what is taken. */
#include "hindsight.h"
#include "within.h"
#include <stdio.h>
#include <stdlib.h>
#include <string.h>

unsigned long long fuzz_taken;

size_t LLVMFuzzerMutate(uint8_t *bytes, size_t len, size_t most);
size_t LLVMFuzzerCustomMutator(uint8_t *bytes, size_t len, size_t most, unsigned seed);
int LLVMFuzzerTestOneInput(const uint8_t *bytes, size_t len);

static void wrong(const char *why, const uint8_t *text, size_t len) {
    fprintf(stderr, "%s:\n%.*s\n", why, (int)len, (const char *)text);
    abort();
}

/* Whether some line is one that is refused wherever it stands: it has no end, a byte that is none, or a word that is empty. */
static int is_ill(const uint8_t *text, size_t len) {
    char before = '\n';
    int is_comment = 0;
    for (size_t i = 0; i < len; i++) {
        char c = (char)text[i];
        if (before == '\n') is_comment = c == '#';
        if (c != '\n' && (c < 32 || c > 126)) return 1;
        if (!is_comment && c == ' ' && (before == ' ' || before == '\n')) return 1;
        if (!is_comment && c == '\n' && before == ' ') return 1;
        before = c;
    }
    return before != '\n';
}

/* The second reader: lines of a text that is taken, by sscanf. */
static unsigned read_again(char *text, char *shared, size_t room) {
    unsigned nodes = 128, size = 4088, clients = 64, a, b, c, d;
    char rest[4096] = "", line[512];
    for (char *at = strtok(text, "\n"); at; at = strtok(NULL, "\n")) {
        int words = sscanf(at, "triggerid %u %u %u %u", &a, &b, &c, &d);
        (void)sscanf(at, "nodes %u", &nodes);
        (void)sscanf(at, "size %u", &size);
        (void)sscanf(at, "clients %u", &clients);
        line[0] = 0;
        if (words == 4) snprintf(line, sizeof line, "triggerid %u %u %u %u\n", a, b, c, d);
        if (words == 1) snprintf(line, sizeof line, "triggerid %u 1 10 1\n", a);
        strncat(rest, line, sizeof rest - strlen(rest) - 1);
    }
    snprintf(shared, room, "nodes %u\nsize %u\n%s", nodes, size, rest);
    return clients;
}

/* The lines of autotriggers stand behind those of trigger ids in the digest's text, each as it is. */
static void add_autos(const uint8_t *text, size_t len, char *shared, size_t room) {
    for (size_t at = 0, end; at < len; at = end + 1) {
        for (end = at; end < len && text[end] != '\n';) end++;
        if (end - at > 5 && !memcmp(text + at, "auto ", 5)) snprintf(shared + strlen(shared), room - strlen(shared), "%.*s\n", (int)(end - at), (const char *)text + at);
    }
}

static void is_read(hind_node *node, const uint8_t *text, size_t len) {
    char copy[4096], shared[16384];
    uint8_t digest[32];
    hindlib_sha sha;
    hind_message hello;
    hind_node_counts counts = {.size = sizeof counts};
    memcpy(copy, text, len);
    copy[len] = 0;
    unsigned clients = read_again(copy, shared, sizeof shared);
    add_autos(text, len, shared, sizeof shared);
    hindlib_sha_begin(&sha);
    hindlib_sha_add(&sha, shared, strlen(shared));
    hindlib_sha_end(&sha, digest);
    if (hind_node_get_counts(node, &counts) || counts.clients != clients) wrong("another number of clients", text, len);
    if (hind_node_next(node, &hello) || hello.len < 52 || memcmp(hello.bytes + 20, digest, 32)) wrong("another digest", text, len);
}

/* A node's memory is about its buffers: those that say none, or many, are not opened here. */
static int is_small(const uint8_t *text, size_t len) {
    unsigned buffers = 0;
    char copy[4096];
    if (len >= sizeof copy) return 0;
    memcpy(copy, text, len);
    copy[len] = 0;
    for (char *at = strstr(copy, "buffers "); at; at = strstr(at + 1, "buffers ")) {
        if (at != copy && at[-1] != '\n') continue;
        buffers = (unsigned)strtoul(at + 8, NULL, 10);
    }
    return buffers > 0 && buffers <= 512 && !memchr(text, 0, len);
}

int LLVMFuzzerTestOneInput(const uint8_t *bytes, size_t len) {
    hind_node_options for_node = HIND_NODE_OPTIONS_INIT;
    hind_hub_options for_hub = HIND_HUB_OPTIONS_INIT;
    hind_node *node;
    hind_hub *hub;
    uint32_t line = 0, lines = 1;
    if (!is_small(bytes, len)) return 0;
    for_node.settings = for_hub.settings = (const char *)bytes;
    for_node.settings_len = for_hub.settings_len = len;
    for_node.epoch = for_hub.epoch = 1;
    for_hub.is_fresh = len & 1;
    for (size_t i = 0; i < len; i++) lines += bytes[i] == '\n';
    hind_code code = hind_node_open(&for_node, &node);
    if (code != HIND_OK && code != HIND_SETTINGS) wrong(hind_errname(code), bytes, len);
    if (code == HIND_SETTINGS && (!*hind_settings_error(&line) || line > lines)) wrong("no reason, or no such line", bytes, len);
    if (code == HIND_OK && is_ill(bytes, len)) wrong("it is taken", bytes, len);
    if (code == HIND_OK) {
        fuzz_taken++;
        is_read(node, bytes, len);
        if (hind_node_close(node)) wrong("not closed", bytes, len);
    }
    hind_code of_hub = hind_hub_open(&for_hub, &hub);
    if (of_hub != HIND_OK && of_hub != HIND_SETTINGS) wrong(hind_errname(of_hub), bytes, len);
    if (code == HIND_OK && of_hub != HIND_OK) wrong("a node takes it and a hub does not", bytes, len);
    if (of_hub == HIND_OK && hind_hub_close(hub)) wrong("not closed", bytes, len);
    return 0;
}

/* Lines are put together in any order; now and then bytes are changed. */
size_t LLVMFuzzerCustomMutator(uint8_t *bytes, size_t len, size_t most, unsigned seed) {
    static const char *const lines[] = {"nodes %u\n", "clients %u\n", "size 6%u\n", "threshold %u\n", "traces %u\n", "pins %u\n", "backlog %u\n", "triggerid %u\n",
                                        "triggerid %u 1 2 3\n", "auto 0 exception %u\n", "auto 0 percentile 1 8 990%u\n", "auto 1 queue 1 2 500 %u\n", "# %u\n", "\n",
                                        "claims 6%u\n", "remember 9%u9\n", "groups %u\n", "hold %u\n", "bytes 65536%u\n"};
    static const char begins[] = "buffers 256\nthreshold 16\npins 16\nclients 8\ntriggerid 1\n";
    char line[64];
    if (seed % 8 == 0) return LLVMFuzzerMutate(bytes, len, most);
    if (most < 512) return len;
    if (len > 400 || seed % 8 == 1) {
        memcpy(bytes, begins, sizeof begins - 1);
        /* some begin without the lines that all have to be beside each other */
        len = seed % 16 == 1 ? 12 : sizeof begins - 1;
    }
    snprintf(line, sizeof line, lines[seed / 8 % (sizeof lines / sizeof *lines)], seed >> 10 & 7);
    memcpy(bytes + len, line, strlen(line));
    return len + strlen(line);
}
