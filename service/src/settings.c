/* What C reads of settings that the core has taken: a number, and the lines that all nodes share. */
#include "within.h"
#include <stdio.h>
#include <string.h>

typedef struct {
    const char *at;
    size_t len;
} line;

/* The line that begins here, without its newline; what is behind it is left. */
static line next_line(const char **at, size_t *left) {
    const char *newline = memchr(*at, '\n', *left);
    line l = {*at, newline ? (size_t)(newline - *at) : *left};
    size_t taken = l.len + (newline != NULL);
    *at += taken;
    *left -= taken;
    return l;
}

static int begins_with(line l, const char *word) {
    size_t n = strlen(word);
    return l.len > n && !memcmp(l.at, word, n) && l.at[n] == ' ';
}

static size_t words_of(line l) {
    size_t words = 1;
    for (size_t i = 0; i < l.len; i++) words += l.at[i] == ' ';
    return words;
}

uint32_t hindlib_setting(const char *settings, size_t len, const char *word, uint32_t otherwise) {
    while (len) {
        line l = next_line(&settings, &len);
        uint32_t n = 0;
        if (!begins_with(l, word)) continue;
        for (size_t i = strlen(word) + 1; i < l.len && l.at[i] >= '0' && l.at[i] <= '9' && n < 100000000; i++) n = 10 * n + (uint32_t)(l.at[i] - '0');
        return n;
    }
    return otherwise;
}

static void add_number(hindlib_sha *s, const char *word, uint32_t n) {
    char text[48];
    int len = snprintf(text, sizeof text, "%s %u\n", word, (unsigned)n);
    hindlib_sha_add(s, text, (size_t)len);
}

/* Each line with this first word, as it stands. A trigger id of two words gets its rule behind it. */
static void add_lines(hindlib_sha *s, const char *settings, size_t len, const char *word) {
    while (len) {
        line l = next_line(&settings, &len);
        if (!begins_with(l, word)) continue;
        hindlib_sha_add(s, l.at, l.len);
        if (words_of(l) == 2) hindlib_sha_add(s, " 1 10 1", 7);
        hindlib_sha_add(s, "\n", 1);
    }
}

void hindlib_digest(const char *settings, size_t len, uint8_t digest[HINDLIB_DIGEST]) {
    hindlib_sha s;
    hindlib_sha_begin(&s);
    add_number(&s, "nodes", hindlib_setting(settings, len, "nodes", 128));
    add_number(&s, "size", hindlib_setting(settings, len, "size", 4088));
    add_lines(&s, settings, len, "triggerid");
    add_lines(&s, settings, len, "auto");
    hindlib_sha_end(&s, digest);
}
