/* hindsight-traces: finds and shows what a hub has saved.
 *
 *     hindsight-traces FOLDER find [--trigger N] [--service NAME] [--since SECONDS] [--limit N]      the newest first, 50 unless said
 *     hindsight-traces FOLDER show TRACE                                                             a waterfall, with how whole each part is
 *
 * Status 0, 1 where nothing was found, 2 where the words are wrong, 3 where the store cannot be read. */
#define _GNU_SOURCE
#include "spanlist.h"
#include <inttypes.h>
#include <limits.h>
#include <sqlite3.h>
#include <stdarg.h>
#include <stdio.h>
#include <stdlib.h>
#include <string.h>
#include <time.h>

enum { FOUND = 0, NOTHING = 1, USAGE = 2, FAULT = 3 };
enum { BAR = 32 };

static sqlite3 *db;

static int fault(const char *what) {
    fprintf(stderr, "hindsight-traces: %s: %s\n", what, sqlite3_errmsg(db));
    return FAULT;
}

static sqlite3_stmt *prepared(const char *query) {
    sqlite3_stmt *statement = NULL;
    return sqlite3_prepare_v2(db, query, -1, &statement, NULL) == SQLITE_OK ? statement : NULL;
}

/* Prints a text without bytes that a terminal would act on. */
static void print_text(const char *text, size_t len) {
    for (size_t i = 0; i < len; i++) {
        uint8_t c = (uint8_t)text[i];
        if (c == '\n') fputs("\\n", stdout);
        else if (c < 0x20 || c == 0x7f) printf("\\x%02x", c);
        else putchar(c);
    }
}

static void print_hex(const uint8_t *bytes, size_t len) {
    for (size_t i = 0; i < len; i++) printf("%02x", bytes[i]);
}

/* ---- find */

typedef struct {
    long trigger;         /* -1: any */
    const char *service;  /* NULL: any */
    long since;           /* seconds; 0: any time */
    long limit;
} wanted;

/* In a few words how whole the part of each node is. */
static int print_lives(const void *trace) {
    sqlite3_stmt *lives = prepared("SELECT service, wholeness FROM lives WHERE trace = ? ORDER BY node, epoch");
    if (!lives) return fault("lives");
    sqlite3_bind_blob(lives, 1, trace, 16, SQLITE_STATIC);
    for (int i = 0; sqlite3_step(lives) == SQLITE_ROW; i++) {
        if (i) fputs("; ", stdout);
        print_text((const char *)sqlite3_column_text(lives, 0), (size_t)sqlite3_column_bytes(lives, 0));
        putchar(' ');
        print_text((const char *)sqlite3_column_text(lives, 1), (size_t)sqlite3_column_bytes(lives, 1));
    }
    sqlite3_finalize(lives);
    putchar('\n');
    return FOUND;
}

static void print_found(sqlite3_stmt *row) {
    char when[40] = "";
    time_t saved = (time_t)sqlite3_column_int64(row, 2);
    struct tm utc;
    if (gmtime_r(&saved, &utc)) strftime(when, sizeof when, "%Y-%m-%dT%H:%M:%SZ", &utc);
    print_hex(sqlite3_column_blob(row, 0), 16);
    printf("  %-20s %7lld %8lld  %-5s  ", when, (long long)sqlite3_column_int64(row, 1), (long long)sqlite3_column_int64(row, 3), sqlite3_column_int(row, 4) ? "yes" : "no");
}

static int find(const wanted *w) {
    sqlite3_stmt *rows = prepared(
        "SELECT t.trace, min(t.trigger), max(t.saved) AS saved, (SELECT count(*) FROM records r WHERE r.trace = t.trace),"
        " (SELECT min(part) = 0 AND min(whole) = 1 FROM traces a WHERE a.trace = t.trace) FROM traces t"
        " WHERE (?1 < 0 OR t.trigger = ?1) AND (?2 IS NULL OR EXISTS (SELECT 1 FROM lives l WHERE l.trace = t.trace AND l.service = ?2)) AND t.saved >= ?3"
        " GROUP BY t.trace ORDER BY saved DESC, t.trace LIMIT ?4");
    int found = 0, status = FOUND;
    if (!rows) return fault("traces");
    sqlite3_bind_int64(rows, 1, w->trigger);
    if (w->service) sqlite3_bind_text(rows, 2, w->service, -1, SQLITE_STATIC);
    sqlite3_bind_int64(rows, 3, w->since ? (sqlite3_int64)time(NULL) - w->since : 0);
    sqlite3_bind_int64(rows, 4, w->limit < LONG_MAX ? w->limit + 1 : w->limit);
    while (status == FOUND && sqlite3_step(rows) == SQLITE_ROW) {
        if (found == w->limit) {
            fflush(stdout);
            fprintf(stderr, "hindsight-traces: there are more; --limit says how many are listed, %ld here\n", w->limit);
            break;
        }
        if (!found++) printf("%-32s  %-20s %7s %8s  %-5s  %s\n", "TRACE", "SAVED", "TRIGGER", "RECORDS", "WHOLE", "NODES");
        print_found(rows);
        status = print_lives(sqlite3_column_blob(rows, 0));
    }
    sqlite3_finalize(rows);
    return status != FOUND ? status : found ? FOUND : NOTHING;
}

/* ---- a trace, as it is read: its lives, each with its records */

typedef struct {
    otlp_part part;
    span_list list;
} life;

typedef struct {
    life *lives;
    size_t count;
    uint64_t start, end; /* the least and the greatest moment */
    int is_whole;
} picture;

static void *more(void *list, size_t count, size_t size) {
    /* a list has room for 2^n items */
    if (count & (count - 1)) return list;
    void *longer = realloc(list, (count ? 2 * count : 1) * size);
    if (!longer) {
        fputs("hindsight-traces: no memory\n", stderr);
        exit(FAULT);
    }
    return longer;
}

static char *copied(const void *bytes, size_t len) {
    char *copy = more(NULL, 0, len + 1);
    if (len) memcpy(copy, bytes, len);
    copy[len] = 0;
    return copy;
}

static char *column_text(sqlite3_stmt *row, int column) { return copied(sqlite3_column_text(row, column), (size_t)sqlite3_column_bytes(row, column)); }

static int read_records(const uint8_t *trace, life *l, picture *p) {
    sqlite3_stmt *rows = prepared(
        "SELECT client, core, number, missing, moment, payload FROM records WHERE trace = ? AND node = ? AND epoch = ? ORDER BY client, core, number");
    otlp_record *records = NULL;
    if (!rows) return fault("records");
    sqlite3_bind_blob(rows, 1, trace, 16, SQLITE_STATIC);
    sqlite3_bind_int64(rows, 2, l->part.node);
    sqlite3_bind_int64(rows, 3, (sqlite3_int64)l->part.epoch);
    while (sqlite3_step(rows) == SQLITE_ROW) {
        size_t len = (size_t)sqlite3_column_bytes(rows, 5);
        otlp_record r = {(uint16_t)sqlite3_column_int64(rows, 0), (uint64_t)sqlite3_column_int64(rows, 1), (uint64_t)sqlite3_column_int64(rows, 2),
                         (uint64_t)sqlite3_column_int64(rows, 3), (uint64_t)sqlite3_column_int64(rows, 4), (const uint8_t *)copied(sqlite3_column_blob(rows, 5), len), len};
        records = more(records, l->part.count, sizeof *records);
        records[l->part.count++] = r;
        if (r.moment < p->start) p->start = r.moment;
        if (r.moment > p->end) p->end = r.moment;
    }
    sqlite3_finalize(rows);
    l->part.records = records;
    if (span_list_make(&l->list, &l->part)) return FOUND;
    fputs("hindsight-traces: no memory\n", stderr);
    return FAULT;
}

static int read_lives(const uint8_t *trace, picture *p) {
    sqlite3_stmt *rows = prepared("SELECT node, epoch, service, wholeness FROM lives WHERE trace = ? ORDER BY node, epoch");
    if (!rows) return fault("lives");
    sqlite3_bind_blob(rows, 1, trace, 16, SQLITE_STATIC);
    while (sqlite3_step(rows) == SQLITE_ROW) {
        life l;
        memset(&l, 0, sizeof l);
        l.part.node = (hind_node_id)sqlite3_column_int64(rows, 0);
        l.part.epoch = (uint64_t)sqlite3_column_int64(rows, 1);
        l.part.service = column_text(rows, 2);
        l.part.wholeness = column_text(rows, 3);
        p->lives = more(p->lives, p->count, sizeof *p->lives);
        p->lives[p->count++] = l;
    }
    sqlite3_finalize(rows);
    /* the lists point to the parts, so they are made once these stay where they are */
    for (size_t i = 0; i < p->count; i++) {
        int status = read_records(trace, &p->lives[i], p);
        if (status != FOUND) return status;
    }
    return p->count ? FOUND : NOTHING;
}

/* ---- the waterfall */

typedef struct {
    const life *of;
    const span *s;
    hind_span_record start, stop;
    uint64_t begins, ends;
    int is_shown;
} line;

static line line_of(const life *l, const span *s) {
    const otlp_record *records = l->part.records;
    line made;
    memset(&made, 0, sizeof made);
    made.of = l;
    made.s = s;
    made.begins = made.ends = records[s->first].moment;
    for (long i = s->first; i != NO_RECORD; i = l->list.next[i]) {
        if (records[i].moment < made.begins) made.begins = records[i].moment;
        if (records[i].moment > made.ends) made.ends = records[i].moment;
    }
    if (s->start != NO_RECORD && hind_read_span(records[s->start].payload, records[s->start].len, &made.start)) made.begins = records[s->start].moment;
    if (s->end != NO_RECORD && hind_read_span(records[s->end].payload, records[s->end].len, &made.stop)) made.ends = records[s->end].moment;
    return made;
}

static int by_start(const void *a, const void *b) {
    const line *x = a, *y = b;
    if (x->begins != y->begins) return x->begins < y->begins ? -1 : 1;
    if (x->ends != y->ends) return x->ends > y->ends ? -1 : 1;
    return memcmp(&x->s->id, &y->s->id, sizeof x->s->id);
}

/* A time in the unit that suits it. */
static void print_time(uint64_t ns) {
    char text[40];
    if (ns < 1000) snprintf(text, sizeof text, "%" PRIu64 " ns", ns);
    else if (ns < 1000000) snprintf(text, sizeof text, "%.3f us", (double)ns / 1e3);
    else if (ns < 1000000000) snprintf(text, sizeof text, "%.3f ms", (double)ns / 1e6);
    else snprintf(text, sizeof text, "%.3f s", (double)ns / 1e9);
    printf("%12s", text);
}

/* Where in the bar a moment stands. */
static int place(const picture *p, uint64_t moment) {
    double whole = (double)(p->end - p->start);
    return whole > 0 ? (int)((double)(moment - p->start) / whole * BAR) : 0;
}

static void print_bar(const picture *p, const line *l) {
    int from = place(p, l->begins), to = place(p, l->ends > l->begins ? l->ends : l->begins);
    putchar('|');
    for (int i = 0; i < BAR; i++) putchar(i == from || (i >= from && i < to) || (from == BAR && i == BAR - 1) ? '#' : ' ');
    putchar('|');
}

static void print_indent(int depth) { printf("%*s", 2 * (depth < 20 ? depth : 20), ""); }

/* What a record behind its span says: an event, an attribute, or a payload. */
static void print_note(const picture *p, const line *l, const otlp_record *r, int depth) {
    hind_span_record said;
    int is_said = hind_read_span(r->payload, r->len, &said);
    if (r->missing && !p->is_whole) {
        printf("%*s", 26 + BAR + 2, "");
        print_indent(depth);
        printf("  (%" PRIu64 " records of this client are not here, of this trace or of others)\n", r->missing);
    }
    if (is_said && (said.what == HIND_SPAN_START || said.what == HIND_SPAN_END)) return;
    print_time(r->moment - (r->moment < l->begins ? r->moment : l->begins));
    printf("%*s", 14 + BAR + 2, "");
    print_indent(depth);
    fputs("  ", stdout);
    if (!is_said) {
        print_text((const char *)r->payload, r->len);
    } else {
        print_text(said.text, said.text_len);
        if (said.what == HIND_SPAN_ATTRIBUTE) putchar('=');
        if (said.what == HIND_SPAN_ATTRIBUTE && said.type == HIND_VALUE_TEXT) print_text(said.value, said.value_len);
        if (said.what == HIND_SPAN_ATTRIBUTE && said.type == HIND_VALUE_INT) printf("%" PRId64, said.integer);
        if (said.what == HIND_SPAN_ATTRIBUTE && said.type == HIND_VALUE_DOUBLE) printf("%g", said.real);
        if (said.what == HIND_SPAN_ATTRIBUTE && said.type == HIND_VALUE_BOOL) fputs(said.integer ? "true" : "false", stdout);
    }
    putchar('\n');
}

static void print_line(const picture *p, const line *l, int depth) {
    print_time(l->begins - p->start);
    print_time(l->ends > l->begins ? l->ends - l->begins : 0);
    fputs("  ", stdout);
    print_bar(p, l);
    print_indent(depth);
    putchar(' ');
    print_text(l->of->part.service, strlen(l->of->part.service));
    putchar(' ');
    if (l->start.what) print_text(l->start.text, l->start.text_len);
    else fputs("(no start)", stdout);
    if (!l->stop.what) fputs(" (no end)", stdout);
    if (l->stop.status == HIND_STATUS_ERROR) fputs(" error", stdout);
    if (l->stop.text_len) {
        fputs(": ", stdout);
        print_text(l->stop.text, l->stop.text_len);
    }
    putchar('\n');
    for (long i = l->s->first; i != NO_RECORD; i = l->of->list.next[i]) print_note(p, l, &l->of->part.records[i], depth);
}

static int is_child(const line *l, const hind_span_id *parent) { return l->start.what && !memcmp(&l->start.parent, parent, sizeof *parent); }

/* Prints a span, and behind it the spans whose parent it is. A span is printed once, also where spans are their own ancestors. */
static void print_tree(const picture *p, line *lines, size_t count, line *top, int depth) {
    top->is_shown = 1;
    print_line(p, top, depth);
    for (size_t i = 0; depth < 1000 && i < count; i++)
        if (!lines[i].is_shown && is_child(&lines[i], &top->s->id)) print_tree(p, lines, count, &lines[i], depth + 1);
}

static int has_parent(const line *lines, size_t count, const line *l) {
    for (size_t i = 0; l->start.what && i < count; i++)
        if (&lines[i] != l && is_child(l, &lines[i].s->id)) return 1;
    return 0;
}

static void print_picture(const uint8_t *trace, const picture *p) {
    line *lines = NULL;
    size_t count = 0, records = 0;
    for (size_t i = 0; i < p->count; i++) {
        records += p->lives[i].part.count;
        for (long j = 0; j < p->lives[i].list.count; j++) {
            lines = more(lines, count, sizeof *lines);
            lines[count++] = line_of(&p->lives[i], &p->lives[i].list.spans[j]);
        }
    }
    if (count) qsort(lines, count, sizeof *lines, by_start);
    fputs("trace ", stdout);
    print_hex(trace, 16);
    printf(": %zu records, %zu spans%s\n", records, count, p->is_whole ? ", whole" : ", not known to be whole");
    for (size_t i = 0; i < p->count; i++) {
        const otlp_part *part = &p->lives[i].part;
        fputs("  ", stdout);
        print_text(part->service, strlen(part->service));
        printf(" (node %u, life %" PRIu64 "): ", part->node, part->epoch);
        print_text(part->wholeness, strlen(part->wholeness));
        putchar('\n');
    }
    printf("%12s%12s\n", "begins", "takes");
    for (size_t i = 0; i < count; i++)
        if (!lines[i].is_shown && !has_parent(lines, count, &lines[i])) print_tree(p, lines, count, &lines[i], 0);
    for (size_t i = 0; i < count; i++)
        if (!lines[i].is_shown) print_tree(p, lines, count, &lines[i], 0);
    free(lines);
}

static void free_picture(picture *p) {
    for (size_t i = 0; i < p->count; i++) {
        life *l = &p->lives[i];
        for (size_t j = 0; j < l->part.count; j++) free((void *)(uintptr_t)l->part.records[j].payload);
        free((void *)(uintptr_t)l->part.records);
        free((void *)(uintptr_t)l->part.service);
        free((void *)(uintptr_t)l->part.wholeness);
        span_list_free(&l->list);
    }
    free(p->lives);
}

/* Whether the hub said so of its first part, and no later one says otherwise. */
static int is_whole(const uint8_t *trace) {
    sqlite3_stmt *parts = prepared("SELECT min(part) = 0 AND min(whole) = 1 FROM traces WHERE trace = ?");
    if (!parts) return 0;
    sqlite3_bind_blob(parts, 1, trace, 16, SQLITE_STATIC);
    int whole = sqlite3_step(parts) == SQLITE_ROW && sqlite3_column_int(parts, 0);
    sqlite3_finalize(parts);
    return whole;
}

static int show(const uint8_t *trace) {
    picture p = {NULL, 0, UINT64_MAX, 0, is_whole(trace)};
    int status = read_lives(trace, &p);
    if (status == FOUND) print_picture(trace, &p);
    free_picture(&p);
    return status;
}

/* ---- words */

static int usage(void) {
    fputs("usage: hindsight-traces FOLDER find [--trigger N] [--service NAME] [--since SECONDS] [--limit N, 50 unless said]\n"
          "       hindsight-traces FOLDER show TRACE\n", stderr);
    return USAGE;
}

static int read_number(const char *word, long *number) {
    char *end;
    *number = strtol(word, &end, 10);
    return *word >= '0' && *word <= '9' && !*end && *number < LONG_MAX;
}

static int read_trace(const char *word, uint8_t *trace) {
    if (strlen(word) != 32) return 0;
    for (int i = 0; i < 16; i++) {
        unsigned byte;
        char two[3] = {word[2 * i], word[2 * i + 1], 0};
        if (strspn(two, "0123456789abcdefABCDEF") != 2 || sscanf(two, "%x", &byte) != 1) return 0;
        trace[i] = (uint8_t)byte;
    }
    return 1;
}

static int read_wanted(int count, char **words, wanted *w) {
    for (int i = 0; i < count; i += 2) {
        if (i + 1 == count) return 0;
        if (!strcmp(words[i], "--service")) w->service = words[i + 1];
        else if (!strcmp(words[i], "--trigger") && read_number(words[i + 1], &w->trigger)) continue;
        else if (!strcmp(words[i], "--since") && read_number(words[i + 1], &w->since)) continue;
        else if (!strcmp(words[i], "--limit") && read_number(words[i + 1], &w->limit)) continue;
        else return 0;
    }
    return 1;
}

static int run(int count, char **words) {
    wanted w = {-1, NULL, 0, 50};
    uint8_t trace[16];
    if (!strcmp(words[0], "find") && read_wanted(count - 1, words + 1, &w)) return find(&w);
    if (!strcmp(words[0], "show") && count == 2 && read_trace(words[1], trace)) return show(trace);
    return usage();
}

int main(int argc, char **argv) {
    char path[PATH_MAX];
    int status;
    if (argc < 3) return usage();
    if (snprintf(path, sizeof path, "%s/traces.db", argv[1]) >= (int)sizeof path) return usage();
    status = sqlite3_open_v2(path, &db, SQLITE_OPEN_READONLY, NULL) == SQLITE_OK ? run(argc - 2, argv + 2) : fault(path);
    sqlite3_close(db);
    return status;
}
