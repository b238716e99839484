/* The store of a hub: rows stand once, nothing that was not saved stands, files rotate, a full disk and kills lose nothing that was saved. Takes an
 * empty folder, and how many kills to make. */
#define _GNU_SOURCE
#include "expect.h"
#include "store.h"
#include <inttypes.h>
#include <signal.h>
#include <sqlite3.h>
#include <stdlib.h>
#include <string.h>
#include <sys/resource.h>
#include <sys/stat.h>
#include <sys/wait.h>
#include <unistd.h>

static char fault[300];
static char folder[200];

/* ---- what stands */

static sqlite3_int64 number(const char *query) {
    char path[300];
    sqlite3 *db;
    sqlite3_stmt *statement;
    sqlite3_int64 n = -1;
    snprintf(path, sizeof path, "%s/traces.db", folder);
    if (sqlite3_open_v2(path, &db, SQLITE_OPEN_READWRITE, NULL) == SQLITE_OK && sqlite3_prepare_v2(db, query, -1, &statement, NULL) == SQLITE_OK) {
        if (sqlite3_step(statement) == SQLITE_ROW) n = sqlite3_column_int64(statement, 0);
        sqlite3_finalize(statement);
    }
    sqlite3_close(db);
    return n;
}

/* How many lines a file has, or -1 where it is not there; each ends. */
static long lines_in(unsigned file) {
    char path[300];
    long lines = 0;
    int c, last = '\n';
    snprintf(path, sizeof path, "%s/traces-%06u.jsonl", folder, file);
    FILE *in = fopen(path, "r");
    if (!in) return -1;
    while ((c = getc(in)) != EOF) lines += (last = c) == '\n';
    fclose(in);
    EXPECT(last, '\n');
    return lines;
}

/* ---- traces */

static otlp_record two[2] = {{0, 0, 0, 0, 1000, (const uint8_t *)"a", 1}, {0, 0, 1, 0, 2000, (const uint8_t *)"", 0}};

/* A trace of this number, with so many of the two records, of this life of node 3. */
static int put(store *s, unsigned number, uint64_t epoch, size_t records, const char *wholeness) {
    otlp_part part = {3, epoch, "web", wholeness, two, records};
    otlp_trace trace = {{{0}}, 1, 0, 0, &part, 1};
    memcpy(trace.id.bytes, &number, sizeof number);
    return store_put(s, &trace);
}

/* A part of trace 9 with so many records, of life 1 of node 3. */
static void put_part(store *s, uint32_t which, int is_whole, size_t records, const char *wholeness) {
    otlp_part part = {3, 1, "web", wholeness, two, records};
    otlp_trace trace = {{{9}}, 1, which, is_whole, &part, 1};
    EXPECT(store_put(s, &trace), 0);
    EXPECT(store_save(s), 0);
}

static store *opened(uint64_t line_bytes, unsigned kept) {
    store_options options = {folder, line_bytes, kept};
    store *s = store_open(&options, fault, sizeof fault);
    if (!s) {
        fprintf(stderr, "store: %s\n", fault);
        exit(1);
    }
    return s;
}

/* A later part without a new record has no line, and leaves its trace as whole as it was, but where it tells of a loss or of an answer that is wanting. */
static void later_parts(void) {
    static const struct {
        const char *wholeness;
        size_t records;
        int is_whole, lines;
    } rows[] = {{"whole since 4", 1, 1, 0}, {"unheard since 90", 0, 1, 0}, {"lost: 1 page evicted", 0, 0, 0}, {"not answered", 0, 0, 0}, {"open: 1 segments", 0, 0, 0}, {"whole since 4", 2, 0, 1}};
    size_t before = strlen(folder);
    long lines = 1;
    strcat(folder, "/later");
    EXPECT(mkdir(folder, 0700), 0);
    store *s = opened(0, 0);
    put_part(s, 0, 1, 1, "whole since 4");
    EXPECT(lines_in(1), lines);
    for (uint32_t i = 0; i < sizeof rows / sizeof *rows; i++) {
        char query[100];
        put_part(s, i + 1, 0, rows[i].records, rows[i].wholeness);
        snprintf(query, sizeof query, "SELECT whole FROM traces WHERE part = %" PRIu32, i + 1);
        EXPECT(number(query), rows[i].is_whole);
        lines += rows[i].lines;
        EXPECT(lines_in(1), lines);
    }
    EXPECT(number("SELECT whole FROM traces WHERE part = 0"), 1);
    store_close(s);
    folder[before] = 0;
}

static void rows_stand_once(void) {
    store *s = opened(0, 0);
    EXPECT(put(s, 1, 1, 1, "open"), 0);
    EXPECT(store_save(s), 0);
    EXPECT(number("SELECT count(*) FROM records"), 1);
    EXPECT(lines_in(1), 1);
    /* the same again: no row, no line */
    EXPECT(put(s, 1, 1, 1, "open"), 0);
    EXPECT(store_save(s), 0);
    EXPECT(number("SELECT count(*) FROM records"), 1);
    EXPECT(lines_in(1), 1);
    /* one record more, and another word on the same life */
    EXPECT(put(s, 1, 1, 2, "whole"), 0);
    EXPECT(store_save(s), 0);
    EXPECT(number("SELECT count(*) FROM records"), 2);
    EXPECT(number("SELECT count(*) FROM lives WHERE wholeness = 'whole'"), 1);
    EXPECT(number("SELECT count(*) FROM lives"), 1);
    EXPECT(lines_in(1), 2);
    /* a life that has let the trace go, or does not answer, changes no word that it said before */
    EXPECT(put(s, 1, 1, 0, "unheard since 7"), 0);
    EXPECT(put(s, 1, 1, 0, "silent"), 0);
    EXPECT(store_save(s), 0);
    EXPECT(number("SELECT count(*) FROM lives WHERE wholeness = 'whole'"), 1);
    /* another life of the node, whose records have the same numbers */
    EXPECT(put(s, 1, 2, 2, "lost"), 0);
    EXPECT(store_save(s), 0);
    EXPECT(number("SELECT count(*) FROM records"), 4);
    EXPECT(number("SELECT count(*) FROM traces"), 1);
    EXPECT(number("SELECT sum(moment) FROM records WHERE epoch = 2"), 3000);
    EXPECT(number("SELECT count(*) FROM records WHERE payload = x'61' AND number = 0"), 2);
    EXPECT(number("SELECT count(*) FROM records WHERE payload = x'' AND number = 1"), 2);
    /* what is not saved does not stand */
    EXPECT(put(s, 2, 1, 2, "open"), 0);
    store_close(s);
    EXPECT(number("SELECT count(*) FROM records"), 4);
    EXPECT(lines_in(1), 3);
    s = opened(0, 0);
    EXPECT(store_save(s), 0);
    EXPECT(number("SELECT count(*) FROM records"), 4);
    store_close(s);
}

static void files_rotate(void) {
    store *s = opened(1, 2);
    for (unsigned n = 10; n < 14; n++) {
        EXPECT(put(s, n, 1, 2, "whole"), 0);
        EXPECT(store_save(s), 0);
    }
    /* the file had three lines before; then one line each, of which two are kept */
    EXPECT(lines_in(1), -1);
    EXPECT(lines_in(2), -1);
    EXPECT(lines_in(3), -1);
    EXPECT(lines_in(4), 1);
    EXPECT(lines_in(5), 1);
    store_close(s);
    s = opened(1000000, 2);
    EXPECT(put(s, 14, 1, 2, "whole"), 0);
    EXPECT(store_save(s), 0);
    EXPECT(lines_in(5), 2);
    EXPECT(lines_in(6), -1);
    store_close(s);
}

/* Files may not grow: a save fails, and nothing of it stands; then they may, and the same is saved. */
static void disk_full(void) {
    struct rlimit small, before;
    struct stat found;
    char path[300];
    sqlite3_int64 rows = number("SELECT count(*) FROM records");
    store *s = opened(0, 0);
    snprintf(path, sizeof path, "%s/traces-000005.jsonl", folder);
    EXPECT(stat(path, &found), 0);
    signal(SIGXFSZ, SIG_IGN);
    getrlimit(RLIMIT_FSIZE, &before);
    small = before;
    small.rlim_cur = (rlim_t)found.st_size + 10;
    EXPECT(put(s, 20, 1, 2, "whole"), 0);
    EXPECT(setrlimit(RLIMIT_FSIZE, &small), 0);
    EXPECT(store_save(s), -1);
    EXPECT(strstr(store_fault(s), "lines: ") != NULL, 1);
    EXPECT(setrlimit(RLIMIT_FSIZE, &before), 0);
    EXPECT(number("SELECT count(*) FROM records"), rows);
    EXPECT(lines_in(5), 2);
    EXPECT(put(s, 20, 1, 2, "whole"), 0);
    EXPECT(store_save(s), 0);
    EXPECT(number("SELECT count(*) FROM records"), rows + 2);
    EXPECT(lines_in(5), 3);
    store_close(s);
}

/* A line that a crash has cut off goes when the store is opened. */
static void torn_line(void) {
    char path[300];
    snprintf(path, sizeof path, "%s/traces-000005.jsonl", folder);
    FILE *lines = fopen(path, "a");
    EXPECT(lines != NULL && fputs("{\"resourceSp", lines) >= 0 && !fclose(lines), 1);
    store *s = opened(0, 0);
    EXPECT(lines_in(5), 3);
    store_close(s);
}

static void refuses(void) {
    store_options nowhere = {"/nowhere/at/all", 0, 0};
    fault[0] = 0;
    EXPECT(store_open(&nowhere, fault, sizeof fault) == NULL, 1);
    EXPECT(strlen(fault) > 0, 1);
    store_close(NULL);
}

/* Whether a store is there; where that cannot be told, it may be. */
static void is_there(void) {
    static char long_name[8192];
    store_options here = {folder, 0, 0}, nowhere = {"/nowhere/at/all", 0, 0}, too_long = {long_name, 0, 0};
    memset(long_name, 'a', sizeof long_name - 1);
    EXPECT(store_is_there(&here), 0);
    EXPECT(store_is_there(&nowhere), 0);
    EXPECT(store_is_there(&too_long), 1);
    store_close(opened(0, 0));
    EXPECT(store_is_there(&here), 1);
}

/* A child puts and saves, and says so; it is killed at some moment. What it said stands, and each record has its trace and its life. */
static void kills(long times) {
    unsigned next = 100;
    for (long i = 0; i < times; i++) {
        int ends[2];
        unsigned said, saved = next - 1;
        if (pipe(ends)) exit(1);
        pid_t child = fork();
        if (!child) {
            store *s = opened(4000, 3);
            for (unsigned n = next;; n++)
                if (put(s, n, 1, 2, "whole") || store_save(s) || write(ends[1], &n, sizeof n) != sizeof n) _exit(1);
        }
        close(ends[1]);
        if (read(ends[0], &said, sizeof said) == sizeof said) saved = said;
        usleep((useconds_t)(rand() % 20000));
        kill(child, SIGKILL);
        while (read(ends[0], &said, sizeof said) == sizeof said) saved = said;
        close(ends[0]);
        waitpid(child, NULL, 0);
        sqlite3_int64 stand = number("SELECT count(*) FROM traces");
        EXPECT(stand >= (sqlite3_int64)(saved - 100 + 1) + 7, 1); /* seven traces stood before */
        EXPECT(number("SELECT count(*) FROM records") == 2 * stand + 2, 1); /* one of them has two lives */
        EXPECT(number("SELECT count(*) FROM records r LEFT JOIN lives l USING (trace, node, epoch) WHERE l.node IS NULL"), 0);
        next = saved + 1;
    }
}

int main(int argc, char **argv) {
    if (argc != 3 || strlen(argv[1]) + sizeof "/later" > sizeof folder) return 2;
    strcpy(folder, argv[1]);
    refuses();
    is_there();
    rows_stand_once();
    later_parts();
    files_rotate();
    disk_full();
    torn_line();
    kills(atol(argv[2]));
    if (!failed) puts("store: ok");
    return failed != 0;
}
