/* The store of a hub. Lines of OTLP are on the disk before the rows are: after a crash between the two a trace is put anew, and its line stands twice,
 * its rows once. */
#define _GNU_SOURCE
#include "store.h"
#include <dirent.h>
#include <errno.h>
#include <fcntl.h>
#include <limits.h>
#include <sqlite3.h>
#include <stdio.h>
#include <stdlib.h>
#include <string.h>
#include <sys/stat.h>
#include <time.h>
#include <unistd.h>

enum { PUT_TRACE, PUT_LIFE, PUT_RECORD, STATEMENTS };

static const char schema[] =
    "PRAGMA journal_mode=WAL; PRAGMA synchronous=FULL;"
    "CREATE TABLE IF NOT EXISTS traces (trace BLOB NOT NULL, part INTEGER NOT NULL, trigger INTEGER NOT NULL, whole INTEGER NOT NULL, saved INTEGER NOT NULL, PRIMARY KEY (trace, part)) WITHOUT ROWID;"
    "CREATE TABLE IF NOT EXISTS lives (trace BLOB NOT NULL, node INTEGER NOT NULL, epoch INTEGER NOT NULL, service TEXT NOT NULL, wholeness TEXT NOT NULL,"
    " PRIMARY KEY (trace, node, epoch)) WITHOUT ROWID;"
    "CREATE TABLE IF NOT EXISTS records (trace BLOB NOT NULL, node INTEGER NOT NULL, epoch INTEGER NOT NULL, client INTEGER NOT NULL, core INTEGER NOT NULL,"
    " number INTEGER NOT NULL, missing INTEGER NOT NULL, moment INTEGER NOT NULL, payload BLOB NOT NULL, PRIMARY KEY (trace, node, epoch, client, core, number)) WITHOUT ROWID;"
    "CREATE INDEX IF NOT EXISTS traces_by_time ON traces (saved);";

static const char *const texts[STATEMENTS] = {
    "INSERT OR IGNORE INTO traces VALUES (?, ?, ?, ?, ?)",
    /* what is not known now does not hide what was known before */
    ("INSERT INTO lives VALUES (?, ?, ?, ?, ?) ON CONFLICT DO UPDATE SET service = iif(excluded.service = '', service, excluded.service),"
     " wholeness = iif(wholeness = 'salvaged' OR excluded.wholeness IN ('silent', 'not answered') OR excluded.wholeness LIKE 'unheard %', wholeness, excluded.wholeness)"),
    "INSERT OR IGNORE INTO records VALUES (?, ?, ?, ?, ?, ?, ?, ?, ?)",
};

struct store {
    sqlite3 *db;
    sqlite3_stmt *statements[STATEMENTS];
    int folder, lines;      /* descriptors; `lines` is the file that is written, or -1 */
    unsigned file;          /* its number */
    uint64_t file_len;      /* how much of it is saved */
    uint64_t line_bytes;
    unsigned kept_files;
    int is_open;            /* a transaction is open */
    otlp_text waiting;      /* lines of what was put and is not saved */
    char fault[200];
};

/* ---- faults */

static int failed(store *s, const char *what, const char *why) {
    snprintf(s->fault, sizeof s->fault, "%.60s: %.120s", what, why);
    return -1;
}

static int failed_in_db(store *s, const char *what) { return failed(s, what, sqlite3_errmsg(s->db)); }
static int failed_in_system(store *s, const char *what) { return failed(s, what, strerror(errno)); }

const char *store_fault(const store *s) { return s->fault; }

/* ---- files of lines */

static void name_of(char *name, size_t room, unsigned file) { snprintf(name, room, "traces-%06u.jsonl", file); }

/* How many bytes of a file of so many are whole lines: what is behind the last '\n' was cut off by a crash. */
static off_t whole_lines(int file, off_t len) {
    char last;
    while (len && pread(file, &last, 1, len - 1) == 1 && last != '\n') len--;
    return len;
}

/* Opens the file of this number, whose end is where the next line goes. */
static int open_lines(store *s, unsigned file) {
    char name[40];
    struct stat found;
    name_of(name, sizeof name, file);
    if (s->lines >= 0) close(s->lines);
    s->lines = openat(s->folder, name, O_RDWR | O_CREAT | O_APPEND | O_CLOEXEC, 0644);
    if (s->lines < 0 || fstat(s->lines, &found) || fsync(s->folder)) return failed_in_system(s, name);
    s->file = file;
    s->file_len = (uint64_t)whole_lines(s->lines, found.st_size);
    return (off_t)s->file_len == found.st_size || !ftruncate(s->lines, (off_t)s->file_len) ? 0 : failed_in_system(s, name);
}

/* The greatest number of a file of lines, or 1 where there is none. */
static unsigned last_file(const char *folder) {
    unsigned last = 1, file;
    struct dirent *entry;
    DIR *all = opendir(folder);
    while (all && (entry = readdir(all)))
        if (sscanf(entry->d_name, "traces-%u.jsonl", &file) == 1 && file > last) last = file;
    if (all) closedir(all);
    return last;
}

/* Goes on to the next file where this one has enough, and lets the oldest go where more are kept than may be. */
static int rotate(store *s) {
    char name[40];
    if (!s->line_bytes || s->file_len < s->line_bytes) return 0;
    if (open_lines(s, s->file + 1)) return -1;
    for (unsigned old = s->file; s->kept_files && old > s->kept_files; old--) {
        name_of(name, sizeof name, old - s->kept_files);
        if (unlinkat(s->folder, name, 0)) break;
    }
    return 0;
}

static int write_all(int file, const char *bytes, size_t len) {
    while (len) {
        ssize_t n = write(file, bytes, len);
        if (n < 0 && errno == EINTR) continue;
        if (n < 0) return -1;
        bytes += n;
        len -= (size_t)n;
    }
    return 0;
}

/* Has the lines that wait on the disk. Where that fails what was written of them goes again, or else the next lines go to the next file. */
static int save_lines(store *s) {
    if (!s->waiting.len) return 0;
    if (!write_all(s->lines, s->waiting.bytes, s->waiting.len) && !fdatasync(s->lines)) {
        s->file_len += s->waiting.len;
        s->waiting.len = 0;
        return 0;
    }
    failed_in_system(s, "lines");
    if (ftruncate(s->lines, (off_t)s->file_len)) (void)open_lines(s, s->file + 1);
    return -1;
}

/* ---- rows */

static int run(store *s, const char *text) { return sqlite3_exec(s->db, text, NULL, NULL, NULL) == SQLITE_OK ? 0 : failed_in_db(s, text); }

/* Runs a statement whose values are bound: 1 where it changed a row, 0 where not, -1 where it failed. */
static int step(store *s, sqlite3_stmt *statement) {
    int is_done = sqlite3_step(statement) == SQLITE_DONE, changed = is_done ? sqlite3_changes(s->db) : failed_in_db(s, "row");
    sqlite3_reset(statement);
    return changed;
}

static void bind_life(sqlite3_stmt *to, const otlp_trace *trace, const otlp_part *part) {
    sqlite3_bind_blob(to, 1, trace->id.bytes, 16, SQLITE_STATIC);
    sqlite3_bind_int64(to, 2, part->node);
    sqlite3_bind_int64(to, 3, (sqlite3_int64)part->epoch);
}

static int put_record(store *s, const otlp_trace *trace, const otlp_part *part, const otlp_record *r) {
    sqlite3_stmt *to = s->statements[PUT_RECORD];
    bind_life(to, trace, part);
    sqlite3_bind_int64(to, 4, r->client);
    sqlite3_bind_int64(to, 5, (sqlite3_int64)r->core);
    sqlite3_bind_int64(to, 6, (sqlite3_int64)r->number);
    sqlite3_bind_int64(to, 7, (sqlite3_int64)r->missing);
    sqlite3_bind_int64(to, 8, (sqlite3_int64)r->moment);
    sqlite3_bind_blob(to, 9, r->len ? (const void *)r->payload : "", (int)r->len, SQLITE_STATIC);
    return step(s, to);
}

static int put_life(store *s, const otlp_trace *trace, const otlp_part *part) {
    sqlite3_stmt *to = s->statements[PUT_LIFE];
    bind_life(to, trace, part);
    sqlite3_bind_text(to, 4, part->service, -1, SQLITE_STATIC);
    sqlite3_bind_text(to, 5, part->wholeness, -1, SQLITE_STATIC);
    return step(s, to);
}

/* Whether each life says whole, or that it heard nothing. */
static int are_whole(const otlp_trace *trace) {
    for (size_t i = 0; i < trace->count; i++)
        if (strncmp(trace->parts[i].wholeness, "whole ", 6) && strncmp(trace->parts[i].wholeness, "unheard ", 8)) return 0;
    return 1;
}

/* A later part leaves its trace as whole as it was where it brings no record and tells of no loss, as that of a second trigger does. */
static int put_head(store *s, const otlp_trace *trace, int brings_records) {
    sqlite3_stmt *to = s->statements[PUT_TRACE];
    sqlite3_bind_blob(to, 1, trace->id.bytes, 16, SQLITE_STATIC);
    sqlite3_bind_int64(to, 2, trace->part);
    sqlite3_bind_int64(to, 3, trace->trigger);
    sqlite3_bind_int64(to, 4, trace->is_whole || (trace->part && !brings_records && are_whole(trace)));
    sqlite3_bind_int64(to, 5, (sqlite3_int64)time(NULL));
    return step(s, to);
}

/* All rows of a trace: how many are new that a line is to tell of, or -1. A later part without a record has none. */
static long put_rows(store *s, const otlp_trace *trace) {
    long fresh = 0;
    for (size_t i = 0; fresh >= 0 && i < trace->count; i++) {
        const otlp_part *part = &trace->parts[i];
        if (put_life(s, trace, part) < 0) return -1;
        for (size_t j = 0; fresh >= 0 && j < part->count; j++) {
            int is_new = put_record(s, trace, part, &part->records[j]);
            fresh = is_new < 0 ? -1 : fresh + is_new;
        }
    }
    if (fresh < 0) return -1;
    int is_first = put_head(s, trace, fresh > 0);
    return is_first < 0 ? -1 : trace->part ? fresh : fresh + is_first;
}

int store_put(store *s, const otlp_trace *trace) {
    size_t len = s->waiting.len;
    long fresh;
    if (!s->is_open && run(s, "BEGIN")) return -1;
    s->is_open = 1;
    if (run(s, "SAVEPOINT one")) return -1;
    fresh = put_rows(s, trace);
    if (fresh > 0 && otlp_write(trace, &s->waiting)) fresh = failed(s, "line", "no memory");
    if (fresh >= 0 && !run(s, "RELEASE one")) return 0;
    s->waiting.len = len;
    sqlite3_exec(s->db, "ROLLBACK TO one; RELEASE one", NULL, NULL, NULL);
    return -1;
}

/* Forgets all that was put and is not saved. */
static int give_up(store *s) {
    sqlite3_exec(s->db, "ROLLBACK", NULL, NULL, NULL);
    s->is_open = 0;
    s->waiting.len = 0;
    return -1;
}

int store_save(store *s) {
    if (!s->is_open) return 0;
    if (rotate(s) || save_lines(s) || run(s, "COMMIT")) return give_up(s);
    s->is_open = 0;
    return 0;
}

/* ---- opening */

static int open_db(store *s, const char *folder) {
    char path[PATH_MAX];
    if (snprintf(path, sizeof path, "%s/traces.db", folder) >= (int)sizeof path) return failed(s, folder, strerror(ENAMETOOLONG));
    if (sqlite3_open_v2(path, &s->db, SQLITE_OPEN_READWRITE | SQLITE_OPEN_CREATE, NULL) != SQLITE_OK) return failed_in_db(s, path);
    sqlite3_busy_timeout(s->db, 2000);
    if (run(s, schema)) return -1;
    for (int i = 0; i < STATEMENTS; i++)
        if (sqlite3_prepare_v2(s->db, texts[i], -1, &s->statements[i], NULL) != SQLITE_OK) return failed_in_db(s, texts[i]);
    return 0;
}

static int open_all(store *s, const store_options *options) {
    s->line_bytes = options->line_bytes;
    s->kept_files = options->kept_files;
    s->folder = open(options->folder, O_RDONLY | O_DIRECTORY | O_CLOEXEC);
    if (s->folder < 0) return failed_in_system(s, options->folder);
    if (open_db(s, options->folder)) return -1;
    return open_lines(s, last_file(options->folder));
}

int store_is_there(const store_options *options) {
    char path[PATH_MAX];
    return snprintf(path, sizeof path, "%s/traces.db", options->folder) >= (int)sizeof path || !access(path, F_OK) || errno != ENOENT;
}

store *store_open(const store_options *options, char *fault, size_t room) {
    store *s = calloc(1, sizeof *s);
    if (!s) {
        snprintf(fault, room, "no memory");
        return NULL;
    }
    s->folder = s->lines = -1;
    if (!open_all(s, options)) return s;
    snprintf(fault, room, "%s", s->fault);
    store_close(s);
    return NULL;
}

void store_close(store *s) {
    if (!s) return;
    for (int i = 0; i < STATEMENTS; i++) sqlite3_finalize(s->statements[i]);
    sqlite3_close(s->db);
    if (s->folder >= 0) close(s->folder);
    if (s->lines >= 0) close(s->lines);
    free(s->waiting.bytes);
    free(s);
}
