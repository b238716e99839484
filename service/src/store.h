/* What a hub saves: rows in SQLite, each of which stands once however often its trace is put, and lines of OTLP in files that rotate. */
#ifndef STORE_H
#define STORE_H
#include "otlp.h"

typedef struct store store;

typedef struct {
    const char *folder;  /* is there already; has traces.db and traces-NNNNNN.jsonl */
    uint64_t line_bytes; /* a file of lines that has so many bytes gets no more; 0: no limit */
    unsigned kept_files; /* so many files of lines are kept, the newest; 0: all */
} store_options;

/* Whether a store was made in the folder, or that cannot be told. */
int store_is_there(const store_options *options);

/* Opens a store, or makes it. NULL where that failed: `fault` says why. */
store *store_open(const store_options *options, char *fault, size_t room);

/* Puts a trace. A row that stands already stays as it is, and a line is written only where some row is new. How whole a life's part is, and its
 * service, are what was put last, but for a life that was silent then, or not named. 0, or -1 where nothing of it was put (store_fault says why). */
int store_put(store *s, const otlp_trace *trace);

/* Has all that was put on the disk: 0, or -1, and then nothing that was put since the last save stands. */
int store_save(store *s);

const char *store_fault(const store *s);
void store_close(store *s);

#endif
