/* hindsight-salvage: what a process left in its pool file.
 *
 *     hindsight-salvage FILE               a line for each page: trace, client, page, first record, records
 *     hindsight-salvage --records FILE     and below it a line for each record: number, moment, payload
 *
 * The last line counts. 0: it was read; 1: it cannot be; 2: it was called otherwise. */
#include "hindsight.h"
#include <inttypes.h>
#include <stdio.h>
#include <string.h>

static void put_trace(const hind_trace_id *trace) {
    for (int i = 0; i < 16; i++) printf("%02x", trace->bytes[i]);
}

/* Bytes of a text, and any other as \xNN. */
static void put_payload(const uint8_t *at, size_t len) {
    for (size_t i = 0; i < len; i++)
        if (at[i] == '\\') fputs("\\\\", stdout);
        else if (at[i] >= 32 && at[i] < 127) putchar(at[i]);
        else printf("\\x%02x", at[i]);
}

static int put_records(hind_salvage *s, size_t page) {
    hind_record r;
    hind_code code = HIND_OK;
    for (size_t at = 0; !(code = hind_salvage_get_record(s, page, at, &r)); at++) {
        printf("  %" PRIu64 " %" PRIu64 " ", r.number, r.moment);
        put_payload(r.payload, r.len);
        putchar('\n');
    }
    return code == HIND_INVALID; /* there is no record behind the last one */
}

static int put_all(hind_salvage *s, int with_records) {
    hind_salvage_info info = {.size = sizeof info};
    hind_salvaged_page p;
    hind_salvage_get_info(s, &info);
    printf("node %u epoch %" PRIu64 " name ", info.node, info.epoch);
    put_payload((const uint8_t *)info.name, strlen(info.name));
    printf("\n");
    for (size_t page = 0; hind_salvage_get_page(s, page, &p) == HIND_OK; page++) {
        put_trace(&p.trace);
        printf(" client %u page %" PRIu32 " first %" PRIu32 " records %zu\n", p.client, p.page, p.first, p.records);
        if (with_records && !put_records(s, page)) return 0;
    }
    printf("buffers %zu pages %zu torn %zu\n", info.buffers, info.pages, info.torn);
    return 1;
}

int main(int argc, char **argv) {
    int with_records = argc > 1 && !strcmp(argv[1], "--records");
    hind_salvage *s;
    if (argc != 2 + with_records || argv[1 + with_records][0] == '-') {
        fprintf(stderr, "usage: hindsight-salvage [--records] FILE\n");
        return 2;
    }
    const char *file = argv[1 + with_records];
    hind_code code = hind_salvage_open(file, &s);
    if (code) {
        const char *why = code == HIND_INVALID ? "it is no pool file" : code == HIND_TAKEN ? "a process that lives has it" : hind_strerror(code);
        if (code == HIND_SYSTEM) perror(file);
        else fprintf(stderr, "hindsight-salvage: %s: %s\n", file, why);
        return 1;
    }
    int is_done = put_all(s, with_records) && !fflush(stdout) && !ferror(stdout);
    hind_salvage_close(s);
    return !is_done;
}
