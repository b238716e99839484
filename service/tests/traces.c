/* Fills the store in the folder that it is given with two traces: one of two services that failed in the second, and one of records alone, with a
 * gap, and with spans that are their own ancestors. service/tests/traces.txt has what is found and shown of them, worked by hand. */
#include "store.h"
#include <stdio.h>
#include <string.h>

static uint8_t payloads[20][HIND_SPAN_PAYLOAD];
static otlp_record records[20];
static size_t count;

static void add(uint16_t client, uint64_t number, uint64_t missing, uint64_t moment, size_t len) {
    otlp_record r = {client, 0, number, missing, moment, payloads[count], len};
    records[count++] = r;
}

static void add_text(uint16_t client, uint64_t number, uint64_t missing, uint64_t moment, const char *text) {
    memcpy(payloads[count], text, strlen(text));
    add(client, number, missing, moment, strlen(text));
}

static hind_span_id id(uint8_t last) {
    hind_span_id span = {{0}};
    span.bytes[7] = last;
    return span;
}

#define NOW payloads[count]

int main(int argc, char **argv) {
    char fault[200];
    store_options options = {argc == 2 ? argv[1] : "", 0, 0};
    store *s = store_open(&options, fault, sizeof fault);
    size_t web;
    if (!s) {
        fprintf(stderr, "traces: %s\n", fault);
        return 1;
    }
    /* the page calls the stock 200 us after its start, and fails when that fails: 1,000 us in all */
    add(0, 0, 0, 1000000000, hind_put_span_start(NOW, id(1), id(0), HIND_KIND_SERVER, "GET /cart"));
    add(0, 1, 0, 1000000100, hind_put_span_text(NOW, id(1), "user", "7\x1b[31m"));
    add(0, 2, 0, 1001000000, hind_put_span_end(NOW, id(1), HIND_STATUS_ERROR, "502"));
    web = count;
    add(3, 7, 0, 1000200000, hind_put_span_start(NOW, id(2), id(1), HIND_KIND_SERVER, "stock"));
    add(3, 8, 0, 1000250000, hind_put_span_int(NOW, id(2), "items", -4));
    add(3, 9, 0, 1000300000, hind_put_span_event(NOW, id(2), "lock"));
    add(3, 10, 0, 1000700000, hind_put_span_end(NOW, id(2), HIND_STATUS_OK, NULL));
    otlp_part failed[] = {{1, 5, "web", "whole since 12", records, web}, {2, 9, "stock", "whole since 3", records + web, count - web}};
    otlp_trace trace = {{{0, 0, 0, 0, 0, 0, 0, 0, 0, 0, 0, 0, 0, 0, 0xa1, 0xb0}}, 2, 0, 1, failed, 2};
    if (store_put(s, &trace)) return 1;
    /* a second trigger of it, when its nodes have forgotten it: no record, and nothing that makes it less whole */
    otlp_part again[] = {{1, 5, "web", "unheard since 90", records, 0}, {2, 9, "stock", "whole since 3", records, 0}};
    otlp_trace later = {{{0, 0, 0, 0, 0, 0, 0, 0, 0, 0, 0, 0, 0, 0, 0xa1, 0xb0}}, 4, 1, 0, again, 2};
    if (store_put(s, &later)) return 1;

    count = 0;
    add_text(0, 0, 0, 50, "first");
    add_text(0, 3, 2, 1550, "second\n");
    add(1, 0, 0, 60, hind_put_span_start(NOW, id(8), id(9), HIND_KIND_INTERNAL, "egg"));
    add(1, 1, 0, 70, hind_put_span_start(NOW, id(9), id(8), HIND_KIND_INTERNAL, "hen"));
    otlp_part odd = {4, 1, "odd", "lost: 1 null page", records, count};
    otlp_trace other = {{{0xff}}, 3, 0, 0, &odd, 1};
    if (store_put(s, &other) || store_save(s)) return 1;
    store_close(s);
    return 0;
}
