/* What a client's calls do around those of the core: handles that may not be used are refused, and clocks are read. */
#define _POSIX_C_SOURCE 200809L
#include "within.h"
#include <string.h>
#include <time.h>

enum { MOST_LATERALS = 32 };

uint64_t hindlib_nanoseconds(void) {
    struct timespec t;
    clock_gettime(CLOCK_REALTIME, &t);
    return (uint64_t)t.tv_sec * 1000000000 + (uint64_t)t.tv_nsec;
}

uint64_t hindlib_microseconds(void) {
    struct timespec t;
    clock_gettime(CLOCK_MONOTONIC, &t);
    return (uint64_t)t.tv_sec * 1000000 + (uint64_t)t.tv_nsec / 1000;
}

/* A signal handler sees the flag as the call that it interrupted left it. */
static inline hind_code enter(hind_client *c) {
    if (!c) return HIND_INVALID;
    if (c->forks != hindlib_forks) return HIND_FORKED;
    if (hindlib_load(&c->is_closed)) return HIND_CLOSED;
    if (hindlib_load(&c->is_busy)) return HIND_BUSY;
    hindlib_store(&c->is_busy, 1);
    __atomic_signal_fence(__ATOMIC_SEQ_CST);
    return HIND_OK;
}

static inline hind_code leave(hind_client *c, uint32_t answer) {
    __atomic_signal_fence(__ATOMIC_SEQ_CST);
    hindlib_store(&c->is_busy, 0);
    return answer == HINDCORE_DONE ? HIND_OK : hindlib_code(answer);
}

/* The counts are a row of numbers. */
enum { COUNTS = sizeof(hindcore_count) / sizeof(uint64_t) };

uint32_t hindlib_show(hind_client *c) {
    hindcore_count now = {0, 0, 0, 0, 0, 0, 0, 0, 0};
    uint32_t answer = hindcore_counts(&c->core, &now);
    const uint64_t *from = (const uint64_t *)&now;
    uint64_t *to = (uint64_t *)&c->counts;
    for (size_t i = 0; answer == HINDCORE_DONE && i < COUNTS; i++) hindlib_store(&to[i], from[i]);
    return answer;
}

void hindlib_add_shown(const hind_client *c, hindcore_count *sum) {
    const uint64_t *from = (const uint64_t *)&c->counts;
    uint64_t *to = (uint64_t *)sum;
    for (size_t i = 0; i < COUNTS; i++) to[i] += hindlib_load(&from[i]);
}

static int is_none(const hind_trace_id *trace) {
    static const hind_trace_id none;
    return !memcmp(trace, &none, sizeof none);
}

static const hindcore_trace *core_trace(const hind_trace_id *trace) { return (const hindcore_trace *)trace; }

hind_code hind_begin(hind_client *client, const hind_trace_id *trace) {
    hind_code code = trace && !is_none(trace) ? enter(client) : HIND_INVALID;
    if (code) return code;
    uint32_t answer = hindcore_begin(&client->core, core_trace(trace));
    if (answer == HINDCORE_DONE) {
        client->trace = *trace;
        client->is_open = 1;
    }
    return leave(client, answer);
}

hind_code hind_begin_from(hind_client *client, const hind_context *context) {
    hind_code code = context ? hind_begin(client, &context->trace) : HIND_INVALID;
    if (code) return code;
    if (context->node != HIND_NO_NODE) (void)hind_crumb(client, context->node);
    return HIND_OK;
}

hind_code hind_point_at(hind_client *client, uint64_t moment, const void *payload, size_t len) {
    if (!payload) {
        if (len) return HIND_INVALID;
        payload = "";
    }
    hind_code code = enter(client);
    return code ? code : leave(client, hindcore_point(&client->core, moment, payload, len));
}

hind_code hind_point(hind_client *client, const void *payload, size_t len) { return hind_point_at(client, hindlib_nanoseconds(), payload, len); }

static int are_pieces(const struct iovec *pieces, size_t count) {
    if (count && !pieces) return 0;
    for (size_t i = 0; i < count; i++)
        if (pieces[i].iov_len && !pieces[i].iov_base) return 0;
    return 1;
}

/* How many bytes they have, and one more than a payload may where that is less. They are put together where they are few enough. */
static size_t put_together(uint8_t *to, const struct iovec *pieces, size_t count) {
    size_t len = 0;
    for (size_t i = 0; i < count; i++) {
        if (pieces[i].iov_len > HINDLIB_PAYLOAD - len) return HINDLIB_PAYLOAD + 1;
        if (pieces[i].iov_len) memcpy(to + len, pieces[i].iov_base, pieces[i].iov_len);
        len += pieces[i].iov_len;
    }
    return len;
}

hind_code hind_pointv_at(hind_client *client, uint64_t moment, const struct iovec *pieces, size_t count) {
    hind_code code = are_pieces(pieces, count) ? enter(client) : HIND_INVALID;
    if (code) return code;
    size_t len = put_together(client->pieces, pieces, count);
    return leave(client, hindcore_point(&client->core, moment, client->pieces, len));
}

hind_code hind_pointv(hind_client *client, const struct iovec *pieces, size_t count) { return hind_pointv_at(client, hindlib_nanoseconds(), pieces, count); }

hind_code hind_crumb(hind_client *client, hind_node_id node) {
    hind_code code = enter(client);
    return code ? code : leave(client, hindcore_crumb(&client->core, node));
}

hind_code hind_crumb_of(hind_client *client, const hind_trace_id *trace, hind_node_id node) {
    hind_code code = trace && !is_none(trace) ? enter(client) : HIND_INVALID;
    return code ? code : leave(client, hindcore_crumb_of(&client->core, core_trace(trace), node));
}

static int are_laterals(const hind_trace_id *laterals, size_t count) {
    if (count > MOST_LATERALS || (count && !laterals)) return 0;
    for (size_t i = 0; i < count; i++)
        if (is_none(&laterals[i])) return 0;
    return 1;
}

hind_code hind_trigger(hind_client *client, uint8_t trigger, const hind_trace_id *lead, const hind_trace_id *laterals, size_t count) {
    hind_code code = are_laterals(laterals, count) && !(lead && is_none(lead)) ? enter(client) : HIND_INVALID;
    if (code) return code;
    if (!lead && !client->is_open) return leave(client, HINDCORE_NO_TRACE);
    if (!lead) lead = &client->trace;
    return leave(client, hindcore_trigger(&client->core, hindlib_microseconds(), trigger, core_trace(lead), core_trace(count ? laterals : lead), count));
}

hind_code hind_sample(hind_client *client, uint32_t autotrigger, uint64_t value) {
    hind_code code = enter(client);
    return code ? code : leave(client, hindcore_sample(&client->core, hindlib_microseconds(), autotrigger, value));
}

hind_code hind_end(hind_client *client) {
    hind_code code = enter(client);
    if (code) return code;
    uint32_t answer = hindcore_end(&client->core);
    if (answer == HINDCORE_DONE) client->is_open = 0;
    (void)hindlib_show(client);
    return leave(client, answer);
}

hind_code hind_flush(hind_client *client, uint64_t *waits) {
    uint64_t left = 0;
    hind_code code = enter(client);
    if (code) return code;
    uint32_t answer = hindcore_flush(&client->core, &left);
    if (waits) *waits = left;
    (void)hindlib_show(client);
    return leave(client, answer);
}

hind_code hind_client_trace(const hind_client *client, hind_trace_id *trace) {
    hind_client *c = (hind_client *)(uintptr_t)client;
    hind_code code = trace ? enter(c) : HIND_INVALID;
    if (code) return code;
    if (c->is_open) *trace = c->trace;
    return leave(c, c->is_open ? HINDCORE_DONE : HINDCORE_NO_TRACE);
}

hind_code hind_client_get_counts(hind_client *client, hind_client_counts *counts) {
    hind_code code = enter(client);
    if (code) return code;
    uint32_t answer = hindlib_show(client);
    hindcore_count of = client->counts;
    code = leave(client, answer);
    if (code) return code;
    hind_client_counts own = {sizeof own, of.points, of.null_pages, of.stray_points, of.full_points, of.long_points, of.spent_points, of.refused_crumbs, of.refused_triggers, of.dropped_notes};
    return hindlib_give(counts, &own, sizeof own);
}

/* ---- spans */

static hind_code put(hind_client *client, const uint8_t *payload, size_t len) { return len ? hind_point(client, payload, len) : HIND_INVALID; }

hind_code hind_span_start(hind_client *client, hind_span_id span, hind_span_id parent, int kind, const char *name) {
    uint8_t out[HIND_SPAN_PAYLOAD];
    return put(client, out, hind_put_span_start(out, span, parent, kind, name));
}

hind_code hind_span_end(hind_client *client, hind_span_id span, int status, const char *message) {
    uint8_t out[HIND_SPAN_PAYLOAD];
    return put(client, out, hind_put_span_end(out, span, status, message));
}

hind_code hind_span_event(hind_client *client, hind_span_id span, const char *name) {
    uint8_t out[HIND_SPAN_PAYLOAD];
    return put(client, out, hind_put_span_event(out, span, name));
}

hind_code hind_span_text(hind_client *client, hind_span_id span, const char *key, const char *value) {
    uint8_t out[HIND_SPAN_PAYLOAD];
    return put(client, out, hind_put_span_text(out, span, key, value));
}

hind_code hind_span_int(hind_client *client, hind_span_id span, const char *key, int64_t value) {
    uint8_t out[HIND_SPAN_PAYLOAD];
    return put(client, out, hind_put_span_int(out, span, key, value));
}

hind_code hind_span_double(hind_client *client, hind_span_id span, const char *key, double value) {
    uint8_t out[HIND_SPAN_PAYLOAD];
    return put(client, out, hind_put_span_double(out, span, key, value));
}

hind_code hind_span_bool(hind_client *client, hind_span_id span, const char *key, int value) {
    uint8_t out[HIND_SPAN_PAYLOAD];
    return put(client, out, hind_put_span_bool(out, span, key, value));
}
