/* Many calls in one (docs/FORMATS.md, "Many calls in one"). */
#include "within.h"
#include <string.h>

static uint64_t number_at(const uint8_t *at, int bytes) {
    uint64_t n = 0;
    while (bytes--) n = n << 8 | *at++;
    return n;
}

/* How many bytes the call has that begins here, where so many are left; 0 where none begins. */
static size_t length_of(const uint8_t *at, size_t left) {
    size_t len = 0;
    switch (*at) {
    case 'B': len = 17; break;
    case 'P': len = left < 11 ? 0 : 11 + (size_t)number_at(at + 9, 2); break;
    case 'C': len = 3; break;
    case 'K': len = 19; break;
    case 'T': len = left < 19 ? 0 : 19 + 16 * (size_t)at[18]; break;
    case 'S': len = 13; break;
    case 'E': len = 1; break;
    }
    return len <= left ? len : 0;
}

static hind_trace_id trace_at(const uint8_t *at) {
    hind_trace_id trace;
    memcpy(trace.bytes, at, sizeof trace.bytes);
    return trace;
}

static hind_code point(hind_client *client, const uint8_t *at) {
    uint64_t moment = number_at(at + 1, 8);
    return hind_point_at(client, moment ? moment : hindlib_nanoseconds(), at + 11, (size_t)number_at(at + 9, 2));
}

/* A lead of all zero is the open trace. */
static hind_code trigger(hind_client *client, const uint8_t *at) {
    static const hind_trace_id none;
    hind_trace_id lead = trace_at(at + 2);
    return hind_trigger(client, at[1], memcmp(&lead, &none, sizeof none) ? &lead : NULL, (const hind_trace_id *)(at + 19), at[18]);
}

static hind_code call(hind_client *client, const uint8_t *at) {
    hind_trace_id trace;
    switch (*at) {
    case 'B': trace = trace_at(at + 1); return hind_begin(client, &trace);
    case 'P': return point(client, at);
    case 'C': return hind_crumb(client, (hind_node_id)number_at(at + 1, 2));
    case 'K': trace = trace_at(at + 1); return hind_crumb_of(client, &trace, (hind_node_id)number_at(at + 17, 2));
    case 'T': return trigger(client, at);
    case 'S': return hind_sample(client, (uint32_t)number_at(at + 1, 4), number_at(at + 5, 8));
    default: return hind_end(client);
    }
}

hind_code hind_write(hind_client *client, const void *bytes, size_t len, size_t *calls, size_t *used) {
    size_t at = 0, done = 0;
    hind_code code = client && (bytes || !len) ? HIND_OK : HIND_INVALID;
    while (!code && at < len) {
        size_t one = length_of((const uint8_t *)bytes + at, len - at);
        code = one ? call(client, (const uint8_t *)bytes + at) : HIND_REFUSED;
        if (code) break;
        at += one;
        done++;
    }
    if (calls) *calls = done;
    if (used) *used = at;
    return code;
}
