/* A trace as one line of OTLP's JSON. Each life of a node is a resource, and its spans are those that its records speak of (docs/FORMATS.md, "A
 * trace as OTLP"). */
#include "spanlist.h"
#include <math.h>
#include <stdarg.h>
#include <stdio.h>
#include <stdlib.h>
#include <string.h>

/* ---- text */

static void put(otlp_text *t, const char *bytes, size_t len) {
    if (t->failed) return;
    if (t->room - t->len < len) {
        size_t room = t->room < 4096 ? 4096 : t->room;
        while (room - t->len < len) room *= 2;
        char *more = realloc(t->bytes, room);
        if (!more) {
            t->failed = 1;
            return;
        }
        t->bytes = more;
        t->room = room;
    }
    memcpy(t->bytes + t->len, bytes, len);
    t->len += len;
}

static void put_text(otlp_text *t, const char *text) { put(t, text, strlen(text)); }

static void put_format(otlp_text *t, const char *format, ...) {
    char line[160];
    va_list list;
    va_start(list, format);
    vsnprintf(line, sizeof line, format, list);
    va_end(list);
    put_text(t, line);
}

static void put_hex(otlp_text *t, const uint8_t *bytes, size_t len) {
    for (size_t i = 0; i < len; i++) put_format(t, "%02x", bytes[i]);
}

/* How many bytes a character of UTF-8 has that stands there, or 0 where none does. */
static size_t character(const uint8_t *at, size_t len) {
    uint8_t first = at[0], low = 0x80, high = 0xbf;
    size_t n = first < 0x80 ? 1 : first < 0xc2 ? 0 : first < 0xe0 ? 2 : first < 0xf0 ? 3 : first < 0xf5 ? 4 : 0;
    if (!n || n > len) return 0;
    if (first == 0xe0) low = 0xa0;
    if (first == 0xed) high = 0x9f;
    if (first == 0xf0) low = 0x90;
    if (first == 0xf4) high = 0x8f;
    for (size_t i = 1; i < n; i++, low = 0x80, high = 0xbf)
        if (at[i] < low || at[i] > high) return 0;
    return n;
}

static int is_utf8(const uint8_t *at, size_t len) {
    while (len) {
        size_t n = character(at, len);
        if (!n) return 0;
        at += n;
        len -= n;
    }
    return 1;
}

/* A string of JSON. A byte that is no part of a character becomes U+FFFD. */
static void put_string(otlp_text *t, const void *text, size_t len) {
    const uint8_t *at = text;
    put_text(t, "\"");
    while (len) {
        size_t n = character(at, len);
        if (!n) {
            put_text(t, "\xef\xbf\xbd");
            n = 1;
        } else if (*at == '"' || *at == '\\') {
            put_format(t, "\\%c", *at);
        } else if (*at < 0x20) {
            put_format(t, "\\u%04x", *at);
        } else {
            put(t, (const char *)at, n);
        }
        at += n;
        len -= n;
    }
    put_text(t, "\"");
}

static void put_base64(otlp_text *t, const uint8_t *bytes, size_t len) {
    static const char digits[] = "ABCDEFGHIJKLMNOPQRSTUVWXYZabcdefghijklmnopqrstuvwxyz0123456789+/";
    put_text(t, "\"");
    for (size_t i = 0; i < len; i += 3) {
        size_t n = len - i < 3 ? len - i : 3;
        uint32_t three = (uint32_t)bytes[i] << 16 | (uint32_t)(n > 1 ? bytes[i + 1] : 0) << 8 | (uint32_t)(n > 2 ? bytes[i + 2] : 0);
        char four[4] = {digits[three >> 18], digits[three >> 12 & 63], n > 1 ? digits[three >> 6 & 63] : '=', n > 2 ? digits[three & 63] : '='};
        put(t, four, 4);
    }
    put_text(t, "\"");
}

/* ---- attributes: each with a comma in front, but for the first of a list */

static void open_attribute(otlp_text *t, int *count, const char *key, size_t len) {
    put_text(t, (*count)++ ? ",{\"key\":" : "{\"key\":");
    put_string(t, key, len);
    put_text(t, ",\"value\":{");
}

static void put_text_attribute(otlp_text *t, int *count, const char *key, const char *value) {
    open_attribute(t, count, key, strlen(key));
    put_text(t, "\"stringValue\":");
    put_string(t, value, strlen(value));
    put_text(t, "}}");
}

/* An integer of OTLP is below 2^63. */
static void put_count_attribute(otlp_text *t, int *count, const char *key, uint64_t value) {
    open_attribute(t, count, key, strlen(key));
    put_format(t, "\"intValue\":\"%llu\"}}", (unsigned long long)(value > INT64_MAX ? INT64_MAX : value));
}

static void put_flag_attribute(otlp_text *t, int *count, const char *key) {
    open_attribute(t, count, key, strlen(key));
    put_text(t, "\"boolValue\":true}}");
}

static void put_double(otlp_text *t, double value) {
    char text[40];
    if (isnan(value)) {
        put_text(t, "\"NaN\"");
    } else if (isinf(value)) {
        put_text(t, value < 0 ? "\"-Infinity\"" : "\"Infinity\"");
    } else {
        snprintf(text, sizeof text, "%.17g", value);
        for (char *c = text; *c; c++)
            if (*c == ',') *c = '.'; /* where the locale writes so */
        put_text(t, text);
    }
}

static void put_span_attribute(otlp_text *t, int *count, const hind_span_record *r) {
    open_attribute(t, count, r->text, r->text_len);
    switch (r->type) {
    case HIND_VALUE_TEXT:
        put_text(t, "\"stringValue\":");
        put_string(t, r->value, r->value_len);
        break;
    case HIND_VALUE_INT:
        put_format(t, "\"intValue\":\"%lld\"", (long long)r->integer);
        break;
    case HIND_VALUE_DOUBLE:
        put_text(t, "\"doubleValue\":");
        put_double(t, r->real);
        break;
    default:
        put_text(t, r->integer ? "\"boolValue\":true" : "\"boolValue\":false");
    }
    put_text(t, "}}");
}

/* ---- spans */

static void put_moment(otlp_text *t, const char *name, uint64_t moment) { put_format(t, "\"%s\":\"%llu\",", name, (unsigned long long)moment); }

/* What stands in a record of no profile: a text, or bytes. */
static void put_payload(otlp_text *t, const otlp_record *r) {
    int count = 0;
    put_text(t, ",\"name\":\"record\",\"attributes\":[");
    open_attribute(t, &count, "hindsight.payload", 17);
    if (is_utf8(r->payload, r->len)) {
        put_text(t, "\"stringValue\":");
        put_string(t, r->payload, r->len);
    } else {
        put_text(t, "\"bytesValue\":");
        put_base64(t, r->payload, r->len);
    }
    put_text(t, "}}]}");
}

static void open_event(otlp_text *t, int *count, const otlp_record *r) { put_format(t, "%s{\"timeUnixNano\":\"%llu\"", (*count)++ ? "," : "", (unsigned long long)r->moment); }

/* Records that are missing in front of one of a whole trace are of other traces. */
static void put_event(otlp_text *t, int *count, const otlp_record *r, int is_whole) {
    hind_span_record said;
    int is_said = hind_read_span(r->payload, r->len, &said), gaps = 0;
    if (r->missing && !is_whole) {
        open_event(t, count, r);
        put_text(t, ",\"name\":\"hindsight.gap\",\"attributes\":[");
        put_count_attribute(t, &gaps, "hindsight.missing", r->missing);
        put_text(t, "]}");
    }
    if (!is_said) {
        open_event(t, count, r);
        put_payload(t, r);
    } else if (said.what == HIND_SPAN_EVENT) {
        open_event(t, count, r);
        put_text(t, ",\"name\":");
        put_string(t, said.text, said.text_len);
        put_text(t, "}");
    }
}

static void put_attributes(otlp_text *t, const span_list *s, const span *p, int is_whole) {
    const otlp_record *first = &s->part->records[p->first];
    int count = 0;
    put_text(t, ",\"attributes\":[");
    for (long i = p->first; i != NO_RECORD; i = s->next[i]) {
        hind_span_record said;
        if (hind_read_span(s->part->records[i].payload, s->part->records[i].len, &said) && said.what == HIND_SPAN_ATTRIBUTE) put_span_attribute(t, &count, &said);
    }
    put_count_attribute(t, &count, "hindsight.client", first->client);
    if (p->start == NO_RECORD) put_flag_attribute(t, &count, "hindsight.no_start");
    if (p->end == NO_RECORD) put_flag_attribute(t, &count, "hindsight.no_end");
    put_text(t, "],\"events\":[");
    count = 0;
    for (long i = p->first; i != NO_RECORD; i = s->next[i]) put_event(t, &count, &s->part->records[i], is_whole);
    put_text(t, "]");
}

/* The greatest moment of a span's records, and the least. */
static void bounds(const span_list *s, const span *p, uint64_t *least, uint64_t *greatest) {
    *least = *greatest = s->part->records[p->first].moment;
    for (long i = p->first; i != NO_RECORD; i = s->next[i]) {
        uint64_t moment = s->part->records[i].moment;
        if (moment < *least) *least = moment;
        if (moment > *greatest) *greatest = moment;
    }
}

static void put_span(otlp_text *t, const span_list *s, const span *p, const otlp_trace *trace) {
    static const hind_span_id none;
    const otlp_record *records = s->part->records;
    hind_span_record start = {0}, end = {0};
    uint64_t least, greatest;
    bounds(s, p, &least, &greatest);
    if (p->start != NO_RECORD) hind_read_span(records[p->start].payload, records[p->start].len, &start);
    if (p->end != NO_RECORD) hind_read_span(records[p->end].payload, records[p->end].len, &end);
    put_text(t, "{\"traceId\":\"");
    put_hex(t, trace->id.bytes, 16);
    put_text(t, "\",\"spanId\":\"");
    put_hex(t, p->id.bytes, 8);
    if (memcmp(&start.parent, &none, sizeof none)) {
        put_text(t, "\",\"parentSpanId\":\"");
        put_hex(t, start.parent.bytes, 8);
    }
    put_text(t, "\",\"name\":");
    put_string(t, start.what ? start.text : "records", start.what ? start.text_len : 7);
    put_format(t, ",\"kind\":%d,", start.what ? start.kind : HIND_KIND_INTERNAL);
    put_moment(t, "startTimeUnixNano", p->start != NO_RECORD ? records[p->start].moment : least);
    put_moment(t, "endTimeUnixNano", p->end != NO_RECORD ? records[p->end].moment : greatest);
    put_format(t, "\"status\":{\"code\":%d", end.status);
    if (end.text_len) {
        put_text(t, ",\"message\":");
        put_string(t, end.text, end.text_len);
    }
    put_text(t, "}");
    put_attributes(t, s, p, trace->is_whole);
    put_text(t, "}");
}

static void put_part(otlp_text *t, const otlp_trace *trace, const otlp_part *part) {
    span_list s;
    char epoch[24];
    int count = 0;
    snprintf(epoch, sizeof epoch, "%llu", (unsigned long long)part->epoch);
    if (!span_list_make(&s, part)) t->failed = 1;
    put_text(t, "{\"resource\":{\"attributes\":[");
    put_text_attribute(t, &count, "service.name", part->service);
    put_count_attribute(t, &count, "hindsight.node", part->node);
    put_text_attribute(t, &count, "hindsight.epoch", epoch);
    put_text_attribute(t, &count, "hindsight.wholeness", part->wholeness);
    put_count_attribute(t, &count, "hindsight.trigger", trace->trigger);
    put_count_attribute(t, &count, "hindsight.part", trace->part);
    if (trace->is_whole) put_flag_attribute(t, &count, "hindsight.whole");
    put_text(t, "]},\"scopeSpans\":[{\"scope\":{\"name\":\"hindsight\"},\"spans\":[");
    for (long i = 0; !t->failed && i < s.count; i++) {
        if (i) put_text(t, ",");
        put_span(t, &s, &s.spans[i], trace);
    }
    put_text(t, "]}]}");
    span_list_free(&s);
}

int otlp_write(const otlp_trace *trace, otlp_text *to) {
    size_t len = to->len;
    to->failed = 0;
    put_text(to, "{\"resourceSpans\":[");
    for (size_t i = 0; i < trace->count; i++) {
        if (i) put_text(to, ",");
        put_part(to, trace, &trace->parts[i]);
    }
    put_text(to, "]}\n");
    if (!to->failed) return 0;
    to->len = len;
    return -1;
}
