/* A hub: the core's, behind a lock, and the traces that it gives out. */
#include "gather.h"
#include "within.h"
#include <stdio.h>
#include <stdlib.h>
#include <string.h>

enum { MOST_NODES = 128, ASK_ROOM = 1024, KIND_HELLO = 1, HELLO_NAME = 52 };

typedef char node_name[HINDLIB_NAME + 1];

struct hind_hub {
    hindcore_hub core;
    unsigned forks;
    pthread_mutex_t lock;
    node_name names[MOST_NODES];
    uint8_t ask[ASK_ROOM];
    int is_out;
    hindcore_trace out;
};

struct hind_trace {
    gathered of;
    node_name *names; /* of its parts */
    size_t records;
};

/* ---- opening */

static hind_code open_core(hind_hub *h, const hind_hub_options *o) {
    hindcore_fault fault = {0, 0};
    uint32_t answer = hindcore_hub_open((const uint8_t *)o->settings, o->settings_len, o->epoch, o->is_fresh != 0, &h->core, &fault);
    if (answer == HINDCORE_SETTINGS) hindlib_note_fault(&fault);
    return hindlib_code(answer);
}

static hind_code open_with(const hind_hub_options *o, hind_hub **hub) {
    hind_hub *h = calloc(1, sizeof *h);
    hind_code code = h ? open_core(h, o) : HIND_NOMEM;
    if (code) {
        free(h);
        return code;
    }
    h->forks = hindlib_forks;
    pthread_mutex_init(&h->lock, NULL);
    *hub = h;
    return HIND_OK;
}

hind_code hind_hub_open(const hind_hub_options *options, hind_hub **hub) {
    hind_hub_options o;
    if (hub) *hub = NULL;
    hind_code code = hub ? hindlib_read_options(&o, sizeof o, options) : HIND_INVALID;
    if (code) return code;
    if (o.spare) return HIND_ABI_WRONG;
    if (!o.settings && o.settings_len) return HIND_INVALID;
    if (!o.settings) o.settings = "";
    if (!o.epoch) o.epoch = hindlib_nanoseconds() / 1000;
    hindlib_count_forks();
    return open_with(&o, hub);
}

hind_code hind_hub_close(hind_hub *hub) {
    if (!hub) return HIND_OK;
    if (hub->forks != hindlib_forks) return HIND_FORKED;
    hindcore_hub_free(&hub->core);
    pthread_mutex_destroy(&hub->lock);
    free(hub);
    return HIND_OK;
}

static hind_code enter(hind_hub *h) {
    if (!h) return HIND_INVALID;
    if (h->forks != hindlib_forks) return HIND_FORKED;
    pthread_mutex_lock(&h->lock);
    return HIND_OK;
}

static hind_code leave(hind_hub *h, hind_code code) {
    pthread_mutex_unlock(&h->lock);
    return code;
}

/* ---- messages */

/* The name that a hello says. The core has read it as a message, so its length is right. */
static void note_name(hind_hub *h, const uint8_t *bytes, size_t len) {
    hindcore_head head;
    if (hindcore_message_head(bytes, len, &head) != HINDCORE_DONE || head.kind != KIND_HELLO || head.node >= MOST_NODES) return;
    size_t name = bytes[HELLO_NAME];
    memcpy(h->names[head.node], bytes + HELLO_NAME + 1, name);
    h->names[head.node][name] = 0;
}

hind_code hind_hub_deliver(hind_hub *hub, const void *bytes, size_t len) {
    hind_code code = bytes || !len ? enter(hub) : HIND_INVALID;
    if (code) return code;
    code = hindlib_code(hindcore_hub_deliver(&hub->core, bytes ? bytes : "", len));
    if (!code) note_name(hub, bytes, len);
    return leave(hub, code);
}

/* The next ask has a spelling, since the hub's epoch is one. */
hind_code hind_hub_next(hind_hub *hub, hind_message *message) {
    uint64_t len = 0;
    hindcore_head head = {0, 0, 0, 0};
    hind_code code = message ? enter(hub) : HIND_INVALID;
    if (code) return code;
    code = hindlib_code(hindcore_hub_next(&hub->core, hub->ask, sizeof hub->ask, &len));
    if (!code && hindcore_message_head(hub->ask, (size_t)len, &head) == HINDCORE_DONE) {
        message->number = 0;
        message->to = (hind_node_id)head.node;
        message->bytes = hub->ask;
        message->len = (size_t)len;
    }
    return leave(hub, code);
}

hind_code hind_hub_pass(hind_hub *hub) {
    hind_code code = enter(hub);
    return code ? code : leave(hub, hindlib_code(hindcore_hub_pass(&hub->core)));
}

hind_code hind_hub_acknowledge(hind_hub *hub, hind_message_id *message) {
    hindcore_message_id id;
    hind_code code = message ? enter(hub) : HIND_INVALID;
    if (code) return code;
    code = hindlib_code(hindcore_hub_acknowledge(&hub->core, &id));
    if (!code) *message = (hind_message_id){id.node, id.epoch, id.number};
    return leave(hub, code);
}

hind_code hind_hub_get_counts(hind_hub *hub, hind_hub_counts *counts) {
    hindcore_hub_count of;
    hind_code code = enter(hub);
    if (code) return code;
    code = hindlib_code(hindcore_hub_counts(&hub->core, &of));
    if (!code) {
        hind_hub_counts own = {sizeof own, of.passes, of.groups, of.traces, of.bytes, of.standings, of.messages};
        code = hindlib_give(counts, &own, sizeof own);
    }
    return leave(hub, code);
}

/* ---- traces */

static const char *name_of(void *closure, uint16_t node) {
    const hind_hub *h = closure;
    return node < MOST_NODES ? h->names[node] : "";
}

/* The trace has the names as they are now. */
static int keep_names(hind_trace *t) {
    t->names = malloc((t->of.trace.count + 1) * sizeof *t->names);
    if (!t->names) return 0;
    for (size_t i = 0; i < t->of.trace.count; i++) {
        snprintf(t->names[i], sizeof t->names[i], "%s", t->of.parts[i].service);
        t->of.parts[i].service = t->names[i];
        t->records += t->of.parts[i].count;
    }
    return 1;
}

static hind_code give(hind_hub *h, hind_trace **trace) {
    hind_trace *t = calloc(1, sizeof *t);
    if (!t) return HIND_NOMEM;
    if (!gather(&h->core, &h->out, MOST_NODES, name_of, h, &t->of) || !keep_names(t)) {
        hind_trace_free(t);
        return HIND_NOMEM;
    }
    *trace = t;
    return HIND_OK;
}

hind_code hind_hub_take(hind_hub *hub, hind_trace **trace) {
    hindcore_trace id;
    if (trace) *trace = NULL;
    hind_code code = trace ? enter(hub) : HIND_INVALID;
    if (code) return code;
    /* while one is out, this has its rows shown from the first on again */
    code = hindlib_code(hindcore_hub_take(&hub->core, &id));
    if (!code) {
        hub->out = id;
        hub->is_out = 1;
    }
    return leave(hub, hub->is_out ? give(hub, trace) : code);
}

hind_code hind_hub_saved(hind_hub *hub, const hind_trace_id *trace) {
    hindcore_trace id;
    hind_code code = trace ? enter(hub) : HIND_INVALID;
    if (code) return code;
    if (!hub->is_out || memcmp(&hub->out, trace, sizeof hub->out)) return leave(hub, HIND_NOTHING);
    hub->is_out = 0;
    return leave(hub, hindlib_code(hindcore_hub_saved(&hub->core, &id)));
}

hind_code hind_trace_get_info(const hind_trace *trace, hind_trace_info *info) {
    if (!trace) return HIND_INVALID;
    const otlp_trace *of = &trace->of.trace;
    hind_trace_info own = {sizeof own, of->id, of->part, of->trigger, of->is_whole, of->count, trace->records};
    return hindlib_give(info, &own, sizeof own);
}

hind_code hind_trace_get_life(const hind_trace *trace, size_t at, hind_trace_life *life) {
    if (!trace || !life || at >= trace->of.trace.count) return HIND_INVALID;
    const otlp_part *p = &trace->of.parts[at];
    *life = (hind_trace_life){p->node, p->epoch, p->service, p->wholeness, p->count};
    return HIND_OK;
}

hind_code hind_trace_get_record(const hind_trace *trace, size_t at, hind_record *record) {
    if (!trace || !record || at >= trace->records) return HIND_INVALID;
    const otlp_part *p = trace->of.parts;
    for (; at >= p->count; p++) at -= p->count;
    const otlp_record *r = &p->records[at];
    *record = (hind_record){p->node, r->client, p->epoch, r->core, r->number, r->missing, r->moment, r->payload, r->len};
    return HIND_OK;
}

hind_code hind_trace_otlp(const hind_trace *trace, void (*take)(void *closure, const char *line, size_t len), void *closure) {
    otlp_text line = {NULL, 0, 0, 0};
    if (!trace || !take) return HIND_INVALID;
    int failed = otlp_write(&trace->of.trace, &line);
    if (!failed) take(closure, line.bytes, line.len);
    free(line.bytes);
    return failed ? HIND_NOMEM : HIND_OK;
}

void hind_trace_free(hind_trace *trace) {
    if (!trace) return;
    gathered_free(&trace->of);
    free(trace->names);
    free(trace);
}
