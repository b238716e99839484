#include "hubwork.h"
#include "gather.h"
#include "within.h"
#include <inttypes.h>
#include <stdio.h>
#include <stdlib.h>
#include <string.h>

enum { MOST_NODES = 128, MOST_NAME = 64, ASK_ROOM = 1024, KIND_HELLO = 1, HELLO_DIGEST = 20, HELLO_NAME = 52 };

/* The life of a node that runs with other settings. */
typedef struct {
    int is_foreign;
    uint64_t epoch;
} stranger;

struct hubwork {
    hindcore_hub hub;
    int is_fresh;
    store *store;
    void (*acknowledge)(void *, uint16_t, uint64_t, uint64_t);
    void (*foreign)(void *, uint16_t, const char *);
    void *closure;
    uint8_t digest[HINDLIB_DIGEST];
    stranger strangers[MOST_NODES];
    char names[MOST_NODES][MOST_NAME + 1];
    uint8_t ask[ASK_ROOM];
    enum { NOTHING_OUT, OUT, GATHERED } state; /* of the trace that is out */
    hindcore_trace id;
    gathered out;
    char fault[256];
    hubwork_counts counts;
};

static const char *name_of(void *closure, uint16_t node) {
    const hubwork *h = closure;
    return node < MOST_NODES ? h->names[node] : "";
}

/* ---- opening */

/* A hub is fresh where its store is still to be made: no hub was before it. */
static int open_hub(hubwork *h, const hubwork_options *options, char *fault, size_t room) {
    hindcore_fault at = {0, 0};
    h->is_fresh = !store_is_there(&options->store);
    uint32_t code = hindcore_hub_open((const uint8_t *)options->settings, options->settings_len, options->epoch, (uint32_t)h->is_fresh, &h->hub, &at);
    if (code == HINDCORE_DONE) return 1;
    if (code == HINDCORE_SETTINGS) {
        uint32_t line;
        hindlib_note_fault(&at);
        const char *why = hind_settings_error(&line);
        snprintf(fault, room, "settings, line %" PRIu32 ": %s", line, why);
    } else snprintf(fault, room, "no memory for a hub of these settings");
    return 0;
}

hubwork *hubwork_open(const hubwork_options *options, char *fault, size_t room) {
    hubwork *h = calloc(1, sizeof *h);
    if (!h) {
        snprintf(fault, room, "no memory");
        return NULL;
    }
    h->acknowledge = options->acknowledge;
    h->foreign = options->foreign;
    h->closure = options->closure;
    hindlib_digest(options->settings, options->settings_len, h->digest);
    if (open_hub(h, options, fault, room)) {
        h->store = store_open(&options->store, fault, room);
        if (h->store) return h;
        hindcore_hub_free(&h->hub);
    }
    free(h);
    return NULL;
}

void hubwork_close(hubwork *h) {
    if (!h) return;
    gathered_free(&h->out);
    store_close(h->store);
    hindcore_hub_free(&h->hub);
    free(h);
}

/* ---- messages */

/* The name that a hello says. It was read as a message, so its length is right. */
static void note_name(hubwork *h, const uint8_t *bytes, unsigned node) {
    size_t name = bytes[HELLO_NAME];
    memcpy(h->names[node], bytes + HELLO_NAME + 1, name);
    h->names[node][name] = 0;
}

static void note_stranger(hubwork *h, unsigned node, uint64_t epoch) {
    stranger *s = &h->strangers[node];
    int is_known = s->is_foreign && s->epoch == epoch;
    *s = (stranger){1, epoch};
    if (!is_known && h->foreign) h->foreign(h->closure, (uint16_t)node, h->names[node]);
}

/* What a hello says of the node: its name, and whether it runs with the hub's settings. A life that is over changes nothing. */
static void note_hello(hubwork *h, const uint8_t *bytes, const hindcore_head *head) {
    stranger *s = &h->strangers[head->node];
    if (s->is_foreign && head->epoch < s->epoch) return;
    note_name(h, bytes, head->node);
    if (memcmp(bytes + HELLO_DIGEST, h->digest, sizeof h->digest)) note_stranger(h, head->node, head->epoch);
    else *s = (stranger){0, head->epoch};
}

static uint64_t number_at(const uint8_t *at, int bytes) {
    uint64_t n = 0;
    for (int i = 0; i < bytes; i++) n = n << 8 | at[i];
    return n;
}

/* Whether a message is of a life that runs with other settings. Of others than a hello the front alone is read. */
static int is_foreign(hubwork *h, const uint8_t *bytes, size_t len) {
    hindcore_head head;
    if (len < HELLO_DIGEST) return 0;
    uint64_t epoch = number_at(bytes + 2, 8), node = number_at(bytes + 18, 2);
    if (node >= MOST_NODES) return 0;
    if (bytes[1] == KIND_HELLO && hindcore_message_head(bytes, len, &head) == HINDCORE_DONE) note_hello(h, bytes, &head);
    return h->strangers[node].is_foreign && h->strangers[node].epoch == epoch;
}

int hubwork_deliver(hubwork *h, const uint8_t *bytes, size_t len) {
    h->counts.received += len;
    if (is_foreign(h, bytes, len)) {
        h->counts.foreign++;
        return HUBWORK_NOW;
    }
    switch (hindcore_hub_deliver(&h->hub, bytes, len)) {
    case HINDCORE_DONE:
        h->counts.done++;
        return HUBWORK_NOW;
    case HINDCORE_HELD: h->counts.held++; return HUBWORK_HELD;
    case HINDCORE_NO_MESSAGE: h->counts.refused++; return HUBWORK_NOW;
    default: h->counts.full++; return HUBWORK_LATER;
    }
}

void hubwork_hear(hubwork *h, uint16_t node, uint64_t epoch, const char *name) {
    uint8_t hello[HELLO_NAME + 1 + MOST_NAME] = {1, KIND_HELLO}; /* its number is 0 */
    size_t len = strlen(name);
    if (h->is_fresh || node >= MOST_NODES || len > MOST_NAME || h->strangers[node].is_foreign) return;
    for (int i = 0; i < 8; i++) hello[2 + i] = (uint8_t)(epoch >> (56 - 8 * i));
    hello[19] = (uint8_t)node;
    memcpy(hello + HELLO_DIGEST, h->digest, sizeof h->digest);
    hello[HELLO_NAME] = (uint8_t)len;
    memcpy(hello + HELLO_NAME + 1, name, len);
    note_name(h, hello, node);
    (void)hindcore_hub_deliver(&h->hub, hello, HELLO_NAME + 1 + len);
}

int hubwork_next_ask(hubwork *h, uint16_t *node, const uint8_t **bytes, size_t *len) {
    uint64_t wrote = 0;
    hindcore_head head;
    if (hindcore_hub_next(&h->hub, h->ask, sizeof h->ask, &wrote) != HINDCORE_DONE) return 0;
    if (hindcore_message_head(h->ask, (size_t)wrote, &head) != HINDCORE_DONE) return 0;
    *node = (uint16_t)head.node;
    *bytes = h->ask;
    *len = (size_t)wrote;
    h->counts.asks++;
    return 1;
}

void hubwork_pass(hubwork *h) { hindcore_hub_pass(&h->hub); }

/* ---- saving */

static int failed(hubwork *h, const char *why) {
    snprintf(h->fault, sizeof h->fault, "%s", why);
    h->counts.faults++;
    h->counts.last_fault = 1;
    return -1;
}

/* Has a trace out and gathered: 1, 0 where none may go, -1 where memory is wanting. */
static int have_gathered(hubwork *h) {
    hindcore_trace none;
    if (h->state == NOTHING_OUT) {
        if (hindcore_hub_take(&h->hub, &h->id) != HINDCORE_DONE) return 0;
        h->state = OUT;
    }
    if (h->state == OUT) {
        hindcore_hub_take(&h->hub, &none); /* one is out: its rows are shown from the first on, also where a try before came to no end */
        if (!gather(&h->hub, &h->id, MOST_NODES, name_of, h, &h->out)) {
            gathered_free(&h->out);
            return -1;
        }
        h->state = GATHERED;
    }
    return 1;
}

static void let_go(hubwork *h) {
    hindcore_trace id;
    hindcore_message_id message;
    h->counts.traces++;
    h->counts.last_fault = 0;
    h->counts.whole += h->out.trace.is_whole != 0;
    gathered_free(&h->out);
    h->state = NOTHING_OUT;
    hindcore_hub_saved(&h->hub, &id);
    while (hindcore_hub_acknowledge(&h->hub, &message) == HINDCORE_DONE) {
        h->counts.acknowledged++;
        h->acknowledge(h->closure, message.node, message.epoch, message.number);
    }
}

/* One trace: 1, 0 where none may go, or -1. */
static int save_one(hubwork *h) {
    switch (have_gathered(h)) {
    case 0: return 0;
    case -1: return failed(h, "no memory for a trace");
    }
    if (store_put(h->store, &h->out.trace) || store_save(h->store)) return failed(h, store_fault(h->store));
    let_go(h);
    return 1;
}

long hubwork_save(hubwork *h, long most) {
    long saved = 0;
    while (saved < most) {
        int one = save_one(h);
        if (one < 0) return -1;
        if (!one) break;
        saved++;
    }
    return saved;
}

const char *hubwork_fault(const hubwork *h) { return h->fault; }

void hubwork_count(hubwork *h, hubwork_counts *counts) {
    hindcore_hub_count now = {0};
    hindcore_hub_counts(&h->hub, &now);
    *counts = h->counts;
    counts->groups = now.groups;
    counts->waiting_traces = now.traces;
    counts->bytes = now.bytes;
    counts->standings = now.standings;
    counts->waiting_messages = now.messages;
    counts->passes = now.passes;
    counts->foreign_nodes = 0;
    for (unsigned n = 0; n < MOST_NODES; n++) counts->foreign_nodes += (uint64_t)h->strangers[n].is_foreign;
}
