/* Stands in for libhindsight and libhindsight_nats in bench/experiment, so that the same services are traced otherwise: what a request writes is gathered,
 * and shipped to the broker when its segment ends. SHIP is tail, and all is shipped; head, and one trace in a hundred is; or nothing, and none is.
 *
 * A message: node (2 bytes), whether a trigger claims the trace (1), trace (16), and for each record its moment (8), its length (2) and its bytes. */
#define _POSIX_C_SOURCE 200809L
#include "hindsight_nats.h"
#include <nats/nats.h>
#include <pthread.h>
#include <stdlib.h>
#include <string.h>
#include <time.h>

enum { MOST = 65536, CLIENTS = 64 };

struct hind_nats {
    natsConnection *connection;
    hind_node_id number;
    int ships_all, ships_none, clients;
};

struct hind_client {
    hind_nats *of;
    int is_kept; /* the trace that is open is shipped */
    size_t len;
    uint8_t bytes[MOST];
};

/* ---- the node */

hind_code hind_nats_start(const hind_nats_options *options, hind_nats **nats) {
    static const char *const names[] = {"front", "middle", "store"};
    hind_nats *n = calloc(1, sizeof *n);
    const char *how = getenv("SHIP");
    n->ships_all = how && !strcmp(how, "tail");
    n->ships_none = how && !strcmp(how, "nothing");
    for (hind_node_id i = 0; i < 3; i++)
        if (!strcmp(options->name, names[i])) n->number = i;
    if (natsConnection_ConnectTo(&n->connection, options->url) != NATS_OK) {
        free(n);
        return HIND_AWAY;
    }
    *nats = n;
    return HIND_OK;
}

const char *hind_nats_error(void) { return "the broker is not there"; }
hind_node *hind_nats_node(hind_nats *nats) { return (hind_node *)nats; }
hind_node_id hind_nats_number(const hind_nats *nats) { return nats->number; }

hind_code hind_nats_stop(hind_nats *nats, uint32_t wait_ms) {
    if (nats) natsConnection_FlushTimeout(nats->connection, wait_ms);
    return HIND_OK;
}

hind_code hind_nats_metrics(hind_nats *nats, char *text, size_t room, size_t *len) {
    static const char up[] = "hindsight_node_broker_up 1\n";
    (void)nats;
    memcpy(text, up, room < sizeof up ? room : sizeof up);
    *len = sizeof up - 1;
    return HIND_OK;
}

/* ---- clients */

hind_code hind_client_open(hind_node *node, hind_client **client) {
    hind_nats *n = (hind_nats *)node;
    if (n->clients++ >= CLIENTS) return HIND_MANY;
    *client = calloc(1, sizeof **client);
    (*client)->of = n;
    return HIND_OK;
}

hind_code hind_client_get(hind_node *node, hind_client **client) {
    static __thread hind_client *own;
    if (!own) {
        own = calloc(1, sizeof *own);
        own->of = (hind_nats *)node;
    }
    *client = own;
    return HIND_OK;
}

hind_code hind_client_close(hind_client *client) {
    free(client);
    return HIND_OK;
}

hind_code hind_begin(hind_client *client, const hind_trace_id *trace) {
    if (!client) return HIND_INVALID;
    client->is_kept = client->of->ships_all || (!client->of->ships_none && (trace->bytes[14] << 8 | trace->bytes[15]) % 100 == 0);
    client->bytes[0] = 0;
    client->bytes[1] = (uint8_t)client->of->number;
    client->bytes[2] = 0;
    memcpy(client->bytes + 3, trace, 16);
    client->len = 19;
    return HIND_OK;
}

hind_code hind_begin_from(hind_client *client, const hind_context *context) { return hind_begin(client, &context->trace); }

hind_code hind_point_at(hind_client *client, uint64_t moment, const void *payload, size_t len) {
    if (!client) return HIND_INVALID;
    if (!client->is_kept || client->len + 10 + len > MOST) return HIND_OK;
    uint8_t *at = client->bytes + client->len;
    for (int i = 7; i >= 0; i--) *at++ = (uint8_t)(moment >> 8 * i);
    *at++ = (uint8_t)(len >> 8);
    *at++ = (uint8_t)len;
    memcpy(at, payload, len);
    client->len += 10 + len;
    return HIND_OK;
}

hind_code hind_point(hind_client *client, const void *payload, size_t len) {
    struct timespec now;
    if (!client) return HIND_INVALID;
    clock_gettime(CLOCK_REALTIME, &now);
    return hind_point_at(client, (uint64_t)now.tv_sec * 1000000000 + (uint64_t)now.tv_nsec, payload, len);
}

hind_code hind_crumb(hind_client *client, hind_node_id node) {
    (void)node;
    return client ? HIND_OK : HIND_INVALID;
}

hind_code hind_sample(hind_client *client, uint32_t autotrigger, uint64_t value) {
    (void)autotrigger, (void)value;
    return client ? HIND_OK : HIND_INVALID;
}

hind_code hind_trigger(hind_client *client, uint8_t trigger, const hind_trace_id *lead, const hind_trace_id *laterals, size_t count) {
    (void)lead, (void)laterals, (void)count;
    if (!client) return HIND_INVALID;
    client->bytes[2] = trigger;
    return HIND_OK;
}

hind_code hind_end(hind_client *client) {
    if (!client) return HIND_INVALID;
    if (client->is_kept) natsConnection_Publish(client->of->connection, "ship.says", client->bytes, (int)client->len);
    client->is_kept = 0;
    return HIND_OK;
}

/* docs/FORMATS.md, "Many calls in one" */
hind_code hind_write(hind_client *client, const void *bytes, size_t len, size_t *calls, size_t *used) {
    const uint8_t *at = bytes, *end = at + len;
    size_t done = 0;
    (void)used;
    for (; at < end; done++) {
        uint64_t moment = 0;
        hind_trace_id trace;
        switch (*at++) {
        case 'B':
            memcpy(&trace, at, 16);
            hind_begin(client, &trace);
            at += 16;
            break;
        case 'P':
            for (int i = 0; i < 8; i++) moment = moment << 8 | at[i];
            hind_point_at(client, moment, at + 10, (size_t)(at[8] << 8 | at[9]));
            at += 10 + (at[8] << 8 | at[9]);
            break;
        case 'C': at += 2; break;
        case 'K': at += 18; break;
        case 'T':
            hind_trigger(client, at[0], NULL, NULL, 0);
            at += 18 + 16 * at[17];
            break;
        case 'S': at += 12; break;
        default: hind_end(client);
        }
    }
    if (calls) *calls = done;
    return HIND_OK;
}
