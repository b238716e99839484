#include "hindsight_nats.h"
#include "carrier.h"
#include "metrics.h"
#include "within.h"
#include <signal.h>
#include <stdatomic.h>
#include <stdio.h>
#include <stdlib.h>
#include <string.h>
#include <time.h>
#include <unistd.h>

enum { HELLO_EVERY = 60, MOST_NODES = 128 }; /* seconds: a hub that started anew learns the names */

struct hind_nats {
    carrier *carrier;
    hind_node *node;
    pid_t process;
    time_t said; /* when the node said last who it is */
    atomic_int is_spent;
    char name[HINDLIB_NAME + 1];
};

static __thread char fault[256];

/* ---- the node, as its carrier sees it */

static time_t seconds(void) {
    struct timespec t;
    clock_gettime(CLOCK_MONOTONIC, &t);
    return t.tv_sec;
}

/* A message that is to be handed out is no reason to go on at once: the server may be away. */
static int node_pass(void *of) {
    hind_nats *n = of;
    time_t now = seconds();
    if (now - n->said >= HELLO_EVERY && hind_node_hello(n->node) == HIND_OK) n->said = now;
    if (hind_node_pass(n->node) == HIND_NOMEM) atomic_store(&n->is_spent, 1);
    return 0;
}

static int node_next(void *of, uint64_t *number, const uint8_t **bytes, size_t *len) {
    hind_message m;
    if (hind_node_next(((hind_nats *)of)->node, &m) != HIND_OK) return 0;
    *number = m.number;
    *bytes = m.bytes;
    *len = m.len;
    return 1;
}

static void node_sent(void *of, uint64_t number) { (void)hind_node_sent(((hind_nats *)of)->node, number); }
static int node_acknowledged(void *of, uint64_t number) { return hind_node_acknowledged(((hind_nats *)of)->node, number) == HIND_OK; }
static void node_again(void *of) { (void)hind_node_again(((hind_nats *)of)->node); }

/* What finds no place comes again: the hub asks until it is answered. */
static void node_deliver(void *of, const uint8_t *bytes, size_t len) { (void)hind_node_deliver(((hind_nats *)of)->node, bytes, len); }

/* ---- starting */

static hind_code failed(hind_code code) {
    uint32_t line = 0;
    const char *why = code == HIND_SETTINGS ? hind_settings_error(&line) : hind_strerror(code);
    if (!*fault && code == HIND_SETTINGS) snprintf(fault, sizeof fault, "settings, line %u: %s", (unsigned)line, why);
    else if (!*fault) snprintf(fault, sizeof fault, "%s", why);
    return code;
}

static hind_code carrier_code(carrier_answer answer) {
    switch (answer) {
    case CARRIER_DONE: return HIND_OK;
    case CARRIER_LIVE: return HIND_TAKEN;
    case CARRIER_MANY: return HIND_MANY;
    case CARRIER_NAME: return HIND_INVALID;
    case CARRIER_MEMORY: return HIND_NOMEM;
    default: return HIND_AWAY;
    }
}

/* The name, and with it the node's number and epoch. */
static hind_code open_carrier(hind_nats *n, const hind_nats_options *o) {
    uint32_t nodes = hindlib_setting(o->settings, o->settings_len, "nodes", MOST_NODES);
    if (!nodes || nodes > MOST_NODES) nodes = MOST_NODES; /* the node refuses such settings */
    carrier_options options = {o->url, o->prefix, o->name, (uint16_t)nodes, o->lease_ms, o->wait_ms, o->pass_ms};
    return carrier_code(carrier_open(&options, &n->carrier, fault, sizeof fault));
}

static hind_code open_node(hind_nats *n, const hind_nats_options *o) {
    hind_node_options options = HIND_NODE_OPTIONS_INIT;
    options.node = carrier_node(n->carrier);
    options.epoch = carrier_epoch(n->carrier);
    options.settings = o->settings;
    options.settings_len = o->settings_len;
    options.name = o->name;
    options.pool_file = o->pool_file;
    options.pool_kept = o->pool_kept;
    return hind_node_open(&options, &n->node);
}

static hind_code start(hind_nats *n, const hind_nats_options *o) {
    hind_code code = open_carrier(n, o);
    if (!code) code = open_node(n, o);
    if (code) return code;
    carried of = {n, node_pass, node_next, node_sent, node_acknowledged, node_again, node_deliver};
    n->process = getpid();
    n->said = seconds();
    return carrier_code(carrier_start(n->carrier, &of));
}

/* The threads that are started take no signal of the service's. */
static hind_code start_apart(hind_nats *n, const hind_nats_options *o) {
    sigset_t all, before;
    sigfillset(&all);
    pthread_sigmask(SIG_BLOCK, &all, &before);
    hind_code code = start(n, o);
    pthread_sigmask(SIG_SETMASK, &before, NULL);
    return code;
}

static void let_go(hind_nats *n) {
    (void)hind_node_close(n->node);
    carrier_close(n->carrier);
    free(n);
}

hind_code hind_nats_start(const hind_nats_options *options, hind_nats **nats) {
    hind_nats_options o;
    *fault = 0;
    if (nats) *nats = NULL;
    hind_code code = nats ? hindlib_read_options(&o, sizeof o, options) : HIND_INVALID;
    if (code) return failed(code);
    if (o.spare) return failed(HIND_ABI_WRONG);
    if (!o.name || !*o.name || (!o.settings && o.settings_len) || o.pass_ms > 1000) return failed(HIND_INVALID);
    if (strnlen(o.name, HINDLIB_NAME + 1) > HINDLIB_NAME) return failed(HIND_TOOLONG);
    if (!o.settings) o.settings = "";
    hind_nats *n = calloc(1, sizeof *n);
    if (!n) return failed(HIND_NOMEM);
    memcpy(n->name, o.name, strlen(o.name));
    code = start_apart(n, &o);
    if (code) let_go(n);
    else *nats = n;
    return code ? failed(code) : HIND_OK;
}

const char *hind_nats_error(void) { return fault; }

hind_node *hind_nats_node(hind_nats *nats) { return nats ? nats->node : NULL; }

hind_code hind_nats_stop(hind_nats *nats, uint32_t wait_ms) {
    if (!nats) return HIND_OK;
    if (nats->process != getpid()) return HIND_FORKED;
    int is_all = carrier_stop(nats->carrier, wait_ms);
    let_go(nats);
    return is_all ? HIND_OK : HIND_AWAY;
}

hind_code hind_nats_get_counts(hind_nats *nats, hind_nats_counts *counts) {
    carrier_counts of;
    if (!nats) return HIND_INVALID;
    carrier_count(nats->carrier, &of);
    hind_nats_counts own = {sizeof own, of.published, of.acknowledged, of.refused, of.repeats, of.asks, of.returns, of.under_way, of.is_there, of.is_lost, atomic_load(&nats->is_spent)};
    return hindlib_give(counts, &own, sizeof own);
}

/* ---- numbers */

hind_node_id hind_nats_number(const hind_nats *nats) { return nats ? carrier_node(nats->carrier) : HIND_NO_NODE; }

static void put_carrier(metrics *m, const hind_nats_counts *c) {
    metrics_put(m, METRICS_GAUGE, "hindsight_node_broker_up", "1 while the node has its connection to the broker.", (uint64_t)c->is_there);
    metrics_put(m, METRICS_COUNTER, "hindsight_node_broker_returns_total", "Lost connections to the broker that came back.", c->returns);
    metrics_put(m, METRICS_GAUGE, "hindsight_node_name_lost", "1 where a later process has the node's name: nothing is published any more.", (uint64_t)c->is_lost);
    metrics_put(m, METRICS_GAUGE, "hindsight_node_spent", "1 where memory was refused and the node takes nothing any more.", (uint64_t)c->is_spent);
    metrics_put(m, METRICS_COUNTER, "hindsight_node_published_total", "Messages that were published, each time.", c->published);
    metrics_put(m, METRICS_COUNTER, "hindsight_node_acknowledged_total", "Messages that the broker has kept.", c->acknowledged);
    metrics_put(m, METRICS_COUNTER, "hindsight_node_refused_total", "Messages that the broker answered not to have kept.", c->refused);
    metrics_put(m, METRICS_COUNTER, "hindsight_node_repeats_total", "Times that all that was not acknowledged was handed out anew.", c->repeats);
    metrics_put(m, METRICS_GAUGE, "hindsight_node_under_way", "Messages that are published and not acknowledged.", c->under_way);
    metrics_put(m, METRICS_COUNTER, "hindsight_node_asks_total", "Asks of the hub that came.", c->asks);
}

static void put_clients(metrics *m, const hind_node_counts *c) {
    metrics_put(m, METRICS_COUNTER, "hindsight_node_records_total", "Records that were written.", c->points);
    metrics_put(m, METRICS_COUNTER, "hindsight_node_null_pages_total", "Pages that found no buffer: what was written on them is lost.", c->null_pages);
    metrics_put(m, METRICS_COUNTER, "hindsight_node_full_records_total", "Records that were refused since too much waited.", c->full_points);
    metrics_put(m, METRICS_COUNTER, "hindsight_node_stray_records_total", "Records that were refused since no trace was open.", c->stray_points);
    metrics_put(m, METRICS_COUNTER, "hindsight_node_refused_crumbs_total", "Crumbs that were refused.", c->refused_crumbs);
    metrics_put(m, METRICS_COUNTER, "hindsight_node_refused_triggers_total", "Triggers that were refused.", c->refused_triggers);
    metrics_put(m, METRICS_COUNTER, "hindsight_node_limited_triggers_total", "Triggers that were taken and that claimed nothing: above the rate of their id, or claims are full.", c->limited_triggers);
    metrics_put(m, METRICS_COUNTER, "hindsight_node_dropped_notes_total", "Notes of segments that found no place: those traces are not called whole.", c->dropped_notes);
    metrics_put(m, METRICS_GAUGE, "hindsight_node_clients", "Clients of the settings.", c->clients);
    metrics_put(m, METRICS_GAUGE, "hindsight_node_used_clients", "Clients that a thread or somebody else has.", c->used_clients);
}

static void put_work(metrics *m, const hind_node_counts *c) {
    metrics_put(m, METRICS_COUNTER, "hindsight_node_passes_total", "Passes.", c->passes);
    metrics_put(m, METRICS_COUNTER, "hindsight_node_reports_total", "Pages of claimed traces that were handed out.", c->reports);
    metrics_put(m, METRICS_COUNTER, "hindsight_node_tells_total", "Messages on triggers, crumbs and asks.", c->tells);
    metrics_put(m, METRICS_COUNTER, "hindsight_node_standings_total", "Messages on how whole a part is.", c->standings);
    metrics_put(m, METRICS_GAUGE, "hindsight_node_unacknowledged", "Messages that were handed out and are kept.", c->unacknowledged);
    metrics_put(m, METRICS_COUNTER, "hindsight_node_full_asks_total", "Asks that found no place.", c->full_asks);
    metrics_put(m, METRICS_COUNTER, "hindsight_node_refused_asks_total", "Asks that are none.", c->refused_asks);
    metrics_put(m, METRICS_COUNTER, "hindsight_node_salvaged_pages_total", "Pages that earlier lives left and that were handed out.", c->salvaged);
    metrics_put(m, METRICS_COUNTER, "hindsight_node_torn_pages_total", "Pages that earlier lives left and that do not read.", c->torn);
}

hind_code hind_nats_metrics(hind_nats *nats, char *text, size_t room, size_t *len) {
    hind_nats_counts counts = {.size = sizeof counts};
    hind_node_counts of_node = {.size = sizeof of_node};
    metrics m = {text, text ? room : 0, 0, NULL};
    if (!nats || !len) return HIND_INVALID;
    if (nats->process != getpid()) return HIND_FORKED;
    (void)hind_nats_get_counts(nats, &counts);
    (void)hind_node_get_counts(nats->node, &of_node);
    m.node = nats->name;
    put_carrier(&m, &counts);
    put_clients(&m, &of_node);
    put_work(&m, &of_node);
    *len = m.len;
    return m.len < room ? HIND_OK : HIND_TOOLONG;
}
