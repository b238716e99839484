/* A node: the core's, behind a lock, with its clients. */
#define _GNU_SOURCE
#include "past.h"
#include "pool.h"
#include "within.h"
#include <errno.h>
#include <stdio.h>
#include <stdlib.h>
#include <string.h>
#include <sys/eventfd.h>
#include <unistd.h>

enum { KINDS = 6, HELLO = 1, TOLD = 2, REPORTED = 4, STANDING = 5 }; /* docs/FORMATS.md, "Messages of a service" */

/* What calls on the core did. */
typedef struct {
    uint64_t passes, messages, of_kind[KINDS], repeats, acknowledged, unacknowledged, asks, full_asks, refused_asks;
    uint64_t handed;     /* the number that the next message has at least which was not handed out before */
    uint64_t number;     /* of the message that hind_node_next gave last, */
    unsigned kind;       /* .. and its kind; 0 before the first */
    uint64_t looked;     /* messages below this number were looked at for what they name */
} node_work;

struct hind_node {
    hindcore_node core;
    unsigned forks; /* of the process that opened it */
    uint16_t number;
    uint32_t first_group; /* groups.c */
    hindlib_pool *pool;  /* the file of its buffers, or NULL */
    past *past;          /* what earlier lives left, or NULL */
    pthread_mutex_t lock; /* around the core, and what follows */
    node_work work;
    int fd, is_signalled; /* -1: nobody asked for it */
    char name[HINDLIB_NAME + 1];
    hindcore_digest digest;
    uint8_t message[HINDLIB_MESSAGE];
    pthread_mutex_t sharing; /* around what follows */
    int is_closed;
    hind_client *clients, *waiting; /* all, and those that nobody has */
    uint8_t *pieces; /* of all clients: untouched, and so without memory of the system, where hind_pointv is not called */
    size_t count, users, unsettled; /* users: who has a client, and the node itself while it is open */
} __attribute__((aligned(HINDLIB_APART)));

/* ---- clients that nobody has */

/* Ends the trace of a client that nobody has, and hands over what waits. Its numbers say whether all of it found a place. */
static void settle(hind_client *c) {
    uint64_t waits = 0;
    if (c->is_open && hindcore_end(&c->core) == HINDCORE_DONE) c->is_open = 0;
    c->is_unsettled = hindcore_flush(&c->core, &waits) == HINDCORE_DONE && (c->is_open || waits);
    (void)hindlib_show(c);
}

/* The first that waits and whose trace was ended, taken out of the list. */
static hind_client *first_waiting(hind_node *n) {
    for (hind_client **at = &n->waiting; *at; at = &(*at)->next) {
        hind_client *c = *at;
        if (c->is_open) continue;
        *at = c->next;
        n->unsettled -= (size_t)c->is_unsettled;
        return c;
    }
    return NULL;
}

hind_code hindlib_take(hind_node *n, int owner, hind_client **client) {
    if (n->forks != hindlib_forks) return HIND_FORKED;
    pthread_mutex_lock(&n->sharing);
    hind_client *c = n->is_closed ? NULL : first_waiting(n);
    hind_code code = c ? HIND_OK : n->is_closed ? HIND_CLOSED : n->waiting ? HIND_FULL : HIND_MANY;
    if (c) {
        n->users++;
        c->next = NULL;
        c->is_unsettled = 0;
        hindlib_store(&c->owner, owner);
        hindlib_store(&c->is_closed, 0);
        *client = c;
    }
    pthread_mutex_unlock(&n->sharing);
    return code;
}

/* Frees a node that nobody has any more. */
static void destroy(hind_node *n) {
    for (size_t i = 0; i < n->count; i++) hindcore_client_free(&n->clients[i].core);
    hindlib_pool_free(n->pool);
    pthread_mutex_destroy(&n->lock);
    pthread_mutex_destroy(&n->sharing);
    free(n->pieces);
    free(n->clients);
    free(n);
}

static void put_back(hind_node *n, hind_client *c) {
    c->next = n->waiting;
    n->waiting = c;
    n->unsettled += (size_t)c->is_unsettled;
}

void hindlib_give_back(hind_client *c) {
    hind_node *n = c->node;
    /* from here on a handler gets CLOSED */
    hindlib_store(&c->is_closed, 1);
    __atomic_signal_fence(__ATOMIC_SEQ_CST);
    hindlib_store(&c->owner, HINDLIB_NOBODY);
    settle(c);
    pthread_mutex_lock(&n->sharing);
    put_back(n, c);
    size_t users = --n->users;
    pthread_mutex_unlock(&n->sharing);
    if (!users) destroy(n);
}

/* What waits at clients that nobody has goes on by passes. */
static void settle_waiting(hind_node *n) {
    pthread_mutex_lock(&n->sharing);
    for (hind_client *c = n->unsettled ? n->waiting : NULL; c; c = c->next) {
        if (!c->is_unsettled) continue;
        settle(c);
        n->unsettled -= !c->is_unsettled;
    }
    pthread_mutex_unlock(&n->sharing);
}

/* ---- opening */

static void take_clients(hind_node *n, size_t most) {
    for (; n->count < most && hindcore_node_client(&n->core, &n->clients[n->count].core) == HINDCORE_DONE; n->count++) {
        hind_client *c = &n->clients[n->count];
        c->node = n;
        c->forks = n->forks;
        c->pieces = n->pieces + n->count * (HINDLIB_PAYLOAD + 1);
        c->is_closed = 1;
        put_back(n, c);
    }
}

static hind_code say_hello(hind_node *n) {
    return hindlib_code(hindcore_node_hello(&n->core, &n->digest, (const uint8_t *)n->name, strlen(n->name)));
}

/* The core, with its buffers in the pool's file where there is one. */
static hind_code open_core(hind_node *n, const hind_node_options *o) {
    hindcore_fault fault = {0, 0};
    hindheap_place(n->pool ? hindlib_pool_places(n->pool) : NULL);
    uint32_t answer = hindcore_node_open((const uint8_t *)o->settings, o->settings_len, o->node, o->epoch, &n->core, &fault);
    hindheap_place(NULL);
    if (answer == HINDCORE_SETTINGS) hindlib_note_fault(&fault);
    return hindlib_code(answer);
}

/* The file lies at its path, and what lay there before is looked at. */
static hind_code settle_pool(hind_node *n) {
    hind_code code = n->pool ? hindlib_pool_settle(n->pool) : HIND_OK;
    return code || !n->pool ? code : past_open(n->pool, &n->past);
}

/* The core behind its pool, if it has one. */
static hind_code make_core(hind_node *n, const hind_node_options *o) {
    hind_code code = o->pool_file ? hindlib_pool_make(o, n->digest.bytes, &n->pool) : HIND_OK;
    if (!code) code = open_core(n, o);
    return code;
}

/* All of a node but its handle. What was made is freed where the rest fails. */
static hind_code make(hind_node *n, const hind_node_options *o) {
    size_t most = hindlib_setting(o->settings, o->settings_len, "clients", 64);
    hindlib_digest(o->settings, o->settings_len, n->digest.bytes);
    hind_code code = make_core(n, o);
    if (code) return code;
    n->pieces = malloc(most * (HINDLIB_PAYLOAD + 1));
    if (!n->pieces || posix_memalign((void **)&n->clients, HINDLIB_APART, most * sizeof *n->clients)) {
        n->clients = NULL;
        hindcore_node_free(&n->core);
        return HIND_NOMEM;
    }
    memset(n->clients, 0, most * sizeof *n->clients);
    take_clients(n, most);
    code = say_hello(n);
    if (!code) code = settle_pool(n);
    if (code) hindcore_node_free(&n->core);
    return code;
}

static hind_code open_with(const hind_node_options *o, hind_node **node) {
    hind_node *n = NULL;
    if (posix_memalign((void **)&n, HINDLIB_APART, sizeof *n)) return HIND_NOMEM;
    memset(n, 0, sizeof *n);
    n->forks = hindlib_forks;
    n->fd = -1;
    n->users = 1;
    n->number = o->node;
    n->first_group = hindlib_first_group(o->epoch);
    snprintf(n->name, sizeof n->name, "%s", o->name);
    pthread_mutex_init(&n->lock, NULL);
    pthread_mutex_init(&n->sharing, NULL);
    hind_code code = make(n, o);
    if (code) destroy(n);
    else *node = n;
    return code;
}

hind_code hind_node_open(const hind_node_options *options, hind_node **node) {
    hind_node_options o;
    if (node) *node = NULL;
    hind_code code = node ? hindlib_read_options(&o, sizeof o, options) : HIND_INVALID;
    if (code) return code;
    if ((!o.settings && o.settings_len) || (o.pool_file && !*o.pool_file)) return HIND_INVALID;
    if (o.spare) return HIND_ABI_WRONG;
    if (!o.settings) o.settings = "";
    if (!o.name) o.name = "";
    if (strnlen(o.name, HINDLIB_NAME + 1) > HINDLIB_NAME) return HIND_TOOLONG;
    if (!o.epoch) o.epoch = hindlib_nanoseconds() / 1000;
    hindlib_count_forks();
    return open_with(&o, node);
}

hind_code hind_node_close(hind_node *node) {
    if (!node) return HIND_OK;
    if (node->forks != hindlib_forks) return HIND_FORKED;
    pthread_mutex_lock(&node->sharing);
    node->is_closed = 1;
    for (size_t i = 0; i < node->count; i++) hindlib_store(&node->clients[i].is_closed, 1);
    pthread_mutex_unlock(&node->sharing);
    hindlib_sweep();
    if (node->fd >= 0) close(node->fd);
    hindcore_node_free(&node->core);
    past_close(node->past);
    node->past = NULL;
    hindlib_pool_end(node->pool);
    pthread_mutex_lock(&node->sharing);
    size_t users = --node->users;
    pthread_mutex_unlock(&node->sharing);
    if (!users) destroy(node);
    return HIND_OK;
}

/* ---- calls on the core, one at a time */

static hind_code enter(hind_node *n) {
    if (!n) return HIND_INVALID;
    if (n->forks != hindlib_forks) return HIND_FORKED;
    pthread_mutex_lock(&n->lock);
    return HIND_OK;
}

/* The descriptor can be read exactly while there is a message. */
static void signal_fd(hind_node *n) {
    uint64_t number, len, count = 1;
    int is_there = n->fd >= 0 && (past_has_next(n->past) || hindcore_node_next(&n->core, &number, n->message, 0, &len) != HINDCORE_NOTHING);
    if (n->fd < 0 || is_there == n->is_signalled) return;
    ssize_t moved = is_there ? write(n->fd, &count, sizeof count) : read(n->fd, &count, sizeof count);
    if (moved == sizeof count) n->is_signalled = is_there;
}

static hind_code leave(hind_node *n, uint32_t answer) {
    signal_fd(n);
    pthread_mutex_unlock(&n->lock);
    return hindlib_code(answer);
}

hind_code hind_node_pass(hind_node *node) {
    uint32_t says = 0;
    hind_code code = enter(node);
    if (code) return code;
    settle_waiting(node);
    uint32_t answer = hindcore_node_pass(&node->core, &says);
    node->work.passes += answer == HINDCORE_DONE;
    code = leave(node, answer);
    if (code) return code == HIND_SPENT ? HIND_NOMEM : code;
    return says ? HIND_OK : HIND_NOTHING;
}

/* What the node tells of a group has what earlier lives left of its traces handed out in front of it, and stays in the pool's file. */
static void look_at(hind_node *n, uint64_t number, size_t len) {
    if (number < n->work.looked) return;
    n->work.looked = number + 1;
    if (n->message[1] != TOLD) return;
    past_name(n->past, n->message, len);
    if (n->pool) hindlib_pool_told(n->pool, number, n->message, len);
}

/* The next message of the core, or of an earlier life: its length, or 0 where there is none. */
static size_t next_message(hind_node *n, uint64_t *number) {
    uint64_t len = 0;
    size_t of_past = past_next(n->past, number, n->message);
    if (of_past || hindcore_node_next(&n->core, number, n->message, sizeof n->message, &len) != HINDCORE_DONE) return of_past;
    hindlib_number_group(n->message, (size_t)len, n->number, n->first_group);
    look_at(n, *number, (size_t)len);
    if (!past_has_next(n->past)) return (size_t)len;
    return past_next(n->past, number, n->message);
}

hind_code hind_node_next(hind_node *node, hind_message *message) {
    uint64_t number = 0;
    hind_code code = message ? enter(node) : HIND_INVALID;
    if (code) return code;
    size_t len = next_message(node, &number);
    if (len) {
        message->number = number;
        message->to = HIND_NO_NODE;
        message->bytes = node->message;
        message->len = len;
        node->work.number = number;
        node->work.kind = node->message[1] < KINDS ? node->message[1] : 0;
    }
    return leave(node, len ? HINDCORE_DONE : HINDCORE_NOTHING);
}

/* The core's numbers rise, so what was handed out before has a lower one. */
static void count_sent(node_work *w, uint64_t number) {
    if (number < w->handed) {
        w->repeats++;
        return;
    }
    w->handed = number + 1;
    w->messages++;
    w->unacknowledged++;
    w->of_kind[w->kind && number == w->number ? w->kind : 0]++;
}

hind_code hind_node_sent(hind_node *node, uint64_t number) {
    hind_code code = enter(node);
    if (code) return code;
    if (number >= PAST_FIRST) return leave(node, past_sent(node->past, number) ? HINDCORE_DONE : HINDCORE_NOTHING);
    if (past_has_next(node->past)) return leave(node, HINDCORE_NOTHING);
    uint32_t answer = hindcore_node_sent(&node->core, number);
    if (answer == HINDCORE_DONE) count_sent(&node->work, number);
    return leave(node, answer);
}

hind_code hind_node_acknowledged(hind_node *node, uint64_t number) {
    hind_code code = enter(node);
    if (code) return code;
    if (number >= PAST_FIRST) return leave(node, past_acknowledged(node->past, number) ? HINDCORE_DONE : HINDCORE_NOTHING);
    uint32_t answer = hindcore_node_acknowledged(&node->core, number);
    if (node->pool && answer == HINDCORE_DONE) hindlib_pool_kept(node->pool, number);
    node->work.acknowledged += answer == HINDCORE_DONE;
    node->work.unacknowledged -= answer == HINDCORE_DONE && number < node->work.handed;
    return leave(node, answer);
}

hind_code hind_node_again(hind_node *node) {
    hind_code code = enter(node);
    if (code) return code;
    past_again(node->past);
    return leave(node, hindcore_node_again(&node->core));
}

/* The core is asked by the numbers that it gave. */
static uint32_t deliver(hind_node *n, const void *bytes, size_t len) {
    uint8_t ask[HINDLIB_ASK];
    if (!len || len > sizeof ask) return hindcore_node_deliver(&n->core, len ? bytes : "", len);
    memcpy(ask, bytes, len);
    hindlib_number_group(ask, len, n->number, 0 - n->first_group);
    return hindcore_node_deliver(&n->core, ask, len);
}

hind_code hind_node_deliver(hind_node *node, const void *bytes, size_t len) {
    hind_code code = bytes || !len ? enter(node) : HIND_INVALID;
    if (code) return code;
    uint32_t answer = deliver(node, bytes, len);
    node->work.asks += answer == HINDCORE_DONE;
    node->work.full_asks += answer == HINDCORE_FULL;
    node->work.refused_asks += answer == HINDCORE_NO_MESSAGE;
    return leave(node, answer);
}

hind_code hind_node_hello(hind_node *node) {
    hind_code code = enter(node);
    if (code) return code;
    code = say_hello(node);
    (void)leave(node, HINDCORE_DONE);
    return code;
}

int hind_node_fd(hind_node *node) {
    if (enter(node)) {
        errno = EINVAL;
        return -1;
    }
    if (node->fd < 0) node->fd = eventfd(0, EFD_CLOEXEC | EFD_NONBLOCK);
    int fd = node->fd;
    (void)leave(node, HINDCORE_DONE);
    return fd;
}

/* ---- counts */

static uint64_t used_clients(hind_node *n) {
    pthread_mutex_lock(&n->sharing);
    uint64_t used = n->users - !n->is_closed;
    pthread_mutex_unlock(&n->sharing);
    return used;
}

hind_code hind_node_get_counts(hind_node *node, hind_node_counts *counts) {
    hindcore_count of = {0, 0, 0, 0, 0, 0, 0, 0, 0};
    uint64_t limited = 0;
    hind_code code = enter(node);
    if (code) return code;
    const node_work *w = &node->work;
    const past_counts left = past_count(node->past);
    hindcore_node_limited(&node->core, &limited);
    for (size_t i = 0; i < node->count; i++) hindlib_add_shown(&node->clients[i], &of);
    hind_node_counts own = {sizeof own, w->passes, node->count, used_clients(node),
                            of.points, of.null_pages, of.stray_points, of.full_points, of.long_points, of.spent_points, of.refused_crumbs, of.refused_triggers, of.dropped_notes,
                            w->messages, w->of_kind[HELLO], w->of_kind[TOLD], w->of_kind[REPORTED], w->of_kind[STANDING], w->repeats, w->acknowledged, w->unacknowledged,
                            w->asks, w->full_asks, w->refused_asks, left.pages, left.torn, left.unacknowledged, limited};
    (void)leave(node, HINDCORE_DONE);
    return hindlib_give(counts, &own, sizeof own);
}
