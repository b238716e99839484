/* Who has which client: those of a thread hang on a key, and are given back when it ends. */
#include "within.h"
#include <errno.h>

static pthread_key_t of_thread;
static int key_fault;
static pthread_once_t is_made = PTHREAD_ONCE_INIT;

static int is_of_parent(const hind_client *c) { return c->forks != hindlib_forks; }

static void thread_ended(void *first) {
    for (hind_client *c = first, *next; c; c = next) {
        next = c->next;
        if (!is_of_parent(c)) hindlib_give_back(c);
    }
}

static void make_key(void) { key_fault = pthread_key_create(&of_thread, thread_ended); }

static int has_key(void) {
    pthread_once(&is_made, make_key);
    if (key_fault) errno = key_fault;
    return !key_fault;
}

/* Takes out of the thread's list what may not stay there: clients of closed nodes, which are given back, and the parent's. */
static hind_client *swept(hind_client *first) {
    hind_client *kept = NULL;
    for (hind_client *c = first, *next; c; c = next) {
        next = c->next;
        if (is_of_parent(c)) continue;
        if (hindlib_load(&c->is_closed)) {
            hindlib_give_back(c);
            continue;
        }
        c->next = kept;
        kept = c;
    }
    return kept;
}

void hindlib_sweep(void) {
    if (!has_key()) return;
    hind_client *first = pthread_getspecific(of_thread);
    if (first) (void)pthread_setspecific(of_thread, swept(first));
}

static hind_client *own_client(const hind_node *node) {
    for (hind_client *c = pthread_getspecific(of_thread); c; c = c->next)
        if (c->node == node && !is_of_parent(c)) return c;
    return NULL;
}

/* The key's place for a thread may take memory. */
static hind_code hang(hind_client *c) {
    c->next = pthread_getspecific(of_thread);
    if (!pthread_setspecific(of_thread, c)) return HIND_OK;
    hindlib_give_back(c);
    return HIND_NOMEM;
}

hind_code hind_client_get(hind_node *node, hind_client **client) {
    if (client) *client = NULL;
    if (!node || !client) return HIND_INVALID;
    if (!has_key()) return HIND_SYSTEM;
    hind_client *c = own_client(node);
    if (!c) {
        hindlib_sweep();
        hind_code code = hindlib_take(node, HINDLIB_THREAD, &c);
        if (!code) code = hang(c);
        if (code) return code;
    }
    *client = c;
    return HIND_OK;
}

hind_code hind_client_open(hind_node *node, hind_client **client) {
    if (client) *client = NULL;
    if (!node || !client) return HIND_INVALID;
    return hindlib_take(node, HINDLIB_ANYBODY, client);
}

/* Takes a client out of the thread's list: whether it was there. */
static int unhung(hind_client *c) {
    hind_client *first = has_key() ? pthread_getspecific(of_thread) : NULL;
    if (first == c) return !pthread_setspecific(of_thread, c->next);
    for (; first; first = first->next) {
        if (first->next != c) continue;
        first->next = c->next;
        return 1;
    }
    return 0;
}

hind_code hind_client_close(hind_client *client) {
    if (!client) return HIND_OK;
    if (is_of_parent(client)) return HIND_FORKED;
    if (hindlib_load(&client->is_busy)) return HIND_BUSY;
    int owner = hindlib_load(&client->owner);
    if (owner == HINDLIB_NOBODY) return HIND_CLOSED;
    if (owner == HINDLIB_THREAD && !unhung(client)) return HIND_INVALID;
    hindlib_give_back(client);
    return HIND_OK;
}
