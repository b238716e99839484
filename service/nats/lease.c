#include "lease.h"
#include <stdio.h>
#include <stdlib.h>
#include <string.h>

/* A key of a bucket that spells the name: a byte that no key may have is '=' and two hexadecimal digits. */
static void key_of(const char *name, char *key) {
    static const char plain[] = "abcdefghijklmnopqrstuvwxyzABCDEFGHIJKLMNOPQRSTUVWXYZ0123456789_-";
    for (; *name; name++) {
        if (strchr(plain, *name)) *key++ = *name;
        else key += snprintf(key, 4, "=%02x", (unsigned char)*name);
    }
    *key = 0;
}

/* A bucket, made where it is not there yet. What stands in it for longer than `length` milliseconds goes; 0: nothing goes. */
static kvStore *bucket(broker *b, const char *what, unsigned length) {
    char name[BROKER_MOST_SUBJECT];
    kvStore *found = NULL;
    kvConfig config;
    broker_name(b, what, name);
    natsStatus s = js_KeyValue(&found, b->stream, name);
    if (s == NATS_OK) return found;
    kvConfig_Init(&config);
    config.Bucket = name;
    config.History = 1;
    config.TTL = (int64_t)length * 1000000;
    config.StorageType = js_FileStorage;
    s = js_CreateKeyValue(&found, b->stream, &config);
    return s == NATS_OK ? found : NULL;
}

static void close_buckets(lease *l) {
    kvStore_Destroy(l->lives);
    kvStore_Destroy(l->nodes);
    l->lives = l->nodes = NULL;
}

/* Whether the bucket answers what stands at a key: 1 and its value and revision, 0 where nothing does, -1 where the broker does not say. */
static int value_at(kvStore *in, const char *key, char *value, size_t room, uint64_t *revision) {
    kvEntry *entry = NULL;
    natsStatus s = kvStore_Get(&entry, in, key);
    if (s == NATS_NOT_FOUND) return 0;
    if (s != NATS_OK) return -1;
    int len = kvEntry_ValueLen(entry);
    if (len < 0 || (size_t)len >= room) len = 0;
    memcpy(value, kvEntry_Value(entry), (size_t)len);
    value[len] = 0;
    *revision = kvEntry_Revision(entry);
    kvEntry_Destroy(entry);
    return 1;
}

/* The number that has this name, else the first that has none, which gets it. */
static lease_answer number(lease *l, uint16_t nodes) {
    char key[16], value[LEASE_MOST_NAME + 1];
    uint64_t revision;
    int first = -1;
    for (unsigned n = 0; n < nodes; n++) {
        snprintf(key, sizeof key, "node.%u", n);
        int there = value_at(l->nodes, key, value, sizeof value, &revision);
        if (there < 0) return LEASE_BROKER;
        if (there && !strcmp(value, l->name)) {
            l->node = (uint16_t)n;
            return LEASE_HELD;
        }
        if (!there && first < 0) first = (int)n;
    }
    for (unsigned n = first < 0 ? nodes : (unsigned)first; n < nodes; n++) {
        snprintf(key, sizeof key, "node.%u", n);
        if (kvStore_CreateString(&revision, l->nodes, key, l->name) == NATS_OK) {
            l->node = (uint16_t)n;
            return LEASE_HELD;
        }
        /* another name was there first, or the broker is away */
        if (!broker_is_there(l->broker)) return LEASE_BROKER;
    }
    return LEASE_MANY;
}

/* The number and the epoch of a name that is held. */
static lease_answer settle(lease *l, uint16_t nodes) {
    char key[sizeof l->key + 8];
    lease_answer answer = number(l, nodes);
    if (answer != LEASE_HELD) return answer;
    snprintf(key, sizeof key, "epoch.%s", l->key);
    return kvStore_PutString(&l->epoch, l->nodes, key, "") == NATS_OK ? LEASE_HELD : LEASE_BROKER;
}

/* Holds the name, where nobody does. */
static lease_answer hold(lease *l) {
    char value[sizeof l->life];
    uint64_t revision;
    if (kvStore_CreateString(&l->revision, l->lives, l->key, l->life) == NATS_OK) return LEASE_HELD;
    return value_at(l->lives, l->key, value, sizeof value, &revision) == 1 ? LEASE_LIVE : LEASE_BROKER;
}

/* A fresh name for this life: the last 22 letters of an inbox, which are its own. */
static int name_life(lease *l) {
    natsInbox *fresh = NULL;
    if (natsInbox_Create(&fresh) != NATS_OK) return 0;
    size_t len = strlen(fresh);
    snprintf(l->life, sizeof l->life, "%s", fresh + (len < 22 ? 0 : len - 22));
    natsInbox_Destroy(fresh);
    return 1;
}

lease_answer lease_take(lease *l, broker *b, const char *name, uint16_t nodes, unsigned length) {
    memset(l, 0, sizeof *l);
    size_t len = strlen(name);
    if (!len || len > LEASE_MOST_NAME) return LEASE_NAME;
    l->broker = b;
    snprintf(l->name, sizeof l->name, "%s", name);
    key_of(name, l->key);
    if (!name_life(l)) return LEASE_BROKER;
    l->lives = bucket(b, "lives", length);
    l->nodes = bucket(b, "nodes", 0);
    lease_answer answer = l->lives && l->nodes ? hold(l) : LEASE_BROKER;
    if (answer == LEASE_HELD) {
        answer = settle(l, nodes);
        if (answer != LEASE_HELD) lease_free(l);
    }
    if (answer != LEASE_HELD) close_buckets(l);
    return answer;
}

/* Whether this life is the last one that took an epoch: 1, 0, or -1 where the broker does not say. */
static int is_latest(lease *l) {
    char key[sizeof l->key + 8], value[8];
    uint64_t revision = 0;
    snprintf(key, sizeof key, "epoch.%s", l->key);
    int there = value_at(l->nodes, key, value, sizeof value, &revision);
    return there < 0 ? -1 : there && revision == l->epoch;
}

/* A lease that was not renewed: it ran out, or the answer to an earlier renewal did not come, or another life has the name. */
static lease_answer hold_again(lease *l) {
    char value[sizeof l->life];
    uint64_t revision = 0;
    int there = value_at(l->lives, l->key, value, sizeof value, &revision);
    if (there < 0) return LEASE_BROKER;
    if (there && strcmp(value, l->life)) return LEASE_LOST;
    if (there) {
        l->revision = revision;
        return LEASE_HELD;
    }
    return kvStore_CreateString(&l->revision, l->lives, l->key, l->life) == NATS_OK ? LEASE_HELD : LEASE_BROKER;
}

lease_answer lease_renew(lease *l) {
    if (kvStore_UpdateString(&l->revision, l->lives, l->key, l->life, l->revision) == NATS_OK) return LEASE_HELD;
    switch (is_latest(l)) {
    case -1: return LEASE_BROKER;
    case 0: return LEASE_LOST;
    default: return hold_again(l);
    }
}

void lease_free(lease *l) {
    char value[sizeof l->life];
    uint64_t revision;
    if (l->lives && value_at(l->lives, l->key, value, sizeof value, &revision) == 1 && !strcmp(value, l->life)) kvStore_Delete(l->lives, l->key);
    close_buckets(l);
}

/* Numbers are given from 0 on, and for good. */
void lease_each(broker *b, void (*say)(void *, uint16_t, uint64_t, const char *), void *closure) {
    char key[3 * LEASE_MOST_NAME + 16], name[LEASE_MOST_NAME + 1], value[8];
    uint64_t epoch;
    kvStore *in = bucket(b, "nodes", 0);
    for (uint16_t n = 0; in; n++) {
        snprintf(key, sizeof key, "node.%u", n);
        if (value_at(in, key, name, sizeof name, &epoch) <= 0) break;
        key_of(name, key + snprintf(key, sizeof key, "epoch."));
        if (value_at(in, key, value, sizeof value, &epoch) > 0) say(closure, n, epoch, name);
    }
    kvStore_Destroy(in);
}
