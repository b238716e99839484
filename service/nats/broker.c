#include "broker.h"
#include <stdio.h>
#include <string.h>
#include <time.h>

static void came_back(natsConnection *connection, void *closure) {
    (void)connection;
    atomic_fetch_add(&((broker *)closure)->returns, 1);
}

/* A prefix is a word of subjects and of names of buckets. */
static int is_word(const char *prefix) {
    size_t len = strlen(prefix);
    if (!len || len > BROKER_MOST_PREFIX) return 0;
    return strspn(prefix, "abcdefghijklmnopqrstuvwxyzABCDEFGHIJKLMNOPQRSTUVWXYZ0123456789-") == len;
}

static natsStatus connect_with(broker *b, natsOptions *options, const char *url) {
    natsStatus s = natsOptions_SetURL(options, url);
    if (s == NATS_OK) s = natsOptions_SetTimeout(options, 2000);
    if (s == NATS_OK) s = natsOptions_SetPingInterval(options, 2000);
    if (s == NATS_OK) s = natsOptions_SetMaxPingsOut(options, 2);
    if (s == NATS_OK) s = natsOptions_SetMaxReconnect(options, -1);
    if (s == NATS_OK) s = natsOptions_SetReconnectWait(options, 250);
    if (s == NATS_OK) s = natsOptions_SetReconnectJitter(options, 250, 250);
    if (s == NATS_OK) s = natsOptions_SetReconnectedCB(options, came_back, b);
    if (s == NATS_OK) s = natsConnection_Connect(&b->connection, options);
    return s;
}

int broker_open(broker *b, const char *url, const char *prefix, unsigned wait, char *fault, size_t room) {
    natsOptions *options = NULL;
    natsStatus s;
    memset(b, 0, sizeof *b);
    if (!prefix) prefix = "hindsight";
    if (!is_word(prefix)) {
        snprintf(fault, room, "the prefix is no word of 1 to %d letters, digits and '-'", BROKER_MOST_PREFIX);
        return -1;
    }
    snprintf(b->prefix, sizeof b->prefix, "%s", prefix);
    s = natsOptions_Create(&options);
    if (s == NATS_OK) {
        for (unsigned waited = 0;; waited += 100) {
            s = connect_with(b, options, url ? url : NATS_DEFAULT_URL);
            if (s == NATS_OK || waited >= wait) break;
            nanosleep(&(struct timespec){.tv_nsec = 100000000}, NULL);
        }
    }
    if (s == NATS_OK) s = natsConnection_JetStream(&b->stream, b->connection, NULL);
    natsOptions_Destroy(options);
    if (s == NATS_OK) return 0;
    snprintf(fault, room, "%s: %s", url ? url : NATS_DEFAULT_URL, natsStatus_GetText(s));
    broker_close(b);
    return -1;
}

void broker_close(broker *b) {
    jsCtx_Destroy(b->stream);
    if (b->connection) natsConnection_Close(b->connection);
    natsConnection_Destroy(b->connection);
    b->stream = NULL;
    b->connection = NULL;
}

int broker_is_there(const broker *b) {
    return natsConnection_Status(b->connection) == NATS_CONN_STATUS_CONNECTED;
}

void broker_subject(const broker *b, const char *what, unsigned node, char subject[BROKER_MOST_SUBJECT]) {
    snprintf(subject, BROKER_MOST_SUBJECT, "%s.%s.%u", b->prefix, what, node);
}

void broker_name(const broker *b, const char *what, char name[BROKER_MOST_SUBJECT]) {
    snprintf(name, BROKER_MOST_SUBJECT, "%s_%s", b->prefix, what);
}

int broker_keep_stream(broker *b) {
    char name[BROKER_MOST_SUBJECT], subject[BROKER_MOST_SUBJECT];
    const char *subjects[] = {subject};
    jsStreamConfig config;
    jsStreamInfo *info = NULL;
    jsErrCode code = 0;
    broker_name(b, "says", name);
    snprintf(subject, sizeof subject, "%s.says.*", b->prefix);
    natsStatus s = js_GetStreamInfo(&info, b->stream, name, NULL, &code);
    if (s == NATS_NOT_FOUND) {
        jsStreamConfig_Init(&config);
        config.Name = name;
        config.Subjects = subjects;
        config.SubjectsLen = 1;
        config.Retention = js_WorkQueuePolicy;
        config.Storage = js_FileStorage;
        config.Discard = js_DiscardNew;
        s = js_AddStream(&info, b->stream, &config, NULL, &code);
    }
    jsStreamInfo_Destroy(info);
    return s == NATS_OK ? 0 : -1;
}
